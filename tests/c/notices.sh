#!/bin/sh
# misuse has to fail on each fault of broken.c, and to pass without one (fault 0).
# notices.sh OBJECTS COMPILER WORDS..; OBJECTS is the folder of misuse's, the words name flags and the library.
cd "$(dirname "$0")/../.." || exit 1
objects=$1
compiler=$2
shift 2
for fault in 0 1 2 3 4 5 6 7 8 9 10 11 12 13 14; do
    "$compiler" -DFAULT=$fault tests/c/broken.c "$objects"/*.o -Wl,--wrap=jumperloft1_form,--wrap=jumperloft1_batch "$@" -o "$objects/broken" || exit 1
    "$objects/broken" 500 1 >"$objects/broken.out" 2>&1
    said=$?
    if [ $fault -eq 0 ] && [ $said -ne 0 ]; then
        echo 'notices: FAILED, misuse does not pass without a fault'
        exit 1
    elif [ $fault -ne 0 ] && ! grep -q -E '^(WRONG|FAULT)' "$objects/broken.out"; then
        echo "notices: FAILED, misuse does not notice fault $fault of tests/c/broken.c"
        exit 1
    fi
done
echo 'notices: misuse notices each of 14 faults'
