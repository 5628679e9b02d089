#!/bin/sh
# The fuzzer has to stop at each fault of tests/c/broken.c, and to run through its seeds without one (fault 0):
# notices.sh DIRECTORY COMPILER FLAGS..
here=$(dirname "$0")
out=$1
compiler=$2
shift 2
for fault in 0 1 2 3 4 5 6 7 8 9 10 11 12 13 14; do
    "$compiler" "$@" -DFAULT=$fault -I"$here/../../include" "$here/../c/broken.c" "$out"/objects/*.o -fsanitize=fuzzer \
        -Wl,--wrap=jumperloft1_form,--wrap=jumperloft1_batch -o "$out/broken" || exit 1
    "$out/broken" -runs=0 -artifact_prefix="$out/broken-" "$out/seeds" >"$out/broken.said" 2>&1
    said=$?
    rm -f "$out"/broken-*
    if [ $fault -eq 0 ] && [ $said -ne 0 ]; then
        echo 'fuzz: FAILED, the seeds do not pass without a fault'
        exit 1
    elif [ $fault -ne 0 ] && ! grep -q -E '^(WRONG|==[0-9]+== ?ERROR)' "$out/broken.said"; then
        echo "fuzz: FAILED, fault $fault of tests/c/broken.c is not noticed"
        exit 1
    fi
done
echo 'fuzz: each of 14 faults is noticed'
