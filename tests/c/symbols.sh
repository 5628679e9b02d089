#!/bin/sh
# The archive exports three calls, wants two functions of C, and has no global that can be written to; a shared object that
# makes the calls exports none of them unless it wants to, and needs the archive: symbols.sh ARCHIVE FOLDER COMPILER WORDS..
cd "$(dirname "$0")/../.." || exit 1
archive=$1
folder=$2
shift 2
wanted='jumperloft1_batch jumperloft1_form jumperloft1_sizes'
exported=$(nm -g --defined-only "$archive" 2>/dev/null | awk 'NF == 3 { print $3 }' | sort | xargs)
needed=$(nm -u "$archive" 2>/dev/null | awk 'NF == 2 { print $2 }' | sort -u | xargs)
globals=$(nm "$archive" 2>/dev/null | awk 'NF == 3 && $2 ~ /^[BbCDdGgSs]$/ { print $3 }' | xargs)
if [ "$exported" != "$wanted" ]; then echo "symbols: FAILED, it exports $exported"; exit 1; fi
if [ "$needed" != 'memcpy memset' ]; then echo "symbols: FAILED, it wants $needed"; exit 1; fi
if [ -n "$globals" ]; then echo "symbols: FAILED, it has the globals $globals"; exit 1; fi

# what a shared object exports of ours, linked without a word about it
shared() {
    "$@" -shared -fPIC -o "$folder/shared.so" || echo 'not linked'
    nm -D --defined-only "$folder/shared.so" | awk '$3 ~ /^jumperloft/ { print $3 }' | sort | xargs
}
exported=$(shared "$@" tests/c/header.c "$archive")
if [ -n "$exported" ]; then echo "symbols: FAILED, a shared object exports $exported"; exit 1; fi
exported=$(shared "$@" -DJUMPERLOFT1_CALL= tests/c/header.c "$archive")
if [ "$exported" != "$wanted" ]; then echo "symbols: FAILED, a shared object that wants to export the calls exports $exported"; exit 1; fi
# left out, the archive is missed by the linker, and not made up for by what a process happens to have
if "$@" tests/c/header.c -shared -fPIC -o "$folder/shared.so" 2>/dev/null; then echo 'symbols: FAILED, a shared object links without the archive'; exit 1; fi
echo 'symbols: three calls exported, memcpy and memset wanted, no global; a shared object links its own calls and hides them unless it wants to export them'
