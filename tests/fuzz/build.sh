#!/bin/sh
# The fuzzer's objects, and the library as one object with a table of its blocks: build.sh ARCHIVE DIRECTORY COMPILER FLAGS..
# Says why it is skipped, and exits with 77, where the compiler has no libFuzzer or code can't be made writable.
here=$(dirname "$0")
archive=$1
out=$2
compiler=$3
shift 3
mkdir -p "$out/objects" "$out/corpus" "$out/seeds"
if ! command -v "$compiler" >/dev/null 2>&1; then
    echo "fuzz: SKIPPED, there is no $compiler on this machine"
    exit 77
fi
if ! "$compiler" -fsanitize=fuzzer "$here/probe/probe.c" -o "$out/probe" >/dev/null 2>&1; then
    echo "fuzz: SKIPPED, $compiler has no libFuzzer on this machine"
    exit 77
fi
if ! "$out/probe" -runs=1 >/dev/null 2>&1; then
    echo "fuzz: SKIPPED, code can't be made writable on this machine, so its blocks can't be trapped"
    exit 77
fi
set -e
for file in "$here"/*.c "$here/../c/guarded.c"; do
    "$compiler" "$@" -I"$here/../../include" -I"$here/../c" -c "$file" -o "$out/objects/$(basename "$file" .c).o"
done
# the table names functions that are the library's own, so they are global for as long as it takes to link the two
ld -r --whole-archive "$archive" -o "$out/library.o"
nm "$out/library.o" | awk '$2 == "t" { print $3 }' >"$out/local_names"
objcopy --globalize-symbols="$out/local_names" "$out/library.o"
objdump -d --no-show-raw-insn "$out/library.o" | LC_ALL=C awk -f "$here/block_table.awk" >"$out/block_table.s"
"$compiler" -c "$out/block_table.s" -o "$out/block_table.o"
ld -r "$out/library.o" "$out/block_table.o" -o "$out/objects/library.o"
objcopy --localize-symbols="$out/local_names" "$out/objects/library.o"
"$compiler" -fsanitize=fuzzer "$out"/objects/*.o -o "$out/fuzz"
"$out/fuzz" --seeds="$out/seeds"
