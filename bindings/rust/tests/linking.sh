#!/bin/sh
# Where build.rs finds the library, and that what is linked exports none of its names, whatever the link line: linking.sh ARCHIVE DIRECTORY
set -e
archive=$(realpath "$1")
mkdir -p "$2"
out=$(realpath "$2")
crate=$(realpath "$(dirname "$0")/..")
plugin=$crate/../../examples/plugin_rust
fail() { echo "linking: FAILED, $1"; exit 1; }

# the crate, with cargo called from another folder and the library named as a user would
cd "$out"
rm -rf nothing found
mkdir nothing found
cp "$archive" found/libjumperloft.a
crate_with() {
    library=$1
    shift
    JUMPERLOFT_LIBRARY=$library RUSTDOCFLAGS='-D warnings' cargo "$@" --offline --manifest-path "$crate/Cargo.toml" --target-dir "$out/crate" >said 2>&1
}
for work in 'check --all-targets' 'doc --no-deps'; do
    crate_with nothing $work || fail "cargo $work needs the library"
done
if crate_with nothing build; then fail 'without a library something is linked'; fi
grep -q "no static library of Jumperloft at $out/nothing" said || fail 'it is not said where the library was looked for'
for library in found found/libjumperloft.a "$out/found"; do
    crate_with "$library" build || fail "the library is not found at $library"
done
if crate_with nothing build; then fail 'a library of an earlier build is linked'; fi

# a shared object in Rust; one in C with what is in Rust in it, all of it exported; a program that exports all it has
JUMPERLOFT_LIBRARY=$archive
export JUMPERLOFT_LIBRARY
rustc_on() {
    folder=$1
    shift
    cargo rustc --offline --manifest-path "$folder/Cargo.toml" "$@" >said 2>&1 || { cat said; fail "$folder is not built"; }
}
plugin_as() {
    type=$1
    shift
    rustc_on "$plugin" --target-dir "$out/plugin" --crate-type "$type" -- "$@"
}
hidden_in() {
    nm -D --defined-only "$1" | awk '$2 ~ /[A-Z]/ { print $3 }' >exported
    grep -q "$2" exported || fail "$1 does not export $2, linked by $linker"
    if grep '^jumperloft' exported; then fail "$1 exports names of the library, linked by $linker"; fi
}
linkers=
for linker in bfd gold lld; do
    command -v "ld.$linker" >/dev/null 2>&1 || continue
    linkers="$linkers $linker"
    plugin_as cdylib -C "link-arg=-fuse-ld=$linker"
    hidden_in plugin/debug/libplugin_rust.so '^plugin_edit$'
    [ "$(wc -l <exported)" -eq 1 ] || fail 'the plug-in exports more than its function'
    plugin_as staticlib
    ${CC:-cc} -shared "-fuse-ld=$linker" -o careless.so -Wl,--whole-archive plugin/debug/libplugin_rust.a -Wl,--no-whole-archive -lpthread -ldl -lm
    hidden_in careless.so '^plugin_edit$'
    rustc_on "$crate" --target-dir "$out/crate" --example font_list -- -C link-arg=-rdynamic -C "link-arg=-fuse-ld=$linker"
    hidden_in crate/debug/examples/font_list 10jumperloft
done
[ -n "$linkers" ] || fail 'there is no linker'
echo "linking: found by build.rs where it should be; no name of the library is exported, linked by$linkers"
