#!/bin/sh
# Builds the plug-ins and the host programs: build.sh ARCHIVE DIRECTORY.
here=$(dirname "$0")
archive=$1
out=$2
set -e
rm -rf "$out"
mkdir -p "$out"
cp "$archive" "$out/libhost.a"

compiler=${CC:-cc}
flags="-std=gnu11 -D_GNU_SOURCE -O2 -Wall -Wextra -Werror -I$here -I$here/../../include"
compile="$compiler $flags"
# the recommended link line, and the one without it
well="-shared -fPIC -fvisibility=hidden -Wl,--exclude-libs,ALL -Wl,-z,lazy"
careless="-shared -fPIC -Wl,-z,lazy"

# the archive under another edition's name
renamed() {
    nm -g --defined-only "$archive" | awk -v to="$1" '/ T jumperloft1_/ { new = $3; sub(/^jumperloft1/, to, new); print $3, new }' >"$out/$1.names"
    objcopy --redefine-syms="$out/$1.names" "$archive" "$out/lib$1.a"
}
renamed jumperloft2
renamed own

$compile $well -o "$out/c_a.so" "$here/plugin.c" "$out/libhost.a"
$compile $well -O0 -o "$out/c_b.so" "$here/plugin.c" "$out/libhost.a"
$compile $well -DEDITION=jumperloft2 -o "$out/edition2.so" "$here/plugin.c" "$out/libjumperloft2.a"
$compile $well -DEDITION=own -o "$out/decoy.so" "$here/plugin.c" "$here/harm.c" "$out/libown.a"
plugins='c_a c_b edition2'
# linked without the line, by each linker, by clang, and in Rust
for linker in bfd lld gold; do
    if command -v ld.$linker >/dev/null 2>&1; then
        $compile $careless -fuse-ld=$linker -o "$out/careless_$linker.so" "$here/plugin.c" "$out/libhost.a"
        plugins="$plugins careless_$linker"
    else
        echo "plugins: careless_$linker.so is SKIPPED, there is no ld.$linker on this machine"
    fi
done
if command -v clang >/dev/null 2>&1; then
    clang $flags $careless -o "$out/careless_clang.so" "$here/plugin.c" "$out/libhost.a"
    plugins="$plugins careless_clang"
else
    echo 'plugins: careless_clang.so is SKIPPED, there is no clang on this machine'
fi
if command -v rustc >/dev/null 2>&1; then
    rustc --edition 2021 -O -D warnings --crate-type cdylib -L "native=$out" -o "$out/rust_a.so" "$here/rust_a.rs"
    plugins="$plugins rust_a"
else
    echo 'plugins: rust_a.so is SKIPPED, there is no rustc on this machine'
fi
# with the calls not hidden: what the orders have to notice
$compile $careless -DJUMPERLOFT1_CALL= -o "$out/unhidden.so" "$here/plugin.c" "$out/libhost.a"
for plugin in $plugins decoy unhidden; do cp "$out/$plugin.so" "$out/$plugin.again.so"; done
printf '%s\n' $plugins decoy >"$out/plugins"

# the program that runs the plug-ins, by what it exports: nothing, its own names, ours on purpose, or others under our names
host() {
    name=$1
    shift
    $compile -pthread "-DHOST_NAME=\"$name\"" -o "$out/$name" "$here/host.c" "$here/order.c" "$here/lent.c" "$here/threads.c" "$@" -ldl
}
host plain "$out/libhost.a"
host rdynamic -rdynamic "$out/libhost.a"
host exporting -rdynamic -DJUMPERLOFT1_CALL= "$out/libhost.a"
host harmful -rdynamic -DEDITION=own "$here/harm.c" "$out/libown.a"

# a plug-in calls batch alone; a call that is not made can't be hidden by the header
exports() { nm -D --defined-only "$1" | grep -q " T jumperloft$2"; }
for file in c_a.so c_b.so edition2.so rust_a.so plain rdynamic; do
    if [ -f "$out/$file" ] && exports "$out/$file"; then echo "plugins: FAILED, $file exports names of the library"; exit 1; fi
done
for file in "$out"/careless_*.so; do
    if exports "$file" 1_batch; then echo "plugins: FAILED, ${file##*/} exports a call that it makes"; exit 1; fi
done
for file in decoy.so unhidden.so exporting harmful; do
    exports "$out/$file" 1_batch || { echo "plugins: FAILED, $file exports no call of the library"; exit 1; }
done
