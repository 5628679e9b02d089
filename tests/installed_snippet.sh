#!/bin/sh
# The README's snippet as a newcomer compiles it, in a folder of its own, against an installed library, and again where
# the prefix has a space: installed_snippet.sh MAKE LIBRARY COMPILER FLAGS..
cd "$(dirname "$0")/.." || exit 1
make=$1
library=$2
shift 2
folder=$(mktemp -d)
trap 'rm -rf "$folder"' EXIT
cp docs/snippets/readme.c docs/snippets/readme.expected "$folder"
set -e
for prefix in "$folder/usr" "$folder/a host's folder"; do
    "$make" --no-print-directory install PREFIX="$prefix" DESTDIR= HOST_LIBRARY="$library" >/dev/null
done
cd "$folder"
export PKG_CONFIG_PATH="$folder/usr/lib/pkgconfig"
"$@" readme.c $(pkg-config --cflags --libs jumperloft) -o readme
./readme >readme.out
diff readme.expected readme.out
# pkg-config writes such a path as a shell reads it
export PKG_CONFIG_PATH="$folder/a host's folder/lib/pkgconfig"
rm -r readme usr
eval "$* readme.c $(pkg-config --cflags --libs jumperloft) -o readme"
./readme >readme.out
diff readme.expected readme.out
echo 'snippet: compiled against a library installed under two prefixes, one with a space and a quote, and it says what it should'
