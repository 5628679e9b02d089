#!/bin/sh
# Puts the header, the library and its pkg-config file under a prefix: install.sh ARCHIVE PREFIX DESTDIR
set -e
case $2 in
/*) prefix=$2 ;;
*) prefix=$PWD/$2 ;;
esac
to=$3$prefix
mkdir -p "$to/include" "$to/lib/pkgconfig"
install -m 644 include/jumperloft.h "$to/include/jumperloft.h"
install -m 644 "$1" "$to/lib/libjumperloft.a"
# pkg-config reads a path as a shell does, and sed has a way of its own to read what it puts in
escaped=$(printf '%s\n' "$prefix" | sed 's|[^A-Za-z0-9_./+-]|\\&|g' | sed 's|[\\&|]|\\&|g')
sed "s|@PREFIX@|$escaped|" make/jumperloft.pc.in >"$to/lib/pkgconfig/jumperloft.pc"
echo "install: $to"
