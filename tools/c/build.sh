#!/bin/sh
# Proves the library for C and builds it: libmullerpink.a, with the kit's three functions of the heap in it, and
# libmullerpink.so beside it, in the folder that is named, or in build/c.
#   tools/c/build.sh [FOLDER]
set -eu
top=$(cd "$(dirname "$0")/../.." && pwd)
target=${1:-$top/build/c}
mkdir -p "$target"
target=$(cd "$target" && pwd)
heap=$(dirname "$(readlink -f "$(command -v rt)")")/../c/liblibc_c.a
(cd "$top/crates/mullerpink_c" && rt lib)
work=$(mktemp -d)
trap 'rm -rf "$work"' EXIT
(cd "$work" && ar x "$heap")
cp "$top/crates/mullerpink_c/out/libmullerpink_c.a" "$target/libmullerpink.a"
ar rs "$target/libmullerpink.a" "$work"/*.o
cc -shared -o "$target/libmullerpink.so" -Wl,-soname,libmullerpink.so -Wl,--whole-archive "$target/libmullerpink.a" -Wl,--no-whole-archive
cp "$top/bindings/c/mullerpink.h" "$target/"
ls -l "$target"
