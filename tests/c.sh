#!/bin/sh
# The calls for C by a program in C: with guard bytes around each buffer, and under valgrind where that is installed.
# LIB: the library; that of tools/make.sh where it is not given.
set -eu
top=$(cd "$(dirname "$0")/.." && pwd)
lib=${LIB:-$top/target/staticlib/libz280.a}
[ -e "$lib" ] || "$top/tools/make.sh" library
out=${OUT:-$top/target}
mkdir -p "$out"
"${CC:-gcc}" -O1 -g -std=gnu11 -Wall -Wextra -I"$top/include" -o "$out/z280_test" "$top/tests/z280.c" "$lib"
"$out/z280_test"
if command -v valgrind > /dev/null; then
    valgrind -q --error-exitcode=1 "$out/z280_test" exact
fi
