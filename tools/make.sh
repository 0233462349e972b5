#!/bin/sh
# Proves and builds what is run: the library for C, target/staticlib/libz280.a, and the printing program, target/bin/show. What `rt` has
# to say goes to standard error.
# usage: tools/make.sh [library | show]
set -eu
top=$(cd "$(dirname "$0")/.." && pwd)

# A file that has not changed stays, so that what is linked with it is not built again.
put() {
    mkdir -p "$(dirname "$2")"
    cmp -s "$1" "$2" || cp "$1" "$2"
}

library() {
    (cd "$top/crates/z280_c" && rt lib >&2) || { echo "z280_c is not built: rt lib in crates/z280_c" >&2; exit 1; }
    put "$top/crates/z280_c/out/libz280_c.a" "$top/target/staticlib/libz280.a"
}

# `rt run` builds the program and runs it, here on no input, to which it answers `refused 3`.
show() {
    (cd "$top/crates/show" && rt run < /dev/null > /dev/null) || { echo "show is not built: rt run in crates/show" >&2; exit 1; }
    put "$top/crates/show/out/show" "$top/target/bin/show"
}

case ${1:-both} in
library) library ;;
show) show ;;
both) library; show ;;
*) echo "usage: tools/make.sh [library | show]" >&2; exit 2 ;;
esac
