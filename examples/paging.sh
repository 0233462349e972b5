#!/bin/sh
# The paging hosts in C and in Rust: both find that no choice of waiting pages shows, and print the same table.
set -eu
top=$(cd "$(dirname "$0")/.." && pwd)
"${CC:-gcc}" -O2 -Wall -Wextra -I"$top/include" -o "$top/target/paging" "$top/examples/paging.c" \
    "$top/target/staticlib/libz280.a"
c=$("$top/target/paging") || { echo "$c"; exit 1; }
rust=$(cargo run --quiet --release --offline --manifest-path "$top/rust/Cargo.toml" --target-dir "$top/rust/target" \
    -p z280 --example paging) || { echo "$rust"; exit 1; }
echo "$c"
[ "$c" = "$rust" ] || { echo "the host in Rust prints another table:"; echo "$rust"; exit 1; }
