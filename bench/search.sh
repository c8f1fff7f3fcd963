#!/bin/sh
# Builds the proved search as a static library and times it against plain Rust. Run from anywhere.
set -e
cd "$(dirname "$0")/.."
mkdir -p target/staticlib
(cd crates/listed_c && rt lib) > target/staticlib.log 2>&1 || { tail -20 target/staticlib.log; exit 1; }
cp crates/listed_c/out/liblisted_c.a target/staticlib/liblisted.a
kit=$(dirname "$(rt doc)")
rustc -O --edition 2024 -o target/bench-search bench/search.rs \
    -L target/staticlib -l static=listed -L "$kit/c" -l static=libc_c
target/bench-search
