#!/bin/sh
# Builds the proved reader as a static library and the harness around it, and runs it.
set -e
cd "$(dirname "$0")/.."
mkdir -p target/staticlib
(cd crates/bristol_c && rt lib) > target/bristol_c.log 2>&1 || { tail -20 target/bristol_c.log; exit 1; }
cp crates/bristol_c/out/libbristol_c.a target/staticlib/libbristol_c.a
kit=$(dirname "$(rt doc)")
rustc -O --edition 2024 -o target/reading bench/reading.rs \
    -C link-arg=target/staticlib/libbristol_c.a -C link-arg="$kit/c/liblibc_c.a"
target/reading
