#!/usr/bin/env bash
# Builds the library and the callers in C and in Rust, and runs both; what they print must be the same. Needs cc and rustc.
# With --built the library is taken as it stands.
set -eu
cd "$(dirname "$0")/.."
mkdir -p target/examples
if [ "${1:-}" != --built ]; then
    (cd crates/c_api && rt lib) >target/examples/lib.log 2>&1 || { cat target/examples/lib.log; exit 1; }
fi
archive=crates/c_api/out/libc_api.a
cc -O2 -std=c11 -Wall -Wextra -Iinclude examples/caller.c "$archive" -o target/examples/caller_c
rustc --edition 2021 -O -L native=crates/c_api/out -l static=c_api examples/caller.rs -o target/examples/caller_rust
echo "C:"
target/examples/caller_c | tee target/examples/c.txt
echo "Rust:"
target/examples/caller_rust | tee target/examples/rust.txt
cmp target/examples/c.txt target/examples/rust.txt
