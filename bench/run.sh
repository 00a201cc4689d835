#!/usr/bin/env bash
# Builds the library and the bench, and runs it. Needs a C compiler.
set -eu
cd "$(dirname "$0")/.."
mkdir -p target/bench
if [ "${1:-}" != --built ]; then
    (cd crates/c_api && rt lib) >target/bench/lib.log 2>&1 || { cat target/bench/lib.log; exit 1; }
fi
cc -O2 -std=c11 -Wall -Wextra -Iinclude -Ibench -Iexamples bench/bench.c bench/baseline.c \
    crates/c_api/out/libc_api.a -o target/bench/bench
target/bench/bench
