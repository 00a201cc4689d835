#!/usr/bin/env bash
# Builds the library and the harness of random and damaged calls, and runs it: tests/fuzz.sh [CALLS [SEED]]. Needs a C compiler.
# With BUILT=1 the libraries are taken as they stand.
set -eu
cd "$(dirname "$0")/.."
mkdir -p target/fuzz
if [ "${BUILT:-0}" != 1 ]; then
    for crate in c_api plain_c; do
        (cd crates/$crate && rt lib) >target/fuzz/lib.log 2>&1 || { cat target/fuzz/lib.log; exit 1; }
    done
fi
cc -O1 -g -std=c11 -Wall -Wextra -fsanitize=address,undefined -fno-sanitize-recover=all -Iinclude -Ibench -Itests tests/fuzz.c bench/baseline.c \
    crates/c_api/out/libc_api.a crates/plain_c/out/libplain_c.a -o target/fuzz/fuzz
target/fuzz/fuzz "$@"
