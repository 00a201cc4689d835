#!/usr/bin/env bash
# Builds the entries for C as a shared library, target/libtetrolet.so, for the scripts beside this one. Needs a C compiler.
set -eu
cd "$(dirname "$0")/.."
mkdir -p target
(cd crates/c_api && rt lib) >target/lib.log 2>&1 || { cat target/lib.log; exit 1; }
cc -shared -o target/libtetrolet.so -Wl,--whole-archive crates/c_api/out/libc_api.a -Wl,--no-whole-archive
