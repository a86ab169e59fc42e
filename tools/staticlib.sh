#!/bin/sh
# Proves and builds the C library: target/staticlib/libcapi.a, for x86-64 Linux.
set -u
cd "$(dirname "$0")/.." || exit 2

(cd crates/capi_c && rt lib) || { echo "staticlib.sh: the C library is not built"; exit 1; }
mkdir -p target/staticlib && cp crates/capi_c/out/libcapi_c.a target/staticlib/libcapi.a
