#!/bin/sh
# Proves and builds what the tests run: each program that the tests or the command use, crates/NAME/out/NAME, which must
# print its stored case, and the C library, target/staticlib/libcapi.a. What rt has kept is not proved again.
#   tests/build.sh [all]      with `all` every program is built, and must print what is stored
set -u
cd "$(dirname "$0")/.." || exit 2

work=$(mktemp -d) || exit 2
trap 'rm -rf "$work"' EXIT
trap 'exit 2' HUP INT TERM

names='levels hour_levels node_lines cut_set_lines mirror_files'
[ "${1-}" != all ] || names=$(ls -d crates/*/src/main.rt | cut -d / -f 2)
for name in $names; do
    (cd "crates/$name" && rt run <stdin >"$work/stdout") || { echo "build.sh: $name is not built"; exit 1; }
    cmp "$work/stdout" "crates/$name/stdout" || exit 1
done
tools/staticlib.sh
