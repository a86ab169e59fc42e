#!/bin/sh
# The toolchain at hand is the one named in TOOLCHAIN: proofs are found again by the same prover and the same logic.
# Prints both names and exits 1 where they differ, or prints nothing.
set -u
cd "$(dirname "$0")/.." || exit 2

pinned=$(cat TOOLCHAIN) || exit 2
command -v rt >/dev/null 2>&1 || { echo "rt is not on the path; TOOLCHAIN asks for '$pinned'"; exit 1; }
found=$(rt version) || { echo "'rt version' failed; TOOLCHAIN asks for '$pinned'"; exit 1; }
[ "$found" = "$pinned" ] && exit 0
echo "the toolchain on the path is '$found'"
echo "TOOLCHAIN asks for         '$pinned'"
echo "put that one on the path, or name the other in TOOLCHAIN and prove everything again by .ci/run"
exit 1
