#!/bin/sh
# Holds the level printer to reference/: every limit, every fault in large files and in fraction entries, and generated
# cases from a seed, some with many silent experts; the level printer at an hour: every limit and every fault of a book
# of work windows; the node printer; and the mirror program.
#   tests/compare_levels.sh [SEED [COUNT]]      a seed from the clock and 5,000 cases, unless said
# A difference is printed with its seed, kind and case, and the commands that run that case alone.
set -u
cd "$(dirname "$0")/.." || exit 2

levels=crates/levels/out/levels
hour_levels=crates/hour_levels/out/hour_levels
mirror_files=crates/mirror_files/out/mirror_files
node_lines=crates/node_lines/out/node_lines
reference=reference/target/release/reference
seed=${1:-$(date +%s)}
count=${2:-5000}

[ -x "$levels" ] || { echo "$levels is not built: tests/build.sh"; exit 2; }
[ -x "$hour_levels" ] || { echo "$hour_levels is not built: tests/build.sh"; exit 2; }
[ -x "$mirror_files" ] || { echo "$mirror_files is not built: tests/build.sh"; exit 2; }
[ -x "$node_lines" ] || { echo "$node_lines is not built: tests/build.sh"; exit 2; }
[ -x "$reference" ] || { echo "$reference is not built: cargo build --release --offline in reference/"; exit 2; }

echo "levels, hour_levels, mirror_files and node_lines held to reference/, seed $seed"
status=0
# Each limit twice, with other numbers the second time.
"$reference" compare "$seed" $((2 * $("$reference" limits))) limits "$levels" || status=1
"$reference" compare "$seed" "$("$reference" large)" large "$levels" || status=1
"$reference" compare "$seed" "$("$reference" fractions)" fractions "$levels" || status=1
"$reference" compare "$seed" "$count" mixed "$levels" || status=1
"$reference" compare "$seed" 560 silence "$levels" || status=1
# Four rounds, each with other numbers.
"$reference" compare "$seed" $((4 * $("$reference" windows))) windows "$hour_levels" || status=1
"$reference" compare "$seed" $((2 * $("$reference" mirrors))) mirrors "$mirror_files" || status=1
"$reference" compare "$seed" 2000 nodes "$node_lines" || status=1
exit "$status"
