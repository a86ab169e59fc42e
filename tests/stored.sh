#!/bin/sh
# Holds the stored calls and inputs, and what they must print, to reference/, which made them: made again, each file is
# the same to the byte (docs/ARCHITECTURE.md, "Beside the crates").
# shellcheck source-path=SCRIPTDIR
. "$(dirname "$0")/checks.sh"

level_cases=$root/crates/level_cases
mirror_vectors=$root/crates/mirror_vectors

level_inputs() {
    "$reference" cases 1 34 limits - && "$reference" cases 1 250 mixed - && "$reference" cases 1 60 fractions -
}

: >"$work/out"

# The command ends well, prints something, and that is the stored file.
stored() { # FILE COMMAND...
    file=$1
    shift
    "$@" >"$work/made" 2>"$work/err"
    status=$?
    hold "$file: made" [ "$status" -eq 0 ]
    hold "$file: not empty" [ -s "$work/made" ]
    hold "$file: as made" cmp "$work/made" "$file"
}

run "$reference" vectors families
families=$(cat "$work/out")
hold "a program for each family" [ "$(sed -n 's/_vectors: stored_calls$//p' "$root/crates.txt")" = "$families" ]
for family in $families; do
    program=$root/crates/${family}_vectors
    stored "$program/stdin" "$reference" vectors stream "$family" </dev/null
    stored "$program/stdout" "$reference" vectors text <"$program/stdin"
done
stored "$level_cases/stdin" level_inputs </dev/null
stored "$level_cases/stdout" "$reference" each levels <"$level_cases/stdin"
stored "$mirror_vectors/stdin" "$reference" mirror-vectors stream </dev/null
stored "$mirror_vectors/stdout" "$reference" mirror-vectors text <"$mirror_vectors/stdin"
finish
