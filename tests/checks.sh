# Read by the tests in this folder: where things are, a folder for their files, and counted checks.
# shellcheck shell=sh disable=SC2034
set -u
LC_ALL=C
export LC_ALL

root=$(CDPATH='' cd "$(dirname "$0")/.." && pwd -P) || exit 2
examples=$root/examples
road_tree=$examples/road_trip/tree.ftf
road_sheet=$examples/road_trip/sheet.fts
levels=$root/crates/levels/out/levels
reference=$root/reference/target/release/reference

# Ends the test where what it runs is not built.
needs() { # PROGRAM COMMAND
    [ -x "$1" ] || { echo "$1 is not built: $2"; exit 2; }
}
needs "$reference" "cargo build --release --offline --manifest-path reference/Cargo.toml"

work=$(mktemp -d) || exit 2
trap 'rm -rf "$work"' EXIT
trap 'exit 2' HUP INT TERM
passed=0 failed=0

# Runs a command; its output, its errors and its status are kept.
run() {
    "$@" >"$work/out" 2>"$work/err"
    status=$?
}

# Counts a check, and shows the run where the check fails.
hold() { # NAME TEST...
    name=$1
    shift
    if "$@"; then
        passed=$((passed + 1))
        return
    fi
    failed=$((failed + 1))
    echo "FAILED: $name ($*); status $status"
    sed 's/^/  out: /' "$work/out" | head -n 5
    sed 's/^/  err: /' "$work/err" | head -n 5
}

# The last line, and the status of the test.
finish() {
    echo "$(basename "$0"): $passed checks passed, $failed failed"
    [ "$failed" -eq 0 ]
}

# A 16-bit number, low byte first.
two_bytes() { # NUMBER
    # shellcheck disable=SC2059
    printf "$(printf '\\%03o\\%03o' "$(($1 % 256))" "$(($1 / 256))")"
}

zeros() { # COUNT
    head -c "$1" /dev/zero
}

# The true lengths of two files, and the files.
two_files() { # TREE SHEET
    two_bytes "$(wc -c <"$1")"
    two_bytes "$(wc -c <"$2")"
    cat "$1" "$2"
}

# Two lengths, and as many bytes as they say.
two_lengths() { # TREE-LENGTH SHEET-LENGTH
    two_bytes "$1"
    two_bytes "$2"
    { cat "$road_tree"; zeros "$1"; } | head -c "$1"
    { cat "$road_sheet"; zeros "$2"; } | head -c "$2"
}
