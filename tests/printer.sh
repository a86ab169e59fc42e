#!/bin/sh
# The level printer, the hour printer and the node printer by themselves: inputs at the edges of their formats, each
# answered as said here and as by reference/.
# shellcheck source-path=SCRIPTDIR
. "$(dirname "$0")/checks.sh"

in=$work/input
hour_levels=$root/crates/hour_levels/out/hour_levels
needs "$levels" tests/build.sh
needs "$hour_levels" tests/build.sh
node_lines=$root/crates/node_lines/out/node_lines
needs "$node_lines" tests/build.sh

# The printer that is given an input, and the word by which reference/ prints the same.
printer=$levels word=levels

# The printer's input with the true lengths of two files.
framed() { # N TREE SHEET
    two_bytes "$1"
    two_files "$2" "$3"
}

road_trip() { framed "$1" "$road_tree" "$road_sheet"; }

# Two lengths, and as many bytes as they say, after a number of levels.
lengths() { # TREE-LENGTH SHEET-LENGTH
    two_bytes 2
    two_lengths "$1" "$2"
}

# Gives the input to the printer: the first line and the number of lines are as said, every byte as by reference/.
shows() { # NAME FIRST-LINE LINES
    run "$printer" <"$in"
    "$reference" "$word" <"$in" >"$work/expected"
    hold "$1: status" [ "$status" -eq 0 ]
    hold "$1: first line" [ "$(head -n 1 "$work/out")" = "$2" ]
    hold "$1: lines" [ "$(($(wc -l <"$work/out")))" -eq "$3" ]
    hold "$1: as by reference/" cmp -s "$work/out" "$work/expected"
    hold "$1: no errors" [ ! -s "$work/err" ]
}

# The pair of document 01: tree 7 with the entry (0, 1, 1, 2) alone, two levels.
desk_example() {
    printf '\2\0\16\0\53\0'
    printf 'FTF\1\0\7\0\1\0\0\0\0\0\0'
    printf 'FTS\1\0\7\0\1\0\0'
    zeros 16
    printf '\0\0\0\0\0\1\0\0\0\1\0\0\0\2\0\0\0'
}

answers() {
    desk_example >"$in"
    shows "document 01's example" "tree 7 events 1 levels 2" 4
    printf 'tree 7 events 1 levels 2\n2 1 = 1 =\n1 0 ~ 2 ~\n0 0 = 2 =\n' >"$work/desk"
    hold "document 01's example: every byte" cmp -s "$work/out" "$work/desk"
    for n in 0 1001 65535; do
        road_trip "$n" >"$in"
        shows "n of $n" "refused 13 at 0" 1
    done
    for n in 1 1000; do
        road_trip "$n" >"$in"
        shows "n of $n" "tree 1 events 3 levels $n" $((n + 2))
    done
    # The last of the limits: 1,024 nodes with 960 events, n of 1,000.
    "$reference" case 1 $(($("$reference" limits) - 1)) limits >"$in"
    number=$(($(od -An -tu1 -j 11 -N 1 "$in") + 256 * $(od -An -tu1 -j 12 -N 1 "$in")))
    shows "the largest pair" "tree $number events 960 levels 1000" 1002
}

short_inputs() {
    for length in 0 1 2 3 4 5; do
        zeros "$length" >"$in"
        shows "$length zeros" input 1
        road_trip 2 | head -c "$length" >"$in"
        shows "$length bytes of an input" input 1
    done
    zeros 6 >"$in"
    shows "6 zeros: a tree of 0 bytes" "refused 1 at 0" 1
    zeros 7 >"$in"
    shows "7 zeros" input 1
}

# Inputs that are not 6 bytes and both lengths.
wrong_sums() {
    whole=$(($(road_trip 2 | wc -c)))
    road_trip 2 | head -c $((whole - 1)) >"$in"
    shows "a byte too few" input 1
    for more in 1 24615 65536 1000000; do
        { road_trip 2; zeros "$more"; } >"$in"
        shows "$more bytes too many" input 1
    done
    # Sums that are right in 16 bits alone.
    { two_bytes 2; two_bytes 65535; two_bytes 1; } >"$in"
    shows "65,535 and 1 before no byte" input 1
    { two_bytes 2; two_bytes 42; two_bytes 65535; head -c 41 "$road_tree"; } >"$in"
    shows "42 and 65,535 before 41 bytes" input 1
    { two_bytes 2; two_bytes 65530; two_bytes 0; } >"$in"
    shows "65,530 and 0, which make 65,536 with the 6" input 1
}

longest_files() {
    lengths 7175 77 >"$in"
    shows "tree length 7,175" "refused 5 at 7175" 1
    lengths 7176 77 >"$in"
    shows "tree length 7,176" input 1
    lengths 42 17434 >"$in"
    shows "sheet length 17,434" "refused 5 at 17434" 1
    lengths 42 17435 >"$in"
    shows "sheet length 17,435" input 1
    lengths 7175 17434 >"$in"
    shows "both lengths at their most" "refused 5 at 7175" 1
    { lengths 7175 17434; zeros 1; } >"$in"
    shows "both lengths at their most, and a byte" input 1
    lengths 65535 65535 >"$in"
    shows "both lengths at 65,535" input 1
}

pairs_that_do_not_match() {
    framed 2 "$road_tree" "$examples/fuel_supply/sheet.fts" >"$in"
    shows "another tree number" "refused 24 at 0" 1
    six=$examples/container_seal/sheet.fts
    { head -c 5 "$six"; two_bytes 1; tail -c +8 "$six"; } >"$work/six.fts"
    framed 2 "$road_tree" "$work/six.fts" >"$in"
    shows "another E" "refused 24 at 0" 1
    framed 2 "$road_sheet" "$road_tree" >"$in"
    shows "the files in the wrong order" "refused 2 at 0" 1
}

# The input comes in two pieces.
in_pieces() { { head -c 3 "$in"; sleep 0.1; tail -c +4 "$in"; } | "$printer"; }

pieces() { # TEXT
    run in_pieces
    hold "an input in two pieces: status" [ "$status" -eq 0 ]
    hold "an input in two pieces: every line" cmp -s "$work/out" "$1"
}

# A text that cannot be written is told, in one line on standard error.
told() { # NAME
    : >"$work/out"
    echo "$(basename "$printer"): the text could not be written" >"$work/due"
    hold "$1" cmp -s "$work/err" "$work/due"
}

unwritten() {
    "$printer" <"$in" >&- 2>"$work/err"
    status=$?
    told "a closed output"
    if [ -c /dev/full ]; then
        "$printer" <"$in" >/dev/full 2>"$work/err"
        status=$?
        told "a full disk"
    else
        echo "skipped: a full disk (there is no /dev/full)"
    fi
    run "$printer" <"$in"
    hold "an output that takes it all: nothing told" [ ! -s "$work/err" ]
}

# The hour printer's input for the example that has a book.
overhaul=$work/overhaul
"$reference" example cooling_pumps input 10 43842 >"$overhaul"

# Three lengths and hour 0, and as many bytes as they say, all of them 0.
three_lengths() { # TREE-LENGTH SHEET-LENGTH BOOK-LENGTH
    for number in 2 "$1" "$2" "$3" 0 0; do
        two_bytes "$number"
    done
    zeros $(($1 + $2 + $3))
}

hours() {
    for length in 0 1 6 11; do
        head -c "$length" "$overhaul" >"$in"
        shows "$length bytes of an hour's input" input 1
    done
    zeros 12 >"$in"
    shows "12 zeros: a tree of 0 bytes" "refused 1 at 0" 1
    zeros 13 >"$in"
    shows "13 zeros" input 1
    whole=$(($(wc -c <"$overhaul")))
    head -c $((whole - 1)) "$overhaul" >"$in"
    shows "a byte of the book too few" input 1
    for more in 1 65536 1000000; do
        { cat "$overhaul"; zeros "$more"; } >"$in"
        shows "$more bytes behind the book" input 1
    done
    three_lengths 7175 17434 65535 >"$in"
    shows "all lengths at their most" "refused 2 at 0" 1
    three_lengths 7176 17434 0 >"$in"
    shows "an hour's tree length 7,176" input 1
    three_lengths 7175 17435 0 >"$in"
    shows "an hour's sheet length 17,435" input 1
    cat "$overhaul" >"$in"
    shows "an hour of an overhaul" "tree 4 events 6 levels 10" 12
    pieces "$examples/cooling_pumps/levels-10-at-43842.txt"
    unwritten
}

# The node printer's input: a level before that of the level printer.
at_level() { # K COMMAND...
    two_bytes "$1"
    shift
    "$@"
}

nodes() {
    for length in 0 1 2 7; do
        at_level 1 road_trip 2 | head -c "$length" >"$in"
        shows "$length bytes of a level's input" input 1
    done
    zeros 8 >"$in"
    shows "8 zeros: a tree of 0 bytes" "refused 1 at 0" 1
    zeros 9 >"$in"
    shows "9 zeros" input 1
    for more in 1 17434 65536 1000000; do
        { at_level 1 road_trip 2; zeros "$more"; } >"$in"
        shows "$more bytes behind the sheet" input 1
    done
    at_level 1 lengths 7175 17434 >"$in"
    shows "a level's lengths at their most" "refused 5 at 7175" 1
    at_level 1 lengths 7176 77 >"$in"
    shows "a level's tree length 7,176" input 1
    at_level 1 lengths 42 17435 >"$in"
    shows "a level's sheet length 17,435" input 1
    for k in 3 65535; do
        at_level "$k" road_trip 2 >"$in"
        shows "level $k of 2" "refused 13 at 0" 1
    done
    at_level 0 framed 2 "$road_tree" "$examples/fuel_supply/sheet.fts" >"$in"
    shows "a level, another tree number" "refused 24 at 0" 1
    at_level 0 "$reference" case 1 $(($("$reference" limits) - 1)) limits >"$in"
    number=$(($(od -An -tu1 -j 13 -N 1 "$in") + 256 * $(od -An -tu1 -j 14 -N 1 "$in")))
    shows "every node of the largest pair" "tree $number events 960 nodes 1024 level 0 of 1000" 1025
    at_level 1 road_trip 2 >"$in"
    shows "a level of the road trip" "tree 1 events 3 nodes 5 level 1 of 2" 6
    pieces "$root/crates/node_lines/stdout"
    unwritten
}

answers
short_inputs
wrong_sums
longest_files
pairs_that_do_not_match
road_trip 2 >"$in"
pieces "$examples/road_trip/levels-2.txt"
unwritten
printer=$hour_levels word=hours
hours
printer=$node_lines word=nodes
nodes
finish
