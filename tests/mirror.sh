#!/bin/sh
# The mirror program by itself: inputs at the edges of its format, and what it must print for each, written out here.
# shellcheck source-path=SCRIPTDIR
. "$(dirname "$0")/checks.sh"

mirror_files=$root/crates/mirror_files/out/mirror_files
needs "$mirror_files" tests/build.sh
in=$work/input

# Gives the input to the program, which prints what was put into the file of what is due, and nothing else.
prints_due() { # NAME
    run "$mirror_files" <"$in"
    hold "$1: status" [ "$status" -eq 0 ]
    hold "$1: every byte" cmp "$work/out" "$work/due"
    hold "$1: no errors" [ ! -s "$work/err" ]
}

# The same for one line.
prints() { # NAME LINE
    printf '%s\n' "$2" >"$work/due"
    prints_due "$1"
}

# Tree 7: one basic event; and two under a gate, whose kind is an octal byte.
one_event() { printf 'FTF\1\0\7\0\1\0\0\0\0\0\0'; }
two_events() { # KIND
    # shellcheck disable=SC2059
    printf "FTF\\1\\0\\7\\0\\3\\0\\0\\0\\0\\0\\0\\0\\1\\0\\0\\0\\$1\\0\\0\\2\\0\\0\\0\\1\\0"
}

# The sheet of tree 7 with so many entries, and of no expert, or of the scores 2 and 1; the entries follow.
sheet() { # ENTRIES [EXPERTS]
    printf 'FTS\1\0\7\0'
    two_bytes "$1"
    if [ "${2:-0}" -eq 2 ]; then
        printf '\2\2\1'
        zeros 14
    else
        zeros 17
    fi
}

# The input of two files.
pair() { # TREE SHEET
    two_files "$1" "$2" >"$in"
}

numbers() {
    one_event >"$work/tree"
    # (0, 1, 1, 2), and U - 2, U - 1, U - 1 and U.
    { sheet 1 && printf '\0\0\0\0\0\1\0\0\0\1\0\0\0\2\0\0\0'; } >"$work/sheet"
    {
        cat "$work/tree"
        sheet 1
        printf '\0\376\311\232\73\377\311\232\73\377\311\232\73\0\312\232\73'
    } >"$work/due"
    pair "$work/tree" "$work/sheet"
    prints_due "four numbers"
    tail -c 43 "$work/due" >"$work/mirrored"
    cat "$work/tree" "$work/sheet" >"$work/due"
    pair "$work/tree" "$work/mirrored"
    prints_due "four numbers, mirrored twice"
}

fractions_and_opinions() {
    two_events 2 >"$work/tree"
    # (1, 3, 3, 6) over 1,250; and Low from the first expert, nothing from the second: (14, 26, 126, 138) over 300.
    {
        sheet 2 2
        printf '\2\342\4\0\1\0\0\3\0\0\3\0\0\6\0\0\0'
        printf '\1\2' && zeros 15
    } >"$work/sheet"
    # (1244, 1247, 1247, 1249) over 1,250; and (162, 174, 274, 286) over 300.
    {
        two_events 1
        sheet 2 2
        printf '\2\342\4\0\334\4\0\337\4\0\337\4\0\341\4\0\0'
        printf '\2\54\1\0\242\0\0\256\0\0\22\1\0\36\1\0\0'
    } >"$work/due"
    pair "$work/tree" "$work/sheet"
    prints_due "an OR of fractions and opinions"
    run in_pieces
    hold "an input in two pieces" cmp "$work/out" "$work/due"
    head -c 28 "$work/due" >"$work/tree_1"
    tail -c 60 "$work/due" >"$work/sheet_1"
    # The opinions come back as (14, 26, 126, 138) over 300.
    {
        two_events 2
        head -c 43 "$work/sheet"
        printf '\2\54\1\0\16\0\0\32\0\0\176\0\0\212\0\0\0'
    } >"$work/due"
    pair "$work/tree_1" "$work/sheet_1"
    prints_due "an OR of fractions and opinions, mirrored twice"
}

in_pieces() { { head -c 3 "$in" && sleep 0.1 && tail -c +4 "$in"; } | "$mirror_files"; }

short_inputs() {
    for length in 0 1 2 3; do
        zeros "$length" >"$in"
        prints "$length zeros" input
        two_files "$road_tree" "$road_sheet" | head -c "$length" >"$in"
        prints "$length bytes of an input" input
    done
    zeros 4 >"$in"
    prints "4 zeros: a tree of 0 bytes" "refused 1 at 0"
    zeros 5 >"$in"
    prints "5 zeros" input
    { two_bytes "$(wc -c <"$road_tree")" && two_bytes 0 && cat "$road_tree"; } >"$in"
    prints "a sheet of 0 bytes" "refused 1 at 0"
}

# Inputs that are not 4 bytes and both lengths.
wrong_sums() {
    pair "$road_tree" "$road_sheet"
    cp "$in" "$work/whole"
    head -c $(($(wc -c <"$work/whole") - 1)) "$work/whole" >"$in"
    prints "a byte too few" input
    for more in 1 24613 65536 1000000; do
        { cat "$work/whole" && zeros "$more"; } >"$in"
        prints "$more bytes too many" input
    done
    # Sums that are right in 16 bits alone.
    { two_bytes 65535 && two_bytes 1; } >"$in"
    prints "65,535 and 1 before no byte" input
    { two_bytes 42 && two_bytes 65535 && head -c 41 "$road_tree"; } >"$in"
    prints "42 and 65,535 before 41 bytes" input
    { two_bytes 65532 && two_bytes 0; } >"$in"
    prints "65,532 and 0, which make 65,536 with the 4" input
}

longest_files() {
    two_lengths 7175 77 >"$in"
    prints "tree length 7,175" "refused 5 at 7175"
    two_lengths 7176 77 >"$in"
    prints "tree length 7,176" input
    two_lengths 42 17434 >"$in"
    prints "sheet length 17,434" "refused 5 at 17434"
    two_lengths 42 17435 >"$in"
    prints "sheet length 17,435" input
    two_lengths 7175 17434 >"$in"
    prints "both lengths at their most" "refused 5 at 7175"
    { two_lengths 7175 17434 && zeros 1; } >"$in"
    prints "both lengths at their most, and a byte" input
    two_lengths 65535 65535 >"$in"
    prints "both lengths at 65,535" input
}

# A length out of range is answered by the head alone: the writer may be waiting for the answer before it sends more.
waiting_writer() {
    mkfifo "$work/open"
    exec 3<>"$work/open"
    for lengths in "7176 17434" "7175 17435"; do
        # shellcheck disable=SC2086
        set -- $lengths
        { two_bytes "$1" && two_bytes "$2"; } >&3
        run timeout 10 "$mirror_files" <"$work/open"
        hold "lengths $lengths and an open input: status" [ "$status" -eq 0 ]
        hold "lengths $lengths and an open input: answer" [ "$(cat "$work/out")" = input ]
    done
    exec 3>&-
}

# The last of the limits, 1,024 nodes with 960 events: other bytes of the same lengths, and twice the tree again.
largest_pair() {
    "$reference" case 1 $(($("$reference" limits) - 1)) limits | tail -c +3 >"$in"
    length=$(($(od -An -tu1 -N 1 "$in") + 256 * $(od -An -tu1 -j 1 -N 1 "$in")))
    tail -c +5 "$in" >"$work/given"
    run "$mirror_files" <"$in"
    hold "the largest pair: its length" [ "$(wc -c <"$work/out")" -eq "$(wc -c <"$work/given")" ]
    hold "the largest pair: other bytes" [ "$(cksum <"$work/out")" != "$(cksum <"$work/given")" ]
    { head -c 4 "$in" && cat "$work/out"; } >"$work/again"
    run "$mirror_files" <"$work/again"
    head -c "$length" "$work/given" >"$work/due"
    hold "the largest pair: the tree again" [ "$(head -c "$length" "$work/out" | cksum)" = "$(cksum <"$work/due")" ]
}

refusals() {
    pair "$road_sheet" "$road_tree"
    prints "the files in the wrong order" "refused 2 at 0"
    pair "$road_tree" "$examples/fuel_supply/sheet.fts"
    prints "another tree number" "refused 24 at 0"
    one_event >"$work/tree"
    { sheet 2 && zeros 34; } >"$work/sheet"
    pair "$work/tree" "$work/sheet"
    prints "another E" "refused 24 at 0"
    { sheet 1 && printf '\3' && zeros 16; } >"$work/sheet"
    pair "$work/tree" "$work/sheet"
    prints "an entry of kind 3" "refused 6 at 26"
    { sheet 1 && printf '\2' && zeros 16; } >"$work/sheet"
    pair "$work/tree" "$work/sheet"
    prints "a denominator of 0" "refused 28 at 26"
    { sheet 1 2 && printf '\1' && zeros 16; } >"$work/sheet"
    pair "$work/tree" "$work/sheet"
    prints "nobody spoke" "refused 12 at 26"
    two_events 3 >"$work/tree"
    pair "$work/tree" "$work/sheet"
    prints "a gate of kind 3, before the sheet" "refused 6 at 19"
}

numbers
fractions_and_opinions
short_inputs
wrong_sums
longest_files
waiting_writer
largest_pair
refusals
finish
