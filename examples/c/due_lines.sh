# Read by the tests of the C and the Rust programs: what `day` must print of an example, hour by hour, and what `mirror`
# must, level by level, by reference/.
# shellcheck shell=sh

# A 16-bit number, low byte first.
two_bytes() { # NUMBER
    # shellcheck disable=SC2059
    printf "$(printf '\\%03o\\%03o' "$(($1 % 256))" "$(($1 / 256))")"
}

# A 32-bit number, low byte first.
four_bytes() { # NUMBER
    two_bytes $(($1 % 65536)) && two_bytes $(($1 / 65536))
}

# A work window of a book.
window() { # EVENT FIRST END
    two_bytes "$1" && four_bytes "$2" && four_bytes "$3"
}

# The numbers from one up to before another.
range() { # FIRST END
    number=$1
    while [ "$number" -lt "$2" ]; do
        echo "$number"
        number=$((number + 1))
    done
}

# The hour printer's input for an example.
hour_input() { # NAME N HOUR
    set -- "$2" "$3" "examples/$1/tree.ftf" "examples/$1/sheet.fts" "examples/$1/windows.ftw"
    two_bytes "$1"
    for file in "$3" "$4" "$5"; do
        two_bytes "$(wc -c <"$file")"
    done
    four_bytes "$2"
    cat "$3" "$4" "$5"
}

# The 24 hours from one on: of each the second monitor's line of the level, with the hour in the level's place.
due_day() { # NAME K N FIRST
    for hour in $(range "$4" $(($4 + 24))); do
        hour_input "$1" "$3" "$hour" | "$reference" hours | sed -n "s/^$2 /$hour /p"
    done
}

# The levels from N down to 0: of each the second monitor's line, and what the law makes of it for the mirrored pair.
due_sides() { # NAME N
    "$reference" example "$1" input "$2" | "$reference" levels | sed 1d |
        awk '{ print "fails", $0; print "works", $1, 1000000000 - $4, $5, 1000000000 - $2, $3 }'
}

# The hour that an example has stored levels for.
stored_hour() { # NAME N
    for file in "examples/$1/levels-$2-at-"*.txt; do
        file=${file##*-at-}
        echo "${file%.txt}"
    done
}
