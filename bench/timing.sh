# What the benchmarks share; sourced by them.

# Processor time of a run in milliseconds: other work on the machine counts less than on the clock.
took() { # INPUT PROGRAM [WORD]
    local TIMEFORMAT='%3U %3S' user system
    read -r user system < <({ time "${@:2}" <"$1" >/dev/null; } 2>&1)
    echo $((10#${user/./} + 10#${system/./}))
}

# Keeps the smaller of what is held under NAME in times and a new time.
best() { # NAME INPUT PROGRAM [WORD]
    local ms
    ms=$(took "${@:2}")
    if [ -z "${times[$1]:-}" ] || [ "$ms" -lt "${times[$1]}" ]; then times[$1]=$ms; fi
}

# Nanoseconds a cell, from the two best times of a program, of which one has so many more visits of a cell.
per_cell() { # NAME VISITS
    awk "BEGIN { printf \"%.1f\", (${times[$1.high]} - ${times[$1.low]}) * 1e6 / $2 }"
}

ratio() { # A B
    awk "BEGIN { printf \"%.1f\", $1 / $2 }"
}
