#!/usr/bin/env bash
# Times the proved layout of status tables beside the plain Rust program, on the same inputs in the same run (see README.md).
#   bench/layout.sh [ROUNDS]         rounds: how often each time is taken (default 5); the best counts
# The proved program is crates/try_tables: 'tools/build try_tables' proves it, compiles it and writes
# target/bin/try_tables. PROVED=PATH takes an executable that is there already, PROVED=none times the plain program alone.
set -euo pipefail
cd "$(dirname "$0")/.."
source bench/timing.sh
rounds=${1:-5}
cases=8          # tables in an input
seed=1
visits=8000000   # cells laid out between the two repeat counts

if [ -z "${PROVED:-}" ]; then
    tools/build try_tables
    PROVED=$PWD/target/bin/try_tables
fi
cargo build --release --quiet --offline --manifest-path bench/plain/Cargo.toml --bins --examples
generate=bench/plain/target/release/examples/generate
plain=bench/plain/target/release/plain
work=$(mktemp -d)
trap 'rm -r "$work"' EXIT

# Ends the script unless both find the same numbers of cells and corners: fields 4 and 5 of a line of try_tables.
compare() { # INPUT
    "$plain" <"$1" >"$work/plain"
    "$PROVED" <"$1" | awk '{ print $4, $5 }' >"$work/proved"
    cmp "$work/plain" "$work/proved" || { echo 'the two programs disagree' >&2; exit 1; }
}

printf '%6s %6s %14s %15s %7s\n' cells tables 'plain ns/cell' 'proved ns/cell' ratio
for size in 100 500 1000 2000 4000; do
    declare -A times=()
    high=$((visits / (cases * size)))
    low=$((high / 20))
    cells=$("$generate" $size $low $cases $seed 2>&1 >"$work/low")
    "$generate" $size $high $cases $seed 2>/dev/null >"$work/high"
    if [ "$PROVED" != none ]; then compare "$work/low"; fi
    for ((round = 0; round < rounds; round++)); do
        for repeat in low high; do
            best plain.$repeat "$work/$repeat" "$plain"
            if [ "$PROVED" != none ]; then best proved.$repeat "$work/$repeat" "$PROVED"; fi
        done
    done
    done_between=$((cells * (high - low)))
    a=$(per_cell plain $done_between)
    b=- c=-
    if [ "$PROVED" != none ]; then
        b=$(per_cell proved $done_between)
        c=$(ratio "$b" "$a")
    fi
    printf '%6d %6d %14s %15s %7s\n' $((cells / cases)) $cases "$a" "$b" "$c"
done
