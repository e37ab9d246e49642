#!/usr/bin/env bash
# Times the proved step beside the plain Rust program, on the same inputs in the same run (see README.md).
#   bench/step.sh [ROUNDS]           rounds: how often each time is taken (default 5); the best counts
# The proved program is bench/library, which calls yd_step of the library: 'tools/build library' proves it and writes the archive
# (YUCCADICE_LIB_DIR=DIRECTORY takes one that is there already). PROVED=PATH takes another executable, as target/bin/try_steps,
# PROVED=none times the plain program alone.
set -euo pipefail
cd "$(dirname "$0")/.."
source bench/timing.sh
rounds=${1:-5}
cases=4          # tables in an input
steps=8          # steps from each
seed=1
visits=8000000   # cells before a step, between the two repeat counts

if [ -z "${PROVED:-}" ]; then
    if [ -z "${YUCCADICE_LIB_DIR:-}" ]; then tools/build library; fi
    cargo build --release --quiet --offline --manifest-path bench/library/Cargo.toml
    PROVED=$PWD/bench/library/target/release/library_step
fi
cargo build --release --quiet --offline --manifest-path bench/plain/Cargo.toml --bins --examples
generate=bench/plain/target/release/examples/generate
plain=bench/plain/target/release/plain_step
work=$(mktemp -d)
trap 'rm -r "$work"' EXIT

# Ends the script unless all answer alike and leave the same tables: fields 1, 2, 3 of a line.
compare() { # INPUT
    "$plain" <"$1" >"$work/plain"
    "$plain" trusted <"$1" | cmp "$work/plain" -
    if [ "$PROVED" != none ]; then "$PROVED" <"$1" | awk '{ print $1, $2, $3 }' | cmp "$work/plain" -; fi
}

# The last two columns are of the plain step that trusts its input.
printf '%6s %6s %14s %15s %7s %17s %7s\n' cells steps 'plain ns/cell' 'proved ns/cell' ratio 'trusting ns/cell' ratio
for size in 100 450 900 1800 3600; do
    declare -A times=()
    high=$((visits / (cases * steps * size)))
    low=$((high / 20))
    cells=$("$generate" $size $low $cases $seed $steps 2>&1 >"$work/low")
    "$generate" $size $high $cases $seed $steps 2>/dev/null >"$work/high"
    compare "$work/low" || { echo 'the programs disagree' >&2; exit 1; }
    for ((round = 0; round < rounds; round++)); do
        for repeat in low high; do
            best trusted.$repeat "$work/$repeat" "$plain" trusted
            best plain.$repeat "$work/$repeat" "$plain"
            if [ "$PROVED" != none ]; then best proved.$repeat "$work/$repeat" "$PROVED"; fi
        done
    done
    done_between=$((cells * (high - low)))
    t=$(per_cell trusted $done_between)
    a=$(per_cell plain $done_between)
    b=- c=- d=-
    if [ "$PROVED" != none ]; then
        b=$(per_cell proved $done_between)
        c=$(ratio "$b" "$a")
        d=$(ratio "$b" "$t")
    fi
    printf '%6d %6d %14s %15s %7s %17s %7s\n' $((cells / (cases * steps))) $((cases * steps)) "$a" "$b" "$c" "$t" "$d"
done
