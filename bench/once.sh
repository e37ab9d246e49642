#!/usr/bin/env bash
# Times steps that are made once, each another one, beside the plain Rust program on the same inputs (see README.md). In bench/step.sh each step is made many
# times in a row, and the processor remembers the branches of a small mesh; here it has not seen them.
#   bench/once.sh [ROUNDS]           rounds: how often each time is taken (default 5); the best counts
# The proved program calls yd_step of the library: 'tools/build library' proves it and writes the archive (YUCCADICE_LIB_DIR=DIRECTORY takes one that is
# there already). Times are of the clock, around the call alone.
set -euo pipefail
cd "$(dirname "$0")/.."
rounds=${1:-5}
visits=1200000   # cells before the steps of an input
steps=8          # steps from each table
seed=1

if [ -z "${YUCCADICE_LIB_DIR:-}" ]; then tools/build library; fi
cargo build --release --quiet --offline --manifest-path bench/library/Cargo.toml
cargo build --release --quiet --offline --manifest-path bench/plain/Cargo.toml --bins --examples
generate=bench/plain/target/release/examples/generate
once=bench/library/target/release/library_once
work=$(mktemp -d)
trap 'rm -r "$work"' EXIT

best() { # WORD INPUT
    for ((round = 0; round < rounds; round++)); do "$once" "$1" <"$2"; done | awk 'NR == 1 || $2 < best { best = $2 } END { print best }'
}

printf '%6s %6s %14s %15s %7s\n' cells steps 'plain ns/cell' 'proved ns/cell' ratio
for size in 100 450 900 1800 3600; do
    cases=$((visits / (steps * size)))
    cells=$("$generate" $size 1 $cases $seed $steps 2>&1 >"$work/input")
    a=$(best plain "$work/input")
    b=$(best proved "$work/input")
    printf '%6d %6d %14s %15s %7s\n' $((cells / (cases * steps))) $((cases * steps)) "$a" "$b" "$(awk "BEGIN { printf \"%.1f\", $b / $a }")"
done
