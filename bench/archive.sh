#!/usr/bin/env bash
# Times meshlist beside a plain Rust program that lists archives, on the same archives in the same run (see README.md).
#   bench/archive.sh [ROUNDS]        rounds: how often each time is taken (default 5); the best counts
# The proved program is crates/meshlist: 'tools/build meshlist' proves it, compiles it and writes target/bin/meshlist.
# PROVED=PATH takes an executable that is there already, PROVED=none times the plain program alone.
set -euo pipefail
cd "$(dirname "$0")/.."
source bench/timing.sh
rounds=${1:-5}
runs=10          # of a program, one after the other, for one time

if [ -z "${PROVED:-}" ]; then
    tools/build meshlist
    PROVED=$PWD/target/bin/meshlist
fi
cargo build --release --quiet --offline --manifest-path bench/plain/Cargo.toml --bins --examples
plain=bench/plain/target/release/plain_list
work=$(mktemp -d)
trap 'rm -r "$work"' EXIT
programs=plain
if [ "$PROVED" != none ]; then programs='plain proved'; fi
program() { if [ "$1" = plain ]; then echo "$plain"; else echo "$PROVED"; fi; }

# Ends the script unless the program lists the archive as the independent program does.
compare() { # PROGRAM ARCHIVE
    "$1" <"$2" | cmp - "$2.listing" || { echo "$1 lists $2 otherwise" >&2; exit 1; }
}

# So many runs, for `took`.
again() { # PROGRAM ARCHIVE
    for ((k = 0; k < runs; k++)); do "$1" <"$2"; done
}

# Milliseconds of one listing: what the runs take less what they take on an archive of no bytes.
listing() { # NAME ARCHIVE
    awk "BEGIN { printf \"%.1f\", (${times[$1.$2]} - ${times[$1.empty]}) / $runs }"
}

bench/plain/target/release/examples/archives "$work" >"$work/names"
: >"$work/empty"
printf '%8s %6s %6s %9s %10s %7s\n' archive steps cells 'plain ms' 'proved ms' ratio
while read -r name steps cells; do
    declare -A times=()
    for p in $programs; do compare "$(program $p)" "$work/$name"; done
    for ((round = 0; round < rounds; round++)); do
        for p in $programs; do
            best $p.$name /dev/null again "$(program $p)" "$work/$name"
            best $p.empty /dev/null again "$(program $p)" "$work/empty"
        done
    done
    a=$(listing plain "$name")
    b=- c=-
    if [ "$PROVED" != none ]; then
        b=$(listing proved "$name")
        c=$(ratio "$b" "$a")
    fi
    printf '%8s %6d %6d %9s %10s %7s\n' "$name" "$steps" "$cells" "$a" "$b" "$c"
done <"$work/names"
