#!/bin/bash
# meshsplit with --delay --check on the samples, the vectors and random archives, on 1, 2, 3, 7 and 16 ranks.
#   mpi/test.sh [ARCHIVES [SEED]]     200 random archives, seed 1
# Listings and fingerprints are held to the filed ones, and of random archives to those of the independent program.
set -e
cd "$(dirname "$0")/.."
count=${1:-200}
seed=${2:-1}
split=$PWD/mpi/meshsplit
make --quiet -C mpi
target=${CARGO_TARGET_DIR:-$PWD/independent/target}
cargo build --release --quiet --offline --manifest-path independent/Cargo.toml --target-dir "$target" --bin random_archives --bin show
show=$target/release/show
work=$(mktemp -d)
trap 'rm -r "$work"' EXIT
run() { mpirun -q --allow-run-as-root --oversubscribe -n "$@"; }
wrong() { echo "test.sh: $*" >&2; exit 1; }

mkdir "$work/filed" "$work/random"
cp vectors/*.mesh vectors/*.listing vectors/*.fingerprint "$work/filed"
cp samples/plate.mesh "$work/filed/sample-plate.mesh"
for name in example casing; do tools/text-to-archive <samples/$name.txt >"$work/filed/sample-$name.mesh"; done
for file in "$work"/filed/sample-*.mesh; do
    "$show" list "$file" >"${file%.mesh}.listing"
    "$show" fingerprint "$file" >"${file%.mesh}.fingerprint"
done
"$target/release/random_archives" "$work/random" "$count" "$seed"
cd "$work"

# One run: what is printed, and of each accepted archive that it was checked, with which fingerprint.
compare() {
    ranks=$1 rule=$2
    shift 2
    for file; do echo "$file" && cat "${file%.mesh}.listing"; done >expected
    for file; do
        if [ -f "${file%.mesh}.fingerprint" ]; then echo "$file: checked, fingerprint $(cat "${file%.mesh}.fingerprint")"; fi
    done >prints
    status=0
    run "$ranks" "$split" --owners "$rule" --seed "$seed" --delay --check "$@" >out 2>err || status=$?
    [ "$status" -le 1 ] || { cat err >&2; wrong "$ranks ranks, owners $rule: status $status"; }
    cmp out expected || wrong "$ranks ranks, owners $rule: the listings differ"
    grep ': checked, ' err | cmp - prints || wrong "$ranks ranks, owners $rule: the fingerprints differ"
}

rules=(coarse leaves random away)
all=(random/*.mesh)
turn=0
for ranks in 1 2 3 7 16; do
    for k in 0 1 2 3; do
        some=()
        for ((i = k; i < ${#all[@]}; i += 4)); do some+=("${all[i]}"); done
        filed=(filed/*.mesh)
        [ "$k" = 0 ] || filed=($(ls filed/*.mesh | grep -v bytes-65536)) # 865 steps: once for each number of ranks
        compare "$ranks" "${rules[(k + turn) % 4]}" "${filed[@]}" "${some[@]}"
    done
    turn=$((turn + 1))
    echo "$ranks ranks: ${#all[@]} random archives, samples and vectors"
done

# A refused archive alone: the number, once, and status 1; an error: nothing on standard output, and status 2.
for file in filed/refused-*.mesh; do
    status=0
    run 3 "$split" "$file" >out 2>err || status=$?
    [ "$status" = 1 ] && cmp out "${file%.mesh}.listing" || wrong "$file: status $status"
done
error() {
    status=0
    "$@" >out 2>err || status=$?
    [ "$status" = 2 ] && [ ! -s out ] && grep -q '^meshsplit: ' err || wrong "status $status: $*"
}
error run 17 "$split" filed/plate.mesh
error run 2 "$split" none.mesh
error run 2 "$split" --owners nobody filed/plate.mesh
error run 2 "$split" --table no/such/table none.mesh
echo ok
