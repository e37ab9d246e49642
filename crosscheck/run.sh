#!/usr/bin/env bash
# Runs the library against the independent program: the same calls in one process, every answer, lent table and lent number compared.
#   crosscheck/run.sh [CALLS [SEED [CASE]]]             CALLS: about how many calls (default 100,000), SEED: default 1; CASE: this case alone
#   crosscheck/run.sh parts [EXCHANGES [SEED [CASE]]]   split jobs; EXCHANGES: how many (default 10,000, some two minutes)
# It proves and writes the library first; YUCCADICE_LIB_DIR=DIRECTORY takes an archive that is there already.
set -euo pipefail
cd "$(dirname "$0")/.."
if [ -z "${YUCCADICE_LIB_DIR:-}" ]; then tools/build library; fi
cargo build --release --quiet --offline --manifest-path crosscheck/Cargo.toml
exec crosscheck/target/release/crosscheck "${@:-100000}"
