#!/usr/bin/env bash
# Times split jobs through the library (see README.md): whole exchanges on 1, 2, 4 and 16 parts, splits and merges, beside the serial step in the same run.
#   bench/parts.sh [REPEAT]          how often each is made (default 200); the best counts
# 'tools/build library' proves the library and writes it first; YUCCADICE_LIB_DIR=DIRECTORY takes one that is there already.
set -euo pipefail
cd "$(dirname "$0")/.."
if [ -z "${YUCCADICE_LIB_DIR:-}" ]; then tools/build library; fi
cargo build --release --quiet --offline --manifest-path bench/library/Cargo.toml --bin library_parts
exec bench/library/target/release/library_parts "${@:-200}"
