#!/usr/bin/env bash
# Compares the verified library (scripts/build.sh linker) with the Rust linker of compare/, call by call.
#
#   scripts/compare.sh                  the short run: a minute of cases, which must reach every answer and many rounds
#   scripts/compare.sh CASES SEED ...   any other run; see the arguments of compare/src/bin/differ.rs
set -eu
cd "$(dirname "$0")/../compare"
[ $# -gt 0 ] || set -- 1000000 1 --seconds 60 --reach-all
exec cargo run --offline --quiet --release --features library --bin differ -- "$@"
