#!/usr/bin/env bash
# Times the verified library (scripts/build.sh linker) beside the Rust linker of compare/ and the floor.
#
#   scripts/bench.sh [RUNS]
#   scripts/bench.sh --feeds [RUNS [ROW]]    the table of loads in pieces alone, or one of its rows, which count from 0
#
# The functions of the archive are put on the lines of the cache first, by objcopy. Else the linker puts them at any sixteenth byte, and
# where a short loop of the reading comes to lie across a line it takes longer: 6 to 14 % of a LOAD, by where the code in front of it
# ends. Nothing else of the archive changes.
set -eu
cd "$(dirname "$0")/.."
mkdir -p target/bench
objcopy --set-section-alignment '.text.*=64' target/staticlib/liblinker.a target/bench/liblinker.a
cd compare
LNK100_LIB=$PWD/../target/bench exec cargo run --offline --quiet --release --features library --bin bench -- "$@"
