#!/usr/bin/env bash
# Proves and builds the program and the library, and puts them where README.md, the examples and compare/ look for them:
#
#   scripts/build.sh            both
#   scripts/build.sh lnk100     the program, target/bin/lnk100
#   scripts/build.sh linker     the calls as a library for C and Rust, target/staticlib/liblinker.a
#
# The library is the crate linker_c, which exports the calls of the crate linker. It is built for every x86-64 processor, as rustc builds
# compare/, and not for x86-64-v2, which is rt's own choice. What rt says is shown where it fails, and stands in target/build.log.
set -eu
cd "$(dirname "$0")/.."
[ $# -gt 0 ] || set -- lnk100 linker
mkdir -p target/bin target/staticlib
log=$PWD/target/build.log

# In a crate's folder, with no input: the program ends there by itself.
made() { # CRATE COMMAND ..
  local crate=$1
  shift
  (cd "crates/$crate" && "$@") > "$log" 2>&1 < /dev/null || { cat "$log"; echo "build: $crate is not built"; exit 1; }
}

for each; do
  case $each in
  lnk100)
    made lnk100 rt run
    cp crates/lnk100/out/lnk100 target/bin/lnk100
    ;;
  linker)
    made linker_c rt lib --cpu x86-64
    cp crates/linker_c/out/liblinker_c.a target/staticlib/liblinker.a
    ;;
  *)
    echo "usage: scripts/build.sh [lnk100] [linker]" >&2
    exit 2
    ;;
  esac
done
