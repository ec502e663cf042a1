#!/usr/bin/env bash
# Tries the wrong programs of must-fail-slow/. They are must-fail edits like those of crates/*/must-fail, but of crates that take long
# to check, so the gate has some of most crates and the rest stand here, to be tried before a landing. They are tried in a copy of the
# crates, in which they stand where `rt must-fail` looks; rt begins there with what checks in this folder kept. An edit that is still
# proved, or that cannot be applied, compiled or read, is told, and then the status is 1.
#
#   scripts/must-fail-slow.sh [CRATE ...]    those of these crates
set -eu
cd "$(dirname "$0")/.."
[ $# -gt 0 ] || set -- $(ls must-fail-slow)
copy=$(mktemp -d)
trap 'rm -rf "$copy"' EXIT
tar --exclude='crates/*/out' --exclude='crates/*/must-fail' -cf - crates crates.txt | tar -C "$copy" -xf -
for name; do
  mkdir "$copy/crates/$name/must-fail"
  cp "must-fail-slow/$name"/*.edit "$copy/crates/$name/must-fail"
done
cd "$copy"
rt must-fail "$@"
