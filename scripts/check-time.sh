#!/usr/bin/env bash
# How long the check of a commit takes. Proves every crate of a clean clone of it, from nothing (`rt all verdict`), and prints the seconds
# of processor time that this took, and the time that passed. To compare two commits name both: they are measured one behind the other,
# on a machine that does nothing else. A commit from before the port to today's kit (docs/PORT.md) cannot be checked by it.
#
#   scripts/check-time.sh [COMMIT ...]    HEAD if none is named
set -eu
cd "$(dirname "$0")/.."
[ $# -gt 0 ] || set -- HEAD
clone=$(mktemp -d)
trap 'rm -rf "$clone"' EXIT
TIMEFORMAT='%U %S %R'
checked() { (cd "$clone/check" && rt all verdict) > "$clone/said" 2>&1; }
for commit; do
  rm -rf "$clone/check"
  git clone -q . "$clone/check"
  git -C "$clone/check" checkout -q "$(git rev-parse "$commit")"
  { time checked; } 2> "$clone/took" || { tail -n 5 "$clone/said"; exit 1; }
  crates=$(sed -nE 's/^([0-9]+) of \1 crates ok$/\1/p' "$clone/said")
  [ -n "$crates" ] || { tail -n 5 "$clone/said"; exit 1; }
  awk -v commit="$(git rev-parse --short "$commit")" -v crates="$crates" '
    { printf "check-time: %s: %d crates, %d s of processor time, in %d s\n", commit, crates, $1 + $2, $3 }' "$clone/took"
done
