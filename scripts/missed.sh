#!/usr/bin/env bash
# Drops facts from contracts and statements, one at a time, to see that something misses each: the crates below the one that a drop
# names must still be proved, and that crate must not be. A fact that nothing misses could be lost without a word from the gate.
#
#   scripts/missed.sh [NAME ...]    the drops missed/NAME.drop; all if none is named
#
# A drop says in its first line what is dropped, then
#   missed by: CRATE
#   file: PATH       in which
#   drop: TEXT       every line that has this text is taken out
#   old: TEXT        every such text
#   new: TEXT        becomes this one
set -eu
cd "$(dirname "$0")/.."
[ $# -gt 0 ] || set -- $(basename -s .drop -a missed/*.drop)
copy=$(mktemp -d)
trap 'rm -rf "$copy"' EXIT

# Changes one file; a text that does not stand there is an error.
change() { # FILE DROP OLD NEW: DROP or OLD is empty
  drop=$2 old=$3 new=$4 awk '
    BEGIN { drop = ENVIRON["drop"]; old = ENVIRON["old"]; new = ENVIRON["new"] }
    drop != "" && index($0, drop) { found = 1; next }
    old != "" && (at = index($0, old)) { found = 1; $0 = substr($0, 1, at - 1) new substr($0, at + length(old)) }
    { print }
    END { exit !found }' "$1" > "$copy/changed" || { echo "missed: $1 has no $2$3"; return 1; }
  mv "$copy/changed" "$1"
}

# Applies a drop in the copy, and prints the crate that has to miss it.
apply() { # DROP
  local file old word rest
  while IFS= read -r line; do
    word=${line%%: *} rest=${line#*: }
    case $word in
    'missed by') echo "$rest" ;;
    file) file=$copy/$rest ;;
    drop) change "$file" "$rest" '' '' || exit ;;
    old) old=$rest ;;
    new) change "$file" '' "$old" "$rest" || exit ;;
    esac
  done < "$1"
}

failed=0
for name; do
  rm -rf "$copy/crates"
  tar --exclude='crates/*/out' -cf - crates crates.txt | tar -C "$copy" -xf -
  crate=$(apply "missed/$name.drop") || { echo "$crate"; exit 1; }
  (cd "$copy/crates/$crate" && rt check) > "$copy/said" 2>&1 || true
  # rt checks the crates below it first, and says so where one of them is not proved
  if grep -q '^logic=not-proved' "$copy/said" && ! grep -q '^rt: the library .* did not build' "$copy/said"; then
    echo "missed: $name, by $crate at $(grep -m 1 -oE '(src|specs|proofs)/[^ ]*:[0-9]+:[0-9]+: (error|it is not proved).*' "$copy/said" | cut -c1-150 || true)"
  else
    echo "missed: NOT $name: $(grep -m 1 '^rt: the library' "$copy/said" || grep -oE '^logic=[a-z-]*' "$copy/said" | tail -n 1 | grep . || tail -n 1 "$copy/said")"
    failed=$((failed + 1))
  fi
done
echo "missed: $(($# - failed)) of $# drops are missed"
[ "$failed" -eq 0 ]
