#!/usr/bin/env bash
# Counts the places of docs/DESIGN-PASS.md in the sources, point by point, for this checkout or for that of a commit.
#
#   scripts/design.sh [--list POINT] [COMMIT]      POINT is a letter of the first column; --list shows the places themselves
set -eu
cd "$(dirname "$0")/.."
list=
[ "${1:-}" = --list ] && { list=$2; shift 2; }
top=.
if [ $# -gt 0 ]; then
  top=$(mktemp -d)
  trap 'rm -rf "$top"' EXIT
  git archive "$1" crates | tar -C "$top" -xf -
fi
cd "$top"
sources=(crates/*/src)

find_places() {
  case $1 in
  1a) grep -rnE '^(pub )?enum (Name|Number|FieldRead|Reading|Reached)\b' "${sources[@]}" ;;
  1b) grep -rnE '^ +(pub )?(fits|room|is_[a-z]+|has_[a-z]+|inside|flag|relocated|keep|held|as_load|again): bool,$' "${sources[@]}" ;;
  1c) grep -rnE '^(pub )?const [A-Z_0-9]+: (u8|u16|u64|usize) = [0-9]+;' "${sources[@]}" ;;
  1d) grep -rnE '^(pub )?fn .*-> (u64|u8) \{?$' "${sources[@]}" ;;
  1e) grep -rnE 'return (0|i|at|n|NO_ADDRESS|MOST_SYMBOLS);' "${sources[@]}" ;;
  2) grep -rhoE '^ *(pub )?fn [a-z_0-9]+' "${sources[@]}" | sed 's/.*fn //' | sort | uniq -d ;;
  3a) grep -rnE '^ *while [^l]' "${sources[@]}" ;;
  3b) grep -rnE '^ *for ' "${sources[@]}" ;;
  3c) grep -rnE '\.(iter|chunks_exact|map|any|all|position|rposition|filter|fill|copy_from_slice|fold)\(' "${sources[@]}" ;;
  4a) grep -rnE '^(pub )?fn (same|same_text|same_but_mark|least|larger|lower|less|at_most_a_line|digits_on|position|wide|power|capital|word|spread|octal_digit|name_byte|fault_number|renewed)\(' "${sources[@]}" ;;
  4b) grep -rnE 'impl.* (From|TryFrom|Display|Iterator|Default)(<.*>)? for|derive\(.*(PartialEq|Default)' "${sources[@]}" ;;
  5a) grep -rhE '^ *requires' "${sources[@]}" | sed -E 's/^ *requires( [a-z_0-9]+)? //' | sort | uniq -c | sort -rn | awk '$1 >= 3' ;;
  5b) python3 - "${sources[@]}" <<'P'
import re, sys, pathlib
for top in sys.argv[1:]:
    for path in sorted(pathlib.Path(top).glob("*.rt")):
        for m in re.finditer(r"\bfn (\w+)[^(]*\(((?:[^()]|\([^()]*\))*)\)", path.read_text()):
            parameters = [p for p in m.group(2).split(",") if ":" in p or "self" in p]
            if len(parameters) >= 6:
                print(f"{path}: {m.group(1)} takes {len(parameters)}")
P
    ;;
  6) grep -rnE ': \[(u8|u16|u64|bool); [A-Z0-9_]+\]|^ *(let mut )?[a-z_]+ = \[.*; [A-Z0-9_]+\]' "${sources[@]}" ;;
  7) grep -rnE '^ *match (letter|shape|code|kind|k|number|key|command)\b.*\{' "${sources[@]}" ;;
  8a) find crates -path '*/out' -prune -o -path '*/proofs/*' -name Answers.antt -print ;;
  8b) find crates -path '*/out' -prune -o -path '*/proofs/*' -name Answers.antt -exec cat {} + ;;
  8c) find crates -path '*/out' -prune -o -path '*/proofs/*' -name '*.antt' -exec cat {} + ;;
  esac
}

if [ -n "$list" ]; then
  find_places "$list" || true
  exit
fi
say() { printf '%-3s %6d  %s\n' "$1" "$(find_places "$1" | wc -l)" "$2"; }
say 1a 'own enums of the shape of Option or Result'
say 1b 'fields that are a flag'
say 1c 'constants that are a plain number'
say 1d 'functions that answer a u64 or a u8'
say 1e 'returns of a number that stands for nothing'
say 2  'names that more than one function has'
say 3a 'loops by while with a condition'
say 3b 'loops by for'
say 3c 'library methods over slices and iterators'
say 4a 'equality, order, conversion and bounds by hand'
say 4b 'derives and traits in their place'
say 5a 'clauses that stand in three or more functions'
say 5b 'functions of six parameters or more'
say 6  'arrays with a length of their own'
say 7  'a match on a number or a letter'
say 8a 'files of answers'
say 8b 'lines in them'
say 8c 'lines of proofs'
