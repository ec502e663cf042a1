#!/usr/bin/env bash
# Looks whether every lookup of a name in the table is by the search of crate order, which reads at most nine of its names
# (docs/PROMISES.md, 02 r2 2). It looks for each place in the crates of the linker that reads a name of the table; beside the test of
# soundness there are six, and one of them alone is a search. If there is another, the status is 1. It compares texts and takes no
# time. It knows state memory by the name `state`, and a name by `name`: what called them otherwise would escape it.
#
#   scripts/lookups.sh
set -eu
export LC_ALL=C
cd "$(dirname "$0")/.."

# The crates that a crate uses, and those that these use: for each a line.
used_by() {
  local crate
  for crate in $(sed -n "s/^$1: *//p" crates.txt); do
    echo "$crate"
    used_by "$crate"
  done
}
crates=$({ echo linker_c; echo linker; used_by linker; } | sort -u)

# Where a name of the table is read: crate, function, what reads it. Crate state holds the layout, and tests of soundness come ahead
# of a call's own work; the other crates have no cell of the state by its number. Crate line has a `name_at` of its own, for a line's
# names, and no crate below it has the table.
places() {
  local crate
  for crate in $crates; do
    for file in crates/"$crate"/src/*.rt; do
      awk -v crate="$crate" '
        /^ *(pub )?fn / { split($0, word, /fn |\(/); name = word[2]; next }
        /^ *(\/\/|use |ghost |requires |ensures )/ { next }
        crate != "state" && crate != "line" && /[^_a-z](name_at|symbol_at)\(/ {
          print crate, name, (/symbol_at/ ? "symbol_at" : "name_at")
        }
        crate != "state" && crate != "soundness" && /[^_a-z]state\[/ { print crate, name, "a cell" }
        crate == "state" && /([=!<>]=|<|>) name[^_a-z]|[^_a-z]name ([=!<>]=|<|>)/ { print crate, name, "compares names" }' "$file"
    done
  done
}

found=$(places | sort)
expected='listings try_symbols symbol_at
listings try_undefined symbol_at
order hint_all name_at
order make name_at
order seek name_at
search mark_undefined symbol_at'
if [ "$found" != "$expected" ]; then
  echo "scripts/lookups.sh: the names of the table are read elsewhere than expected:"
  diff <(echo "$expected") <(echo "$found") || true
  exit 1
fi
echo "A name of the table is read by a turn of the search (order seek), as the order and its hints are made (order make, hint_all), of"
echo "each undefined symbol that is looked for among a section's entries (search mark_undefined), and of the symbol at an index that is"
echo "listed (listings try_symbols, try_undefined); nowhere else but in the test of soundness, which compares the names with each other."
