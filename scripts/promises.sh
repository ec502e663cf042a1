#!/usr/bin/env bash
# Holds docs/PROMISES.md to the repository: each name under Definition and Proof stands in the file that it names, each edit has
# its file and each edit's file a row, each function under Code is in its crate, and no column is empty. And to the papers: each
# of their sentences has a row by its place, each place in a row is a sentence's, and each heading has its section's range. Of
# paper 02 that is asked of the requests that have landed: those with a note in docs/changes. Where the papers are not at hand, the
# ranges in the headings stand for them. Seconds.
#
#   scripts/promises.sh [PAPERS]    the folder of 00-demands.md, 01-scope.md and 02-change-requests.md; ../shared if none is named
set -u
cd "$(dirname "$0")/.." || exit 2
doc=docs/PROMISES.md
papers=${1:-../shared}
lacking=0
lacks() {
  echo "$doc: $*"
  lacking=$((lacking + 1))
}

# What the rows cite, a line for each: kind, line of the row, crate, file, name. A place has its paper, section and number there.
cited() {
  awk '
    # "01 lines 14, 15"
    function places(text,    n, i, words) {
      n = split(text, words, /,? /)
      for (i = 3; i <= n; i++) print "place", NR, words[1], words[2], words[i]
      if (n < 3) print "place", NR, text
    }
    # "File `a`, `b`; crate: File `c`", or for functions "crate `a`, `b`; crate `c`"
    function names(kind, text,    word, crate, file) {
      crate = "rules"; file = "-"
      while (match(text, /`[^`]+`|[A-Za-z0-9_]+:?|;/)) {
        word = substr(text, RSTART, RLENGTH)
        text = substr(text, RSTART + RLENGTH)
        if (word == ";") { crate = "rules"; file = "-" }
        else if (word ~ /^`/) print kind, NR, crate, file, substr(word, 2, length(word) - 2)
        else if (word ~ /:$/) crate = substr(word, 1, length(word) - 1)
        else if (kind == "function") crate = word
        else file = word
      }
    }
    # "crate: a, b; crate: c"
    function edits(text,    n, i, j, k, crates, words) {
      n = split(text, crates, /; */)
      for (i = 1; i <= n; i++) {
        k = split(crates[i], words, /: *|, */)
        for (j = 2; j <= k; j++) print "edit", NR, words[1], "-", words[j]
        if (k < 2) print "edit", NR, "-", "-", crates[i]
      }
    }
    !/^\|/ || /^\|---/ || /^\| Place \|/ { next }
    {
      n = split($0, cell, / *\| */)
      for (i = 2; i < n; i++) if (cell[i] == "") print "empty", NR, "-", "-", i - 1
      if (n != 5 && n != 8) { print "columns", NR, "-", "-", n - 2; next }
      places(cell[2])
      if (n == 5) next
      names("definition", cell[4])
      if (cell[5] != "contract") names("definition", cell[5])
      if (cell[6] !~ /^none: ./) edits(cell[6])
      if (cell[7] !~ /^none: ./) names("function", cell[7])
    }' "$doc"
}

# Is the name a definition or law of specs/ or proofs/, or an item of src/, in this file?
defined() { # CRATE FILE NAME
  local place
  for place in specs proofs; do
    grep -qsE "^ *((unfoldable|abbrev) )?(pub )?($3( \{[^}]*\})? :|(record|data) $3( |$))" "crates/$1/$place/$2.antt" && return
  done
  grep -qsE "(struct|enum|fn) $3\b" "crates/$1/src/$2.rt"
}

# The places of a paper's sentences, a line for each: paper, section, number. A sentence ends at ". ", at ".) " and at the end of a
# line; the "1. " of a list ends none, and a row of a table is one. P3's image, in a fence, is left out: Runs computes it.
sentences() { # PAPER FILE OPENS WORDS: OPENS matches the lines that open a section, WORDS names the sections in order
  awk -v paper="$1" -v opens="$3" -v words="$4" '
    BEGIN { split(words, word) }
    /^```/ { fenced = !fenced; next }
    fenced || /^$/ || /^\|---/ || /^\| (Header|No\.) \|/ { next }
    $0 ~ opens { section = word[++opened] }
    /^#/ { next }
    {
      sub(/^[0-9]\. /, "")
      n = /^\|/ ? 1 : 1 + gsub(/[.][)]? /, "&")
      for (i = 1; i <= n; i++) print paper, section, ++count[section]
    }' "$2"
}

# The sections of 02 that are asked for: its first paragraph, and a request N/14 as rN if it has a note.
landed() {
  echo landings
  ls docs/changes | sed -nE 's/^0*([0-9]+)-.*\.md$/r\1/p'
}

# The same of all papers. 00 and 02 have no headings, so each of their paragraphs opens a section; the first two of 00 are one.
in_papers() {
  sentences 00 "$papers/00-demands.md" '^[^#]' 'aim aim demand1 demand2 demand3 later gate'
  sentences 01 "$papers/01-scope.md" '^## ' 'edges bounds lines placing searching answers image runs slips promises forms'
  sentences 02 "$papers/02-change-requests.md" '^[^#]' "landings $(seq -s ' ' -f 'r%g' 14)" |
    grep -E "^02 ($(landed | paste -sd '|')) "
}

# The same by the headings of the document: '## Document 01, "The lines": lines 1 to 27'.
in_headings() {
  sed -nE 's/^## Document (0[012]), .*: ([a-z0-9]+) 1 to ([0-9]+)$/\1 \2 \3/p' "$doc" |
    while read -r paper section last; do seq -f "$paper $section %g" "$last"; done
}

if [ -f "$papers/00-demands.md" ] && [ -f "$papers/01-scope.md" ] && [ -f "$papers/02-change-requests.md" ]; then
  places=$(in_papers)
  while read -r side place; do
    case $side in
    '<') lacks "no heading's range has $place, which the papers have" ;;
    '>') lacks "a heading's range has $place, which the papers do not have" ;;
    esac
  done < <(diff <(echo "$places") <(in_headings))
else
  places=$(in_headings)
  echo "$doc: no papers in $papers, so the places were looked for in the headings' ranges"
fi

rows=$(cited)
while read -r kind line crate file name; do
  case $kind in
  definition) defined "$crate" "$file" "$name" || lacks "line $line: crate $crate, file $file has no $name" ;;
  function) grep -qsE "fn ${name}[(<]" crates/"$crate"/src/*.rt || lacks "line $line: crate $crate has no function $name" ;;
  edit) [ -f "crates/$crate/must-fail/$name.edit" ] || [ -f "must-fail-slow/$crate/$name.edit" ] || lacks "line $line: crate $crate has no edit $name" ;;
  place) grep -qxF -- "$crate $file $name" <<<"$places" || lacks "line $line: there is no place $crate $file $name" ;;
  empty) lacks "line $line: column $name is empty" ;;
  *) lacks "line $line has $name columns" ;;
  esac
done <<<"$rows"

for edit in crates/*/must-fail/*.edit must-fail-slow/*/*.edit; do
  crate=${edit#*/}
  crate=${crate%%/*}
  grep -q "^edit [0-9]* $crate - $(basename "$edit" .edit)\$" <<<"$rows" || lacks "no row has $edit"
done

while read -r place; do
  lacks "no row has $place"
done < <(grep -vxFf <(sed -n 's/^place [0-9]* //p' <<<"$rows") <<<"$places")

[ "$lacking" -eq 0 ] &&
  echo "$doc: all $(grep -vc '^place ' <<<"$rows") names are there, and all $(wc -l <<<"$places") sentences have a row"
