#!/usr/bin/env bash
# Spoils the definitions of crates/rules/specs, one place at a time, and sees that `rules` notices each: that a run or a law of it is
# then no longer proved. In a spoilt place a number is one off, a text has another last letter, an answer is the next one of the list,
# or there is true for false, "and" for "or", "less" for "at most", or the other way round.
#
#   scripts/wrong-definitions.sh [FILE ...]    the places of crates/rules/specs/FILE.antt; of all files if none is named
#
# Where a spoilt place changes nothing that a call can show, missed/definitions.txt has it with the reason. Any other that is not
# noticed is told, and then the status is 1. Each place costs a check of `rules`.
set -eu
cd "$(dirname "$0")/.."
specs=crates/rules/specs
known=missed/definitions.txt
jobs=${RT_JOBS:-2}
numbers=$(sed -nE 's/^([A-Z_]+) = [0-9]+$/\1, /p' $specs/Answers.antt | tr -d '\n')
[ $# -gt 0 ] || set -- $(basename -s .antt -a $specs/*.antt | grep -vx Lib)
work=$(mktemp -d)
trap 'rm -rf "$work"' EXIT

# The spoilt lines of a file: its name, the line's number, the line as it is then. Signatures, imports and comments are passed over.
spoilt() { # FILE
  LC_ALL=C awk -v file="$1" -v answers="$(sed -nE 's/^([A-Z_]+) = [0-9]+$/\1/p' $specs/Answers.antt | tr '\n' ' ')" '
    BEGIN {
      n = split(answers, list, " ")
      for (i = 1; i <= n; i++) other[list[i]] = list[i % n + 1]
      other["true"] = "false"; other["false"] = "true"; other["ltb"] = "leb"; other["leb"] = "ltb"; other["&&"] = "||"; other["||"] = "&&"
    }
    # what a word, a number or a text becomes; nothing where it stays
    function changed(word,    last, digits) {
      if (word in other) return other[word]
      last = substr(word, length(word))
      if (word ~ /^"/) { last = substr(word, length(word) - 1, 1); return substr(word, 1, length(word) - 2) (last == "X" ? "Y" : "X") "\"" }
      if (word !~ /^[0-9]/) return ""
      digits = "0123456789abcdef"
      return substr(word, 1, length(word) - 1) (last ~ /[79fF]/ ? substr(digits, index(digits, tolower(last)) - 1, 1) : substr(digits, index(digits, tolower(last)) + 1, 1))
    }
    /^ *(--|use |module |$)/ || /^ *((unfoldable|abbrev) )?(pub )?[^ ]+( \{[^}]*\})? : / || /^ *(pub )?(record|data) / { next }
    {
      at = 1
      while (match(substr($0, at), /"[^"]*"|[0-9][0-9A-Za-z_]*|[A-Za-z][A-Za-z0-9_-]*|&&|\|\|/)) {
        start = at + RSTART - 1
        word = substr($0, start, RLENGTH)
        before = start == 1 ? " " : substr($0, start - 1, 1)
        new = before ~ /[A-Za-z0-9_.\200-\377-]/ ? "" : changed(word)
        # a definition of a name is no use of it
        if (new != "" && !(start == 1 && word in other)) print file "\t" NR "\t" substr($0, 1, start - 1) new substr($0, start + length(word))
        at = start + length(word)
      }
    }' "$specs/$1.antt"
}

# A copy in which every name that a spoilt line can need is there, and which has been checked once.
prepared() { # COPY
  mkdir "$1"
  tar --exclude='crates/*/out' -cf - crates/rules | tar -C "$1" -xf -
  grep '^rules:' crates.txt > "$1/crates.txt"
  sed -i -E '/^use Rattle\.std\.specs\.Prelude\.\{.*\}$/ {
      s/\{(.*)\}$/{, \1,}/
      :again
      s/, (eqb|leb|ltb|Bool|true|false|cond|not|◌&&◌|◌\|\|◌),/,/
      t again
      s/\{,(.*),\}$/{eqb, leb, ltb, Bool, true, false, cond, not, ◌\&\&◌, ◌||◌,\1}/
      s/,\}$/}/
    }
    s/^use (Rattle\.rules\.specs\.Answers)\.\{.*\}$/use \1.{'"$numbers"'is_line_fault, is_file_fault}/' "$1"/$specs/*.antt
  (cd "$1/crates/rules" && rt check) > "$1/said" 2>&1 || true
  grep -q '^logic=proved' "$1/said" || { echo "wrong-definitions: rules is not proved as it is"; cat "$1/said"; exit 1; }
  cp -r "$1/crates/rules/out" "$1/checked"
}

# Tries every line of standard input in a copy; prints it with what the check came to.
try_all() { # COPY
  local file line text
  while IFS=$'\t' read -r file line text; do
    cp "$1/$specs/$file.antt" "$1/right"
    text=$text awk -v at="$line" 'NR == at { print ENVIRON["text"]; next } { print }' "$1/right" > "$1/$specs/$file.antt"
    (cd "$1/crates/rules" && rt check) > "$1/said" 2>&1 || true
    if grep -q '^logic=proved' "$1/said"; then
      result=unnoticed
    elif grep -qE "^(\./)?specs/[A-Za-z]*\.antt:[0-9:]* error" "$1/said"; then
      result=void
    else
      result=noticed
    fi
    printf '%s\t%s\t%s\t%s\n' "$result" "$file" "$line" "$text"
    mv "$1/right" "$1/$specs/$file.antt"
    rm -rf "$1/crates/rules/out"
    cp -r "$1/checked" "$1/crates/rules/out"
  done
}

for file; do spoilt "$file"; done > "$work/places"
for ((k = 0; k < jobs; k++)); do
  (
    prepared "$work/$k"
    awk -v k="$k" -v n="$jobs" 'NR % n == k' "$work/places" | try_all "$work/$k" > "$work/tried.$k"
  ) &
done
wait
cat "$work"/tried.* > "$work/tried"

# What is not noticed and not listed, and what is listed of these files and was noticed, or is no spoilt place of them any more.
awk -F '\t' -v files=" $* " '
  function told(what) { print "wrong-definitions: " what }
  NR == FNR { if ($0 ~ /^[A-Z][A-Za-z]*: /) known[$0]; next }
  $1 != "unnoticed" { next }
  { text = $4; sub(/^ */, "", text); place = $2 ": " text }
  place in known { delete known[place]; next }
  { told($2 ".antt:" $3 ": not noticed: " text) }
  END { for (place in known) if (index(files, " " substr(place, 1, index(place, ":") - 1) " ")) told("listed, and not among what is not noticed: " place) }
' $known "$work/tried" > "$work/wrong"
cat "$work/wrong"
count() { grep -c "^$1" "$work/tried" || true; } # RESULT
echo "wrong-definitions: of $(wc -l < "$work/places") spoilt places $(count noticed) are noticed, $(count void) are no definitions," \
  "$(count unnoticed) are not noticed; $(wc -l < "$work/wrong") differences from $known"
[ ! -s "$work/wrong" ] && [ "$(wc -l < "$work/tried")" = "$(wc -l < "$work/places")" ]
