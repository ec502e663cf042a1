#!/usr/bin/env bash
# Holds the declarations of include/lnk100.h and rust/lnk100.rs to the Rattle source: the answers field by field, the calls parameter
# by parameter, and the constants. And the exports, crate linker_c, to the library's calls, crate linker: each has the other's parameters,
# answer and clauses. It compares texts and compiles nothing. Each difference is a line, and then the status is 1.
#
#   scripts/declarations.sh
#
# The source and the two files are each turned into a list with a line for each declaration, in Rust's words:
#
#   #[repr(C)] struct End = number: u64, line: u64, length: u64
#   extern "C" fn lnk100_base = (state: *mut u64, state_len: usize, address: u64) -> Call
#   const STATE_CELLS = 8708
#   number TOO_LONG = 5                  of an answer; the header has these
#   name 5 = TOO LONG                    of an answer; the Rust wrapper has these
#
# What is found and does not have the form that is looked for stays in its list as it is written: so it is told, and not passed over.
set -u
export LC_ALL=C
cd "$(dirname "$0")/.." || exit 2
header=include/lnk100.h
wrapper=rust/lnk100.rs
answers=crates/rules/src/answer.rt
names=crates/rules/specs/Answers.antt
limits=crates/rules/src/limits.rt
calls=crates/linker/src/lib.rt
exports=crates/linker_c/src/lib.rt
image=crates/image/src/lib.rt

# A file of C, Rust or Rattle without its comments, line by line.
uncommented() { # FILE
  awk '
    { text = text $0 "\n" }
    END {
      while (match(text, /\/[\/*]/)) {
        printf "%s", substr(text, 1, RSTART - 1)
        mark = substr(text, RSTART, 2) == "//" ? "\n" : "*/"
        text = substr(text, RSTART + 2)
        end = index(text, mark)
        text = end == 0 ? "" : mark == "\n" ? substr(text, end) : " " substr(text, end + 2)
      }
      printf "%s", text
    }' "$1"
}

# The words and signs of standard input on one line, with one space between any two.
spaced() { grep -aoE '[A-Za-z0-9_]+|"[^"]*"|->|::|'$'[\x80-\xff]+''|[^[:space:]]' | tr '\n' ' '; }

text() { uncommented "$1" | spaced; } # FILE

# The names that a file uses, a line for each: use a::{b, c} is a::b and a::c. The path of a `ghost use` has dots.
used() { # FILE WORD: use, or ghost use
  uncommented "$1" | tr -s '[:space:]' ' ' | sed 's/;/;\n/g; s/\] /]\n/g' | sed -nE "s/^ ?(pub )?$2 (.*);$/\2/p" |
    awk '
      !/\{/ { gsub(/ /, ""); print; next }
      {
        at = index($0, "{")
        path = substr($0, 1, at - 1); gsub(/ /, "", path)
        n = split(substr($0, at + 1, length($0) - at - 1), name, /, ?/)
        for (i = 1; i <= n; i++) { gsub(/^ | $/, "", name[i]); if (name[i] != "") print path name[i] }
      }'
}

# Lines of a list as they are printed: no comma at the end of a list, and spaces where Rust has them.
tidy() { sed -E 's/ ,( \))/\1/g; s/[ ,]+$//; s/ ([,:)])/\1/g; s/([(*]) /\1/g'; }

# The structs of a text of Rattle or Rust.
structs() {
  grep -oE '# \[ repr \( C \) \] [^}]*\}' | sed -E 's/# \[ derive \([^]]*\) \] //g' |
    sed -E 's/^# \[ repr \( C \) \] pub struct ([A-Za-z]+) \{ (.*)\}$/#[repr(C)] struct \1 = \2/; s/Answer =/ =/; s/pub //g' | tidy
}

# The number that a constant of a Rattle file is. Its names are looked up where their path leads, in the file, or where the file uses
# them from.
value() { # FILE NAME
  local words word from sum=
  words=$(text "$1" | grep -oE "const $2 : [a-z0-9]+ = [^;]*" | sed 's/.* = //; s/ :: /::/g')
  if [ -z "$words" ]; then
    from=$(used "$1" use | grep -E "::$2$")
    [ -n "$from" ] || { echo "$1: no constant $2" >&2; return 1; }
    value_at "$from"
    return
  fi
  while read -r word; do
    case $word in
    *::*) sum+=$(value_at "$word") || return ;;
    [A-Z]*) sum+=$(value "$1" "$word") || return ;;
    as | u[0-9s]*) ;;
    *) sum+=${word//_/} ;;
    esac
  done < <(tr ' ' '\n' <<<"$words")
  echo $((sum))
}

# The same for a name with its path: crate::NAME or crate::module::NAME.
value_at() { # PATH
  local from=${1%::*}
  local crate=${from%%::*} module=${from#*::}
  [ "$from" != "$crate" ] || module=lib
  value "crates/$crate/src/$module.rt" "${1##*::}"
}

# The calls of a text of Rattle. To C a slice is a pointer and a length.
rattle_calls() {
  grep -oE '(# \[ unsafe \( no_mangle \) \] pub )?extern "C" fn [^{]*' |
    sed -E '
      s/ ((requires|ensures) .*)?$//
      s/^# \[ unsafe \( no_mangle \) \] pub (extern "C" fn [a-z0-9_]+) (\(.*\) -> [A-Za-z]+)$/\1 = \2/
      s/([a-z0-9_]+) : & mut \[ ([a-z0-9]+) \]/\1 : * mut \2 , \1_len : usize/g
      s/([a-z0-9_]+) : & \[ ([a-z0-9]+) \]/\1 : * const \2 , \1_len : usize/g
      s/Answer$//' | tidy
}

# The lengths of lent memory, which are constants of the library's crate, and what else a caller has to know.
rattle_constants() {
  local name
  for name in $(text $calls | grep -oE 'pub const [A-Z_]+' | sed 's/.* //'); do
    echo "const $name = $(value $calls "$name")"
  done
  echo "const FILE_BYTES = $(value $limits LONGEST_FILE)"
  echo "const PIECE_BYTES = $(value $limits LONGEST_PIECE)"
  echo "const IMAGE_BYTES = $(($(value $image WORD_BYTES) * $(value $image PROGRAM_WORDS) + $(value $image END_BYTES)))"
  echo "const NO_ADDRESS = $(value $limits NO_ADDRESS)"
}

# The names of the answers, by the numbers that the definitions give them.
rattle_names() {
  awk '
    { sub(/--.*/, "") }
    /^[A-Z_]+ = [0-9]+ *$/ { number[$1] = $3 }
    match($0, /answer [A-Z_]+ ".*"/) {
      split(substr($0, RSTART, RLENGTH), part, "\"")
      split(part[1], word, " ")
      print "name " number[word[2]] " = " part[2]
    }' $names
}

in_rattle() {
  text $answers | structs
  text $exports | rattle_calls
  rattle_constants
  text $answers | grep -oE 'pub const [^;]*' | sed -E 's/^pub const ([A-Z_]+) : u64 = ([0-9]+) $/number \1 = \2/'
  rattle_names
}

# Fields and parameters of C in Rust's words. Those that are no pointers go first, for a pointer in Rust's words ends as one of C's: "const u8".
rust_words() {
  sed -E '
    s/([a-z0-9_]+) ([a-z0-9_]+) ([,)])/\2 : \1 \3/g
    s/const ([a-z0-9_]+) \* ([a-z0-9_]+)/\2 : * const \1/g
    s/([a-z0-9_]+) \* ([a-z0-9_]+)/\2 : * mut \1/g
    s/\buint64_t\b/u64/g; s/\buint8_t\b/u8/g; s/\bsize_t\b/usize/g
    s/\blnk100_([a-z]+)_answer\b/\u\1/g' | tidy
}

# The constants of the header, and every other directive but its guards.
c_directives() {
  uncommented $header | sed -nE 's/[[:space:]]+/ /g; s/^ ?# ?/#/; s/ $//; /^#/p' |
    grep -vxE '#(ifndef|define) LNK100_H|#include <std(def|int)\.h>|#ifdef __cplusplus|#endif' |
    sed -E 's/^#define LNK100_([A-Z_]+) ([0-9]+)$/const \1 = \2/'
}

in_c() {
  local body rest
  local struct='typedef struct \{[^}]*\} lnk100_[a-z]+_answer ;' enum='enum \{[^}]*\} ;' call='[a-z0-9_]+ lnk100_[a-z0-9_]+ \([^)]*\) ;'
  c_directives
  body=$(uncommented $header | grep -v '^[[:space:]]*#' | spaced)
  # "uint64_t number , line ;" declares a field for each name
  grep -oE "$struct" <<<"$body" |
    sed -E ':next; s/([a-z0-9_]+) ([a-z0-9_]+) , ([a-z0-9_]+)/\1 \2 ; \1 \3/; tnext
      s/^typedef struct \{ (.*)\} (lnk100_[a-z]+_answer) ;$/#[repr(C)] struct \2 = \1/; s/ ;/ ,/g' | rust_words
  grep -oE "$call" <<<"$body" | sed -E 's/^([a-z0-9_]+) (lnk100_[a-z0-9_]+) (.*) ;$/extern "C" fn \2 = \3 -> \1/' | rust_words
  grep -oE "$enum" <<<"$body" | sed -E 's/^enum \{ (.*) \} ;$/\1/; s/ , /\n/g' | sed -E 's/^LNK100_/number /; s/[ ,]+$//; /^$/d'
  rest=$(sed -E "s/$struct//g; s/$enum//g; s/$call//g; s/ +/ /g; s/^ | \$//g" <<<"$body")
  [ "$rest" = 'extern "C" { }' ] || echo "beside the declarations, and not extern \"C\" { } alone: $rest"
}

in_rust() {
  local body
  body=$(text $wrapper)
  structs <<<"$body"
  grep -oE 'extern "C" \{[^}]*\}' <<<"$body" | sed -E 's/^extern "C" \{ //; s/ ; \}$//; s/ ; /\n/g' |
    sed -E 's/^pub (fn [a-z0-9_]+) (\(.*\) -> [A-Za-z]+)$/extern "C" \1 = \2/' | tidy
  grep -oE 'pub const [^=]* = [^;]*' <<<"$body" | grep -v '^pub const ANSWERS ' |
    sed -E 's/^pub const ([A-Z_]+) : [a-z0-9]+ = ([0-9_]+) $/const \1 = \2/; :next; s/([0-9])_([0-9]+)$/\1\2/; tnext'
  # a number that no answer has is "" there
  grep -oE 'pub const ANSWERS [^=]* = [^;]*' <<<"$body" | grep -oE '"[^"]*"' |
    awk '{ gsub(/"/, "") } $0 != "" { print "name " (NR - 1) " = " $0 }'
}

# Tells how the list of a file, on standard input, differs from the source's. Numbers are compared as texts: to C, 010 is not 10.
differences() { # FILE KIND: the kind of lines that the file does not have
  awk -v file="$1" '
    function told(what) { print file ": " what }
    { cut = index($0, " = "); key = cut ? substr($0, 1, cut - 1) : $0; what = cut ? substr($0, cut + 3) "" : "" }
    NR == FNR { if (key in source) told(key " stands in the Rattle source twice"); source[key] = what; order[++n] = key; next }
    key in seen { told(key " stands there twice"); next }
    { seen[key] }
    !(key in source) { told($0 "; the Rattle source has none"); next }
    source[key] "" != what "" { told($0 "; the Rattle source has " source[key]) }
    END { for (i = 1; i <= n; i++) if (!(order[i] in seen)) told("no " order[i] "; the Rattle source has " source[order[i]]) }
  ' <(grep -v "^$2 " <<<"$rattle") -
}

# The functions of a file of Rattle with all that stands ahead of their bodies, and the names that its clauses use. A function whose
# clauses have another form than 'WORD NAME { .. }', with no braces inside, has a line of its own that says so.
promised() { # FILE
  local body form='fn [a-z0-9_]+ \([^)]*\) -> [A-Za-z]+( (requires|ensures)\*?( [a-z_]+)? \{[^{}]*\})* \{'
  body=$(text "$1")
  grep -oE "$form" <<<"$body" | sed 's/ {$//'
  sed -E "s/$form//g" <<<"$body" | grep -oE '\bfn [a-z0-9_]+' | sed "s,$,: its clauses in $1 have a form that scripts/declarations.sh does not know,"
  used "$1" 'ghost use' | sed 's/^/ghost use /'
}

rattle=$(in_rattle)
count() { grep -cE "^($1)" <<<"$rattle"; } # KINDS
for kind in '#' extern const number name; do
  [ "$(count "$kind")" -gt 0 ] || { echo "declarations: the Rattle source gives no line that begins with $kind"; exit 1; }
done
apart=$(diff <(promised $calls | sort) <(promised $exports | sort) | sed -nE "s,^< ,only $calls has: ,p; s,^> ,only $exports has: ,p")
in_header=$(in_c | differences $header name) || exit
in_wrapper=$(in_rust | differences $wrapper number) || exit
if [ -n "$apart$in_header$in_wrapper" ]; then
  printf '%s\n' "$apart" "$in_header" "$in_wrapper" | grep .
  exit 1
fi
echo "declarations: $header and $wrapper agree with the Rattle source:" \
  "$(count '#') answers, $(count extern) calls, $(count 'const|number') constants, $(count name) names; and the exports with the library"
