#!/usr/bin/env bash
# Profiles the rows of the benchmark by callgrind: the instructions of one call of the verified library, by function, and those of
# the Rust linker. Numbers and not times, so that a busy machine does not matter.
#
#   scripts/profile.sh            the rows and their numbers
#   scripts/profile.sh ROW ...    these rows
#   scripts/profile.sh --crates   all rows in one Markdown table, by crate
#
# As built, nearly everything is inlined into the calls. So the LLVM module that `rt lib` hands to clang is compiled once
# more, with the same words, with the functions of KEPT left out of line; that is about a tenth more instructions. The kit's clang is
# watched for the module (scripts/watched-kit.sh). memset and memcpy count an instruction a byte (`rep stosb`).
set -eu
cd "$(dirname "$0")/.."
KEPT='soundness::memory::check|feed::memory::check|soundness::cells::(names_differ|symbols_sound|words_sound|zero_between)
|reading::read_lines|runs::(read_records|usual_line)|reading::fill::add_part|text::lines::next_line|line::(line_answer|fields_say|shape_line|test_bytes)|line::fitting::fit
|line::fields::(read_field|field_at|name_at|bounded_at)|line::records::(code_line|plain_line|linked_line)|line::named::(name_alone|entry_line)|line::headers::(block_line|header_line)|steps::lines::step_of
|line_reader::\w+|usual::(usual_word|plain_word)|walking::walk|index::(make|add_module|seek)|search::rounds::\w+|search::candidates::mark_undefined|search::modules::is_needed
|search::visits::visit_module|order::(seek|insert|make)|state::words::high|placing::(place|place_row)|placing::tests::(survey|bad_arguments|out_of_range)|placing::names::duplicates
|placing::symbols::(enter|mention_all)|placing::words::(lay|link)|image::(image_length|write_image|Output::put_words)|loading::(walk_file|load_file)'

out=$PWD/target/profile
bench() { (cd compare && LNK100_LIB="$1" CARGO_TARGET_DIR="$out/cargo-$2" cargo build --offline --quiet --release --features library --bin bench); }

mkdir -p "$out/lib"
scripts/build.sh linker
bench "$PWD/target/staticlib" built
built=$out/cargo-built/release/bench
if [ $# -eq 0 ]; then exec "$built" --rows; fi

# outside of the checkout, in which rt ci allows no other .rt files
kit=$(mktemp -d)
trap 'rm -rf "$kit"' EXIT
scripts/watched-kit.sh "$kit/kit" "$out/modules"
(cd crates/linker_c && "$kit/kit/bin/rt" lib --cpu x86-64) > "$out/log" 2>&1 || { cat "$out/log"; exit 1; }

clang=$(readlink -f "$kit/kit/toolchain/lib")/../bin/clang
"$clang" --target=x86_64-unknown-linux-gnu -x ir "$out/modules/0.bc" -S -emit-llvm -O0 -Xclang -disable-llvm-passes -o "$out/module.ll"
kept=$(printf %s "$KEPT" | tr -d '\n')
sed -E "/^define .*@\"($kept)\"\(/s/ #0 / noinline #0 /" "$out/module.ll" > "$out/apart.ll"
"$clang" $(sed 's/ -x ir module\.bc -o module\.o//' "$out/modules/0.words") -x ir "$out/apart.ll" -o "$out/apart.o"
rm -f "$out/lib/liblinker.a"
ar rcs "$out/lib/liblinker.a" "$out/apart.o"
bench "$out/lib" apart
apart=$out/cargo-apart/release/bench

# instructions of one call as built: two plays less one
counted() { valgrind --tool=callgrind --callgrind-out-file=/dev/null "$built" --play "$@" 2>&1 | sed -n 's/.*Collected : //p'; }
one_call() { echo $(($(counted "$1" "$2" 2) - $(counted "$1" "$2" 1))); }
# instructions of one call by function: a number and a name to a line, the total first
by_function() {
    valgrind --tool=callgrind --callgrind-out-file="$out/row" --toggle-collect=lnk100_load --toggle-collect=lnk100_force --toggle-collect=lnk100_end \
        --toggle-collect=lnk100_memory "$apart" --play "$1" verified > "$out/log" 2>&1
    callgrind_annotate --threshold=100 "$out/row" 2> /dev/null | grep -E '^ *[0-9,]+ \(' \
        | sed -E 's/ \[.*//; s/\?\?\?://; s,[^ ]*/,,; s/^ *([0-9,]+) \([^)]*\) +/\1 /; s/,//g; s/PROGRAM TOTALS/total/; s/ .*(memset|memcpy|memmove).*/ memory::functions/'
}

if [ "$1" = --crates ]; then
    echo "| | verified | Rust | by crate |"
    echo "|---|--:|--:|---|"
    "$built" --rows | while read -r row label; do
        crates=$(by_function "$row" | awk '
            $2 == "total" { all = $1; next }
            { split($2, part, "::"); sum[part[1] ~ /^(lnk100_|linker)/ ? "linker" : part[1]] += $1 }
            END { for (name in sum) if (sum[name] * 100 >= all) printf "%d %s\n", sum[name] * 100 / all, name }' | sort -rn \
            | awk '{ printf "%s%s %d%%", (NR == 1 ? "" : ", "), ($2 == "memory" ? "memset and memcpy" : $2), $1 }')
        echo "| $label | $(($(one_call "$row" verified) / 1000)) k | $(($(one_call "$row" rust) / 1000)) k | $crates |"
    done
    exit
fi

for row in "$@"; do
    "$built" --rows | sed -n "$((row + 1))p"
    for who in verified rust; do
        echo "    $who, as built: $(one_call "$row" $who) instructions, the copy of the state before the call among them"
    done
    by_function "$row" | awk '$2 == "total" { all = $1 } $1 * 200 >= all { printf "%12d %5.1f%%  %s\n", $1, $1 * 100 / all, $2 }'
done
