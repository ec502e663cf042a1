#!/usr/bin/env bash
# Times the sources as they stand, with no proof, to see what a change is worth before it is proved.
#
#   scripts/unproved.sh          writes target/unproved/liblinker.a and runs the benchmark over it, with 61 calls for each row
#   scripts/unproved.sh --only   writes it, for scripts/compare.sh or a profile: LNK100_LIB=$PWD/target/unproved scripts/compare.sh
#
# `rt try` compiles a program unproved, with checks. So a program over all the calls is made in a copy of the crates, the kit's clang is
# watched for its module (scripts/watched-kit.sh), and in that the checks become empty, the calls are exported, and it is compiled as
# the proved library is. What the benchmark then says of `verified` is said of that: the code of the sources, but not quite the module that a
# proved library has, for a proof lets rt say more of it to LLVM.
set -eu
cd "$(dirname "$0")/.."
out=$PWD/target/unproved
mkdir -p "$out"
# outside of the checkout, in which rt ci allows no other .rt files
work=$(mktemp -d)
trap 'rm -rf "$work"' EXIT
scripts/watched-kit.sh "$work/kit" "$out/modules"

# the crates once more, with a program that makes all the calls
mkdir -p "$work/copy/crates/calls/src"
tar --exclude='crates/*/out' -cf - crates crates.txt | tar -C "$work/copy" -xf -
cd "$work/copy"
echo 'calls: linker' >> crates.txt
cat > crates/calls/src/main.rt <<'RT'
fn main(rt: HostRuntime) {
    let mut state = [0u64; linker::STATE_CELLS];
    let mut work = [0u64; linker::WORK_CELLS];
    let mut feed = [0u64; linker::FEED_CELLS];
    let mut out = [0u8; 64];
    let text: &[u8] = b"A";
    let a = linker::lnk100_load(&mut state, &mut work, text);
    let b = linker::lnk100_reset(&mut state);
    let c = linker::lnk100_base(&mut state, 0);
    let d = linker::lnk100_force(&mut state, text);
    let e = linker::lnk100_memory(&state);
    let f = linker::lnk100_symbols(&state, 0);
    let g = linker::lnk100_undefined(&state, 0);
    let h = linker::lnk100_end(&mut state, &mut out);
    let i = linker::lnk100_open(&mut feed);
    let j = linker::lnk100_feed(&mut feed, text);
    let k = linker::lnk100_close(&mut feed, &mut state, &mut work);
    let l = linker::lnk100_drop(&mut feed);
}
RT
(cd crates/calls && "$work/kit/bin/rt" try) > "$out/log" 2>&1 || { cat "$out/log"; exit 1; }

# the second module is the one with the checks; its words but those of a program that is tried
cd "$out"
clang=$(readlink -f "$work/kit/toolchain/lib")/../bin/clang
"$clang" --target=x86_64-unknown-linux-gnu -x ir modules/1.bc -S -emit-llvm -O0 -Xclang -disable-llvm-passes -o program.ll
sed -E '/^attributes #/s/sanitize_address "frame-pointer"="all"/"frame-pointer"="none"/' program.ll | awk '
  /^define / {
    skip = 0
    if (match($0, /@"rattle-(llvm-checks::|try::site-)[^"]*"\([^)]*\)/)) {
      print "define internal void " substr($0, RSTART, RLENGTH) " alwaysinline {\n  ret void\n}"
      skip = 1
    } else if ($0 ~ /@("calls::|main\(|__asan_)/) skip = 1
    else if (match($0, /@"linker::lnk100_[a-z]+"/)) {
      # to C an answer of more than two numbers is written where the first parameter points, and that pointer is what comes back
      name = substr($0, RSTART, RLENGTH)
      type = substr($0, 1, RSTART - 2); sub(/^define internal (noundef )?/, "", type)
      with = substr($0, RSTART + RLENGTH); sub(/ #[0-9]+ \{$/, "", with)
      export = name; gsub(/"|linker::/, "", export)
      if (type == "void") exports = exports "define ptr " export with " {\n  call void " name with "\n  ret ptr %a0\n}\n"
      else exports = exports "define " type " " export with " {\n  %r = call " type " " name with "\n  ret " type " %r\n}\n"
    }
  }
  !skip { print }
  /^}$/ { skip = 0 }
  END { printf "%s", exports }' > library.ll
words=$(sed -E 's/ -x ir module\.bc -o module\.o//; s/ -(fPIE|O0|fsanitize=address)\>//g' modules/1.words)
"$clang" $words -fPIC -O3 -x ir library.ll -o linker.o
rm -f liblinker.a
ar rcs liblinker.a linker.o
objcopy --set-section-alignment '.text.*=64' liblinker.a
[ "${1:-}" != --only ] || exit 0
cd ../../compare
LNK100_LIB=$out cargo run --offline --quiet --release --features library --bin bench -- 61
