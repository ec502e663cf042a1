#!/usr/bin/env bash
# Builds the static library and the C and the Rust examples over it, and holds what they print and write to the papers. They link
# document 01's MAIN and library (P1: rounds, P2: symbols, P3: the image) and the LNK100 manual's VCADD (source 000, Figure 4-3: the
# words). Then they must tell a file that is refused, with its number, line and column, one that cannot be read and one that cannot be
# written. `feed` besides has to tell a fault's advice while the file is still coming.
set -eu
cd "$(dirname "$0")/.."
mkdir -p target/examples
scripts/build.sh linker
for each in link feed; do
    gcc -std=c11 -Wall -Wextra -Werror -O2 -Iinclude "examples/$each.c" target/staticlib/liblinker.a -o "target/examples/${each}_c"
    rustc --edition 2021 -D warnings -O "examples/$each.rs" -o "target/examples/${each}_rust" -C link-arg=target/staticlib/liblinker.a
done

# How an example in a language ended and what it said must be what is wanted.
held() { # LANG ENDED STATUS
    [ "$2" = "$3" ] || { echo "examples: $example in $1 ended with $2 and not $3"; exit 1; }
    diff target/examples/wanted "target/examples/said.$1" || { echo "examples: $example in $1 does not say what is wanted (<)"; exit 1; }
}

# Runs the example in both languages, which must end with the status and print what standard input has. Theirs is $input.
example=link
input=/dev/null
both() { # STATUS IMAGE FILE ..
    status=$1 image=$2
    shift 2
    cat > target/examples/wanted
    for lang in c rust; do
        rm -f target/examples/image "target/examples/image.$lang"
        ended=0
        "target/examples/${example}_$lang" "$image" "$@" < "$input" > "target/examples/said.$lang" || ended=$?
        held "$lang" "$ended" "$status"
        [ ! -f target/examples/image ] || mv target/examples/image "target/examples/image.$lang"
    done
}

# Both images must be the bytes that standard input has in hex.
bytes() {
    tr -d ' \n' > target/examples/wanted
    for lang in c rust; do
        od -An -v -tx1 "target/examples/image.$lang" | tr -d ' \n' | cmp - target/examples/wanted
    done
}

# Document 01's P3.
main_image() {
    bytes <<'END'
57 0000 0001 0002 0003 0004
57 0001 0000 0000 0000 0002
57 0002 0000 0000 0000 0008
57 0003 0000 0000 0000 0006
57 0004 0007 0007 0007 0007
45 0004 0000
END
}

# MAIN has no library, so its load has no rounds.
both 0 target/examples/image examples/objects/MAIN.OBJ examples/objects/LIB.OBJ <<'END'
examples/objects/MAIN.OBJ: loaded, 0 rounds
examples/objects/LIB.OBJ: loaded, 3 rounds
MAIN   000000
SQ     000003
LOW    000004
target/examples/image: 60 bytes
END
main_image

# Eight words: 11 bytes for each, and 5.
both 0 target/examples/image examples/objects/VCADD.OBJ <<'END'
examples/objects/VCADD.OBJ: loaded, 0 rounds
VCADD  000000
target/examples/image: 93 bytes
END
{
    printf '57 %04x %04x %04x %04x %04x\n' 0 16384 0 0 48 1 16452 0 0 48 2 648 0 18948 0 3 576 0 0 48 \
        4 581 43008 256 48 5 653 32768 18948 0 6 584 429 0 112 7 0 224 0 0
    echo 45 0007 0000
} | bytes

# The first line of a C program is no header, for its first field is no code: MARKER, 20.
both 1 target/examples/image examples/link.c <<'END'
examples/link.c: refused by 20 at line 1, column 1
END
# An entry of MAIN twice: DUPLICATE, 13, at the TITLE line, as in docs/MANUAL.md.
both 1 target/examples/image examples/objects/MAIN.OBJ examples/objects/MAIN.OBJ <<'END'
examples/objects/MAIN.OBJ: loaded, 0 rounds
examples/objects/MAIN.OBJ: refused by 13 at line 1
END
both 1 target/examples/image examples <<'END'
examples: cannot be read
END
# Without the library SQ is undefined.
both 1 target/examples/none/image examples/objects/MAIN.OBJ <<'END'
examples/objects/MAIN.OBJ: loaded, 0 rounds
MAIN   000000
SQ     000000 U
target/examples/none/image: cannot be written
END
both 2 target/examples/image <<'END'
usage: link IMAGE FILE ..
END

# The same files in pieces, the library from standard input; and what is refused or cannot be read.
example=feed
input=examples/objects/LIB.OBJ
both 0 target/examples/image examples/objects/MAIN.OBJ - <<'END'
examples/objects/MAIN.OBJ: loaded, 0 rounds
-: loaded, 3 rounds
target/examples/image: 60 bytes
END
main_image
both 1 target/examples/image examples/link.c <<'END'
examples/link.c: advice 20 at line 1, column 1
examples/link.c: refused by 20 at line 1, column 1
END
# a DUPLICATE is no fault of reading
both 1 target/examples/image examples/objects/MAIN.OBJ examples/objects/MAIN.OBJ <<'END'
examples/objects/MAIN.OBJ: loaded, 0 rounds
examples/objects/MAIN.OBJ: refused by 13 at line 1
END
both 1 target/examples/image examples/objects/MAIN.OBJ examples <<'END'
examples/objects/MAIN.OBJ: loaded, 0 rounds
examples: cannot be read
END
both 1 target/examples/image target/examples/none <<'END'
target/examples/none: cannot be read
END
both 1 target/examples/none/image examples/objects/VCADD.OBJ <<'END'
examples/objects/VCADD.OBJ: loaded, 0 rounds
target/examples/none/image: cannot be written
END
both 2 target/examples/image <<'END'
usage: feed IMAGE FILE ..
END
# over 65,536 bytes, of which the first line has a fault: advice, then 5
{ echo '3 ***X'; yes '' | head -c 65536; } > target/examples/long
both 1 target/examples/image target/examples/long <<'END'
target/examples/long: advice 20 at line 1, column 3
target/examples/long: refused by 5 at line 0
END

# A FIFO, whose writer waits for the advice before it goes on.
cat > target/examples/wanted <<'END'
target/examples/reader: advice 18 at line 4, column 5
target/examples/reader: refused by 18 at line 4, column 5
END
for lang in c rust; do
    rm -f target/examples/reader
    mkfifo target/examples/reader
    "target/examples/feed_$lang" target/examples/image target/examples/reader > "target/examples/said.$lang" &
    feeder=$!
    exec 3> target/examples/reader
    printf '3 ***TITLE\nA\n0 1 0 ***CODE\n1 2 8' >&3
    sleep 0.2
    [ ! -s "target/examples/said.$lang" ] || { echo "examples: feed in $lang speaks before the line is whole"; exit 1; }
    printf ' 4\n' >&3
    for _ in $(seq 100); do
        [ -s "target/examples/said.$lang" ] && break
        sleep 0.1
    done
    [ -s "target/examples/said.$lang" ] || { echo "examples: feed in $lang gives no advice while the file comes"; exit 1; }
    printf '1 ***END\nA\n' >&3
    exec 3>&-
    ended=0
    wait "$feeder" || ended=$?
    held "$lang" "$ended" 1
done
echo "examples: C and Rust say what the papers give, and the images are document 01's P3 and source 000's Figure 4-3"
