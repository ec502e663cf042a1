/* lnk100.h: the proved linker's calls, for C and C++. docs/MANUAL.md has the files, the answers and the image.
 *
 *     scripts/build.sh linker                                        proves and writes the library, for x86-64 Linux
 *     cc -Iinclude examples/link.c target/staticlib/liblinker.a      a whole program over it
 *
 * A link is: lnk100_reset, lnk100_load for each file in order, lnk100_end. For a file that comes in pieces, off a slow reader,
 * lnk100_open, lnk100_feed for each piece and lnk100_close stand in place of lnk100_load (examples/feed.c).
 *
 * Memory is the caller's; the library has no heap and keeps nothing between calls. State memory holds one link from lnk100_reset on;
 * work memory is needed during a load or a close alone. Feed memory holds one file from lnk100_open to its close or drop: fill it with
 * zeros before its first lnk100_open. Every length counts elements: cells of state, work and feed memory, bytes of the rest.
 *   - Any content is allowed: state memory that holds no sound state is told as 2 and not used, and so is feed memory that is neither
 *     zero nor what lnk100_open and lnk100_feed left; nothing outside what is lent is read or written. A copy of state memory is the
 *     same link, and one of feed memory the same file, so both may be saved and taken back.
 *   - The memories lent to one call must not overlap, and nobody may write them while it runs. A pointer may be null where its length
 *     is 0. Calls on different memory may run at the same time.
 *   - lnk100_load needs 340 KB of stack, lnk100_close 410 KB, lnk100_feed 75 KB, each other call 9 KB (rounded up from what was
 *     measured with an older kit: docs/PERFORMANCE.md).
 *
 * Answers. `number` is 0 (LNK100_DONE) or tells why the call was refused. In a refused answer every field but `number`, `line` and
 * `column` is 0: test `number` first. `line` is the file's line, from 1, where lnk100_load or lnk100_close is refused by 6 to 14 or 17
 * to 21, and else 0. `column` is the line's byte, from 1, where it is refused by a fault of the line itself, 6 or 17 to 21, and else 0:
 * the first byte of the faulty field (18 to 21), the first byte of the first field too many or one past the line's last byte where one
 * is missing (17), the illegal byte, or 81 where the line is too long (6). Of several faults of a line the leftmost is told. In what
 * lnk100_feed answers, `line` and `column` are those of its `advice`.
 *
 * Each call's answer, and every lent cell and byte afterwards, is what the call's definition in crates/rules/specs, Calls.antt or
 * Feed.antt, gives: that is proved of the functions that these declarations name. scripts/declarations.sh, with which the gate begins, holds the text of
 * the declarations and constants to the Rattle source: fields and parameters in order with their names and types, and each number.
 * What follows for a caller, in a caller's words, is proved of small programs over these calls: crates/customers. */
#ifndef LNK100_H
#define LNK100_H

#include <stddef.h>
#include <stdint.h>

#ifdef __cplusplus
extern "C" {
#endif

#define LNK100_STATE_CELLS 8708  /* the length of state memory, in uint64_t */
#define LNK100_WORK_CELLS 65536  /* the length of work memory, in uint64_t */
#define LNK100_FEED_CELLS 8193   /* the length of feed memory, in uint64_t */
#define LNK100_FILE_BYTES 65536  /* the longest file that a load takes */
#define LNK100_PIECE_BYTES 512   /* the longest piece that a feed takes */
#define LNK100_IMAGE_BYTES 45061 /* the longest image: 11 bytes for each of 4,096 words, and 5 */
#define LNK100_NO_ADDRESS 65535  /* in `high` and `highest`: there is none */

enum {
    LNK100_DONE = 0,
    LNK100_BUFFER = 1,     /* state, work or feed memory hasn't its fixed length */
    LNK100_DAMAGED = 2,    /* state memory holds no sound state; lnk100_reset makes one. Or feed memory is unsound; zeros mend it */
    LNK100_RESET = 3,      /* broken: an earlier load was refused for its file; only lnk100_reset goes on */
    LNK100_FROZEN = 4,     /* lnk100_end was done; only lnk100_reset goes on */
    LNK100_TOO_LONG = 5,   /* the file has over 65,536 bytes */
    LNK100_LINE = 6,       /* a line has over 80 bytes, or one that is not 32 to 126 */
    LNK100_PLACE = 7,      /* a block stands where it may not, END's title differs, or the file ends inside something */
    LNK100_LIST = 8,       /* a module's 65th entry or external, a library's 257th module */
    LNK100_ROOM = 9,       /* a module reaches past address 4,095 */
    LNK100_OVERLAP = 10,   /* a word would be placed twice */
    LNK100_ARG = 11,       /* a code word names external 0, or one beyond the module's externals */
    LNK100_RANGE = 12,     /* a relocated entry over 65,535; lnk100_base over 4,095 */
    LNK100_DUPLICATE = 13, /* a second entry of one name */
    LNK100_TABLE = 14,     /* over 256 symbols */
    LNK100_NAME = 15,      /* lnk100_force of what is no name */
    LNK100_OUT = 16,       /* the output is shorter than the image */
    LNK100_FIELDS = 17,    /* a line has a field too many or too few */
    LNK100_NUMBER = 18,    /* a field is no number of one to six octal digits up to 177777; a size over 7 in block 12 */
    LNK100_SYMBOL = 19,    /* a field is no name */
    LNK100_MARKER = 20,    /* a header's marker is not its code's, or its code is unknown or no number */
    LNK100_TYPE = 21,      /* a relocation type not 1 to 5, the number before it not 0, an entry type not 0 or 1 */
    LNK100_FEED = 23       /* a piece over 512 bytes; an open where a file is open; a piece, close or drop where none is */
};

typedef struct { uint64_t number, line, column, rounds; } lnk100_load_answer;
typedef struct { uint64_t number, advice, line, column; } lnk100_feed_answer;
typedef struct { uint64_t number, line; } lnk100_call_answer;
typedef struct { uint64_t number, line, high; } lnk100_memory_answer;
typedef struct { uint64_t number, line, none, name, value, defined; } lnk100_symbol_answer;
typedef struct { uint64_t number, line, none, name, value, defined, highest; } lnk100_undefined_answer;
typedef struct { uint64_t number, line, length; } lnk100_end_answer;

/* Makes the fresh state, whatever state memory held: no symbols, no words, next address 0, neither broken nor frozen.
 * Refused by 1; then the memory is as it was. */
lnk100_call_answer lnk100_reset(uint64_t *state, size_t state_len);

/* Reads the whole file, then places its free modules and, of its libraries, the modules that define what is undefined, in file order
 * from the next address on. `rounds` is how many times libraries were gone through, the last time of each in vain.
 * Refused by 1 to 14 and 17 to 21, the last with 6 for a fault of a line, whose column is told too. A load refused by 6 to 14 or 17 to
 * 21 leaves the state as it was but for the broken mark; by 1 to 5, wholly as it was.
 * Work memory of its fixed length is zero afterwards, refused or not; of another length it is untouched. The file is not kept. */
lnk100_load_answer lnk100_load(uint64_t *state, size_t state_len, uint64_t *work, size_t work_len, const uint8_t *file, size_t file_len);

/* A load in pieces. Each of these four tests feed memory ahead of everything else: its length, 1; that it is sound, 2; and what the call
 * asks of it, 23. Where one of these three refuses, feed memory is as it was. No state is asked for before the close. */

/* Opens a file that is to come, of no bytes so far. Refused by 1, 2, and 23 where one is open. */
lnk100_call_answer lnk100_open(uint64_t *feed, size_t feed_len);

/* Adds a piece of 0 to 512 bytes to the open file; lines may begin and end anywhere in it. The first fault that reading the file will
 * find, 6 to 8 or 17 to 21, is told early: `advice` is its number, with `line` and `column` as a load would tell it, in the answer to
 * the piece that brings the LF of the fault's line. In every other answer the three are 0. Advice refuses nothing: `number` is 0, and
 * more pieces may come. lnk100_close is then refused by that fault, unless it is refused by 1 to 5.
 * A fault of a last line that has no LF, a file that ends too soon, and 9 to 14 are told by the close alone. Once the file has over 65,536
 * bytes, none of them is kept and nothing more is advised: the close is refused by 5, unless by 1 to 4.
 * Refused by 1, 2, and 23 for a longer piece or where no file is open. */
lnk100_feed_answer lnk100_feed(uint64_t *feed, size_t feed_len, const uint8_t *piece, size_t piece_len);

/* Loads what was fed: the answer, state memory and work memory are those of lnk100_load of all the pieces joined, from the state that
 * is lent now. Feed memory is zero afterwards, whether the load is done or refused.
 * Refused ahead of that by 1, 2, and 23 where no file is open; then feed and state memory are as they were. Work memory of its fixed
 * length is zero afterwards all the same. */
lnk100_load_answer lnk100_close(uint64_t *feed, size_t feed_len, uint64_t *state, size_t state_len, uint64_t *work, size_t work_len);

/* Forgets what was fed, and makes feed memory zero. Refused by 1, 2, and 23 where no file is open. */
lnk100_call_answer lnk100_drop(uint64_t *feed, size_t feed_len);

/* Puts a name, 1 to 6 of A to Z, 0 to 9, `$` and `.` and the first a letter, into the table as an undefined symbol, so that a library's
 * module is taken for it. DONE without change where the table has the name, defined or not.
 * Refused by 1 to 4, then 15, then 14; then the state is as it was. */
lnk100_call_answer lnk100_force(uint64_t *state, size_t state_len, const uint8_t *name, size_t name_len);

/* Sets the next address, 0 to 4,095, and changes nothing else. Refused by 1 to 4, then 12; then the state is as it was. */
lnk100_call_answer lnk100_base(uint64_t *state, size_t state_len, uint64_t address);

/* `high` is HIGH, the highest address that holds a placed word, wherever the next address is, and 65,535 where no word is placed. END
 * writes the same number. Refused by 1 and 2. Changes nothing, and works on broken and frozen states. */
lnk100_memory_answer lnk100_memory(const uint64_t *state, size_t state_len);

/* The symbol at an index from 0, in the order in which names were first met: `value` is 0 to 65,535, `defined` 1, or both are 0. Past
 * the last symbol, at any index, `none` is 1 and the rest 0. `name` is the six bytes of the name in base 256, the first byte highest,
 * 0 for each that the name lacks: byte i is name >> (40 - 8 * i) & 255.
 * Refused by 1 and 2 (`none` is 0 then too). Changes nothing, and works on broken and frozen states. */
lnk100_symbol_answer lnk100_symbols(const uint64_t *state, size_t state_len, uint64_t index);

/* The same over the undefined symbols alone, whose `value` and `defined` are 0. `highest` is the highest address whose word refers to
 * the symbol, 65,535 where none does. */
lnk100_undefined_answer lnk100_undefined(const uint64_t *state, size_t state_len, uint64_t index);

/* Writes the image to the front of the output, keeps every byte past it, and freezes the state. `length` is the image's, in bytes. May
 * be repeated, and gives the same image. Undefined symbols refuse nothing: each counts as 0 in the words that refer to it, and the
 * image's last two bytes count them. Refused by 1, 2, 3 and 16; then neither output nor state changes. */
lnk100_end_answer lnk100_end(uint64_t *state, size_t state_len, uint8_t *out, size_t out_len);

#ifdef __cplusplus
}
#endif

#endif
