/* link: links object files to an image, over the proved library.
 *
 *     link IMAGE FILE ..
 *
 * Loads the files in the order given, prints the table of symbols and writes the image. */
#include "lnk100.h"
#include <stdio.h>

static uint64_t state[LNK100_STATE_CELLS];
static uint64_t work[LNK100_WORK_CELLS];
static uint8_t file[LNK100_FILE_BYTES + 1]; /* one byte more, so that a file that is too long is refused and not cut */
static uint8_t image[LNK100_IMAGE_BYTES];

/* A column of 0 is none. */
static int refused(const char *what, uint64_t number, uint64_t line, uint64_t column)
{
    printf("%s: refused by %d at line %d", what, (int)number, (int)line);
    if (column)
        printf(", column %d", (int)column);
    printf("\n");
    return 0;
}

/* The file's length, or -1 where it cannot be read. */
static long read_file(const char *path)
{
    FILE *f = fopen(path, "rb");
    if (!f)
        return -1;
    size_t n = fread(file, 1, sizeof file, f);
    int failed = ferror(f);
    fclose(f);
    return failed ? -1 : (long)n;
}

static int load(const char *path)
{
    long n = read_file(path);
    if (n < 0) {
        printf("%s: cannot be read\n", path);
        return 0;
    }
    lnk100_load_answer a = lnk100_load(state, LNK100_STATE_CELLS, work, LNK100_WORK_CELLS, file, (size_t)n);
    if (a.number)
        return refused(path, a.number, a.line, a.column);
    printf("%s: loaded, %d rounds\n", path, (int)a.rounds);
    return 1;
}

/* A packed name, padded to six characters. */
static void print_name(uint64_t name)
{
    for (int shift = 40; shift >= 0; shift -= 8) {
        int c = (int)(name >> shift & 255);
        putchar(c ? c : ' ');
    }
}

static void print_symbols(void)
{
    for (uint64_t i = 0;; i++) {
        lnk100_symbol_answer s = lnk100_symbols(state, LNK100_STATE_CELLS, i);
        if (s.number || s.none)
            return;
        print_name(s.name);
        printf(" %06o%s\n", (unsigned)s.value, s.defined ? "" : " U");
    }
}

static int write_image(const char *path)
{
    lnk100_end_answer e = lnk100_end(state, LNK100_STATE_CELLS, image, sizeof image);
    if (e.number)
        return refused("END", e.number, e.line, 0);
    FILE *f = fopen(path, "wb");
    int written = f && fwrite(image, 1, e.length, f) == e.length;
    if (f && fclose(f))
        written = 0;
    if (!written) {
        printf("%s: cannot be written\n", path);
        return 0;
    }
    printf("%s: %d bytes\n", path, (int)e.length);
    return 1;
}

int main(int argc, char **argv)
{
    if (argc < 3) {
        printf("usage: link IMAGE FILE ..\n");
        return 2;
    }
    lnk100_reset(state, LNK100_STATE_CELLS);
    for (int i = 2; i < argc; i++)
        if (!load(argv[i]))
            return 1;
    print_symbols();
    return !write_image(argv[1]);
}
