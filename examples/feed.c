/* feed: links object files that come slowly to an image, over the proved library.
 *
 *     feed IMAGE FILE ..
 *
 * Each file, which may be a reader's device, a FIFO or - for standard input, is read in pieces as they come. A fault in it is told as
 * soon as its line is there, while the reader still runs; what the load comes to is told at the end of the file. */
#include "lnk100.h"
#include <fcntl.h>
#include <stdio.h>
#include <string.h>
#include <unistd.h>

static uint64_t state[LNK100_STATE_CELLS];
static uint64_t work[LNK100_WORK_CELLS];
static uint64_t feed[LNK100_FEED_CELLS]; /* zero, as feed memory has to be before its first open */
static uint8_t image[LNK100_IMAGE_BYTES];

/* A column of 0 is none. It is told at once, also into a pipe. */
static int tell(const char *path, const char *what, uint64_t number, uint64_t line, uint64_t column)
{
    printf("%s: %s %d at line %d", path, what, (int)number, (int)line);
    if (column)
        printf(", column %d", (int)column);
    printf("\n");
    fflush(stdout);
    return 0;
}

/* Feeds what comes to the end of the file; 0 where a read fails. A feed that refused a piece would refuse the close too. */
static int feed_all(const char *path, int fd)
{
    uint8_t piece[LNK100_PIECE_BYTES];
    ssize_t n;
    while ((n = read(fd, piece, sizeof piece)) > 0) {
        lnk100_feed_answer a = lnk100_feed(feed, LNK100_FEED_CELLS, piece, (size_t)n);
        if (a.advice)
            tell(path, "advice", a.advice, a.line, a.column);
    }
    return n == 0;
}

/* Opens the file and feeds it; 0 where it cannot be opened, or not be read to its end. */
static int feed_file(const char *path)
{
    if (!strcmp(path, "-"))
        return feed_all(path, STDIN_FILENO);
    int fd = open(path, O_RDONLY);
    if (fd < 0)
        return 0;
    int whole = feed_all(path, fd);
    close(fd);
    return whole;
}

static int load(const char *path)
{
    lnk100_open(feed, LNK100_FEED_CELLS);
    if (!feed_file(path)) {
        lnk100_drop(feed, LNK100_FEED_CELLS);
        printf("%s: cannot be read\n", path);
        return 0;
    }
    lnk100_load_answer a = lnk100_close(feed, LNK100_FEED_CELLS, state, LNK100_STATE_CELLS, work, LNK100_WORK_CELLS);
    if (a.number)
        return tell(path, "refused by", a.number, a.line, a.column);
    printf("%s: loaded, %d rounds\n", path, (int)a.rounds);
    return 1;
}

static int write_image(const char *path)
{
    lnk100_end_answer e = lnk100_end(state, LNK100_STATE_CELLS, image, sizeof image);
    if (e.number)
        return tell("END", "refused by", e.number, e.line, 0);
    FILE *f = fopen(path, "wb");
    int written = f && fwrite(image, 1, e.length, f) == e.length;
    if (f && fclose(f))
        written = 0;
    if (!written) {
        printf("%s: cannot be written\n", path);
        return 0;
    }
    printf("%s: %d bytes\n", path, (int)e.length);
    return 1;
}

int main(int argc, char **argv)
{
    if (argc < 3) {
        printf("usage: feed IMAGE FILE ..\n");
        return 2;
    }
    lnk100_reset(state, LNK100_STATE_CELLS);
    for (int i = 2; i < argc; i++)
        if (!load(argv[i]))
            return 1;
    return !write_image(argv[1]);
}
