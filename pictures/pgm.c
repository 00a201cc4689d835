/* Images in PGM files to sheets and back, sheets of masters, windows of sheets, sheets smoothed, two sheets joined, test images, and calibration cards.

   pgm to-sheet LEVELS QUOTA <in.pgm >out.sheet    P2 or P5, maxval up to 4095, of a height and a width that the library accepts
   pgm to-pgm [MAXVAL]       <in.sheet >out.pgm    P5; MAXVAL, 4095 where it is not given, is that of the original
   pgm master [MAXVAL]       <in.sheet >out.pgm    P5: what to-pgm gives, where no sample had to be rounded or held
   pgm window TOP LEFT HEIGHT WIDTH [MAXVAL] <in.sheet >out.pgm    P5: the window alone, which is what to-pgm gives there
   pgm smooth STEP [MAXVAL]  <in.sheet >out.pgm    P5: the image after one smoothing step, 0 to 255; 0 gives what to-pgm gives
   pgm join LEFT RIGHT       >out.sheet            the sheets of two neighbouring strips; LEFT and RIGHT are file names
   pgm columns FIRST COUNT   <in.pgm >out.pgm      a strip of an image up to 512 by 512: COUNT columns from FIRST on, which is 0 for the leftmost
   pgm test-image HEIGHT WIDTH START >out.pgm      P5, maxval 4095; START is 0 to 4294967295
   pgm cards STEP..          >out.pgm              P5, maxval 4095: for each covering a block that shows it by one to four rising steps

   A refusal is printed as the cutter prints it: `refusal`, then the number, and the exit status is 1. A file that is no PGM file is 9;
   a maxval over 4095 is 4. Their order is that of the cutter: 9 on the header, 1, 2, 9 on all that follows, 4, 7. To join, first the left
   sheet is read, then the right one, each with the refusals of a sheet; then come those of joining. A window that has no cell or reaches past the
   image is 17, a step over 255 is 19, and a sheet that is no master's is 20, all after those of a sheet. Steps of cards that are not one to four rising
   numbers up to 4095 are 21. */
#include "image.h"
#include "smoothed.h"
#include "tetrolet.h"

#include <stdlib.h>
#include <string.h>

#define MOST_BYTES ((size_t)1 << 24)

static int refuse(uint32_t number)
{
    printf("refusal\n%u\n", (unsigned)number);
    return 1;
}

static int use(void)
{
    fprintf(stderr, "use: pgm to-sheet LEVELS QUOTA <in.pgm >out.sheet\n     pgm to-pgm [MAXVAL] <in.sheet >out.pgm\n"
                    "     pgm master [MAXVAL] <in.sheet >out.pgm\n"
                    "     pgm window TOP LEFT HEIGHT WIDTH [MAXVAL] <in.sheet >out.pgm\n"
                    "     pgm smooth STEP [MAXVAL] <in.sheet >out.pgm\n"
                    "     pgm join LEFT RIGHT >out.sheet\n     pgm columns FIRST COUNT <in.pgm >out.pgm\n"
                    "     pgm test-image HEIGHT WIDTH START >out.pgm\n     pgm cards STEP.. >out.pgm\n");
    return 2;
}

/* A decimal argument of at most ten digits. */
static int argument(const char *s, unsigned long long *value)
{
    size_t n = strlen(s);
    if (n == 0 || n > 10 || strspn(s, "0123456789") != n)
        return 0;
    *value = strtoull(s, NULL, 10);
    return 1;
}

static int fail(const char *what)
{
    fprintf(stderr, "pgm: %s\n", what);
    return 2;
}

/* A plane and its coverings, with the lengths of both. */
struct strip {
    size_t height, width, levels, area, blocks;
    int64_t plane[TETROLET_MAX_AREA];
    uint8_t coverings[TETROLET_MAX_BLOCKS];
};

static struct strip strip, right, joined;
static uint16_t samples[TETROLET_MAX_AREA];
static int64_t numerators[TETROLET_MAX_AREA], scratch[TETROLET_MAX_AREA];
static uint8_t sheet[TETROLET_MAX_SHEET];

static int is_side(unsigned long long n)
{
    return n >= 4 && n <= 512 && (n & (n - 1)) == 0;
}

static int are_sides(unsigned long long height, unsigned long long width)
{
    return is_side(height) && is_side(width);
}

static int is_depth(unsigned long long height, unsigned long long width, unsigned long long levels)
{
    return levels >= 1 && levels <= 8 && height >> levels >= 2 && width >> levels >= 2;
}

static void set_sizes(struct strip *s, size_t height, size_t width, size_t levels)
{
    s->height = height;
    s->width = width;
    s->levels = levels;
    s->area = height * width;
    s->blocks = tetrolet_blocks(height, width, levels);
}

/* Prints the sheet of a strip. */
static int put_sheet(const struct strip *s)
{
    size_t length;
    uint32_t n = tetrolet_write(s->height, s->width, s->levels, s->plane, s->area, s->coverings, s->blocks, sheet, sizeof sheet, &length);
    if (n != 0)
        return refuse(n);
    if (fwrite(sheet, 1, length, stdout) != length || fflush(stdout) != 0)
        return fail("cannot write");
    return 0;
}

static int to_sheet(unsigned long long levels, unsigned long long quota)
{
    uint8_t *bytes;
    size_t length, left;
    struct pgm h;
    struct strip *s = &strip;
    if (!read_all(stdin, MOST_BYTES, &bytes, &length) || !pgm_header(bytes, length, &h))
        return refuse(TETROLET_TEXT);
    if (!are_sides(h.height, h.width))
        return refuse(TETROLET_SIDE);
    if (!is_depth(h.height, h.width, levels))
        return refuse(TETROLET_LEVELS);
    if (!pgm_samples(&h, samples))
        return refuse(TETROLET_TEXT);
    if (h.maxval > 4095)
        return refuse(TETROLET_SAMPLE);
    free(bytes);
    set_sizes(s, h.height, h.width, levels);
    uint32_t n = tetrolet_decompose(s->height, s->width, s->levels, samples, s->area, s->plane, s->area, s->coverings, s->blocks, scratch, s->area);
    if (n == 0)
        n = tetrolet_keep(s->height, s->width, s->levels, s->plane, s->area, quota, &left);
    if (n != 0)
        return refuse(n);
    return put_sheet(s);
}

/* Sets a strip to the height, the width and the levels that the second line of a sheet gives, where all are accepted; else to 0, and the library says
   why. */
static void take_sizes(const uint8_t *text, size_t length, struct strip *s)
{
    char head[64];
    unsigned h, w, l;
    size_t n = length < sizeof head - 1 ? length : sizeof head - 1;
    memcpy(head, text, n);
    head[n] = 0;
    if (sscanf(head, "height width levels\n%9u %9u %9u", &h, &w, &l) == 3 && are_sides(h, w) && is_depth(h, w, l))
        set_sizes(s, h, w, l);
    else
        set_sizes(s, 0, 0, 0);
}

/* Reads a sheet; gives the refusal. */
static uint32_t take_sheet(FILE *in, struct strip *s)
{
    uint8_t *bytes;
    size_t length;
    if (!read_all(in, MOST_BYTES, &bytes, &length))
        return TETROLET_TEXT;
    take_sizes(bytes, length, s);
    uint32_t n = tetrolet_read(bytes, length, s->plane, s->area, s->coverings, s->blocks, &s->height, &s->width, &s->levels);
    free(bytes);
    return n;
}

/* tetrolet_restore, or tetrolet_restore_master, which has the same parameters. */
typedef uint32_t restoring(size_t height, size_t width, size_t levels, const int64_t *plane, size_t plane_len, const uint8_t *coverings, size_t coverings_len,
                           int64_t *numerators, size_t numerators_len, uint16_t *samples, size_t samples_len, int64_t *scratch, size_t scratch_len);

static int to_pgm(restoring *restore, unsigned maxval)
{
    struct strip *s = &strip;
    uint32_t n = take_sheet(stdin, s);
    if (n == 0)
        n = restore(s->height, s->width, s->levels, s->plane, s->area, s->coverings, s->blocks, numerators, s->area, samples, s->area, scratch, s->area);
    if (n != 0)
        return refuse(n);
    if (!pgm_write(stdout, samples, s->height, s->width, maxval))
        return fail("cannot write");
    return 0;
}

/* Where the window does not fit its slice has no place, and the library says why. */
static int window(size_t top, size_t left, size_t height, size_t width, unsigned maxval)
{
    struct strip *s = &strip;
    size_t cells = height <= 512 && width <= 512 ? height * width : 0;
    uint32_t n = take_sheet(stdin, s);
    if (n == 0)
        n = tetrolet_window(s->height, s->width, s->levels, s->plane, s->area, s->coverings, s->blocks, top, left, height, width, samples, cells);
    if (n != 0)
        return refuse(n);
    if (!pgm_write(stdout, samples, height, width, maxval))
        return fail("cannot write");
    return 0;
}

static int smooth(uint64_t step, unsigned maxval)
{
    struct strip *s = &strip;
    uint32_t n = take_sheet(stdin, s);
    if (n == 0)
        n = tetrolet_smooth(s->height, s->width, s->levels, s->plane, s->area, s->coverings, s->blocks, step, numerators, s->area, scratch, s->area);
    if (n != 0)
        return refuse(n);
    smoothed_samples(numerators, s->area, s->levels, samples);
    if (!pgm_write(stdout, samples, s->height, s->width, maxval))
        return fail("cannot write");
    return 0;
}

/* Where the joined width is over 512 the joined strip has no room, and the library says why. */
static int join(const char *left_name, const char *right_name)
{
    FILE *left_file = fopen(left_name, "rb"), *right_file = fopen(right_name, "rb");
    if (left_file == NULL || right_file == NULL)
        return fail("cannot read");
    uint32_t n = take_sheet(left_file, &strip);
    if (n == 0)
        n = take_sheet(right_file, &right);
    if (n != 0)
        return refuse(n);
    if (strip.width <= 256)
        set_sizes(&joined, strip.height, 2 * strip.width, strip.levels);
    n = tetrolet_join(strip.height, strip.width, strip.levels, strip.plane, strip.area, strip.coverings, strip.blocks, right.height, right.width,
                      right.levels, right.plane, right.area, right.coverings, right.blocks, joined.plane, joined.area, joined.coverings,
                      joined.blocks);
    if (n != 0)
        return refuse(n);
    return put_sheet(&joined);
}

static int columns(unsigned long long first, unsigned long long count)
{
    uint8_t *bytes;
    size_t length;
    struct pgm h;
    if (!read_all(stdin, MOST_BYTES, &bytes, &length) || !pgm_header(bytes, length, &h))
        return refuse(TETROLET_TEXT);
    if (h.height > 512 || h.width > 512)
        return refuse(TETROLET_SIDE);
    if (!pgm_samples(&h, samples))
        return refuse(TETROLET_TEXT);
    free(bytes);
    if (count == 0 || first + count > h.width)
        return fail("no such columns");
    if (!pgm_write(stdout, samples + first * h.height, h.height, count, (unsigned)h.maxval))
        return fail("cannot write");
    return 0;
}

static int test_image(unsigned long long height, unsigned long long width, uint32_t start)
{
    size_t area = are_sides(height, width) ? height * width : 0;
    uint32_t n = tetrolet_test_image(height, width, start, samples, area);
    if (n != 0)
        return refuse(n);
    if (!pgm_write(stdout, samples, height, width, 4095))
        return fail("cannot write");
    return 0;
}

/* The steps of cards: room for one more than there may be, so that the library can say that there are too many. */
enum { STEPS = 5 };

/* Takes at most STEPS steps. One that is too large for its place is held to the largest, which is refused too. Gives 0 where an argument is no number. */
static int take_steps(char **arguments, int count, uint16_t *steps)
{
    unsigned long long v;
    for (int k = 0; k < count; k++) {
        if (!argument(arguments[k], &v))
            return 0;
        if (k < STEPS)
            steps[k] = (uint16_t)(v < UINT16_MAX ? v : UINT16_MAX);
    }
    return 1;
}

/* 16 blocks below each other, 8 beside each other: down columns, the k-th shows covering k. Where there is none, and in the 11 places that are left, the
   lowest step stays. */
static int cards(const uint16_t *steps, size_t count)
{
    const size_t height = 4 * 16, width = 4 * 8;
    for (size_t i = 0; i < height * width; i++)
        samples[i] = steps[0];
    for (size_t k = 0; k < 117; k++) {
        uint16_t block[16], *to = samples + k / 16 * 4 * height + k % 16 * 4;
        uint8_t found;
        uint32_t n = tetrolet_show((uint8_t)(k + 1), steps, count, block, 16, &found);
        if (n != 0)
            return refuse(n);
        for (size_t col = 0; col < 4 && found; col++)
            memcpy(to + col * height, block + 4 * col, 4 * sizeof *block);
    }
    if (!pgm_write(stdout, samples, height, width, 4095))
        return fail("cannot write");
    return 0;
}

int main(int argc, char **argv)
{
    uint16_t steps[STEPS] = { 0 };
    unsigned long long a = 0, b = 0, c = 0, d = 0, e = 4095;
    if (argc == 4 && !strcmp(argv[1], "to-sheet") && argument(argv[2], &a) && argument(argv[3], &b))
        return to_sheet(a, b);
    if ((argc == 2 || argc == 3) && !strcmp(argv[1], "to-pgm") && (argc == 2 || argument(argv[2], &e)) && e >= 1 && e <= 4095)
        return to_pgm(tetrolet_restore, (unsigned)e);
    if ((argc == 2 || argc == 3) && !strcmp(argv[1], "master") && (argc == 2 || argument(argv[2], &e)) && e >= 1 && e <= 4095)
        return to_pgm(tetrolet_restore_master, (unsigned)e);
    if ((argc == 6 || argc == 7) && !strcmp(argv[1], "window") && argument(argv[2], &a) && argument(argv[3], &b) && argument(argv[4], &c)
        && argument(argv[5], &d) && (argc == 6 || argument(argv[6], &e)) && e >= 1 && e <= 4095)
        return window(a, b, c, d, (unsigned)e);
    if ((argc == 3 || argc == 4) && !strcmp(argv[1], "smooth") && argument(argv[2], &a) && (argc == 3 || argument(argv[3], &e)) && e >= 1 && e <= 4095)
        return smooth(a, (unsigned)e);
    if (argc == 4 && !strcmp(argv[1], "join"))
        return join(argv[2], argv[3]);
    if (argc == 4 && !strcmp(argv[1], "columns") && argument(argv[2], &a) && argument(argv[3], &b))
        return columns(a, b);
    if (argc == 5 && !strcmp(argv[1], "test-image") && argument(argv[2], &a) && argument(argv[3], &b) && argument(argv[4], &c) && c <= UINT32_MAX)
        return test_image(a, b, (uint32_t)c);
    if (argc >= 2 && !strcmp(argv[1], "cards") && take_steps(argv + 2, argc - 2, steps))
        return cards(steps, argc - 2 < STEPS ? (size_t)argc - 2 : STEPS);
    return use();
}
