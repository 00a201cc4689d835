/* Checks that the library and the plain C of baseline.c agree, then times both. Prints the best of several runs of each
   entry, the ratio, also for strips and for a day of tiny sheets, how cost grows with the size, and the peak resident size. */
#define _GNU_SOURCE
#include "baseline.h"
#include "sixteen.h"
#include "tetrolet.h"

#include <stdio.h>
#include <stdlib.h>
#include <string.h>
#include <sys/wait.h>
#include <time.h>
#include <unistd.h>

#define RUNS 21

/* The tolerances of the rows: none, a small one, and the largest, with which nearly all coverings compete. */
#define TOLERANCES 3
static const uint64_t tolerances[TOLERANCES] = { 0, 16, 4095 };

/* The lists of the rows: all 117 coverings, which `main` writes down, and sixteen. */
#define LISTS 2
static uint8_t every[117];
static const struct {
    const uint8_t *numbers;
    size_t count;
} lists[LISTS] = { { every, sizeof every }, { sixteen, sizeof sixteen } };

static uint64_t seed = 88172645463325252u;

static uint64_t next(void)
{
    seed ^= seed << 13;
    seed ^= seed >> 7;
    seed ^= seed << 17;
    return seed;
}

static double now(void)
{
    struct timespec t;
    clock_gettime(CLOCK_MONOTONIC, &t);
    return (double)t.tv_sec + (double)t.tv_nsec * 1e-9;
}

static uint16_t samples[2][TETROLET_MAX_AREA], image[TETROLET_MAX_AREA], part[TETROLET_MAX_AREA];
static int64_t plane[2][TETROLET_MAX_AREA], numerators[2][TETROLET_MAX_AREA], scratch[2][TETROLET_MAX_AREA];
static uint8_t coverings[2][TETROLET_MAX_BLOCKS];
static uint8_t buffer[2][TETROLET_MAX_SHEET];

/* A random image: noise, noise over a slope, or a few flat values, so that ties occur. */
static void make_image(size_t height, size_t width, int kind)
{
    for (size_t x = 0; x < width; x++)
        for (size_t y = 0; y < height; y++) {
            size_t i = x * height + y;
            if (kind == 0)
                image[i] = (uint16_t)(next() % 4096);
            else if (kind == 1)
                image[i] = (uint16_t)(1000 + x * 1500 / width + y * 1000 / height + next() % 96);
            else
                image[i] = (uint16_t)(next() % 3 * 7);
        }
}

static void differ(const char *what, size_t height, size_t width, size_t levels)
{
    printf("%s differ at %zu by %zu with %zu levels\n", what, height, width, levels);
    exit(1);
}

static void check(int good, const char *what, size_t height, size_t width, size_t levels)
{
    if (!good)
        differ(what, height, width, levels);
}

/* Whether both join alike: the image as two strips, the left one cut to a quota. The joined strip must restore to the numerators of both, left then
   right. */
static void agree_joined(size_t height, size_t width, size_t levels)
{
    size_t area = height * width, blocks = tetrolet_blocks(height, width, levels), half = area / 2, part = blocks / 2, left;
    int64_t *p = scratch[0], *joined = plane[0], *n = numerators[0];
    uint8_t d[TETROLET_MAX_BLOCKS], *c = coverings[0];
    uint32_t a = 0, b;
    for (size_t k = 0; k < 2; k++) {
        a |= tetrolet_decompose(height, width / 2, levels, image + k * half, half, p + k * half, half, d + k * part, part, scratch[1], half);
        if (k == 0)
            a |= tetrolet_keep(height, width / 2, levels, p, half, half / 8, &left);
        a |= tetrolet_restore(height, width / 2, levels, p + k * half, half, d + k * part, part, n + k * half, half, samples[0], half, scratch[1], half);
    }
    check(a == 0, "strips", height, width, levels);
    a = tetrolet_join(height, width / 2, levels, p, half, d, part, height, width / 2, levels, p + half, half, d + part, part, joined, area, c, blocks);
    for (int form = 0; form < 2; form++) {
        b = base_join(form, height, width / 2, levels, p, half, d, part, height, width / 2, levels, p + half, half, d + part, part, plane[1], area,
                      coverings[1], blocks);
        check(a == 0 && b == 0 && !memcmp(joined, plane[1], area * sizeof *joined) && !memcmp(c, coverings[1], blocks), "joined strips", height,
              width, levels);
    }
    a = tetrolet_restore(height, width, levels, joined, area, c, blocks, numerators[1], area, samples[1], area, scratch[1], area);
    check(a == 0 && !memcmp(n, numerators[1], area * sizeof *n), "numerators of two strips and of the joined one", height, width, levels);
}

/* Windows of an image: 0 one cell, 1 to 3 squares, 4 all of it; not over its sides, and not at the corner where there is room. */
#define WINDOWS 5
struct window {
    size_t top, left, tall, wide;
};

static size_t side_of(int k, size_t most)
{
    static const size_t sides[WINDOWS] = { 1, 16, 64, 256, 512 };
    return sides[k] < most ? sides[k] : most;
}

static struct window window_of(int k, size_t height, size_t width)
{
    size_t tall = side_of(k, height), wide = side_of(k, width);
    struct window w = { 37 % (height - tall + 1), 91 % (width - wide + 1), tall, wide };
    return w;
}

/* Whether both restore windows alike, and as the restored image has them: those of the rows, and one at random. */
static void agree_windows(size_t height, size_t width, size_t levels, const int64_t *p, const uint8_t *c, const uint16_t *whole)
{
    size_t area = height * width, blocks = tetrolet_blocks(height, width, levels);
    for (int k = 0; k <= WINDOWS; k++) {
        struct window w = { next() % height, next() % width, 0, 0 };
        w.tall = 1 + next() % (height - w.top);
        w.wide = 1 + next() % (width - w.left);
        if (k < WINDOWS)
            w = window_of(k, height, width);
        size_t cells = w.tall * w.wide, same = 0;
        uint32_t a = tetrolet_window(height, width, levels, p, area, c, blocks, w.top, w.left, w.tall, w.wide, samples[1], cells);
        for (size_t n = 0; n < cells; n++)
            same += samples[1][n] == whole[(w.left + n / w.tall) * height + w.top + n % w.tall];
        check(a == 0 && same == cells, "window and image", height, width, levels);
        uint32_t b = base_window(height, width, levels, p, area, c, blocks, w.top, w.left, w.tall, w.wide, part, cells);
        check(b == 0 && !memcmp(samples[1], part, cells * sizeof *part), "windows", height, width, levels);
    }
}

/* Whether both smooth a plane alike: the step 0 gives 16 times its numerators. */
static void agree_smoothed(size_t height, size_t width, size_t levels, uint64_t step, const int64_t *p, const uint8_t *c, const int64_t *n)
{
    size_t area = height * width, blocks = tetrolet_blocks(height, width, levels), same = 0, bytes = area * sizeof(int64_t);
    int64_t *ours = plane[1], *theirs = numerators[1];
    uint32_t a = tetrolet_smooth(height, width, levels, p, area, c, blocks, step, ours, area, scratch[0], area);
    uint32_t b = base_smooth(height, width, levels, p, area, c, blocks, step, theirs, area, scratch[1], area);
    check(a == 0 && b == 0 && !memcmp(ours, theirs, bytes) && !memcmp(scratch[0], scratch[1], bytes), "smoothed planes", height, width, levels);
    for (size_t k = 0; k < area; k++)
        same += ours[k] == 16 * n[k];
    check(step > 0 || same == area, "a plane smoothed by 0 and its numerators", height, width, levels);
}

/* The slices that restoring changes: those lent to the C made like those lent to the library, and whether they are alike. */
static void lend_alike(size_t area)
{
    size_t bytes = area * sizeof(int64_t);
    memcpy(numerators[1], numerators[0], bytes);
    memcpy(samples[1], samples[0], area * sizeof(uint16_t));
    memcpy(scratch[1], scratch[0], bytes);
}

static int are_alike(size_t area)
{
    size_t bytes = area * sizeof(int64_t);
    return !memcmp(numerators[0], numerators[1], bytes) && !memcmp(samples[0], samples[1], area * sizeof(uint16_t))
           && !memcmp(scratch[0], scratch[1], bytes);
}

/* Whether both restore plane and coverings alike by a list, in which they need not stand. Gives the answer. */
static uint32_t agree_listed(size_t height, size_t width, size_t levels, const uint8_t *list, size_t count)
{
    size_t area = height * width, blocks = tetrolet_blocks(height, width, levels);
    lend_alike(area);
    uint32_t a = tetrolet_restore_listed(height, width, levels, plane[0], area, coverings[0], blocks, list, count, numerators[0], area, samples[0],
                                         area, scratch[0], area);
    uint32_t b = base_restore_listed(height, width, levels, plane[0], area, coverings[0], blocks, list, count, numerators[1], area, samples[1], area,
                                     scratch[1], area);
    check(a == b && are_alike(area), "restorations with a list", height, width, levels);
    return a;
}

/* Whether both restore plane and coverings alike as a master, which they need not be. Gives the answer. */
static uint32_t agree_master(size_t height, size_t width, size_t levels)
{
    size_t area = height * width, blocks = tetrolet_blocks(height, width, levels);
    lend_alike(area);
    uint32_t a = tetrolet_restore_master(height, width, levels, plane[0], area, coverings[0], blocks, numerators[0], area, samples[0], area, scratch[0],
                                         area);
    uint32_t b = base_restore_master(height, width, levels, plane[0], area, coverings[0], blocks, numerators[1], area, samples[1], area, scratch[1],
                                     area);
    check(a == b && are_alike(area), "restorations as a master", height, width, levels);
    return a;
}

/* Whether both give the same, through all entries. Gives whether two strips were joined too. */
static int agree(size_t height, size_t width, size_t levels, int kind)
{
    size_t area = height * width, blocks = tetrolet_blocks(height, width, levels), bytes = area * sizeof(int64_t);
    size_t left[2], length[2], h[2], w[2], l[2];
    uint64_t quota = next() % (area - (area >> 2 * levels) + 1), limit = next() % 64;
    uint64_t tolerance = limit * limit; /* not a random number of its own, so that the images stay those of earlier runs */
    uint32_t a, b;
    make_image(height, width, kind);
    for (int form = 0; form < 2; form++) {
        a = tetrolet_decompose_within(height, width, levels, tolerance, image, area, plane[0], area, coverings[0], blocks, scratch[0], area);
        b = base_decompose_within(form, height, width, levels, tolerance, image, area, plane[1], area, coverings[1], blocks, scratch[1], area);
        check(a == 0 && b == 0 && !memcmp(plane[0], plane[1], bytes) && !memcmp(coverings[0], coverings[1], blocks)
                  && !memcmp(scratch[0], scratch[1], bytes), "decompositions with a tolerance", height, width, levels);
        for (int k = 0; k < LISTS; k++) {
            a = tetrolet_decompose_listed(height, width, levels, tolerance, image, area, lists[k].numbers, lists[k].count, plane[0], area,
                                          coverings[0], blocks, scratch[0], area);
            b = base_decompose_listed(form, height, width, levels, tolerance, image, area, lists[k].numbers, lists[k].count, plane[1], area,
                                      coverings[1], blocks, scratch[1], area);
            check(a == 0 && b == 0 && !memcmp(plane[0], plane[1], bytes) && !memcmp(coverings[0], coverings[1], blocks)
                      && !memcmp(scratch[0], scratch[1], bytes), "decompositions by a list", height, width, levels);
            a = agree_listed(height, width, levels, lists[k].numbers, lists[k].count);
            check(a == 0 && !memcmp(image, samples[0], area * sizeof *image), "an image and its restoration", height, width, levels);
        }
        a = tetrolet_decompose(height, width, levels, image, area, plane[0], area, coverings[0], blocks, scratch[0], area);
        b = base_decompose(form, height, width, levels, image, area, plane[1], area, coverings[1], blocks, scratch[1], area);
        check(a == 0 && b == 0 && !memcmp(plane[0], plane[1], bytes) && !memcmp(coverings[0], coverings[1], blocks)
                  && !memcmp(scratch[0], scratch[1], bytes), "decompositions", height, width, levels);
    }
    a = agree_master(height, width, levels);
    check(a == 0 && !memcmp(image, samples[0], area * sizeof *image), "an image and its master", height, width, levels);
    a = tetrolet_keep(height, width, levels, plane[0], area, quota, left);
    b = base_keep(height, width, levels, plane[1], area, quota, left + 1);
    check(a == 0 && b == 0 && left[0] == left[1] && !memcmp(plane[0], plane[1], bytes), "kept planes", height, width, levels);
    a = tetrolet_threshold(height, width, levels, plane[0], area, limit, left);
    b = base_threshold(height, width, levels, plane[1], area, limit, left + 1);
    check(a == 0 && b == 0 && left[0] == left[1] && !memcmp(plane[0], plane[1], bytes), "cut planes", height, width, levels);
    a = tetrolet_write(height, width, levels, plane[0], area, coverings[0], blocks, buffer[0], TETROLET_MAX_SHEET, length);
    b = base_write(BASE_DIGITS, height, width, levels, plane[0], area, coverings[0], blocks, buffer[1], TETROLET_MAX_SHEET, length + 1);
    check(a == 0 && b == 0 && length[0] == length[1] && !memcmp(buffer[0], buffer[1], length[0]), "sheets", height, width, levels);
    b = base_write(BASE_PRINTF, height, width, levels, plane[0], area, coverings[0], blocks, buffer[1], TETROLET_MAX_SHEET, length + 1);
    check(b == 0 && length[0] == length[1] && !memcmp(buffer[0], buffer[1], length[0]), "printed sheets", height, width, levels);
    a = tetrolet_read(buffer[0], length[0], numerators[0], area, coverings[0], blocks, h, w, l);
    b = base_read(buffer[0], length[0], numerators[1], area, coverings[1], blocks, h + 1, w + 1, l + 1);
    check(a == 0 && b == 0 && h[0] == height && w[0] == width && l[0] == levels && h[1] == height && w[1] == width && l[1] == levels
              && !memcmp(plane[0], numerators[0], bytes) && !memcmp(plane[0], numerators[1], bytes) && !memcmp(coverings[0], coverings[1], blocks),
          "sheets read", height, width, levels);
    a = tetrolet_usage(coverings[0], blocks, buffer[0], TETROLET_MAX_USAGE, length);
    b = base_usage(coverings[0], blocks, buffer[1], TETROLET_MAX_USAGE, length + 1);
    check(a == 0 && b == 0 && length[0] == length[1] && !memcmp(buffer[0], buffer[1], length[0]), "usage lists", height, width, levels);
    a = tetrolet_restore(height, width, levels, plane[0], area, coverings[0], blocks, numerators[0], area, samples[0], area, scratch[0], area);
    b = base_restore(height, width, levels, plane[0], area, coverings[0], blocks, numerators[1], area, samples[1], area, scratch[1], area);
    check(a == 0 && b == 0 && are_alike(area), "restorations", height, width, levels);
    a = agree_listed(height, width, levels, sixteen, sizeof sixteen);
    check(a == 0 || a == TETROLET_UNLISTED, "answers with a list", height, width, levels);
    a = agree_master(height, width, levels);
    check(a == 0 || a == TETROLET_MASTER, "answers as a master", height, width, levels);
    agree_windows(height, width, levels, plane[0], coverings[0], samples[0]);
    agree_smoothed(height, width, levels, limit * 255 / 63, plane[0], coverings[0], numerators[0]);
    agree_smoothed(height, width, levels, 0, plane[0], coverings[0], numerators[0]);
    uint32_t start = (uint32_t)next();
    a = tetrolet_test_image(height, width, start, samples[0], area);
    b = base_test_image(height, width, start, samples[1], area);
    check(a == 0 && b == 0 && !memcmp(samples[0], samples[1], area * sizeof(uint16_t)), "test images", height, width, levels);
    if (width / 2 >> levels < 2)
        return 0;
    agree_joined(height, width, levels);
    return 1;
}

/* The steps of the blocks that show a covering. */
static const uint16_t steps[4] = { 0, 1365, 2730, 4095 };

/* Whether both show each covering alike, with one to four steps. Gives how often there is a block. */
static size_t agree_shown(void)
{
    size_t shown = 0;
    for (size_t count = 1; count <= 4; count++)
        for (uint8_t covering = 1; covering <= 117; covering++)
            for (int form = 0; form < 2; form++) {
                uint8_t found[2] = { 2, 2 };
                uint16_t block[2][16] = { { 0 } };
                uint32_t a = tetrolet_show(covering, steps, count, block[0], 16, found);
                uint32_t b = base_show(form, covering, steps, count, block[1], 16, found + 1);
                check(a == 0 && b == 0 && found[0] == found[1] && !memcmp(block[0], block[1], sizeof *block), "shown blocks", 4, 4, 1);
                shown += form == 0 && found[0];
            }
    return shown;
}

/* Takes the time of one call, in milliseconds, where it is the best so far. */
#define TIME(best, call)                           \
    do {                                           \
        double start_ = now();                     \
        if ((call) != 0)                           \
            abort();                               \
        double took_ = (now() - start_) * 1e3;     \
        if ((best) == 0 || took_ < (best))         \
            (best) = took_;                        \
    } while (0)

/* Planes that are restored as masters: 0 the uncut one; 1 and 2 with one W of level 1 changed, in the last block or in the first, so that no other block
   is a reason to refuse them. */
#define MASTERS 3
static const char *const master_names[MASTERS] = { "master", "20 at last", "20 at first" };

static void make_master(int k, const int64_t *uncut, int64_t *to, size_t area)
{
    memcpy(to, uncut, area * sizeof *to);
    if (k > 0)
        to[k == 1 ? area - 1 : area / 2]++;
}

struct times {
    double decompose, straight, shared, within[TOLERANCES], within_straight[TOLERANCES], within_shared[TOLERANCES];
    double listed[LISTS], listed_straight[LISTS], listed_shared[LISTS];
    double restore_listed, base_restore_listed, restore_sixteen; /* of the plane by sixteen: with the list, and without it */
    double restore, base_restore, keep, base_keep, write, digits, printed, read, base_read, usage, base_usage, test, base_test, join, base_join[2];
    double window[WINDOWS], base_window[WINDOWS];
    double kept_write, kept_digits, kept_read, kept_base_read, smooth, base_smooth; /* of the plane that keep leaves */
    double master[MASTERS], base_master[MASTERS], lenient; /* lenient: the library's ordinary restoring beside them */
};

/* The best of several rounds. Each round has one call of each entry, so that a busy machine hits all alike. Joined are the two halves of the image, with
   one level less where their width asks for it. */
static struct times measure(size_t height, size_t width, size_t levels)
{
    struct times t = { 0 };
    size_t area = height * width, blocks = tetrolet_blocks(height, width, levels), bytes = area * sizeof(int64_t), left, length, rows, columns, l;
    size_t half = area / 2, deep = width / 2 >> levels < 2 ? levels - 1 : levels, part = tetrolet_blocks(height, width / 2, deep);
    make_image(height, width, 1);
    for (int run = 0; run < RUNS; run++) {
        int64_t *p = plane[0], *q = plane[1], *n = numerators[0], *w = scratch[0];
        uint8_t *c = coverings[0], *d = coverings[1], *text = buffer[0];
        for (int k = 0; k < TOLERANCES; k++) {
            uint64_t near = tolerances[k];
            TIME(t.within_straight[k], base_decompose_within(BASE_STRAIGHT, height, width, levels, near, image, area, p, area, c, blocks, w, area));
            TIME(t.within_shared[k], base_decompose_within(BASE_SHARED, height, width, levels, near, image, area, p, area, c, blocks, w, area));
            TIME(t.within[k], tetrolet_decompose_within(height, width, levels, near, image, area, p, area, c, blocks, w, area));
        }
        for (int k = 0; k < LISTS; k++) {
            const uint8_t *list = lists[k].numbers;
            size_t count = lists[k].count;
            TIME(t.listed_straight[k], base_decompose_listed(BASE_STRAIGHT, height, width, levels, 0, image, area, list, count, p, area, c, blocks, w, area));
            TIME(t.listed_shared[k], base_decompose_listed(BASE_SHARED, height, width, levels, 0, image, area, list, count, p, area, c, blocks, w, area));
            TIME(t.listed[k], tetrolet_decompose_listed(height, width, levels, 0, image, area, list, count, p, area, c, blocks, w, area));
        }
        for (int k = 0; k < 4; k++) /* what goes before a call is worth more than the list, so the order turns round in every other run */
            switch ((run & 1 ? 3 - k : k) % 3) {
            case 0:
                TIME(t.base_restore_listed, base_restore_listed(height, width, levels, p, area, c, blocks, sixteen, 16, n, area, samples[0], area, w, area));
                break;
            case 1:
                TIME(t.restore_listed, tetrolet_restore_listed(height, width, levels, p, area, c, blocks, sixteen, 16, n, area, samples[0], area, w, area));
                break;
            default:
                TIME(t.restore_sixteen, tetrolet_restore(height, width, levels, p, area, c, blocks, n, area, samples[0], area, w, area));
            }
        TIME(t.straight, base_decompose(BASE_STRAIGHT, height, width, levels, image, area, p, area, c, blocks, w, area));
        TIME(t.shared, base_decompose(BASE_SHARED, height, width, levels, image, area, p, area, c, blocks, w, area));
        TIME(t.decompose, tetrolet_decompose(height, width, levels, image, area, p, area, c, blocks, w, area));
        TIME(t.base_restore, base_restore(height, width, levels, p, area, c, blocks, n, area, samples[0], area, w, area));
        TIME(t.restore, tetrolet_restore(height, width, levels, p, area, c, blocks, n, area, samples[0], area, w, area));
        for (int k = 0; k < WINDOWS; k++) {
            struct window v = window_of(k, height, width);
            size_t cells = v.tall * v.wide;
            TIME(t.base_window[k], base_window(height, width, levels, p, area, c, blocks, v.top, v.left, v.tall, v.wide, samples[0], cells));
            TIME(t.window[k], tetrolet_window(height, width, levels, p, area, c, blocks, v.top, v.left, v.tall, v.wide, samples[0], cells));
        }
        for (int k = 0; k < MASTERS; k++) {
            uint32_t answer = k == 0 ? 0 : TETROLET_MASTER;
            make_master(k, p, q, area);
            for (int turn = 0; turn < 4; turn++) /* the order turns round, as with the list */
                switch ((run & 1 ? 3 - turn : turn) % 3) {
                case 0:
                    TIME(t.base_master[k], answer != base_restore_master(height, width, levels, q, area, c, blocks, n, area, samples[0], area, w, area));
                    break;
                case 1:
                    TIME(t.master[k], answer != tetrolet_restore_master(height, width, levels, q, area, c, blocks, n, area, samples[0], area, w, area));
                    break;
                default:
                    TIME(t.lenient, tetrolet_restore(height, width, levels, q, area, c, blocks, n, area, samples[0], area, w, area));
                }
        }
        memcpy(q, p, bytes);
        TIME(t.base_keep, base_keep(height, width, levels, q, area, area / 10, &left));
        memcpy(q, p, bytes);
        TIME(t.keep, tetrolet_keep(height, width, levels, q, area, area / 10, &left));
        for (int k = 0; k < 2; k++) /* which of the two is the first goes by turns */
            if ((run + k) % 2)
                TIME(t.smooth, tetrolet_smooth(height, width, levels, q, area, c, blocks, 16, n, area, w, area));
            else
                TIME(t.base_smooth, base_smooth(height, width, levels, q, area, c, blocks, 16, n, area, w, area));
        TIME(t.kept_digits, base_write(BASE_DIGITS, height, width, levels, q, area, c, blocks, text, TETROLET_MAX_SHEET, &length));
        TIME(t.kept_write, tetrolet_write(height, width, levels, q, area, c, blocks, text, TETROLET_MAX_SHEET, &length));
        TIME(t.kept_base_read, base_read(text, length, n, area, d, blocks, &rows, &columns, &l));
        TIME(t.kept_read, tetrolet_read(text, length, n, area, d, blocks, &rows, &columns, &l));
        TIME(t.digits, base_write(BASE_DIGITS, height, width, levels, p, area, c, blocks, text, TETROLET_MAX_SHEET, &length));
        TIME(t.printed, base_write(BASE_PRINTF, height, width, levels, p, area, c, blocks, text, TETROLET_MAX_SHEET, &length));
        TIME(t.write, tetrolet_write(height, width, levels, p, area, c, blocks, text, TETROLET_MAX_SHEET, &length));
        TIME(t.base_read, base_read(text, length, q, area, d, blocks, &rows, &columns, &l));
        TIME(t.read, tetrolet_read(text, length, q, area, d, blocks, &rows, &columns, &l));
        TIME(t.base_usage, base_usage(c, blocks, text, TETROLET_MAX_USAGE, &length));
        TIME(t.usage, tetrolet_usage(c, blocks, text, TETROLET_MAX_USAGE, &length));
        TIME(t.base_test, base_test_image(height, width, (uint32_t)run, samples[0], area));
        TIME(t.test, tetrolet_test_image(height, width, (uint32_t)run, samples[0], area));
        for (size_t k = 0; k < 2; k++)
            if (tetrolet_decompose(height, width / 2, deep, image + k * half, half, p + k * half, half, c + k * part, part, w, half) != 0)
                abort();
        for (int k = 0; k < 3; k++) { /* which of the three is the first goes by turns */
            int form = (run + k) % 3;
            if (form < 2)
                TIME(t.base_join[form], base_join(form, height, width / 2, deep, p, half, c, part, height, width / 2, deep, p + half, half, c + part,
                                                  part, n, area, d, 2 * part));
            else
                TIME(t.join, tetrolet_join(height, width / 2, deep, p, half, c, part, height, width / 2, deep, p + half, half, c + part, part, n, area,
                                           d, 2 * part));
        }
    }
    return t;
}

static void line(const char *name, double ours, const char *form, double theirs, double bar)
{
    if (bar == 0)
        printf("%-11s %9.3f   %-9s %9.3f   %5.2f\n", name, ours, form, theirs, ours / theirs);
    else
        printf("%-11s %9.3f   %-9s %9.3f   %5.2f   at most %.2g: %s\n", name, ours, form, theirs, ours / theirs, bar, ours / theirs <= bar ? "met" : "not met");
}

static void columns(void)
{
    printf("%-11s %9s   %-9s %9s   %5s\n", "entry", "library", "C form", "C", "ratio");
}

static void head(size_t height, size_t width, size_t levels)
{
    printf("height %zu, width %zu, %zu levels, best of %d rounds, milliseconds\n", height, width, levels, RUNS);
    columns();
}

static double faster(double one, double other)
{
    return one < other ? one : other;
}

/* The rows of masters beside the C; and beside the library's own restore, where the one that passes has a bar. */
static void masters(const struct times *t)
{
    for (int k = 0; k < MASTERS; k++)
        line(master_names[k], t->master[k], "levels", t->base_master[k], 0);
}

static void masters_beside_restore(const struct times *t, double bar)
{
    for (int k = 0; k < MASTERS; k++)
        line(master_names[k], t->master[k], "restore", t->lenient, k == 0 ? bar : 0);
}

/* The rows of a strip. The bars are those of 512 by 512, so it has none. */
static void strip(size_t height, size_t width, size_t levels)
{
    struct times t = measure(height, width, levels);
    printf("\n");
    head(height, width, levels);
    line("decompose", t.decompose, "faster", faster(t.straight, t.shared), 0);
    line("restore", t.restore, "plain", t.base_restore, 0);
    line("keep", t.keep, "buckets", t.base_keep, 0);
    line("write", t.write, "digits", t.digits, 0);
    line("read", t.read, "plain", t.base_read, 0);
    line("join", t.join, "faster", faster(t.base_join[BASE_SINGLE], t.base_join[BASE_FOURS]), 0);
    line("window 64", t.window[2], "descent", t.base_window[2], 0);
    line("window all", t.window[4], "descent", t.base_window[4], 0);
    line("smooth", t.smooth, "plain", t.base_smooth, 0);
    masters(&t);
    masters_beside_restore(&t, 0);
}

/* 117 calls that show a covering, by the library (2) or by a form of the C: each covering in turn, or this one each time. Gives 0 where all are accepted. */
static uint32_t show_each(int form, size_t count, uint8_t one)
{
    uint32_t n = 0;
    for (uint8_t k = 1; k <= 117; k++) {
        uint8_t covering = one > 0 ? one : k, found;
        uint16_t block[16];
        n |= form < 2 ? base_show(form, covering, steps, count, block, 16, &found) : tetrolet_show(covering, steps, count, block, 16, &found);
    }
    return n;
}

static void shown(const char *name, size_t count, uint8_t one)
{
    double best[3] = { 0 };
    for (int run = 0; run < 3 * RUNS; run++)
        for (int k = 0; k < 3; k++) { /* which of the three is the first goes by turns */
            int form = (run + k) % 3;
            TIME(best[form], show_each(form, count, one));
        }
    line(name, best[2], "straight", best[BASE_STRAIGHT], 0);
    line(name, best[2], "shared", best[BASE_SHARED], 0);
    line(name, best[2], "faster", faster(best[BASE_STRAIGHT], best[BASE_SHARED]), 1.5);
}

#define SHEETS 20000
#define PART 500

enum kind { FEW, KEPT, NAMES };

/* One tiny sheet, 4 by 4 with 1 level, the k-th of its kind, written to `text`; gives its length. FEW: 1 to 4 entries at any places, no two sheets alike
   (the covering is k % 117 + 1, and each value's size, less 1, leaves k / 117 when divided by 171). KEPT: a noisy image cut to a quota of 0 to 2. NAMES: a
   text whose last line of names ends with another byte (refusal 9), so that nearly all of it is names. */
static size_t tiny(enum kind kind, size_t k, uint8_t *text)
{
    const char *names = "height width levels\n4 4 1\nlevel row col cover\n1 0 0 1\nlevel band row col value ";
    int64_t p[16] = { 0 }, w[16];
    uint8_t c = (uint8_t)(k % 117 + 1);
    size_t length = strlen(names), left;
    if (kind == NAMES) {
        memcpy(text, names, length);
        return length;
    }
    if (kind == FEW)
        for (size_t n = 1 + next() % 4; n > 0; n--) {
            size_t row = next() % 4, col = next() % 4;
            int64_t v = (int64_t)(1 + k / 117 + 171 * (next() % 46));
            p[col * 4 + row] = (row > 1 || col > 1) && next() % 2 ? -v : v;
        }
    else {
        make_image(4, 4, 0);
        if (tetrolet_decompose(4, 4, 1, image, 16, p, 16, &c, 1, w, 16) != 0 || tetrolet_keep(4, 4, 1, p, 16, next() % 3, &left) != 0)
            abort();
    }
    if (tetrolet_write(4, 4, 1, p, 16, &c, 1, text, 1024, &length) != 0)
        abort();
    return length;
}

/* A day of tiny sheets, one after the other in a buffer: nanoseconds for each read. The best of several rounds counts for each part of the day, the
   two forms by turns. */
static void day(enum kind kind, const char *name, double bar)
{
    static size_t at[SHEETS + 1];
    uint8_t *text = buffer[0];
    size_t h, w, l;
    double best[2][SHEETS / PART] = { { 0 } }, total[2] = { 0 };
    for (size_t k = 0; k < SHEETS; k++)
        at[k + 1] = at[k] + tiny(kind, k, text + at[k]);
    for (int run = 0; run < 3 * RUNS; run++)
        for (size_t r = 0; r < SHEETS / PART; r++)
            for (int form = 0; form < 2; form++) {
                int64_t p[16];
                uint8_t c;
                uint32_t n = 0;
                double start = now();
                for (size_t k = r * PART; k < (r + 1) * PART; k++)
                    n |= form ? base_read(text + at[k], at[k + 1] - at[k], p, 16, &c, 1, &h, &w, &l)
                              : tetrolet_read(text + at[k], at[k + 1] - at[k], p, 16, &c, 1, &h, &w, &l);
                double took = (now() - start) * 1e9 / SHEETS;
                if (n != (kind == NAMES ? 9 : 0))
                    abort();
                if (best[form][r] == 0 || took < best[form][r])
                    best[form][r] = took;
            }
    for (int form = 0; form < 2; form++)
        for (size_t r = 0; r < SHEETS / PART; r++)
            total[form] += best[form][r];
    line(name, total[0], "plain", total[1], bar);
}

/* Peak resident size of a process of its own that decomposes and restores an image of 512 by 512 with 8 levels, in KiB. */
static long peak(int library)
{
    int ends[2];
    long kib = 0;
    fflush(stdout);
    if (pipe(ends) != 0)
        abort();
    pid_t child = fork();
    if (child < 0)
        abort();
    if (child == 0) {
        dup2(ends[1], 1);
        execl("/proc/self/exe", "bench", library ? "peak-library" : "peak-baseline", (char *)0);
        _exit(1);
    }
    close(ends[1]);
    FILE *in = fdopen(ends[0], "r");
    if (in == NULL || fscanf(in, "%ld", &kib) != 1)
        abort();
    fclose(in);
    waitpid(child, NULL, 0);
    return kib;
}

static int peak_run(int library)
{
    size_t height = 512, width = 512, levels = 8, area = height * width, blocks = tetrolet_blocks(height, width, levels);
    uint32_t n;
    make_image(height, width, 1);
    if (library) {
        n = tetrolet_decompose(height, width, levels, image, area, plane[0], area, coverings[0], blocks, scratch[0], area);
        n |= tetrolet_restore(height, width, levels, plane[0], area, coverings[0], blocks, numerators[0], area, samples[0], area, scratch[0], area);
    } else {
        n = base_decompose(BASE_SHARED, height, width, levels, image, area, plane[0], area, coverings[0], blocks, scratch[0], area);
        n |= base_restore(height, width, levels, plane[0], area, coverings[0], blocks, numerators[0], area, samples[0], area, scratch[0], area);
    }
    if (n != 0)
        return 1;
    FILE *status = fopen("/proc/self/status", "r");
    char row[256];
    while (status != NULL && fgets(row, sizeof row, status) != NULL)
        if (!strncmp(row, "VmHWM:", 6))
            printf("%ld\n", atol(row + 6));
    return 0;
}

int main(int argc, char **argv)
{
    base_init();
    for (size_t k = 0; k < sizeof every; k++)
        every[k] = (uint8_t)(k + 1);
    if (argc == 2 && !strcmp(argv[1], "peak-library"))
        return peak_run(1);
    if (argc == 2 && !strcmp(argv[1], "peak-baseline"))
        return peak_run(0);
    size_t images = 0, strips = 0, joined = 0;
    for (size_t height = 4; height <= 512; height *= 2)
        for (size_t width = 4; width <= 512; width *= 2)
            for (size_t levels = 1; height >> levels >= 2 && width >> levels >= 2; levels++)
                for (int kind = 0; kind < 3; kind++, images++) {
                    joined += (size_t)agree(height, width, levels, kind);
                    strips += height != width;
                }
    printf("both agree on %zu images, %zu of them strips, six windows, two smoothing steps and two restorings as a master of each, and on %zu joined from two "
           "strips\n",
           images, strips, joined);
    printf("both agree on the blocks that show a covering, with one to four steps: %zu are found\n\n", agree_shown());

    struct times t = measure(512, 512, 8);
    head(512, 512, 8);
    line("decompose", t.decompose, "straight", t.straight, 0);
    line("decompose", t.decompose, "shared", t.shared, 0);
    line("decompose", t.decompose, "faster", faster(t.straight, t.shared), 1.3);
    for (int k = 0; k < TOLERANCES; k++) {
        char name[32];
        snprintf(name, sizeof name, "within %u", (unsigned)tolerances[k]);
        line(name, t.within[k], "faster", faster(t.within_straight[k], t.within_shared[k]), 0);
    }
    for (int k = 0; k < LISTS; k++) {
        char name[32];
        snprintf(name, sizeof name, "listed %u", (unsigned)lists[k].count);
        line(name, t.listed[k], "straight", t.listed_straight[k], 0);
        line(name, t.listed[k], "shared", t.listed_shared[k], 0);
    }
    line("restore 16", t.restore_listed, "plain", t.base_restore_listed, 0);
    line("restore 16", t.restore_listed, "no list", t.restore_sixteen, 0);
    line("restore", t.restore, "plain", t.base_restore, 1.3);
    line("keep", t.keep, "buckets", t.base_keep, 1.5);
    line("write", t.write, "digits", t.digits, 1.5);
    line("write", t.write, "snprintf", t.printed, 0);
    line("read", t.read, "plain", t.base_read, 1.5);
    line("write kept", t.kept_write, "digits", t.kept_digits, 0);
    line("read kept", t.kept_read, "plain", t.kept_base_read, 0);
    line("usage", t.usage, "one pass", t.base_usage, 0);
    line("test image", t.test, "plain", t.base_test, 0);
    line("join", t.join, "single", t.base_join[BASE_SINGLE], 0);
    line("join", t.join, "fours", t.base_join[BASE_FOURS], 0);
    line("join", t.join, "faster", faster(t.base_join[BASE_SINGLE], t.base_join[BASE_FOURS]), 1.3);
    for (int k = 0; k < WINDOWS; k++) {
        char name[32];
        snprintf(name, sizeof name, "window %u", (unsigned)side_of(k, 512));
        line(name, t.window[k], "descent", t.base_window[k], k < 3 ? 1.5 : 1.3);
    }
    line("smooth", t.smooth, "plain", t.base_smooth, 1.3);
    masters(&t);

    printf("\nwindows of it, and restorings as a master, beside the library's own restore, milliseconds\n");
    line("window 64", t.window[2], "restore", t.restore, 1.0 / 3);
    line("window 512", t.window[4], "restore", t.restore, 1.3);
    masters_beside_restore(&t, 2.5);

    strip(512, 64, 5);
    strip(64, 512, 5);

    /* With two steps ten coverings have no block, and all 16 choices are tried. With four, covering 10 takes the most choices, 25. */
    printf("\n117 blocks that show a covering: each with 2 steps, each with 4, and 117 times that of covering 10 with 4; best of %d rounds, milliseconds\n",
           3 * RUNS);
    columns();
    shown("show 2", 2, 0);
    shown("show 4", 4, 0);
    shown("show most", 4, 10);

    printf("\na day of %d sheets, 4 by 4, 1 level, best of %d rounds, nanoseconds for each read\n", SHEETS, 3 * RUNS);
    columns();
    day(FEW, "tiny few", 1.2);
    day(KEPT, "tiny kept", 1.2);
    day(NAMES, "tiny names", 0);

    printf("\ngrowth with height and width, both the same, all levels, library, milliseconds (nanoseconds for each sample)\n");
    printf("%6s  %17s  %17s  %17s  %17s  %17s\n", "height", "decompose", "restore", "keep", "write", "read");
    for (size_t height = 64, levels = 5; height <= 512; height *= 2, levels++) {
        struct times g = height == 512 ? t : measure(height, height, levels);
        double ours[5] = { g.decompose, g.restore, g.keep, g.write, g.read };
        printf("%6zu", height);
        for (int k = 0; k < 5; k++)
            printf("  %8.3f (%6.1f)", ours[k], ours[k] * 1e6 / (double)(height * height));
        printf("\n");
    }

    size_t area = TETROLET_MAX_AREA;
    printf("\npeak resident size, one decompose and one restore of 512 by 512 with 8 levels, KiB: library %ld, C %ld\n", peak(1), peak(0));
    printf("of these the slices lent: %zu\n", (area * (2 * 2 + 3 * 8) + TETROLET_MAX_BLOCKS) / 1024);
    return 0;
}
