/* Shows side by side what a quota leaves of an image: compare LEVELS QUOTA <in.pgm >out.png

   Left the original; in the middle what the old coder's way of sharing the quota leaves (share_by_level below); right what the
   library's keep leaves. Below each, a part of it four times as large. The plane and its coverings come from the library's decompose,
   and all are restored by the library: the ways differ only in which tetrolet coefficients stay. The low-pass is never cut.

   The error output has the squared distance of each to the original, and the coefficients left by level; and the same for a way that
   is not shown, ranking by |W| alone (the plain C of bench/baseline.c), which starves the fine levels. */
#include "baseline.h"
#include "figures.h"
#include "image.h"
#include "tetrolet.h"

#include <stdlib.h>
#include <string.h>

const char program[] = "compare";

static uint16_t image[TETROLET_MAX_AREA], left_old[TETROLET_MAX_AREA], left_ours[TETROLET_MAX_AREA], left_raw[TETROLET_MAX_AREA];
static int64_t plane[TETROLET_MAX_AREA], kept[TETROLET_MAX_AREA], numerators[TETROLET_MAX_AREA], scratch[TETROLET_MAX_AREA];
static uint8_t coverings[TETROLET_MAX_BLOCKS];

/* ---- The old way of sharing the quota ---- */

/* A tetrolet coefficient of the level at hand: |W|, its number in plane order within the level, and where it is. */
struct coefficient {
    uint64_t size;
    size_t order;
    int64_t *at;
};

static struct coefficient list[TETROLET_MAX_AREA];

/* Falling |W|, then plane order. */
static int by_size(const void *a, const void *b)
{
    const struct coefficient *p = a, *q = b;
    if (p->size != q->size)
        return p->size > q->size ? -1 : 1;
    return p->order < q->order ? -1 : p->order > q->order;
}

/* Keeps the first `share` tetrolet coefficients of level r by falling |W|, then plane order; its others become 0. Gives how many are
   left that are not zero. */
static uint64_t keep_level(size_t height, size_t width, size_t r, int64_t *p, uint64_t share)
{
    size_t h = height >> r, w = width >> r, n = 0;
    for (size_t band = 1; band <= 3; band++)
        for (size_t col = 0; col < w; col++)
            for (size_t row = 0; row < h; row++) {
                int64_t *at = p + (col + (band & 1 ? w : 0)) * height + row + (band & 2 ? h : 0);
                list[n] = (struct coefficient) { (uint64_t)(*at < 0 ? -*at : *at), n, at };
                n++;
            }
    qsort(list, n, sizeof *list, by_size);
    uint64_t left = 0;
    for (size_t i = 0; i < n; i++)
        if (i < share)
            left += list[i].size != 0;
        else
            *list[i].at = 0;
    return left;
}

/* The old coder fixed the share of each level before the deeper levels were worked out. Modelled so, from the finest level:

   Level r finds the height / 2^(r-1) times width / 2^(r-1) samples that remain, and turns three quarters of them into its tetrolet
   coefficients. Its share is therefore three quarters of what is left of the quota, rounded down; at the last level, all that is left.
   It keeps at once its largest |W|, as many as its share (of equals the first in plane order), and drops its others for good. What it
   kept that is not zero is taken off the quota, and only the rest goes on to the next level. */
static void share_by_level(size_t height, size_t width, size_t levels, int64_t *p, uint64_t quota)
{
    for (size_t r = 1; r <= levels; r++) {
        uint64_t share = r < levels ? quota * 3 / 4 : quota;
        quota -= keep_level(height, width, r, p, share);
    }
}

/* ---- Figures ---- */

/* Restores `kept` and prints its squared distance to the original, and how many tetrolet coefficients each level has left. */
static void restore_and_say(const char *what, size_t height, size_t width, size_t levels, uint16_t *samples)
{
    size_t area = height * width, blocks = tetrolet_blocks(height, width, levels);
    accepted("restore", tetrolet_restore(height, width, levels, kept, area, coverings, blocks, numerators, area, samples, area, scratch, area));
    unsigned long long d = squared_distance(image, samples, area);
    fprintf(stderr, "%-13s squared distance %llu, for each sample %.1f; ", what, d, (double)d / (double)area);
    fprintf(stderr, "coefficients left by level:");
    for (size_t r = 1; r <= levels; r++) {
        size_t h = height >> r, w = width >> r, n = 0;
        for (size_t x = 0; x < 2 * w; x++)
            for (size_t y = 0; y < 2 * h; y++)
                n += (x >= w || y >= h) && kept[x * height + y] != 0;
        fprintf(stderr, " %zu", n);
    }
    fprintf(stderr, "\n");
}

int main(int argc, char **argv)
{
    size_t left, height, width;
    if (argc != 3) {
        fprintf(stderr, "use: compare LEVELS QUOTA <in.pgm >out.png\n");
        return 2;
    }
    size_t levels = strtoul(argv[1], NULL, 10);
    uint64_t quota = strtoull(argv[2], NULL, 10);
    take_image(image, &height, &width);
    if (height < 64 || width < 64)
        fail("no image of height and width from 64 on");
    base_init();
    size_t area = height * width, blocks = tetrolet_blocks(height, width, levels > 8 ? 0 : levels);
    accepted("decompose", tetrolet_decompose(height, width, levels, image, area, plane, area, coverings, blocks, scratch, area));

    /* Ours first: it refuses a quota that is too large. */
    memcpy(kept, plane, area * sizeof *plane);
    accepted("keep", tetrolet_keep(height, width, levels, kept, area, quota, &left));
    restore_and_say("ours:", height, width, levels, left_ours);

    memcpy(kept, plane, area * sizeof *plane);
    share_by_level(height, width, levels, kept, quota);
    restore_and_say("old sharing:", height, width, levels, left_old);

    memcpy(kept, plane, area * sizeof *plane);
    accepted("keep", base_keep_raw(height, width, levels, kept, area, quota, &left));
    restore_and_say("by |W| alone:", height, width, levels, left_raw);

    const uint16_t *shown[3] = { image, left_old, left_ours };
    return !png_panels(stdout, shown, 3, height, width);
}
