/* A caller in C: decomposes a small strip, first with a tolerance and then without, to show how many different coverings a mill needs; restores it as a
   master, which the plane is only until it is cut; keeps the best coefficients, writes the sheet, reads it back and restores it; looks at a window of it,
   which is restored alone; smooths it by one step. Decomposes, keeps and restores with a list of sixteen coverings, to show how much farther the picture is
   then. Then the strip as two halves, each decomposed and cut by itself, as a wide leaf is scanned: joined, they restore to the two side by side.
   Then what an installer runs: a test image, made from a number, goes there and back. Then what a print shop runs: a calibration card, the block of two grey
   steps that shows the last covering; decomposed, it gives that covering. */
#include "sixteen.h"
#include "tetrolet.h"

#include <inttypes.h>
#include <stdio.h>
#include <stdlib.h>

enum { HEIGHT = 8, WIDTH = 32, LEVELS = 2, AREA = HEIGHT * WIDTH, BLOCKS = 2 * 8 + 4, QUOTA = 60, TOLERANCE = 16, STEP = 8 };

/* A window of it, which begins and ends inside blocks: its first row and column, its rows and its columns. */
enum { TOP = 3, LEFT = 13, TALL = 4, WIDE = 6, CELLS = TALL * WIDE };

/* A half of it, left or right, and what it is cut to. */
enum { HALF_WIDTH = WIDTH / 2, HALF = AREA / 2, HALF_BLOCKS = BLOCKS / 2, LEFT_QUOTA = 35, RIGHT_QUOTA = 25 };

/* A calibration card: the covering that it shows, its cells, and its grey steps. */
enum { SHOWN = 117, CARD = 16, DARK = 1000, BRIGHT = 3000 };

static void accepted(const char *what, uint32_t refusal)
{
    if (refusal != TETROLET_ACCEPTED) {
        printf("%s was refused: %" PRIu32 "\n", what, refusal);
        exit(1);
    }
}

static int different(const uint8_t *coverings)
{
    int used[118] = { 0 }, kinds = 0;
    for (int k = 0; k < BLOCKS; k++)
        kinds += used[coverings[k]]++ == 0;
    return kinds;
}

static long squared_distance(const uint16_t *a, const uint16_t *b)
{
    long distance = 0;
    for (int k = 0; k < AREA; k++)
        distance += ((long)a[k] - b[k]) * ((long)a[k] - b[k]);
    return distance;
}

static int same_samples(const uint16_t *a, const uint16_t *b)
{
    int same = 0;
    for (int k = 0; k < AREA; k++)
        same += a[k] == b[k];
    return same;
}

static int same_numerators(const int64_t *a, const int64_t *b)
{
    int same = 0;
    for (int k = 0; k < AREA; k++)
        same += a[k] == b[k];
    return same;
}

/* How many cells have what an image, restored as a master, leaves: its sample, a numerator of 4^LEVELS times the sample, and a scratch of 0. */
static int same_master(const uint16_t *image, const int64_t *numerators, const uint16_t *samples, const int64_t *scratch)
{
    int same = 0;
    for (int k = 0; k < AREA; k++)
        same += samples[k] == image[k] && numerators[k] == (int64_t)image[k] << 2 * LEVELS && scratch[k] == 0;
    return same;
}

/* How many samples of the window are those of the image at the same places. */
static int same_window(const uint16_t *window, const uint16_t *image)
{
    int same = 0;
    for (int x = 0; x < WIDE; x++)
        for (int y = 0; y < TALL; y++)
            same += window[x * TALL + y] == image[(LEFT + x) * HEIGHT + TOP + y];
    return same;
}

/* The sample of a number that smoothing gives: over 16 * 4^LEVELS, rounded to nearest, halves upward, and held to 0 and 4,095. */
static uint16_t smoothed_sample(int64_t v)
{
    int64_t whole = (int64_t)16 << 2 * LEVELS, up = v + whole / 2;
    return (uint16_t)(up < 0 ? 0 : up / whole > 4095 ? 4095 : up / whole);
}

/* The absolute differences of each sample to its neighbours above, below, left and right, all added up: each pair counts twice. */
static long total_variation(const uint16_t *image)
{
    long sum = 0;
    for (int k = 0; k < AREA; k++) {
        if (k % HEIGHT + 1 < HEIGHT)
            sum += 2 * labs((long)image[k] - image[k + 1]);
        if (k / HEIGHT + 1 < WIDTH)
            sum += 2 * labs((long)image[k] - image[k + HEIGHT]);
    }
    return sum;
}

/* Joins the two halves, which stand one after the other, and restores what comes of it. */
static void join_and_restore(const int64_t *halves, const uint8_t *half_coverings, int64_t *numerators, uint16_t *samples)
{
    static int64_t plane[AREA], scratch[AREA];
    static uint8_t coverings[BLOCKS];
    accepted("join", tetrolet_join(HEIGHT, HALF_WIDTH, LEVELS, halves, HALF, half_coverings, HALF_BLOCKS, HEIGHT, HALF_WIDTH, LEVELS, halves + HALF,
                                   HALF, half_coverings + HALF_BLOCKS, HALF_BLOCKS, plane, AREA, coverings, BLOCKS));
    accepted("restore", tetrolet_restore(HEIGHT, WIDTH, LEVELS, plane, AREA, coverings, BLOCKS, numerators, AREA, samples, AREA, scratch, AREA));
}

int main(void)
{
    static uint16_t image[AREA], samples[AREA];
    static int64_t plane[AREA], numerators[AREA], scratch[AREA];
    static uint8_t coverings[BLOCKS];

    /* A soft slope with a fine grain and a bright diagonal bar, stored down columns. */
    for (int x = 0; x < WIDTH; x++)
        for (int y = 0; y < HEIGHT; y++)
            image[x * HEIGHT + y] = (uint16_t)(5 * x + 2 * y + (x * x + 3 * y * y) % 17 + (abs(x - 4 * y) < 4 ? 1500 : 0));

    accepted("decompose within", tetrolet_decompose_within(HEIGHT, WIDTH, LEVELS, TOLERANCE, image, AREA, plane, AREA, coverings, BLOCKS, scratch,
                                                           AREA));
    int near_kinds = different(coverings);
    accepted("decompose", tetrolet_decompose(HEIGHT, WIDTH, LEVELS, image, AREA, plane, AREA, coverings, BLOCKS, scratch, AREA));
    int kinds = different(coverings), entries = 0;
    for (int k = 0; k < AREA; k++)
        entries += plane[k] != 0;
    printf("decomposed height %d, width %d with %d levels: %d blocks, %d different coverings, %d plane entries not zero\n", HEIGHT, WIDTH, LEVELS,
           BLOCKS, kinds, entries);
    printf("different coverings used: %d with tolerance 0, %d with tolerance %d\n", kinds, near_kinds, TOLERANCE);

    accepted("restore master", tetrolet_restore_master(HEIGHT, WIDTH, LEVELS, plane, AREA, coverings, BLOCKS, numerators, AREA, samples, AREA, scratch,
                                                       AREA));
    printf("restored as a master: %d of %d samples, nothing rounded\n", same_master(image, numerators, samples, scratch), AREA);

    size_t left = 0, length = 0, height = 0, width = 0, levels = 0;
    accepted("keep", tetrolet_keep(HEIGHT, WIDTH, LEVELS, plane, AREA, QUOTA, &left));
    printf("kept %zu tetrolet coefficients\n", left);
    uint32_t refusal = tetrolet_restore_master(HEIGHT, WIDTH, LEVELS, plane, AREA, coverings, BLOCKS, numerators, AREA, samples, AREA, scratch, AREA);
    printf("no master any more: refused by %u; %d of %d places are as they were\n", (unsigned)refusal, same_master(image, numerators, samples, scratch),
           AREA);

    static uint8_t sheet[AREA * 32];
    accepted("write", tetrolet_write(HEIGHT, WIDTH, LEVELS, plane, AREA, coverings, BLOCKS, sheet, sizeof sheet, &length));
    printf("wrote a sheet of %zu bytes\n", length);

    static int64_t plane_read[AREA];
    static uint8_t coverings_read[BLOCKS];
    accepted("read", tetrolet_read(sheet, length, plane_read, AREA, coverings_read, BLOCKS, &height, &width, &levels));
    printf("read it back: height %zu, width %zu, levels %zu\n", height, width, levels);
    accepted("restore", tetrolet_restore(height, width, levels, plane_read, AREA, coverings_read, BLOCKS, numerators, AREA, samples, AREA, scratch,
                                         AREA));

    long distance = squared_distance(samples, image);
    printf("restored: squared distance %ld over %d samples\n", distance, AREA);

    static uint16_t window[CELLS];
    accepted("window", tetrolet_window(height, width, levels, plane_read, AREA, coverings_read, BLOCKS, TOP, LEFT, TALL, WIDE, window, CELLS));
    printf("window of height %d, width %d from row %d, column %d: %d of %d samples are those restored there\n", TALL, WIDE, TOP, LEFT,
           same_window(window, samples), CELLS);

    static int64_t result[AREA];
    static uint16_t smooth[AREA];
    accepted("smooth", tetrolet_smooth(height, width, levels, plane_read, AREA, coverings_read, BLOCKS, STEP, result, AREA, scratch, AREA));
    for (int k = 0; k < AREA; k++)
        smooth[k] = smoothed_sample(result[k]);
    printf("smoothed by a step of %d: total variation %ld before, %ld after; squared distance %ld\n", STEP, total_variation(samples),
           total_variation(smooth), squared_distance(smooth, image));

    accepted("decompose listed", tetrolet_decompose_listed(HEIGHT, WIDTH, LEVELS, 0, image, AREA, sixteen, sizeof sixteen, plane, AREA, coverings,
                                                           BLOCKS, scratch, AREA));
    accepted("keep", tetrolet_keep(HEIGHT, WIDTH, LEVELS, plane, AREA, QUOTA, &left));
    accepted("restore listed", tetrolet_restore_listed(HEIGHT, WIDTH, LEVELS, plane, AREA, coverings, BLOCKS, sixteen, sizeof sixteen, numerators,
                                                       AREA, samples, AREA, scratch, AREA));
    printf("with a list of %zu coverings: %d different ones, squared distance %ld; with all 117: %d, %ld\n", sizeof sixteen, different(coverings),
           squared_distance(samples, image), kinds, distance);
    printf("the sheet, whose coverings are out of all 117, with that list: refused by %u\n",
           (unsigned)tetrolet_restore_listed(height, width, levels, plane_read, AREA, coverings_read, BLOCKS, sixteen, sizeof sixteen, numerators, AREA,
                                             samples, AREA, scratch, AREA));

    /* Columns stand one after the other, so the left half of the image is the first half of its samples. */
    static int64_t halves[AREA], half_numerators[AREA];
    static uint8_t half_coverings[BLOCKS];
    const uint64_t quotas[2] = { LEFT_QUOTA, RIGHT_QUOTA };
    for (int k = 0; k < 2; k++)
        accepted("decompose", tetrolet_decompose(HEIGHT, HALF_WIDTH, LEVELS, image + k * HALF, HALF, halves + k * HALF, HALF,
                                                 half_coverings + k * HALF_BLOCKS, HALF_BLOCKS, scratch, HALF));
    join_and_restore(halves, half_coverings, numerators, samples);
    printf("joined two strips of width %d, uncut: %d of %d samples restored\n", HALF_WIDTH, same_samples(samples, image), AREA);
    for (int k = 0; k < 2; k++) {
        accepted("keep", tetrolet_keep(HEIGHT, HALF_WIDTH, LEVELS, halves + k * HALF, HALF, quotas[k], &left));
        accepted("restore", tetrolet_restore(HEIGHT, HALF_WIDTH, LEVELS, halves + k * HALF, HALF, half_coverings + k * HALF_BLOCKS, HALF_BLOCKS,
                                             half_numerators + k * HALF, HALF, samples + k * HALF, HALF, scratch, HALF));
    }
    join_and_restore(halves, half_coverings, numerators, samples);
    printf("cut to %d and %d, then joined: %d of %d numerators are those of the two strips; squared distance %ld\n", LEFT_QUOTA, RIGHT_QUOTA,
           same_numerators(numerators, half_numerators), AREA, squared_distance(samples, image));

    accepted("test image", tetrolet_test_image(HEIGHT, WIDTH, 0, image, AREA));
    accepted("decompose", tetrolet_decompose(HEIGHT, WIDTH, LEVELS, image, AREA, plane, AREA, coverings, BLOCKS, scratch, AREA));
    accepted("restore", tetrolet_restore(HEIGHT, WIDTH, LEVELS, plane, AREA, coverings, BLOCKS, numerators, AREA, samples, AREA, scratch, AREA));
    printf("test image from 0: first sample %d; %d of %d samples restored\n", image[0], same_samples(samples, image), AREA);

    /* With one step there is none, and the card stays. */
    const uint16_t steps[2] = { DARK, BRIGHT };
    uint16_t card[CARD] = { 0 };
    uint8_t by_two = 0, by_one = 0;
    accepted("show", tetrolet_show(SHOWN, steps, 2, card, CARD, &by_two));
    accepted("show", tetrolet_show(SHOWN, steps, 1, card, CARD, &by_one));
    printf("card for covering %d: with steps %d and %d %s, with %d alone %s\n", SHOWN, DARK, BRIGHT, by_two ? "found" : "none", DARK,
           by_one ? "found" : "none");
    for (int y = 0; y < 4; y++)
        printf("  %d %d %d %d\n", card[y], card[4 + y], card[8 + y], card[12 + y]);
    accepted("decompose", tetrolet_decompose(4, 4, 1, card, CARD, plane, CARD, coverings, 1, scratch, CARD));
    printf("the card, decomposed: covering %d\n", coverings[0]);
    return 0;
}
