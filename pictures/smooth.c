/* Shows what one smoothing step does to an image that a quota has cut:

   smooth LEVELS QUOTA <in.pgm              prints a table
   smooth LEVELS QUOTA STEP <in.pgm >out.png    left the original, in the middle what the quota leaves, right that after the step; below each, a part of
                                                it four times as large

   The table, for a markdown file, has a row for the original and one for each of several steps; the step 0 is what the quota leaves. A row has the total
   variation of what the step gives, exact, over 16 * 4^R and rounded, and of its samples; and the squared distance of the samples to the original. The
   program ends with an error where the step 0 does not give 16 times the numerators, or other samples than restoring gives. */
#include "figures.h"
#include "image.h"
#include "smoothed.h"
#include "tetrolet.h"

#include <stdio.h>
#include <stdlib.h>
#include <string.h>

const char program[] = "smooth";

static const uint64_t steps[] = { 0, 1, 8, 16, 32, 64, 128, 255 };

/* The image, what the quota left of it, and what a step gives. */
static size_t height, width, levels, area, blocks;
static uint16_t image[TETROLET_MAX_AREA], kept[TETROLET_MAX_AREA], samples[TETROLET_MAX_AREA];
static int64_t plane[TETROLET_MAX_AREA], numerators[TETROLET_MAX_AREA], result[TETROLET_MAX_AREA], scratch[TETROLET_MAX_AREA];
static uint8_t coverings[TETROLET_MAX_BLOCKS];

static void cut(uint64_t quota)
{
    size_t left;
    accepted("decompose", tetrolet_decompose(height, width, levels, image, area, plane, area, coverings, blocks, scratch, area));
    accepted("keep", tetrolet_keep(height, width, levels, plane, area, quota, &left));
    accepted("restore", tetrolet_restore(height, width, levels, plane, area, coverings, blocks, numerators, area, kept, area, scratch, area));
}

static void smooth(uint64_t step)
{
    accepted("smooth", tetrolet_smooth(height, width, levels, plane, area, coverings, blocks, step, result, area, scratch, area));
    smoothed_samples(result, area, levels, samples);
}

static void check_still(void)
{
    smooth(0);
    for (size_t k = 0; k < area; k++)
        if (result[k] != 16 * numerators[k])
            fail("the step 0 does not give 16 times the numerators");
    if (memcmp(samples, kept, area * sizeof *kept) != 0)
        fail("the samples of the step 0 are not those that restoring gives");
}

/* The total variation of samples. */
static unsigned long long variation_of(const uint16_t *from)
{
    for (size_t k = 0; k < area; k++)
        scratch[k] = from[k];
    return total_variation(scratch, height, width);
}

static void print_step(uint64_t step)
{
    unsigned long long whole = (unsigned long long)16 << 2 * levels;
    smooth(step);
    printf("| %u | ", (unsigned)step);
    print_number((total_variation(result, height, width) + whole / 2) / whole);
    printf(" | ");
    print_number(variation_of(samples));
    printf(" | ");
    print_number(squared_distance(samples, image, area));
    printf(" |\n");
}

static void print_table(void)
{
    printf("| Step | Total variation, exact | Total variation of the samples | Squared distance |\n");
    printf("|---|---|---|---|\n");
    printf("| original | ");
    print_number(variation_of(image));
    printf(" | ");
    print_number(variation_of(image));
    printf(" | 0 |\n");
    for (size_t k = 0; k < sizeof steps / sizeof *steps; k++)
        print_step(steps[k]);
}

int main(int argc, char **argv)
{
    if (argc != 3 && argc != 4) {
        fprintf(stderr, "use: smooth LEVELS QUOTA [STEP] <in.pgm\n");
        return 2;
    }
    levels = strtoul(argv[1], NULL, 10);
    take_image(image, &height, &width);
    area = height * width;
    blocks = tetrolet_blocks(height, width, levels > 8 ? 0 : levels);
    cut(strtoull(argv[2], NULL, 10));
    check_still();
    if (argc == 3) {
        print_table();
        return 0;
    }
    if (height < 64 || width < 64)
        fail("no image of height and width from 64 on");
    smooth(strtoull(argv[3], NULL, 10));
    const uint16_t *shown[3] = { image, kept, samples };
    return !png_panels(stdout, shown, 3, height, width);
}
