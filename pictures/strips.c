/* Shows what joining does to an image that comes as two strips, its left and its right half: strips LEVELS LEFT_QUOTA RIGHT_QUOTA <in.pgm

   A table for a markdown file. The first row is the image as a whole, cut to both quotas together; in the second the halves are decomposed, each is cut
   to its own quota, and the two are joined; in the third they are joined first and then cut to both quotas together. A row has the squared distance to
   the original, as compare.c has it, and how many tetrolet coefficients each half has left. Then, how far the joined plane is from that of the whole
   image. The program ends with an error if uncut halves do not restore to the image, or cut ones to other numerators than each by itself. */
#include "figures.h"
#include "tetrolet.h"

#include <stdio.h>
#include <stdlib.h>
#include <string.h>

const char program[] = "strips";

/* The image; the plane and the coverings of the whole, those of the halves, one after the other, and those joined; and the joined plane, cut. */
static size_t height, width, levels, area, blocks, half, part;
static uint16_t image[TETROLET_MAX_AREA], samples[TETROLET_MAX_AREA];
static int64_t whole[TETROLET_MAX_AREA], halves[TETROLET_MAX_AREA], joined[TETROLET_MAX_AREA], cut[TETROLET_MAX_AREA];
static int64_t numerators[TETROLET_MAX_AREA], apart[TETROLET_MAX_AREA], scratch[TETROLET_MAX_AREA];
static uint8_t whole_coverings[TETROLET_MAX_BLOCKS], half_coverings[TETROLET_MAX_BLOCKS], joined_coverings[TETROLET_MAX_BLOCKS];

/* The tetrolet coefficients not zero of the left half and of the right half of a plane: each band has both, side by side. */
static void count_halves(const int64_t *plane, size_t *counts)
{
    counts[0] = counts[1] = 0;
    for (size_t r = 1; r <= levels; r++) {
        size_t h = height >> r, w = width >> r;
        for (size_t x = 0; x < 2 * w; x++)
            for (size_t y = 0; y < 2 * h; y++)
                if (x >= w || y >= h)
                    counts[x % w >= w / 2] += plane[x * height + y] != 0;
    }
}

/* Restores a plane of the whole size. */
static void restore(const int64_t *plane, const uint8_t *coverings)
{
    accepted("restore", tetrolet_restore(height, width, levels, plane, area, coverings, blocks, numerators, area, samples, area, scratch, area));
}

static void print_row(const char *name, const int64_t *plane, const uint8_t *coverings)
{
    size_t counts[2];
    restore(plane, coverings);
    count_halves(plane, counts);
    printf("| %s | ", name);
    print_number(squared_distance(samples, image, area));
    printf(" | ");
    print_number(counts[0]);
    printf(" | ");
    print_number(counts[1]);
    printf(" |\n");
}

static void join(void)
{
    accepted("join", tetrolet_join(height, width / 2, levels, halves, half, half_coverings, part, height, width / 2, levels, halves + half, half,
                                   half_coverings + part, part, joined, area, joined_coverings, blocks));
}

/* Restores each half by itself. */
static void restore_apart(void)
{
    for (size_t k = 0; k < 2; k++)
        accepted("restore", tetrolet_restore(height, width / 2, levels, halves + k * half, half, half_coverings + k * part, part, apart + k * half, half,
                                             samples, half, scratch, half));
}

static void run(uint64_t left_quota, uint64_t right_quota)
{
    const uint64_t quotas[2] = { left_quota, right_quota };
    size_t left, entries = 0, covers = 0;
    accepted("decompose", tetrolet_decompose(height, width, levels, image, area, whole, area, whole_coverings, blocks, scratch, area));
    for (size_t k = 0; k < 2; k++)
        accepted("decompose", tetrolet_decompose(height, width / 2, levels, image + k * half, half, halves + k * half, half, half_coverings + k * part,
                                                 part, scratch, half));
    join();
    restore(joined, joined_coverings);
    if (memcmp(samples, image, area * sizeof *image) != 0)
        fail("the halves do not restore to the image");
    for (size_t i = 0; i < area; i++)
        entries += whole[i] != joined[i];
    for (size_t k = 0; k < blocks; k++)
        covers += whole_coverings[k] != joined_coverings[k];

    printf("| | Squared distance | Left in the left half | Left in the right half |\n");
    printf("|---|---|---|---|\n");
    accepted("keep", tetrolet_keep(height, width, levels, whole, area, left_quota + right_quota, &left));
    print_row("the whole picture", whole, whole_coverings);
    memcpy(cut, joined, area * sizeof *joined);
    accepted("keep", tetrolet_keep(height, width, levels, cut, area, left_quota + right_quota, &left));
    for (size_t k = 0; k < 2; k++)
        accepted("keep", tetrolet_keep(height, width / 2, levels, halves + k * half, half, quotas[k], &left));
    join();
    print_row("two strips, each cut, then joined", joined, joined_coverings);
    restore_apart();
    if (memcmp(apart, numerators, area * sizeof *apart) != 0)
        fail("the numerators of the joined halves are not those of each by itself");
    print_row("two strips joined, then cut", cut, joined_coverings);
    printf("before the cut %zu of %zu coverings and %zu of %zu plane entries are not those of the whole picture\n", covers, blocks, entries, area);
}

int main(int argc, char **argv)
{
    if (argc != 4) {
        fprintf(stderr, "use: strips LEVELS LEFT_QUOTA RIGHT_QUOTA <in.pgm\n");
        return 2;
    }
    levels = strtoul(argv[1], NULL, 10);
    take_image(image, &height, &width);
    area = height * width;
    half = area / 2;
    blocks = tetrolet_blocks(height, width, levels > 8 ? 0 : levels);
    part = blocks / 2;
    run(strtoull(argv[2], NULL, 10), strtoull(argv[3], NULL, 10));
    return 0;
}
