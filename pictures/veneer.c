/* Makes the synthetic veneer: fine grain over a broad stain, 12 bit, as a P5 file: veneer [HEIGHT WIDTH], each 1 to 512, 256 where they
   are not given; smaller ones show its upper left part. Whole numbers only, so that it is the same everywhere. No scan of wood is in it. */
#include "image.h"

#include <stdlib.h>

enum { MOST = 512, ONE = 256 };

/* A fixed random number, 0 to 255, for a place and a row of numbers. */
static int hash(int x, int row)
{
    uint32_t h = (uint32_t)x * 2654435761u ^ (uint32_t)row * 2246822519u;
    h ^= h >> 15;
    h *= 2246822519u;
    h ^= h >> 13;
    h *= 3266489917u;
    return (int)((h ^ h >> 16) >> 8 & 255);
}

/* From 0 to ONE as s goes from 0 to ONE, slow at both ends. */
static int ease(int s)
{
    return s * s * (3 * ONE - 2 * s) / (ONE * ONE);
}

/* Smooth noise of one place, 0 to 255: `x` counts in 1/256 of a step. */
static int noise(int x, int row)
{
    int k = x >> 8, s = ease(x & 255);
    return (hash(k, row) * (ONE - s) + hash(k + 1, row) * s) / ONE;
}

/* Smooth noise of two places. */
static int noise2(int x, int y, int row)
{
    int k = y >> 8, s = ease(y & 255);
    return (noise(x, row + 64 * k) * (ONE - s) + noise(x, row + 64 * (k + 1)) * s) / ONE;
}

/* The largest whole number whose square is at most n. */
static int root(int n)
{
    int r = 0;
    while ((r + 1) * (r + 1) <= n)
        r++;
    return r;
}

/* How far the grain, which runs along the rows, is bent down at a column, in 1/256 of a row. */
static int bend(int x)
{
    return noise(x * 3, 1) * 10 + noise(x * 9, 2) * 3;
}

/* Soft lighter and darker bands along the grain. */
static int bands(int x, int y)
{
    return (noise2(x, y * 8 + bend(x) / 32, 9000) - 128) * 100 / 128;
}

/* Whether one of the pores of a row of the grain is at a column: they are two or three samples long. */
static int is_pore(int x, int row)
{
    int start = x + hash(row, 7) % 8, h = hash(start / 8 + 97 * row, 9);
    return h < 18 && start % 8 < 2 + h % 2;
}

/* Fine grain: dark pores, each with a light edge below it, as a lamp from above shows them. */
static int grain(int x, int y)
{
    int row = y + bend(x) / ONE;
    return (is_pore(x, row - 1) ? 600 : 0) - (is_pore(x, row) ? 1200 : 0);
}

/* The stain, as a wet pot leaves it: a broad ring, soft on both sides and not quite round. `off` is the distance from its middle
   line, in quarters of a sample; at 28 samples from it the stain has faded out. */
static int stain(int x, int y)
{
    int dx = x - 132, dy = y - 112, radius = 88, reach = 28;
    int off = root(16 * (dx * dx + dy * dy)) - 4 * radius + (noise2(x * 5, y * 5, 5000) - 128) / 5;
    off = off < 0 ? -off : off;
    return off < 4 * reach ? 900 * ease(ONE - off * ONE / (4 * reach)) / ONE : 0;
}

int main(int argc, char **argv)
{
    static uint16_t samples[MOST * MOST];
    int height = argc == 3 ? atoi(argv[1]) : 256, width = argc == 3 ? atoi(argv[2]) : 256;
    if ((argc != 1 && argc != 3) || height < 1 || height > MOST || width < 1 || width > MOST) {
        fprintf(stderr, "use: veneer [HEIGHT WIDTH] >out.pgm\n");
        return 2;
    }
    for (int x = 0; x < width; x++)
        for (int y = 0; y < height; y++) {
            int v = 2700 + bands(x, y) + grain(x, y) - stain(x, y);
            samples[x * height + y] = (uint16_t)(v < 0 ? 0 : v > 4095 ? 4095 : v);
        }
    return !pgm_write(stdout, samples, (size_t)height, (size_t)width, 4095);
}
