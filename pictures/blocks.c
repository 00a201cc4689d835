/* Shows an image block by block: blocks <in.pgm >out.png

   A sample is a square of 8 by 8, and blocks of 4 by 4 samples, as level 1 has them, stand apart, on white. 4,095 is white too. */
#include "figures.h"
#include "image.h"
#include "tetrolet.h"

#include <stdlib.h>
#include <string.h>

const char program[] = "blocks";

enum { CELL = 8, GAP = 8 };

/* Where a row or a column of samples begins. */
static size_t place(size_t k)
{
    return GAP + k * CELL + k / 4 * GAP;
}

int main(void)
{
    static uint16_t image[TETROLET_MAX_AREA];
    size_t height, width;
    take_image(image, &height, &width);
    if (height % 4 != 0 || width % 4 != 0)
        fail("the height or the width is not a multiple of 4");
    size_t rows = place(height), columns = place(width);
    uint8_t *grey = malloc(rows * columns);
    if (grey == NULL)
        fail("no memory");
    memset(grey, 255, rows * columns);
    for (size_t x = 0; x < width; x++)
        for (size_t y = 0; y < height; y++)
            for (size_t row = 0; row < CELL; row++)
                memset(grey + (place(y) + row) * columns + place(x), image[x * height + y] >> 4, CELL);
    return !png_write(stdout, grey, (uint32_t)columns, (uint32_t)rows);
}
