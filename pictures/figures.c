#include "figures.h"
#include "image.h"

#include <stdlib.h>

void fail(const char *why)
{
    fprintf(stderr, "%s: %s\n", program, why);
    exit(1);
}

void accepted(const char *call, uint32_t refusal)
{
    if (refusal != 0) {
        fprintf(stderr, "%s: %s was refused: %u\n", program, call, (unsigned)refusal);
        exit(1);
    }
}

void take_image(uint16_t *samples, size_t *height, size_t *width)
{
    uint8_t *bytes;
    size_t length;
    struct pgm h;
    if (!read_all(stdin, (size_t)1 << 24, &bytes, &length) || !pgm_header(bytes, length, &h) || h.height > 512 || h.width > 512
        || h.maxval > 4095 || !pgm_samples(&h, samples))
        fail("no PGM file of height and width up to 512 with maxval up to 4095");
    free(bytes);
    *height = h.height;
    *width = h.width;
}

unsigned long long squared_distance(const uint16_t *a, const uint16_t *b, size_t n)
{
    unsigned long long sum = 0;
    for (size_t i = 0; i < n; i++) {
        long d = (long)a[i] - b[i];
        sum += (unsigned long long)(d * d);
    }
    return sum;
}

static unsigned long long apart(int64_t a, int64_t b)
{
    return (unsigned long long)(a < b ? b - a : a - b);
}

unsigned long long total_variation(const int64_t *values, size_t height, size_t width)
{
    unsigned long long sum = 0;
    for (size_t x = 0; x < width; x++)
        for (size_t y = 0; y < height; y++) {
            const int64_t *v = values + x * height + y;
            sum += (y + 1 < height ? apart(v[0], v[1]) : 0) + (x + 1 < width ? apart(v[0], v[height]) : 0);
        }
    return 2 * sum;
}

void print_number(unsigned long long n)
{
    if (n >= 1000) {
        print_number(n / 1000);
        printf(",%03llu", n % 1000);
    } else
        printf("%llu", n);
}
