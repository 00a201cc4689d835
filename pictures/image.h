/* Greyscale images: PGM files in and out, PNG files out. Samples are stored down columns, as the library has them. */
#ifndef IMAGE_H
#define IMAGE_H

#include <stddef.h>
#include <stdint.h>
#include <stdio.h>

/* The bytes of a file up to its end. Gives 0 where there are more than `most`, or on a read error. */
int read_all(FILE *in, size_t most, uint8_t **bytes, size_t *length);

/* The header of a PGM file, P2 or P5. */
struct pgm {
    int plain; /* P2 */
    unsigned long width, height, maxval;
    const uint8_t *at, *end; /* what follows the header */
};

/* Takes the header. Gives 0 where the bytes break the format. */
int pgm_header(const uint8_t *bytes, size_t length, struct pgm *header);

/* Takes the samples. Gives 0 where the bytes break the format: too few, a sample over maxval, or bytes after
   the last one that are not white space. */
int pgm_samples(const struct pgm *header, uint16_t *samples);

/* Writes a P5 file; samples over maxval are held to it. */
int pgm_write(FILE *out, const uint16_t *samples, size_t height, size_t width, unsigned maxval);

/* Writes 8-bit grey values, stored along rows, as a PNG file. */
int png_write(FILE *out, const uint8_t *grey, uint32_t width, uint32_t height);

/* Writes images of one size side by side as a PNG file, and below each a part of it four times as large. All use the whole range of the first one's samples.
   Height and width are from 64 on. */
int png_panels(FILE *out, const uint16_t *const *images, size_t count, size_t height, size_t width);

#endif
