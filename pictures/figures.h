/* What the programs that print figures of an image share: the image from standard input, calls that must be accepted, the squared distance of two
   images, the total variation, and numbers for a table. */
#ifndef FIGURES_H
#define FIGURES_H

#include <stddef.h>
#include <stdint.h>

/* The name of the program in its messages; each program defines its own. */
extern const char program[];

/* Prints why, and ends the program with status 1. */
void fail(const char *why);

/* Ends the program where a call was refused. */
void accepted(const char *call, uint32_t refusal);

/* Takes a PGM file of height and width up to 512 with maxval up to 4095, or ends the program. */
void take_image(uint16_t *samples, size_t *height, size_t *width);

unsigned long long squared_distance(const uint16_t *a, const uint16_t *b, size_t n);

/* The total variation: the absolute differences of each value to its neighbours above, below, left and right, all added up. Each pair counts twice. */
unsigned long long total_variation(const int64_t *values, size_t height, size_t width);

/* Prints a number with a comma before each three digits. */
void print_number(unsigned long long n);

#endif
