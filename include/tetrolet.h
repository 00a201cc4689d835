/*
 * The adaptive tetrolet transform in whole numbers: declarations for C and C++.
 *
 * A slice passes as a pointer and a count of its elements, not of its bytes. Each function answers with a refusal number:
 * 0 where the call is accepted, else the first number of its list below whose condition holds. A refused call changes
 * nothing: each slice and each single number lent to it holds what it held before. No function allocates memory,
 * keeps a pointer or has a state of its own, so calls on different slices may run at the same time.
 *
 * The slices lent to one call must not overlap. A pointer must not be null, even where its count is 0, and must be aligned
 * for its type.
 *
 * Height and width, each on its own: 4, 8, 16, 32, 64, 128, 256, 512. Levels R: 1 to log2 of the smaller of the two, minus 1.
 * Images and planes are stored down columns: row y, column x is at x * height + y. Level r works on the upper left
 * height / 2^(r-1) rows and width / 2^(r-1) columns and leaves in them the low-pass upper left, W1 upper right, W2 lower left,
 * W3 lower right: bands 0 to 3.
 *
 * The coverings of the blocks are listed by level, from level 1, and in a level down columns. There are B of them: the sum
 * over r from 1 to R of (height / 2^(r+1)) * (width / 2^(r+1)). tetrolet_blocks below reckons it.
 */
#ifndef TETROLET_H
#define TETROLET_H

#include <stddef.h>
#include <stdint.h>

#ifdef __cplusplus
extern "C" {
#endif

/* The refusals. */
enum {
    TETROLET_ACCEPTED = 0,
    TETROLET_SIDE = 1,          /* the height or the width is not a power of two, 4 to 512 */
    TETROLET_LEVELS = 2,        /* levels out of range for the smaller of height and width */
    TETROLET_LENGTH = 3,        /* a slice is not of its exact length */
    TETROLET_SAMPLE = 4,        /* a sample is over 4,095 */
    TETROLET_COVERING = 5,      /* a covering is 0 or over 117 */
    TETROLET_COEFFICIENT = 6,   /* a plane entry is out of its range */
    TETROLET_QUOTA = 7,         /* the quota is over A - A / 4^R, where A is height * width */
    TETROLET_THRESHOLD = 8,     /* the threshold is over 1,000,000 */
    TETROLET_TEXT = 9,          /* the text breaks the line rules */
    TETROLET_BUFFER = 10,       /* the text is longer than the buffer */
    TETROLET_SEQUENCE = 11,     /* block lines or plane lines that are not at their places */
    TETROLET_BENCH = 12,        /* cutter: the height or the width is over 32 */
    TETROLET_TOLERANCE = 13,    /* the tolerance is over 4,095 */
    TETROLET_LIST = 14,         /* the list is empty, does not strictly rise, or holds 0 or a number over 117 */
    TETROLET_MISMATCH = 15,     /* join: the heights, the widths or the levels of the two strips differ */
    TETROLET_JOINED_WIDTH = 16, /* join: the joined width is over 512 */
    TETROLET_WINDOW = 17,       /* window: it has no cell, or reaches past the image */
    TETROLET_UNLISTED = 18,     /* restore listed: a covering that some block uses is missing from the list */
    TETROLET_STEP = 19,         /* smooth: the step is over 255 */
    TETROLET_MASTER = 20,       /* restore master: a numerator is not 4^R times a whole number from 0 to 4,095 */
    TETROLET_STEPS = 21         /* show: the steps are not one to four strictly rising values up to 4,095 */
};

/* The largest counts: samples of an image, coverings of an image, bytes of a sheet, bytes of a usage list. */
#define TETROLET_MAX_AREA 262144
#define TETROLET_MAX_BLOCKS 21845
#define TETROLET_MAX_SHEET 4772585
#define TETROLET_MAX_USAGE 851

/* B, the number of coverings for accepted height, width and levels. */
static inline size_t tetrolet_blocks(size_t height, size_t width, size_t levels)
{
    size_t total = 0;
    for (; levels > 0; levels--, height /= 2, width /= 2)
        total += (height / 4) * (width / 4);
    return total;
}

/*
 * The word of a covering: for cells 0 to 15 of a block, down columns, the piece of each, 0 to 3.
 *   word       16 bytes, written
 * Refusals: 3 (word_len is not 16), 5.
 */
uint32_t tetrolet_word(uint8_t covering, uint8_t *word, size_t word_len);

/*
 * Decomposes an image into its plane and its coverings. A block takes the covering of least cost; of several, the one chosen most often in all
 * earlier blocks of the image, those of the finer levels too; then the lowest number.
 *   samples    height * width samples, 0 to 4,095, read
 *   plane      height * width entries, written
 *   coverings  B numbers, 1 to 117, written
 *   scratch    height * width entries; they may hold anything, and hold zeros after an accepted call
 * Refusals: 1, 2, 3, 4.
 */
uint32_t tetrolet_decompose(size_t height, size_t width, size_t levels, const uint16_t *samples, size_t samples_len, int64_t *plane,
                            size_t plane_len, uint8_t *coverings, size_t coverings_len, int64_t *scratch, size_t scratch_len);

/*
 * Decomposes an image with a tolerance, for a caller to whom few different coverings are worth a little cost. In a block of level r the coverings
 * compete whose cost is at most the least plus tolerance * 2^r. The block takes the one of them that was chosen most often in all earlier blocks
 * of the image, those of the finer levels too; then the lowest number. 0 gives what tetrolet_decompose gives.
 *   tolerance  0 to 4,095
 *   samples, plane, coverings, scratch    as for tetrolet_decompose
 * Refusals: 1, 2, 3, 4, 13.
 */
uint32_t tetrolet_decompose_within(size_t height, size_t width, size_t levels, uint64_t tolerance, const uint16_t *samples, size_t samples_len,
                                   int64_t *plane, size_t plane_len, uint8_t *coverings, size_t coverings_len, int64_t *scratch,
                                   size_t scratch_len);

/*
 * Decomposes an image by the coverings of a list. Only those in the list compete: at level r the ones whose cost is at most the least in the list
 * plus tolerance * 2^r. The block takes the one of them that was chosen most often in all earlier blocks of the image, those of the finer levels
 * too; then the lowest number. With all 117 listed it gives what tetrolet_decompose_within gives.
 *   tolerance  0 to 4,095
 *   list       a list of 1 to 117 covering numbers, strictly rising, read; a wrong length of it is 14, not 3
 *   coverings  B numbers of the list, written
 *   samples, plane, scratch    as for tetrolet_decompose
 * Refusals: 1, 2, 3, 4, 13, 14.
 */
uint32_t tetrolet_decompose_listed(size_t height, size_t width, size_t levels, uint64_t tolerance, const uint16_t *samples, size_t samples_len,
                                   const uint8_t *list, size_t list_len, int64_t *plane, size_t plane_len, uint8_t *coverings,
                                   size_t coverings_len, int64_t *scratch, size_t scratch_len);

/*
 * Restores an image from a plane and its coverings.
 *   plane      height * width entries, read: low-pass 0 to 4,095 * 4^R; W of level r within 2 * 4^(r-1) * 4,095 either side of zero
 *   coverings  B numbers, 1 to 117, read
 *   numerators height * width entries, written: 4^R times the image where nothing was cut
 *   samples    height * width samples, written: numerators / 4^R rounded to nearest, halves upward, held to 0 and 4,095
 *   scratch    height * width entries; they may hold anything, and hold zeros after an accepted call
 * Refusals: 1, 2, 3, 5, 6.
 */
uint32_t tetrolet_restore(size_t height, size_t width, size_t levels, const int64_t *plane, size_t plane_len, const uint8_t *coverings,
                          size_t coverings_len, int64_t *numerators, size_t numerators_len, uint16_t *samples, size_t samples_len,
                          int64_t *scratch, size_t scratch_len);

/*
 * Restores an image from a plane and the coverings of a list. Where each of the B coverings stands in the list it gives what tetrolet_restore gives;
 * where one is missing the answer is 18, whatever the plane holds. What tetrolet_decompose_listed left is never refused with the list that it was lent
 * and slices of their lengths, be the plane uncut or cut since by tetrolet_keep or tetrolet_threshold.
 *   list       a list of 1 to 117 covering numbers, strictly rising, read; it may hold numbers that no block uses; a wrong length of it is 14, not 3
 *   plane, coverings, numerators, samples, scratch    as for tetrolet_restore
 * Refusals: 1, 2, 3, 14, 5, 18, 6.
 */
uint32_t tetrolet_restore_listed(size_t height, size_t width, size_t levels, const int64_t *plane, size_t plane_len, const uint8_t *coverings,
                                 size_t coverings_len, const uint8_t *list, size_t list_len, int64_t *numerators, size_t numerators_len,
                                 uint16_t *samples, size_t samples_len, int64_t *scratch, size_t scratch_len);

/*
 * Restores an image from a master, a plane that was never cut. Nothing is rounded and nothing is held to limits: each numerator must be 4^R times a whole
 * number from 0 to 4,095, and the sample is that number. Where they all are it gives what tetrolet_restore gives; where one is not the answer is 20.
 * What tetrolet_decompose, tetrolet_decompose_within or tetrolet_decompose_listed left always passes with its own height, width, levels and coverings, and
 * gives the image back. Any other plane whose numerators are such numbers passes too, cut or not.
 *   samples    height * width samples, written: numerators / 4^R, exact
 *   plane, coverings, numerators, scratch    as for tetrolet_restore
 * Refusals: 1, 2, 3, 5, 6, 20. A call that is refused, by 20 too, changes nothing: numerators, samples and scratch hold what they held.
 */
uint32_t tetrolet_restore_master(size_t height, size_t width, size_t levels, const int64_t *plane, size_t plane_len, const uint8_t *coverings,
                                 size_t coverings_len, int64_t *numerators, size_t numerators_len, uint16_t *samples, size_t samples_len,
                                 int64_t *scratch, size_t scratch_len);

/*
 * Keeps the first `quota` tetrolet coefficients by falling rank |W| * 2^(R-r), then in plane order; the others become 0.
 * The low-pass is never cut. Keeping L and then K leaves what keeping the smaller of the two leaves, and gives the same count.
 *   plane      height * width entries in range, as for tetrolet_restore, read and written
 *   left       the number of tetrolet coefficients left that are not zero, written
 * Refusals: 1, 2, 3, 6, 7.
 */
uint32_t tetrolet_keep(size_t height, size_t width, size_t levels, int64_t *plane, size_t plane_len, uint64_t quota, size_t *left);

/*
 * Cuts by a threshold: a level-r tetrolet coefficient stays where |W| is at least threshold * 2^r; the others become 0.
 * The low-pass is never cut. Cutting by T and then by S leaves what cutting by the larger of the two leaves, and gives the same count.
 *   plane      height * width entries in range, as for tetrolet_restore, read and written
 *   left       the number of tetrolet coefficients left that are not zero, written
 * Refusals: 1, 2, 3, 6, 8.
 */
uint32_t tetrolet_threshold(size_t height, size_t width, size_t levels, int64_t *plane, size_t plane_len, uint64_t threshold, size_t *left);

/*
 * Joins two neighbouring strips, a left and a right one of the same height, width and levels, to one that is twice as wide. Each band of each level,
 * the last low-pass too, and the coverings of each level hold the left strip's columns, then the right strip's.
 * Restored, the joined strip has the left strip's numerators, then the right strip's: the two side by side, for cut planes too. tetrolet_restore,
 * tetrolet_keep, tetrolet_threshold and tetrolet_write take it with the strips' height, twice their width and their levels. It need not be the plane
 * that tetrolet_decompose gives for the wide image: there the ties of a block are settled by all earlier blocks, those of the other half too.
 *   left_plane, right_plane          height * width entries in range, as for tetrolet_restore, read
 *   left_coverings, right_coverings  B numbers, 1 to 117, read
 *   plane                            2 * height * width entries, written
 *   coverings                        2 * B numbers, written
 * Refusals: 1, 2, 15, 16, 3, 5, 6. 1, 2, 3, 5 and 6 look at the left strip, then at the right one; 3 then looks at plane and coverings.
 */
uint32_t tetrolet_join(size_t left_height, size_t left_width, size_t left_levels, const int64_t *left_plane, size_t left_plane_len,
                       const uint8_t *left_coverings, size_t left_coverings_len, size_t right_height, size_t right_width, size_t right_levels,
                       const int64_t *right_plane, size_t right_plane_len, const uint8_t *right_coverings, size_t right_coverings_len,
                       int64_t *plane, size_t plane_len, uint8_t *coverings, size_t coverings_len);

/*
 * One smoothing step, which lessens the blocky look of an image that was cut and spares what was kept. Y are the numerators that tetrolet_restore gives.
 * The gradient of their total variation at a cell is twice the sum of the signs, -1, 0 or 1, of Y here minus Y there, over its neighbours above, below,
 * left and right inside the image. It is decomposed by the coverings lent, set to 0 in band 0 and wherever the plane is not 0, and restored to numerators G.
 *   plane      height * width entries in range, as for tetrolet_restore, read
 *   coverings  B numbers, 1 to 117, read
 *   step       p, 0 to 255
 *   result     height * width entries, written: 16 * Y - p * G. Decomposed by the same coverings, they show 16 * 4^R times the plane in band 0 and wherever
 *              it is not 0
 *   scratch    height * width entries; they may hold anything, and hold zeros after an accepted call
 * No samples are given. The caller has them from result / (16 * 4^R), rounded to nearest, halves upward, and held to 0 and 4,095, as tetrolet_restore has
 * them from numerators / 4^R. A step of 0 gives those of tetrolet_restore. A large step may raise the total variation.
 * Refusals: 1, 2, 3, 5, 6, 19. The step may be any number: nothing is narrowed.
 */
uint32_t tetrolet_smooth(size_t height, size_t width, size_t levels, const int64_t *plane, size_t plane_len, const uint8_t *coverings,
                         size_t coverings_len, uint64_t step, int64_t *result, size_t result_len, int64_t *scratch, size_t scratch_len);

/*
 * Writes a plane and its coverings as a sheet.
 *   plane      height * width entries in range, as for tetrolet_restore, read
 *   coverings  B numbers, 1 to 117, read
 *   buffer     any length; the sheet is written from its start, further bytes stay
 *   length     the number of bytes written
 * Refusals: 1, 2, 3, 5, 6, 10. TETROLET_MAX_SHEET bytes are always enough.
 */
uint32_t tetrolet_write(size_t height, size_t width, size_t levels, const int64_t *plane, size_t plane_len, const uint8_t *coverings,
                        size_t coverings_len, uint8_t *buffer, size_t buffer_len, size_t *length);

/*
 * Reads a sheet. The slices are those of the sheet's own height, width and levels, which stand in its second line.
 *   text       the sheet, any length, read as a whole
 *   plane      height * width entries, written: 0 at each place without a line
 *   coverings  B numbers, written
 *   height, width, levels    those of the sheet, written
 * Refusals: 9, 1, 2, 3, 11, 5, 6.
 */
uint32_t tetrolet_read(const uint8_t *text, size_t text_len, int64_t *plane, size_t plane_len, uint8_t *coverings, size_t coverings_len,
                       size_t *height, size_t *width, size_t *levels);

/*
 * Writes the usage list: one line for each covering used, with its count; by falling count, then rising number.
 *   coverings  0 to 21,845 numbers, 1 to 117, read
 *   buffer     any length; the list is written from its start, further bytes stay
 *   length     the number of bytes written
 * Refusals: 3 (over 21,845 coverings), 5, 10. TETROLET_MAX_USAGE bytes are always enough.
 */
uint32_t tetrolet_usage(const uint8_t *coverings, size_t coverings_len, uint8_t *buffer, size_t buffer_len, size_t *length);

/*
 * Writes a test image: the same start gives the same samples on every site. A state s, at first the start, becomes
 * (s * 1664525 + 1013904223) mod 2^32 for each sample, and the sample is the new s / 2^20, rounded down. From 0 the first is 966.
 *   start      any number
 *   samples    height * width samples, 0 to 4,095, written down columns
 * Refusals: 1, 3.
 */
uint32_t tetrolet_test_image(size_t height, size_t width, uint32_t start, uint16_t *samples, size_t samples_len);

/*
 * Writes a block that shows a covering, for calibration cards. Each piece of the covering is given one step, pieces may share one, and of all 117 coverings
 * this one alone must cost 0 on the block. Choices are tried by pieces 0 to 3 of tetrolet_word, lower steps first: the step of piece 3 changes fastest, that
 * of piece 0 slowest. The first choice that does it is written. That there is none is an answer, not a refusal.
 *   covering   1 to 117
 *   steps      one to four values, strictly rising, 0 to 4,095, read; a wrong length of it is 21, not 3
 *   samples    16 samples, written where there is a block, else left as they were; the sample of row y, column x is at 4 * x + y, as in an image of 4 by 4
 *   found      1 where there is a block, 0 where there is none, written
 * With one step no covering has a block; with two all but 3, 10, 22, 33, 48, 61, 70, 96, 105 and 114 have one; with three or four all have.
 * The samples are an image: decomposed with height 4, width 4 and 1 level they give this covering. So does every block of level 1 that has them, in any
 * image and whatever was chosen before, by tetrolet_decompose, and by tetrolet_decompose_listed with tolerance 0 and any list that holds the covering.
 * Refusals: 3 (samples_len is not 16), 5, 21.
 */
uint32_t tetrolet_show(uint8_t covering, const uint16_t *steps, size_t steps_len, uint16_t *samples, size_t samples_len, uint8_t *found);

/* ---- The viewer ---- */

/*
 * Restores a window of an image: window_height rows from row `top` on, window_width columns from column `left` on. Its samples are those that
 * tetrolet_restore gives at the same places. Blocks that do not touch the window are not restored, so that a small window takes little more time than the
 * checks, which look at the whole plane. No scratch is asked for.
 *   plane      height * width entries in range, as for tetrolet_restore, read
 *   coverings  B numbers, 1 to 117, read
 *   samples    window_height * window_width samples, written down the window's columns: its row y, column x is at x * window_height + y
 * Refusals: 1, 2, 17, 3, 5, 6. top, left, window_height and window_width may be any numbers: no sum of them wraps.
 */
uint32_t tetrolet_window(size_t height, size_t width, size_t levels, const int64_t *plane, size_t plane_len, const uint8_t *coverings,
                         size_t coverings_len, size_t top, size_t left, size_t window_height, size_t window_width, uint16_t *samples,
                         size_t samples_len);

#ifdef __cplusplus
}
#endif

#endif
