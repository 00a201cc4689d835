/* The same entries in plain C, for comparison. Arguments, answers and refusals are those of include/tetrolet.h. */
#ifndef BASELINE_H
#define BASELINE_H

#include <stddef.h>
#include <stdint.h>

/* How the entries that decompose, and base_show, find the costs of the coverings: all 117, or those of a list. */
enum { BASE_STRAIGHT, /* all twelve W of each covering */
       BASE_SHARED }; /* the placements that occur in them once, 89 in all 117, and four added for each covering */

/* How base_join looks at the ranges of planes. */
enum { BASE_SINGLE, /* entry by entry, as the other entries do */
       BASE_FOURS }; /* four entries at a time, without a branch */

/* How base_write writes numbers. */
enum { BASE_DIGITS, BASE_PRINTF };

/* Makes the tables by search. Call it once, before all else. */
void base_init(void);

uint32_t base_word(uint8_t covering, uint8_t *word, size_t word_len);
uint32_t base_decompose(int form, size_t height, size_t width, size_t levels, const uint16_t *samples, size_t samples_len, int64_t *plane,
                        size_t plane_len, uint8_t *coverings, size_t coverings_len, int64_t *scratch, size_t scratch_len);
uint32_t base_decompose_within(int form, size_t height, size_t width, size_t levels, uint64_t tolerance, const uint16_t *samples,
                               size_t samples_len, int64_t *plane, size_t plane_len, uint8_t *coverings, size_t coverings_len,
                               int64_t *scratch, size_t scratch_len);
uint32_t base_decompose_listed(int form, size_t height, size_t width, size_t levels, uint64_t tolerance, const uint16_t *samples,
                               size_t samples_len, const uint8_t *list, size_t list_len, int64_t *plane, size_t plane_len,
                               uint8_t *coverings, size_t coverings_len, int64_t *scratch, size_t scratch_len);
uint32_t base_restore(size_t height, size_t width, size_t levels, const int64_t *plane, size_t plane_len, const uint8_t *coverings,
                      size_t coverings_len, int64_t *numerators, size_t numerators_len, uint16_t *samples, size_t samples_len,
                      int64_t *scratch, size_t scratch_len);
uint32_t base_restore_listed(size_t height, size_t width, size_t levels, const int64_t *plane, size_t plane_len, const uint8_t *coverings,
                             size_t coverings_len, const uint8_t *list, size_t list_len, int64_t *numerators, size_t numerators_len,
                             uint16_t *samples, size_t samples_len, int64_t *scratch, size_t scratch_len);
uint32_t base_restore_master(size_t height, size_t width, size_t levels, const int64_t *plane, size_t plane_len, const uint8_t *coverings,
                             size_t coverings_len, int64_t *numerators, size_t numerators_len, uint16_t *samples, size_t samples_len,
                             int64_t *scratch, size_t scratch_len);
uint32_t base_keep(size_t height, size_t width, size_t levels, int64_t *plane, size_t plane_len, uint64_t quota, size_t *left);
uint32_t base_threshold(size_t height, size_t width, size_t levels, int64_t *plane, size_t plane_len, uint64_t threshold, size_t *left);
uint32_t base_join(int form, size_t left_height, size_t left_width, size_t left_levels, const int64_t *left_plane, size_t left_plane_len,
                   const uint8_t *left_coverings, size_t left_coverings_len, size_t right_height, size_t right_width, size_t right_levels,
                   const int64_t *right_plane, size_t right_plane_len, const uint8_t *right_coverings, size_t right_coverings_len,
                   int64_t *plane, size_t plane_len, uint8_t *coverings, size_t coverings_len);
uint32_t base_window(size_t height, size_t width, size_t levels, const int64_t *plane, size_t plane_len, const uint8_t *coverings,
                     size_t coverings_len, size_t top, size_t left, size_t window_height, size_t window_width, uint16_t *samples,
                     size_t samples_len);
uint32_t base_smooth(size_t height, size_t width, size_t levels, const int64_t *plane, size_t plane_len, const uint8_t *coverings,
                     size_t coverings_len, uint64_t step, int64_t *result, size_t result_len, int64_t *scratch, size_t scratch_len);
uint32_t base_write(int form, size_t height, size_t width, size_t levels, const int64_t *plane, size_t plane_len, const uint8_t *coverings,
                    size_t coverings_len, uint8_t *buffer, size_t buffer_len, size_t *length);
uint32_t base_read(const uint8_t *text, size_t text_len, int64_t *plane, size_t plane_len, uint8_t *coverings, size_t coverings_len,
                   size_t *height, size_t *width, size_t *levels);
uint32_t base_usage(const uint8_t *coverings, size_t coverings_len, uint8_t *buffer, size_t buffer_len, size_t *length);
uint32_t base_test_image(size_t height, size_t width, uint32_t start, uint16_t *samples, size_t samples_len);
uint32_t base_show(int form, uint8_t covering, const uint16_t *steps, size_t steps_len, uint16_t *samples, size_t samples_len, uint8_t *found);

/* Cuts as base_keep does, but ranked by |W| alone. For the figures in pictures/README.md. */
uint32_t base_keep_raw(size_t height, size_t width, size_t levels, int64_t *plane, size_t plane_len, uint64_t quota, size_t *left);

#endif
