/* The entries of the plain second implementation (crate plain_c). Arguments and answers are those of include/tetrolet.h; `words` are the
   1,872 that plain_words finds. */
#ifndef PLAIN_H
#define PLAIN_H

#include <stddef.h>
#include <stdint.h>

void plain_words(uint8_t *words, size_t words_len);
uint32_t plain_word(const uint8_t *words, size_t words_len, uint8_t covering, uint8_t *word, size_t word_len);
uint32_t plain_decompose(const uint8_t *words, size_t words_len, size_t height, size_t width, size_t levels, const uint16_t *samples,
                         size_t samples_len, int64_t *plane, size_t plane_len, uint8_t *coverings, size_t coverings_len, int64_t *scratch,
                         size_t scratch_len);
uint32_t plain_decompose_within(const uint8_t *words, size_t words_len, size_t height, size_t width, size_t levels, uint64_t tolerance,
                                const uint16_t *samples, size_t samples_len, int64_t *plane, size_t plane_len, uint8_t *coverings,
                                size_t coverings_len, int64_t *scratch, size_t scratch_len);
uint32_t plain_decompose_listed(const uint8_t *words, size_t words_len, size_t height, size_t width, size_t levels, uint64_t tolerance,
                                const uint16_t *samples, size_t samples_len, const uint8_t *list, size_t list_len, int64_t *plane,
                                size_t plane_len, uint8_t *coverings, size_t coverings_len, int64_t *scratch, size_t scratch_len);
uint32_t plain_restore(const uint8_t *words, size_t words_len, size_t height, size_t width, size_t levels, const int64_t *plane,
                       size_t plane_len, const uint8_t *coverings, size_t coverings_len, int64_t *numerators, size_t numerators_len, uint16_t *samples,
                       size_t samples_len, int64_t *scratch, size_t scratch_len);
uint32_t plain_restore_listed(const uint8_t *words, size_t words_len, size_t height, size_t width, size_t levels, const int64_t *plane,
                              size_t plane_len, const uint8_t *coverings, size_t coverings_len, const uint8_t *list, size_t list_len,
                              int64_t *numerators, size_t numerators_len, uint16_t *samples, size_t samples_len, int64_t *scratch,
                              size_t scratch_len);
uint32_t plain_restore_master(const uint8_t *words, size_t words_len, size_t height, size_t width, size_t levels, const int64_t *plane,
                              size_t plane_len, const uint8_t *coverings, size_t coverings_len, int64_t *numerators, size_t numerators_len,
                              uint16_t *samples, size_t samples_len, int64_t *scratch, size_t scratch_len);
uint32_t plain_keep(size_t height, size_t width, size_t levels, int64_t *plane, size_t plane_len, uint64_t quota, size_t *left);
uint32_t plain_threshold(size_t height, size_t width, size_t levels, int64_t *plane, size_t plane_len, uint64_t limit, size_t *left);
uint32_t plain_join(size_t left_height, size_t left_width, size_t left_levels, const int64_t *left_plane, size_t left_plane_len,
                    const uint8_t *left_coverings, size_t left_coverings_len, size_t right_height, size_t right_width, size_t right_levels,
                    const int64_t *right_plane, size_t right_plane_len, const uint8_t *right_coverings, size_t right_coverings_len,
                    int64_t *plane, size_t plane_len, uint8_t *coverings, size_t coverings_len);
/* numerators, picture and scratch are room for a full restoring, each at least as long as the image. */
uint32_t plain_window(const uint8_t *words, size_t words_len, size_t height, size_t width, size_t levels, const int64_t *plane, size_t plane_len,
                      const uint8_t *coverings, size_t coverings_len, size_t top, size_t left, size_t window_height, size_t window_width,
                      uint16_t *samples, size_t samples_len, int64_t *numerators, size_t numerators_len, uint16_t *picture, size_t picture_len,
                      int64_t *scratch, size_t scratch_len);
/* gradient, decomposed and projected are room, each at least as long as the image. */
uint32_t plain_smooth(const uint8_t *words, size_t words_len, size_t height, size_t width, size_t levels, const int64_t *plane, size_t plane_len,
                      const uint8_t *coverings, size_t coverings_len, uint64_t step, int64_t *result, size_t result_len, int64_t *scratch,
                      size_t scratch_len, int64_t *gradient, size_t gradient_len, int64_t *decomposed, size_t decomposed_len, int64_t *projected,
                      size_t projected_len);
uint32_t plain_write(size_t height, size_t width, size_t levels, const int64_t *plane, size_t plane_len, const uint8_t *coverings,
                     size_t coverings_len, uint8_t *buffer, size_t buffer_len, size_t *length);
uint32_t plain_read(const uint8_t *text, size_t text_len, int64_t *plane, size_t plane_len, uint8_t *coverings, size_t coverings_len,
                    size_t *height, size_t *width, size_t *levels);
uint32_t plain_usage(const uint8_t *coverings, size_t coverings_len, uint8_t *buffer, size_t buffer_len, size_t *length);
uint32_t plain_test_image(size_t height, size_t width, uint32_t start, uint16_t *samples, size_t samples_len);
uint32_t plain_show(const uint8_t *words, size_t words_len, uint8_t covering, const uint16_t *steps, size_t steps_len, uint16_t *samples,
                    size_t samples_len, uint8_t *found);

#endif
