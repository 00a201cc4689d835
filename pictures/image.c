#include "image.h"

#include <stdlib.h>
#include <string.h>

int read_all(FILE *in, size_t most, uint8_t **bytes, size_t *length)
{
    uint8_t *p = malloc(most + 1);
    if (p == NULL)
        return 0;
    size_t n = fread(p, 1, most + 1, in);
    if (n > most || ferror(in)) {
        free(p);
        return 0;
    }
    *bytes = p;
    *length = n;
    return 1;
}

static int is_space(uint8_t c)
{
    return c == ' ' || (c >= '\t' && c <= '\r');
}

/* Skips white space and comments, which run from # to the end of the line. */
static const uint8_t *skip(const uint8_t *at, const uint8_t *end)
{
    while (at < end && (is_space(*at) || *at == '#'))
        if (*at == '#')
            while (at < end && *at != '\n' && *at != '\r')
                at++;
        else
            at++;
    return at;
}

/* Takes a decimal number of at most nine digits, after white space. */
static int number(const uint8_t **at, const uint8_t *end, unsigned long *value)
{
    const uint8_t *start = *at, *p = skip(start, end), *first = p;
    unsigned long n = 0;
    if (p == start)
        return 0;
    while (p < end && *p >= '0' && *p <= '9' && p - first < 9)
        n = 10 * n + (unsigned long)(*p++ - '0');
    if (p == first || (p < end && !is_space(*p) && *p != '#'))
        return 0;
    *at = p;
    *value = n;
    return 1;
}

int pgm_header(const uint8_t *bytes, size_t length, struct pgm *h)
{
    h->end = bytes + length;
    h->at = bytes + 2;
    if (length < 2 || bytes[0] != 'P' || (bytes[1] != '2' && bytes[1] != '5'))
        return 0;
    h->plain = bytes[1] == '2';
    if (!number(&h->at, h->end, &h->width) || !number(&h->at, h->end, &h->height) || !number(&h->at, h->end, &h->maxval))
        return 0;
    if (h->width == 0 || h->height == 0 || h->maxval == 0 || h->maxval > 65535)
        return 0;
    if (!h->plain) { /* one byte of white space, then the samples */
        if (h->at == h->end || !is_space(*h->at))
            return 0;
        h->at++;
    }
    return 1;
}

int pgm_samples(const struct pgm *h, uint16_t *samples)
{
    const uint8_t *at = h->at;
    size_t bytes = h->maxval > 255 ? 2 : 1;
    if (!h->plain && (size_t)(h->end - at) / bytes < h->width * h->height)
        return 0;
    for (size_t y = 0; y < h->height; y++)
        for (size_t x = 0; x < h->width; x++) {
            unsigned long v = 0;
            if (h->plain) {
                if (!number(&at, h->end, &v))
                    return 0;
            } else
                for (size_t k = 0; k < bytes; k++)
                    v = v << 8 | *at++;
            if (v > h->maxval)
                return 0;
            samples[x * h->height + y] = (uint16_t)v;
        }
    return skip(at, h->end) == h->end;
}

int pgm_write(FILE *out, const uint16_t *samples, size_t height, size_t width, unsigned maxval)
{
    fprintf(out, "P5\n%zu %zu\n%u\n", width, height, maxval);
    for (size_t y = 0; y < height; y++)
        for (size_t x = 0; x < width; x++) {
            unsigned v = samples[x * height + y];
            if (v > maxval)
                v = maxval;
            if (maxval > 255)
                putc((int)(v >> 8), out);
            putc((int)(v & 255), out);
        }
    return fflush(out) == 0 && !ferror(out);
}

/* ---- PNG: one IDAT chunk of stored deflate blocks ---- */

static uint32_t crc_add(uint32_t crc, const uint8_t *p, size_t n)
{
    for (size_t i = 0; i < n; i++) {
        crc ^= p[i];
        for (int k = 0; k < 8; k++)
            crc = crc >> 1 ^ (crc & 1 ? 0xedb88320u : 0);
    }
    return crc;
}

static void put32(uint8_t *p, uint32_t v)
{
    for (int k = 0; k < 4; k++)
        p[k] = (uint8_t)(v >> (24 - 8 * k));
}

static void chunk(FILE *out, const char *type, const uint8_t *data, size_t n)
{
    uint8_t word[4];
    put32(word, (uint32_t)n);
    fwrite(word, 1, 4, out);
    fwrite(type, 1, 4, out);
    if (n > 0)
        fwrite(data, 1, n, out);
    put32(word, ~crc_add(crc_add(0xffffffffu, (const uint8_t *)type, 4), data, n));
    fwrite(word, 1, 4, out);
}

int png_write(FILE *out, const uint8_t *grey, uint32_t width, uint32_t height)
{
    size_t raw = (size_t)height * (width + 1), blocks = (raw + 65534) / 65535, at = 0;
    uint8_t *data = malloc(raw + 5 * blocks + 6), *rows = malloc(raw);
    if (data == NULL || rows == NULL) {
        free(data);
        free(rows);
        return 0;
    }
    uint32_t a = 1, b = 0;
    for (uint32_t y = 0; y < height; y++) {
        rows[(size_t)y * (width + 1)] = 0; /* no filter */
        memcpy(rows + (size_t)y * (width + 1) + 1, grey + (size_t)y * width, width);
    }
    for (size_t i = 0; i < raw; i++) {
        a = (a + rows[i]) % 65521;
        b = (b + a) % 65521;
    }
    data[at++] = 0x78;
    data[at++] = 0x01;
    for (size_t from = 0; from < raw; from += 65535) {
        size_t n = raw - from < 65535 ? raw - from : 65535;
        data[at++] = from + n == raw;
        data[at++] = (uint8_t)(n & 255);
        data[at++] = (uint8_t)(n >> 8);
        data[at++] = (uint8_t)(~n & 255);
        data[at++] = (uint8_t)(~n >> 8 & 255);
        memcpy(data + at, rows + from, n);
        at += n;
    }
    put32(data + at, b << 16 | a);
    at += 4;
    uint8_t head[13] = { 0, 0, 0, 0, 0, 0, 0, 0, 8, 0, 0, 0, 0 };
    put32(head, width);
    put32(head + 4, height);
    fwrite("\x89PNG\r\n\x1a\n", 1, 8, out);
    chunk(out, "IHDR", head, 13);
    chunk(out, "IDAT", data, at);
    chunk(out, "IEND", head, 0);
    free(data);
    free(rows);
    return fflush(out) == 0 && !ferror(out);
}

int png_panels(FILE *out, const uint16_t *const *images, size_t count, size_t height, size_t width)
{
    const uint16_t *first = images[0];
    unsigned dark = 4095, bright = 0;
    for (size_t i = 0; i < height * width; i++) {
        dark = first[i] < dark ? first[i] : dark;
        bright = first[i] > bright ? first[i] : bright;
    }
    unsigned span = bright > dark ? bright - dark : 1;
    size_t gap = 8, columns = count * (width + gap) - gap, rows = 2 * height + gap;
    size_t part_x = width * 3 / 16, part_y = height / 2; /* the part that is shown large */
    uint8_t *grey = malloc(columns * rows);
    if (grey == NULL)
        return 0;
    memset(grey, 255, columns * rows);
    for (size_t k = 0; k < count; k++)
        for (size_t y = 0; y < height; y++)
            for (size_t x = 0; x < width; x++)
                for (int big = 0; big < 2; big++) {
                    size_t sx = big ? part_x + x / 4 : x, sy = big ? part_y + y / 4 : y;
                    unsigned v = images[k][sx * height + sy];
                    v = v < dark ? dark : v > bright ? bright : v;
                    grey[(y + (big ? height + gap : 0)) * columns + k * (width + gap) + x] = (uint8_t)((v - dark) * 255 / span);
                }
    int good = png_write(out, grey, (uint32_t)columns, (uint32_t)rows);
    free(grey);
    return good;
}
