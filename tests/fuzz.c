/* Random and damaged calls through the C interface, compared with the plain C of bench/baseline.c and, where the area is at most 256
   or the entry is a quick one, with the plain second implementation (crate plain_c): the answer, every slice and every number lent. A
   refused call must leave all as it was. A plane that was cut is cut again, and compared with the plane cut once. More than half of the
   calls have slices made for strips, as many tall ones as wide ones.

   fuzz [CALLS [SEED]]

   Before the random calls, some small sheets are read in every prefix, and with every byte changed to every other value; large planes are
   smoothed, most of their entries at the ends of their ranges; large planes are restored as masters, some of which fail in one block alone; and every
   covering is shown, with one to four steps.

   Each slice lent to the library stands flush against a page that may not be touched, before it or after it, so that a read or a
   store outside it ends the program. The two others work on heap blocks of exact length, the plain C under the address sanitizer. */
#define _GNU_SOURCE
#include "baseline.h"
#include "plain.h"
#include "tetrolet.h"

#include <stdio.h>
#include <stdlib.h>
#include <string.h>
#include <sys/mman.h>

/* The words of the coverings as the plain second implementation finds them. */
#define WORDS 1872
static uint8_t words[WORDS];

static uint64_t state;

static uint64_t next(void)
{
    state ^= state << 13;
    state ^= state >> 7;
    state ^= state << 17;
    return state * 2685821657736338717u;
}

static uint64_t below(uint64_t n)
{
    return (next() >> 16) % n;
}

static int once_in(uint64_t n)
{
    return below(n) == 0;
}

/* ---- Slices ---- */

#define SLOTS 6
#define ROOM ((size_t)8 << 20)
#define PAGE ((size_t)4096)

struct slice {
    void *lib;   /* lent to the library */
    void *base;  /* lent to the plain C */
    void *plain; /* lent to the plain second implementation */
    void *old;   /* what both held before */
    size_t len;  /* in elements */
    size_t bytes;
};

static uint8_t *slots[SLOTS];
static struct slice lent[SLOTS];
static int lent_count;
static int at_end; /* every slice ends where the page behind it begins */

static void make_slots(void)
{
    for (int k = 0; k < SLOTS; k++) {
        uint8_t *p = mmap(NULL, ROOM + 2 * PAGE, PROT_NONE, MAP_PRIVATE | MAP_ANONYMOUS, -1, 0);
        if (p == MAP_FAILED || mprotect(p + PAGE, ROOM, PROT_READ | PROT_WRITE) != 0) {
            perror("mmap");
            exit(2);
        }
        slots[k] = p + PAGE;
    }
}

/* A slice of `len` elements that holds rubbish. Its contents are set in `base`, and copied by `settle`. */
static struct slice *lend(size_t len, size_t size)
{
    struct slice *s = &lent[lent_count];
    s->len = len;
    s->bytes = len * size;
    if (s->bytes > ROOM)
        abort();
    s->lib = !at_end && once_in(2) ? slots[lent_count] : slots[lent_count] + ROOM - s->bytes;
    s->base = malloc(s->bytes);
    s->plain = malloc(s->bytes);
    s->old = malloc(s->bytes);
    uint8_t *p = s->base;
    uint64_t r = next();
    for (size_t i = 0; i < s->bytes; i++)
        p[i] = (uint8_t)(r >> (i % 7 * 8)) ^ (uint8_t)i;
    lent_count++;
    return s;
}

static void settle(void)
{
    for (int k = 0; k < lent_count; k++) {
        memcpy(lent[k].lib, lent[k].base, lent[k].bytes);
        memcpy(lent[k].plain, lent[k].base, lent[k].bytes);
        memcpy(lent[k].old, lent[k].base, lent[k].bytes);
    }
}

static uint64_t call_number, first_seed;
static const char *entry;

static void differ(const char *what)
{
    printf("call %llu with seed %llu, %s: %s\n", (unsigned long long)call_number, (unsigned long long)first_seed, entry, what);
    exit(1);
}

/* Refusals are counted by their numbers. */
#define REFUSALS 32

struct tally {
    const char *name;
    unsigned long accepted, refused[REFUSALS], plain, tall, wide; /* tall, wide: slices made for a strip */
};

/* Whether the plain second implementation, which is slow, is asked too. */
static int asks_plain(size_t area)
{
    return area <= 256;
}

/* Compares what the library left with what the plain second implementation left, which answered c. */
static void compare_plain(struct tally *t, uint32_t a, uint32_t c)
{
    if (a != c) {
        printf("the library answers %u, the plain second implementation %u\n", a, c);
        differ("answers differ");
    }
    for (int k = 0; k < lent_count; k++)
        if (memcmp(lent[k].lib, lent[k].plain, lent[k].bytes) != 0)
            differ("slices differ from those of the plain second implementation");
    t->plain++;
}

/* Compares what the library left with what the plain C left. */
static void compare(struct tally *t, uint32_t a, uint32_t b)
{
    if (a != b) {
        printf("the library answers %u, the plain C %u\n", a, b);
        differ("answers differ");
    }
    for (int k = 0; k < lent_count; k++) {
        if (a != 0 && memcmp(lent[k].lib, lent[k].old, lent[k].bytes) != 0)
            differ("a refused call changed a slice");
        if (memcmp(lent[k].lib, lent[k].base, lent[k].bytes) != 0)
            differ("slices differ");
    }
    if (a == 0)
        t->accepted++;
    else
        t->refused[a % REFUSALS]++;
}

/* The slices of the plain C hold again what they held. */
static void put_back(void)
{
    for (int k = 0; k < lent_count; k++)
        memcpy(lent[k].base, lent[k].old, lent[k].bytes);
}

/* Compares what one entry of the library left with what another left on the slices of the plain C, which then hold again what they held. */
static void compare_entries(uint32_t a, uint32_t b)
{
    if (a != b) {
        printf("the library answers %u and %u\n", a, b);
        differ("answers of two entries differ");
    }
    for (int k = 0; k < lent_count; k++)
        if (memcmp(lent[k].lib, lent[k].base, lent[k].bytes) != 0)
            differ("slices of two entries differ");
    put_back();
}

/* The library may only read this slice. */
static void unchanged(const struct slice *s)
{
    if (memcmp(s->lib, s->old, s->bytes) != 0)
        differ("a slice that is only read has changed");
}

static void drop(void)
{
    for (int k = 0; k < lent_count; k++) {
        free(lent[k].base);
        free(lent[k].plain);
        free(lent[k].old);
    }
    lent_count = 0;
}

/* ---- Random arguments ---- */

/* A good height or width, most often a small one. */
static size_t small_side(void)
{
    uint64_t n = below(4096);
    return n < 2100 ? 4 : n < 3300 ? 8 : n < 3900 ? 16 : n < 4070 ? 32 : n < 4092 ? 64 : n < 4094 ? 128 : n < 4095 ? 256 : 512;
}

/* A good height or width, now and then a large one. */
static size_t large_side(void)
{
    uint64_t n = below(64);
    return n < 20 ? 4 : n < 36 ? 8 : n < 48 ? 16 : n < 56 ? 32 : n < 60 ? 64 : n < 62 ? 128 : n < 63 ? 256 : 512;
}

/* The levels that a height or a width allows by itself. */
static size_t most_levels(size_t n)
{
    size_t r = 0;
    while (n > 2) {
        n /= 2;
        r++;
    }
    return r;
}

/* The height, the width and the levels of a call, and those that its slices are made for. */
struct frame {
    size_t height, width, levels, made_height, made_width, made_levels, area, blocks;
};

/* The most levels that the slices may be made for. */
static size_t made_depth(const struct frame *f)
{
    size_t a = most_levels(f->made_height), b = most_levels(f->made_width);
    return a < b ? a : b;
}

/* A call with the height, the width and the levels that the slices are made for. */
static void settle_frame(struct frame *f)
{
    f->height = f->made_height;
    f->width = f->made_width;
    f->levels = f->made_levels;
    f->area = f->made_height * f->made_width;
    f->blocks = tetrolet_blocks(f->made_height, f->made_width, f->made_levels);
}

/* Slices of any size: a square once in five times, else a strip. */
static struct frame good_frame(void)
{
    struct frame f;
    size_t a = small_side(), b = a;
    if (!once_in(5))
        while (a == b)
            b = large_side();
    int turn = once_in(2);
    f.made_height = turn ? a : b;
    f.made_width = turn ? b : a;
    f.made_levels = 1 + below(made_depth(&f));
    settle_frame(&f);
    return f;
}

/* Now and then the call has a height, a width or levels that the slices are not made for. */
static void spoil_frame(struct frame *f)
{
    static const size_t bad_sides[] = { 0, 1, 2, 3, 5, 6, 7, 12, 20, 24, 48, 513, 1024, 65540, (size_t)1 << 32, ((size_t)1 << 32) + 4, (size_t)1 << 63,
                                        SIZE_MAX };
    static const size_t bad_levels[] = { 0, 9, 10, 63, 64, 65, 257, ((size_t)1 << 32) + 1, SIZE_MAX };
    uint64_t kind = below(60);
    if (kind == 0 || kind == 2) /* height, width or both are bad */
        f->height = bad_sides[below(sizeof bad_sides / sizeof *bad_sides)];
    if (kind == 1 || kind == 2)
        f->width = bad_sides[below(sizeof bad_sides / sizeof *bad_sides)];
    if (kind == 3) { /* each for the other: the slices are as long as they must be */
        f->height = f->made_width;
        f->width = f->made_height;
    }
    if (kind == 4)
        f->height = large_side();
    if (kind == 5)
        f->width = large_side();
    size_t most = made_depth(f), other = most_levels(f->made_height < f->made_width ? f->made_width : f->made_height);
    if (once_in(25))
        f->levels = bad_levels[below(sizeof bad_levels / sizeof *bad_levels)];
    else if (once_in(25)) /* too many for the smaller of the two, though the larger may allow them */
        f->levels = most + 1 + below(other - most + 1);
}

/* A call that is certainly not the one that the slices are made for. */
static void misname_frame(struct frame *f)
{
    while (f->height == f->made_height && f->width == f->made_width && f->levels == f->made_levels)
        spoil_frame(f);
}

static struct frame make_frame(void)
{
    struct frame f = good_frame();
    spoil_frame(&f);
    return f;
}

/* Two strips to join, most often alike. Now and then they are as wide as may be, or wider; or differ in height, in width, in levels, or in all; or
   one or both are called otherwise than they are made. */
static void make_pair(struct frame *left, struct frame *right)
{
    *left = good_frame();
    if (once_in(24)) {
        left->made_width = once_in(3) ? 512 : 256;
        left->made_height = small_side();
        left->made_levels = 1 + below(made_depth(left));
        settle_frame(left);
    }
    *right = *left;
    switch (below(48)) {
    case 0: *right = good_frame(); break;
    case 1: right->made_height = large_side(); break;
    case 2: right->made_width = large_side(); break;
    case 3:
        right->made_height = left->made_width;
        right->made_width = left->made_height;
        break;
    case 4: right->made_levels = 1 + below(made_depth(left)); break;
    default: break;
    }
    if (right->made_levels > made_depth(right))
        right->made_levels = made_depth(right);
    settle_frame(right);
    switch (below(12)) {
    case 0: /* both in the same way */
        spoil_frame(left);
        right->height = left->height;
        right->width = left->width;
        right->levels = left->levels;
        break;
    case 1: /* each in its own way, so that the one may be refused by 1 and the other by 2 */
        misname_frame(left);
        misname_frame(right);
        break;
    case 2:
    case 3:
    case 4: spoil_frame(left); break;
    case 5:
    case 6:
    case 7: spoil_frame(right); break;
    default: break;
    }
}

static void count_strip(struct tally *t, struct frame f)
{
    t->tall += f.made_height > f.made_width;
    t->wide += f.made_height < f.made_width;
}

static size_t wrong_length(size_t n)
{
    switch (below(5)) {
    case 0: return 0;
    case 1: return n + 1;
    case 2: return n > 0 ? n - 1 : 1;
    case 3: return n / 2;
    default: return n * 2;
    }
}

/* A length that is now and then wrong. */
static size_t length_near(size_t n)
{
    return once_in(50) ? wrong_length(n) : n;
}

/* Such lengths; those of a call with several flaws are wrong more often. */
static void lengths_near(size_t *lengths, int count, int flawed)
{
    for (int k = 0; k < count; k++)
        lengths[k] = flawed && once_in(5) ? wrong_length(lengths[k]) : length_near(lengths[k]);
}

/* Samples of an image: all alike, of three values, along a slope, or random. */
static void fill_good_samples(uint16_t *p, size_t n)
{
    uint64_t kind = below(5), range = 1 + below(4096), start = below(4096 - range + 1);
    for (size_t i = 0; i < n; i++)
        p[i] = (uint16_t)(kind == 0 ? start : kind == 1 ? below(3) * 5 : kind == 2 ? (start + i * 3) % 4096 : start + below(range));
}

static void fill_samples(uint16_t *p, size_t n)
{
    fill_good_samples(p, n);
    if (n > 0 && once_in(30))
        p[below(n)] = (uint16_t)(once_in(2) ? 4096 : 4096 + below(61440));
}

/* A covering, in one of four calls any number. */
static uint8_t make_covering(void)
{
    return (uint8_t)(once_in(4) ? below(256) : 1 + below(117));
}

/* A covering that there is not. */
static uint8_t bad_covering(void)
{
    switch (below(6)) {
    case 0:
    case 1: return 0;
    case 2: return 118;
    case 3: return 255;
    default: return (uint8_t)(118 + below(138));
    }
}

/* Now and then one such covering. */
static void spoil_coverings(uint8_t *p, size_t n)
{
    if (n > 0 && once_in(30))
        p[below(n)] = bad_covering();
}

/* Coverings of all kinds, and none that there is not. */
static void fill_good_coverings(uint8_t *p, size_t n)
{
    for (size_t i = 0; i < n; i++)
        p[i] = (uint8_t)(1 + below(117));
}

static void fill_coverings(uint8_t *p, size_t n)
{
    uint64_t range = 1 + below(117);
    for (size_t i = 0; i < n; i++)
        p[i] = (uint8_t)(1 + below(range));
    spoil_coverings(p, n);
}

/* The length of a good list: 1, about 16, nearly all, all 117, or any. */
static size_t list_length(void)
{
    switch (below(8)) {
    case 0: return 1;
    case 1: return 2 + below(4);
    case 2:
    case 3: return 14 + below(5);
    case 4: return 116;
    case 5:
    case 6: return 117;
    default: return 1 + below(117);
    }
}

/* A good list of n numbers: each number in turn is taken with the chance that as many are still wanted among those left. */
static void fill_list(uint8_t *p, size_t n)
{
    for (size_t k = 0, number = 1; k < n; number++)
        if (below(118 - number) < n - k)
            p[k++] = (uint8_t)number;
}

/* A list that is too long: numbers that rise from 0 or 1, and over 117 or not. */
static void fill_long_list(uint8_t *p, size_t n)
{
    size_t first = below(2), last = once_in(2) ? 117 : 255;
    for (size_t k = 0; k < n; k++)
        p[k] = (uint8_t)(first + k < last ? first + k : last);
}

/* One number of a good list changed: 0, one too large, the one before it again, a smaller one, two that have changed places, or anything. Many of
   these lists rise all the same. */
static void spoil_list(uint8_t *p, size_t n)
{
    size_t at = below(n), other = below(n);
    uint8_t kept = p[at];
    switch (below(8)) {
    case 0: p[0] = 0; break;
    case 1: p[n - 1] = 118; break;
    case 2: p[n - 1] = 255; break;
    case 3: p[n - 1] = (uint8_t)(118 + below(138)); break;
    case 4: p[at] = p[at > 0 ? at - 1 : n - 1]; break;
    case 5: p[at] = (uint8_t)below((uint64_t)kept + 1); break;
    case 6:
        p[at] = p[other];
        p[other] = kept;
        break;
    default: p[at] = (uint8_t)below(256);
    }
}

/* A list of covering numbers: most often a good one; empty, too long, or with one number changed. */
static struct slice *lend_list(void)
{
    uint64_t kind = below(16);
    size_t n = kind == 0 ? 0 : kind == 1 ? (once_in(2) ? 118 : once_in(2) ? 300 : 118 + below(200)) : list_length();
    struct slice *list = lend(n, 1);
    if (kind == 1)
        fill_long_list(list->base, n);
    if (kind > 1)
        fill_list(list->base, n);
    if (kind > 1 && kind < 6)
        spoil_list(list->base, n);
    return list;
}

/* A good list that holds a number. Gives its length. */
static size_t fill_list_with(uint8_t *p, uint8_t number)
{
    size_t n = list_length(), at = 0;
    fill_list(p, n);
    while (at < n && p[at] < number)
        at++;
    if (at < n && p[at] == number)
        return n;
    memmove(p + at + 1, p + at, n - at);
    p[at] = number;
    return n + 1;
}

/* A list made for coverings: those used, at times with others beside them, at times without that of some block, more often of the last. */
static struct slice *lend_used(const struct slice *coverings)
{
    const uint8_t *c = coverings->base;
    uint8_t wanted[256] = { 0 };
    size_t n = 0, k = 0;
    uint64_t kind = below(4);
    for (size_t i = 0; i < coverings->len; i++)
        wanted[c[i]] = 1;
    if (kind == 1)
        for (size_t number = 1; number <= 117; number++)
            wanted[number] |= once_in(8);
    if (kind == 2 && coverings->len > 0)
        wanted[c[once_in(2) ? coverings->len - 1 : below(coverings->len)]] = 0;
    for (size_t number = 1; number <= 117; number++)
        n += wanted[number];
    struct slice *list = lend(n, 1);
    uint8_t *p = list->base;
    for (size_t number = 1; number <= 117; number++)
        if (wanted[number])
            p[k++] = (uint8_t)number;
    return list;
}

/* Whether a list is that of all 117. */
static int lists_all(const struct slice *list)
{
    const uint8_t *p = list->old;
    for (size_t k = 0; k < list->len; k++)
        if (p[k] != k + 1)
            return 0;
    return list->len == 117;
}

/* The plane and the coverings of a random image, decomposed with a tolerance or without one, by all coverings or by a list. */
static void fill_real(int64_t *p, uint8_t *coverings, struct frame f)
{
    uint16_t *samples = malloc(f.area * sizeof *samples);
    int64_t *scratch = malloc(f.area * sizeof *scratch);
    uint64_t range = 1 + below(4096), tolerance = once_in(2) ? 0 : below(4096);
    uint8_t list[117];
    size_t count = once_in(2) ? 117 : list_length();
    fill_list(list, count);
    for (size_t i = 0; i < f.area; i++)
        samples[i] = (uint16_t)below(range);
    if (base_decompose_listed(BASE_STRAIGHT, f.made_height, f.made_width, f.made_levels, tolerance, samples, f.area, list, count, p, f.area, coverings,
                              f.blocks, scratch, f.area)
        != 0)
        abort();
    free(samples);
    free(scratch);
}

/* An entry that is out of range, at most places or at some. */
static int64_t bad_entry(void)
{
    static const int64_t bad[] = { INT64_MIN, INT64_MAX, -1, INT64_MIN + 1, 8190, 8191, -8190, -8191, 16380, 16381, 32760, 32761, -32761, 268369920,
                                   268369921, (int64_t)1 << 32 };
    return bad[below(sizeof bad / sizeof *bad)];
}

/* Now and then one such entry. */
static void spoil_plane(int64_t *p, size_t n)
{
    if (n > 0 && once_in(25))
        p[below(n)] = bad_entry();
}

/* How large the entry at place i may be, and whether it is of the low-pass. */
static int64_t most_at(struct frame f, size_t i, int *low)
{
    size_t x = i / f.made_height, y = i % f.made_height, r = 1;
    while (r < f.made_levels && y < f.made_height >> r && x < f.made_width >> r)
        r++;
    *low = y < f.made_height >> f.made_levels && x < f.made_width >> f.made_levels;
    return *low ? (int64_t)4095 << 2 * f.made_levels : (int64_t)8190 << 2 * (r - 1);
}

/* An end of the range of an entry that may be so large. */
static int64_t end_of(int64_t most, int low)
{
    return once_in(2) ? most : low ? 0 : -most;
}

/* Entries at the ends of their ranges. Of those that are not of the low-pass, one in `gaps` is 0; none where that is 0. */
static void fill_ends(int64_t *p, size_t n, struct frame f, uint64_t gaps)
{
    for (size_t i = 0; i < n; i++) {
        int low;
        int64_t most = most_at(f, i, &low);
        p[i] = low || gaps == 0 || !once_in(gaps) ? end_of(most, low) : 0;
    }
}

/* A plane: of a real image, or random entries up to their ranges; now and then an entry out of range. */
static void fill_plane(int64_t *p, size_t n, struct frame f)
{
    if (n == f.area && once_in(2)) {
        uint8_t *coverings = malloc(f.blocks);
        fill_real(p, coverings, f);
        free(coverings);
    } else {
        uint64_t kind = below(4);
        for (size_t i = 0; i < n; i++) {
            int low;
            int64_t most = most_at(f, i, &low);
            if (kind == 0)
                p[i] = 0;
            else if (kind == 1)
                p[i] = low ? (int64_t)below((uint64_t)most + 1) : (int64_t)below(2 * (uint64_t)most + 1) - most;
            else if (kind == 2)
                p[i] = end_of(most, low);
            else
                p[i] = low ? (int64_t)below(9) : (int64_t)below(9) - 4;
        }
    }
    spoil_plane(p, n);
}

/* A strip: a real image, whole, kept at a quota or cut by a threshold; or any plane with any coverings. */
static void fill_strip(const struct slice *plane, const struct slice *coverings, struct frame f)
{
    size_t left;
    uint32_t n = 0;
    uint64_t kind = below(6);
    if (kind < 2 || plane->len != f.area || coverings->len != f.blocks) {
        fill_plane(plane->base, plane->len, f);
        fill_coverings(coverings->base, coverings->len);
        return;
    }
    fill_real(plane->base, coverings->base, f);
    if (kind == 2)
        n = base_threshold(f.made_height, f.made_width, f.made_levels, plane->base, f.area, below(400), &left);
    if (kind == 3)
        n = base_keep(f.made_height, f.made_width, f.made_levels, plane->base, f.area, below(f.area - (f.area >> 2 * f.made_levels) + 1), &left);
    if (n != 0)
        abort();
    spoil_plane(plane->base, plane->len);
    spoil_coverings(coverings->base, coverings->len);
}

/* In half of the calls with several flaws a covering that there is not; in half an entry out of range. */
static void flaw_strip(const struct slice *plane, const struct slice *coverings)
{
    int64_t *p = plane->base;
    uint8_t *c = coverings->base;
    if (coverings->len > 0 && once_in(2))
        c[below(coverings->len)] = bad_covering();
    if (plane->len > 0 && once_in(2))
        p[below(plane->len)] = bad_entry();
}

/* ---- Texts ---- */

static uint8_t text[1 << 21];
static size_t text_len;

static void splice(size_t at, size_t cut, const void *put, size_t count)
{
    if (text_len - cut + count > sizeof text / 2)
        return;
    memmove(text + at + count, text + at + cut, text_len - at - cut);
    memcpy(text + at, put, count);
    text_len = text_len - cut + count;
}

static size_t line_start(size_t at)
{
    while (at > 0 && text[at - 1] != '\n')
        at--;
    return at;
}

static size_t line_end(size_t at)
{
    while (at < text_len && text[at] != '\n')
        at++;
    return at < text_len ? at + 1 : at;
}

/* Another head: that of a text for squares, whole or by half, or height and width exchanged in its names or in its values. */
static void damage_head(void)
{
    char head[64];
    unsigned h, w, l;
    size_t first = line_end(0), second = line_end(first), n = second - first;
    if (n >= sizeof head)
        return;
    memcpy(head, text + first, n);
    head[n] = 0;
    if (sscanf(head, "%4u %4u %4u", &h, &w, &l) != 3)
        return;
    uint64_t kind = below(5);
    const char *names = kind < 2 ? "side levels" : kind == 2 ? "width height levels" : "height width levels";
    int put;
    if (kind == 1 || kind == 3)
        put = snprintf(head, sizeof head, "%s\n%u %u\n", names, h, l);
    else
        put = snprintf(head, sizeof head, "%s\n%u %u %u\n", names, kind == 4 ? w : h, kind == 4 ? h : w, l);
    splice(0, second, head, (size_t)put);
}

/* One damage to the text. */
static void damage(void)
{
    static const char *numbers[] = { "0", "1", "2", "3", "4", "5", "8", "117", "118", "255", "256", "257", "512", "4095", "4096", "65543", "2147483647",
                                     "2147483648", "4294967297", "18446744073709551617", "99999999999999999999999", "-1", "-0", "00", "07", "-", "+1", "",
                                     "-2147483647", "-2147483648" };
    static const char bytes[] = "0123456789-- \n\n\r\t+.lsx\0\xff";
    if (text_len == 0)
        return;
    size_t at = below(text_len);
    uint64_t kind = below(11);
    if (kind == 10) {
        damage_head();
        return;
    }
    if (kind >= 8) { /* a number of the second line, or the last number of a line in the first half */
        at = kind == 8 ? line_end(0) + below(6) : line_end(below(text_len / 2 + 1)) - 1;
        if (at >= text_len)
            return;
        kind = 3;
    }
    switch (kind) {
    case 0:
        text[at] = (uint8_t)bytes[below(sizeof bytes - 1)];
        break;
    case 1:
        splice(at, 0, bytes + below(sizeof bytes - 1), 1);
        break;
    case 2:
        splice(at, 1, "", 0);
        break;
    case 3: { /* a number changed */
        while (at > 0 && text[at - 1] != ' ' && text[at - 1] != '\n')
            at--;
        size_t end = at;
        while (end < text_len && text[end] != ' ' && text[end] != '\n')
            end++;
        const char *n = numbers[below(sizeof numbers / sizeof *numbers)];
        splice(at, end - at, n, strlen(n));
        break;
    }
    case 4: /* a line left out */
        at = line_start(at);
        splice(at, line_end(at) - at, "", 0);
        break;
    case 5: { /* a line twice, here or elsewhere */
        uint8_t copy[256];
        size_t from = line_start(at), n = line_end(at) - from;
        if (n > sizeof copy)
            break;
        memcpy(copy, text + from, n);
        splice(once_in(2) ? from : line_start(below(text_len)), 0, copy, n);
        break;
    }
    case 6: { /* a line moved */
        uint8_t copy[256];
        size_t from = line_start(at), n = line_end(at) - from;
        if (n > sizeof copy)
            break;
        memcpy(copy, text + from, n);
        splice(from, n, "", 0);
        splice(text_len == 0 ? 0 : line_start(below(text_len)), 0, copy, n);
        break;
    }
    default:
        text_len = at;
    }
}

static void damage_some(void)
{
    if (once_in(3))
        return;
    for (uint64_t k = 1 + below(3); k > 0; k--)
        damage();
}

/* ---- The calls ---- */

static void call_word(struct tally *t)
{
    uint8_t covering = make_covering();
    struct slice *word = lend(length_near(16), 1);
    settle();
    uint32_t a = tetrolet_word(covering, word->lib, word->len);
    compare_plain(t, a, plain_word(words, WORDS, covering, word->plain, word->len));
    compare(t, a, base_word(covering, word->base, word->len));
}

/* What decomposing left passes as a master, and is the image. */
static void is_master_of(struct frame f, const struct slice *plane, const struct slice *coverings, const struct slice *samples)
{
    size_t n = plane->len;
    int64_t *numerators = malloc(n * sizeof *numerators), *scratch = malloc(n * sizeof *scratch);
    uint16_t *image = malloc(n * sizeof *image);
    if (tetrolet_restore_master(f.height, f.width, f.levels, plane->lib, n, coverings->lib, coverings->len, numerators, n, image, n, scratch, n) != 0)
        differ("what was decomposed does not pass as a master");
    if (memcmp(image, samples->lib, n * sizeof *image) != 0)
        differ("what was decomposed is not the image as a master");
    free(numerators);
    free(scratch);
    free(image);
}

static void call_decompose(struct tally *t)
{
    struct frame f = make_frame();
    count_strip(t, f);
    struct slice *samples = lend(length_near(f.area), 2), *plane = lend(length_near(f.area), 8), *coverings = lend(length_near(f.blocks), 1),
                 *scratch = lend(length_near(f.area), 8);
    fill_samples(samples->base, samples->len);
    settle();
    uint32_t a = tetrolet_decompose(f.height, f.width, f.levels, samples->lib, samples->len, plane->lib, plane->len, coverings->lib,
                                    coverings->len, scratch->lib, scratch->len);
    if (asks_plain(f.area))
        compare_plain(t, a, plain_decompose(words, WORDS, f.height, f.width, f.levels, samples->plain, samples->len, plane->plain, plane->len,
                                            coverings->plain, coverings->len, scratch->plain, scratch->len));
    compare(t, a, base_decompose((int)below(2), f.height, f.width, f.levels, samples->base, samples->len, plane->base, plane->len,
                                 coverings->base, coverings->len, scratch->base, scratch->len));
    if (a == 0)
        is_master_of(f, plane, coverings, samples);
}

/* A tolerance: none, small ones, the largest, the first that is too large, one whose low bits are a good one, or anything. */
static uint64_t make_tolerance(void)
{
    switch (below(16)) {
    case 0:
    case 1: return 0;
    case 2: return 1;
    case 3: return 4095;
    case 4: return 4096;
    case 5: return ((uint64_t)1 << (12 + below(52))) + below(4096);
    case 6: return next();
    case 7: return UINT64_MAX;
    case 8:
    case 9:
    case 10: return below(16);
    case 11:
    case 12:
    case 13: return below(256);
    default: return below(4096);
    }
}

static void call_within(struct tally *t)
{
    struct frame f = make_frame();
    count_strip(t, f);
    struct slice *samples = lend(length_near(f.area), 2), *plane = lend(length_near(f.area), 8), *coverings = lend(length_near(f.blocks), 1),
                 *scratch = lend(length_near(f.area), 8);
    uint64_t tolerance = make_tolerance();
    fill_samples(samples->base, samples->len);
    settle();
    uint32_t a = tetrolet_decompose_within(f.height, f.width, f.levels, tolerance, samples->lib, samples->len, plane->lib, plane->len,
                                           coverings->lib, coverings->len, scratch->lib, scratch->len);
    if (tolerance == 0)
        compare_entries(a, tetrolet_decompose(f.height, f.width, f.levels, samples->base, samples->len, plane->base, plane->len,
                                              coverings->base, coverings->len, scratch->base, scratch->len));
    if (asks_plain(f.area))
        compare_plain(t, a, plain_decompose_within(words, WORDS, f.height, f.width, f.levels, tolerance, samples->plain, samples->len,
                                                   plane->plain, plane->len, coverings->plain, coverings->len, scratch->plain,
                                                   scratch->len));
    compare(t, a, base_decompose_within((int)below(2), f.height, f.width, f.levels, tolerance, samples->base, samples->len, plane->base,
                                        plane->len, coverings->base, coverings->len, scratch->base, scratch->len));
    if (a == 0)
        is_master_of(f, plane, coverings, samples);
}

/* What decomposing by a list left is restored by that list, and is the image; cut once more, it is restored too. */
static void is_restored_by(struct frame f, const struct slice *list, const struct slice *plane, const struct slice *coverings, const struct slice *samples)
{
    size_t n = plane->len, left;
    int64_t *cut = malloc(n * sizeof *cut), *numerators = malloc(n * sizeof *numerators), *scratch = malloc(n * sizeof *scratch);
    uint16_t *image = malloc(n * sizeof *image);
    memcpy(cut, plane->lib, n * sizeof *cut);
    for (int k = 0; k < 2; k++) {
        if (tetrolet_restore_listed(f.height, f.width, f.levels, cut, n, coverings->lib, coverings->len, list->lib, list->len, numerators, n, image, n,
                                    scratch, n) != 0)
            differ("what was decomposed by a list is not restored by it");
        if (k == 0 && memcmp(image, samples->lib, n * sizeof *image) != 0)
            differ("what was decomposed by a list is not restored to the image");
        if (once_in(2))
            tetrolet_keep(f.height, f.width, f.levels, cut, n, below(n + 1), &left);
        else
            tetrolet_threshold(f.height, f.width, f.levels, cut, n, below(2000), &left);
    }
    free(cut);
    free(numerators);
    free(scratch);
    free(image);
}

static void call_listed(struct tally *t)
{
    struct frame f = make_frame();
    count_strip(t, f);
    struct slice *samples = lend(length_near(f.area), 2), *list = lend_list(), *plane = lend(length_near(f.area), 8),
                 *coverings = lend(length_near(f.blocks), 1), *scratch = lend(length_near(f.area), 8);
    uint64_t tolerance = make_tolerance();
    fill_samples(samples->base, samples->len);
    settle();
    uint32_t a = tetrolet_decompose_listed(f.height, f.width, f.levels, tolerance, samples->lib, samples->len, list->lib, list->len, plane->lib,
                                           plane->len, coverings->lib, coverings->len, scratch->lib, scratch->len);
    unchanged(list);
    if (lists_all(list))
        compare_entries(a, tetrolet_decompose_within(f.height, f.width, f.levels, tolerance, samples->base, samples->len, plane->base, plane->len,
                                                     coverings->base, coverings->len, scratch->base, scratch->len));
    if (asks_plain(f.area))
        compare_plain(t, a, plain_decompose_listed(words, WORDS, f.height, f.width, f.levels, tolerance, samples->plain, samples->len, list->plain,
                                                   list->len, plane->plain, plane->len, coverings->plain, coverings->len, scratch->plain,
                                                   scratch->len));
    compare(t, a, base_decompose_listed((int)below(2), f.height, f.width, f.levels, tolerance, samples->base, samples->len, list->base, list->len,
                                        plane->base, plane->len, coverings->base, coverings->len, scratch->base, scratch->len));
    if (a == 0) {
        is_master_of(f, plane, coverings, samples);
        is_restored_by(f, list, plane, coverings, samples);
    }
}

/* What an entry that restores is lent. */
struct restoring {
    struct slice *plane, *coverings, *numerators, *samples, *scratch;
};

/* Slices of these lengths. */
static struct restoring lend_restoring(const size_t *lengths)
{
    struct restoring s;
    s.plane = lend(lengths[0], 8);
    s.coverings = lend(lengths[1], 1);
    s.numerators = lend(lengths[2], 8);
    s.samples = lend(lengths[3], 2);
    s.scratch = lend(lengths[4], 8);
    return s;
}

/* Slices of the lengths that the frame asks for, or nearly. */
static struct restoring lend_near(struct frame f, int flawed)
{
    size_t lengths[5] = { f.area, f.blocks, f.area, f.area, f.area };
    lengths_near(lengths, 5, flawed);
    return lend_restoring(lengths);
}

typedef uint32_t restore_entry(size_t height, size_t width, size_t levels, const int64_t *plane, size_t plane_len, const uint8_t *coverings,
                               size_t coverings_len, int64_t *numerators, size_t numerators_len, uint16_t *samples, size_t samples_len,
                               int64_t *scratch, size_t scratch_len);
typedef uint32_t plain_restore_entry(const uint8_t *words, size_t words_len, size_t height, size_t width, size_t levels, const int64_t *plane,
                                     size_t plane_len, const uint8_t *coverings, size_t coverings_len, int64_t *numerators, size_t numerators_len,
                                     uint16_t *samples, size_t samples_len, int64_t *scratch, size_t scratch_len);

/* Restores by an entry the slices lent to the library; those lent to the plain C; those lent to the plain second implementation. */
static uint32_t restore_lib(restore_entry *restore, struct frame f, const struct restoring *s)
{
    return restore(f.height, f.width, f.levels, s->plane->lib, s->plane->len, s->coverings->lib, s->coverings->len, s->numerators->lib,
                   s->numerators->len, s->samples->lib, s->samples->len, s->scratch->lib, s->scratch->len);
}

static uint32_t restore_base(restore_entry *restore, struct frame f, const struct restoring *s)
{
    return restore(f.height, f.width, f.levels, s->plane->base, s->plane->len, s->coverings->base, s->coverings->len, s->numerators->base,
                   s->numerators->len, s->samples->base, s->samples->len, s->scratch->base, s->scratch->len);
}

static uint32_t restore_plain(plain_restore_entry *restore, struct frame f, const struct restoring *s)
{
    return restore(words, WORDS, f.height, f.width, f.levels, s->plane->plain, s->plane->len, s->coverings->plain, s->coverings->len,
                   s->numerators->plain, s->numerators->len, s->samples->plain, s->samples->len, s->scratch->plain, s->scratch->len);
}

static void call_restore(struct tally *t)
{
    struct frame f = make_frame();
    count_strip(t, f);
    struct restoring s = lend_near(f, 0);
    fill_plane(s.plane->base, s.plane->len, f);
    fill_coverings(s.coverings->base, s.coverings->len);
    settle();
    uint32_t a = restore_lib(tetrolet_restore, f, &s);
    if (asks_plain(f.area))
        compare_plain(t, a, restore_plain(plain_restore, f, &s));
    compare(t, a, restore_base(base_restore, f, &s));
}

/* Half of the lists are made for the coverings; the others apart from them, so that many of the coverings are missing. */
static void call_restore_listed(struct tally *t)
{
    struct frame f = make_frame();
    count_strip(t, f);
    struct restoring s = lend_near(f, 0);
    fill_plane(s.plane->base, s.plane->len, f);
    fill_coverings(s.coverings->base, s.coverings->len);
    struct slice *list = once_in(2) ? lend_used(s.coverings) : lend_list();
    settle();
    uint32_t a = tetrolet_restore_listed(f.height, f.width, f.levels, s.plane->lib, s.plane->len, s.coverings->lib, s.coverings->len, list->lib,
                                         list->len, s.numerators->lib, s.numerators->len, s.samples->lib, s.samples->len, s.scratch->lib,
                                         s.scratch->len);
    unchanged(list);
    if (a != TETROLET_LIST && a != TETROLET_UNLISTED)
        compare_entries(a, restore_base(tetrolet_restore, f, &s));
    if (asks_plain(f.area))
        compare_plain(t, a, plain_restore_listed(words, WORDS, f.height, f.width, f.levels, s.plane->plain, s.plane->len, s.coverings->plain,
                                                 s.coverings->len, list->plain, list->len, s.numerators->plain, s.numerators->len, s.samples->plain,
                                                 s.samples->len, s.scratch->plain, s.scratch->len));
    compare(t, a, base_restore_listed(f.height, f.width, f.levels, s.plane->base, s.plane->len, s.coverings->base, s.coverings->len, list->base,
                                      list->len, s.numerators->base, s.numerators->len, s.samples->base, s.samples->len, s.scratch->base,
                                      s.scratch->len));
}

typedef uint32_t cut_entry(size_t height, size_t width, size_t levels, int64_t *plane, size_t plane_len, uint64_t number, size_t *left);

/* A second call, by `second`, on what the first left must leave and give what one call, by `once`, does on the plane that was lent, of the library and
   of the plain C. */
static void cut_again(cut_entry *cut, cut_entry *plain_cut, struct frame f, struct slice *plane, struct slice *left, uint64_t second, uint64_t once)
{
    size_t count, plain_count;
    memcpy(plane->base, plane->old, plane->bytes);
    if (cut(f.height, f.width, f.levels, plane->lib, plane->len, second, left->lib) != 0)
        differ("a plane that was cut is refused");
    if (cut(f.height, f.width, f.levels, plane->old, plane->len, once, &count) != 0
        || plain_cut(f.height, f.width, f.levels, plane->base, plane->len, once, &plain_count) != 0)
        differ("a plane that was accepted is refused");
    if (memcmp(plane->lib, plane->old, plane->bytes) != 0 || memcmp(plane->lib, plane->base, plane->bytes) != 0)
        differ("two cuts leave what one does not");
    if (*(size_t *)left->lib != count || count != plain_count)
        differ("the count of two cuts is not that of one");
}

static void call_keep(struct tally *t)
{
    struct frame f = make_frame();
    count_strip(t, f);
    struct slice *plane = lend(length_near(f.area), 8), *left = lend(1, sizeof(size_t));
    uint64_t most = f.area - (f.area >> 2 * f.made_levels), kind = below(12);
    uint64_t quota = kind == 0 ? 0 : kind == 1 ? most : kind == 2 ? most + 1 : kind == 3 ? next() : kind == 4 ? UINT64_MAX : below(most + 1);
    fill_plane(plane->base, plane->len, f);
    settle();
    uint32_t a = tetrolet_keep(f.height, f.width, f.levels, plane->lib, plane->len, quota, left->lib);
    if (asks_plain(f.area))
        compare_plain(t, a, plain_keep(f.height, f.width, f.levels, plane->plain, plane->len, quota, left->plain));
    compare(t, a, base_keep(f.height, f.width, f.levels, plane->base, plane->len, quota, left->base));
    if (a == 0) {
        most = plane->len - (plane->len >> 2 * f.levels);
        uint64_t second = once_in(6) ? quota : once_in(6) ? most : once_in(6) ? 0 : below(most + 1);
        cut_again(tetrolet_keep, base_keep, f, plane, left, second, quota < second ? quota : second);
    }
}

static void call_threshold(struct tally *t)
{
    struct frame f = make_frame();
    count_strip(t, f);
    struct slice *plane = lend(length_near(f.area), 8), *left = lend(1, sizeof(size_t));
    uint64_t kind = below(12);
    uint64_t threshold = kind == 0 ? 0 : kind == 1 ? 1000000 : kind == 2 ? 1000001 : kind == 3 ? next() : kind == 4 ? UINT64_MAX : below(kind * 100);
    fill_plane(plane->base, plane->len, f);
    settle();
    uint32_t a = tetrolet_threshold(f.height, f.width, f.levels, plane->lib, plane->len, threshold, left->lib);
    if (asks_plain(f.area))
        compare_plain(t, a, plain_threshold(f.height, f.width, f.levels, plane->plain, plane->len, threshold, left->plain));
    compare(t, a, base_threshold(f.height, f.width, f.levels, plane->base, plane->len, threshold, left->base));
    if (a == 0) {
        uint64_t second = once_in(6) ? threshold : once_in(6) ? 1000000 : once_in(6) ? 0 : below(1200);
        cut_again(tetrolet_threshold, base_threshold, f, plane, left, second, threshold < second ? second : threshold);
    }
}

/* What a joined strip restores to: the numerators of the left one, then those of the right one; and so for the samples. */
static void restores_to_both(struct frame f, const struct slice *left, const struct slice *left_coverings, const struct slice *right,
                             const struct slice *right_coverings, const struct slice *plane, const struct slice *coverings)
{
    size_t area = left->len, n = plane->len;
    int64_t *apart = malloc(n * sizeof *apart), *joined = malloc(n * sizeof *joined), *scratch = malloc(n * sizeof *scratch);
    uint16_t *samples_apart = malloc(n * sizeof *samples_apart), *samples_joined = malloc(n * sizeof *samples_joined);
    uint32_t a = tetrolet_restore(f.height, f.width, f.levels, left->lib, left->len, left_coverings->lib, left_coverings->len, apart, area,
                                  samples_apart, area, scratch, area);
    a |= tetrolet_restore(f.height, f.width, f.levels, right->lib, right->len, right_coverings->lib, right_coverings->len, apart + area, area,
                          samples_apart + area, area, scratch, area);
    a |= tetrolet_restore(f.height, 2 * f.width, f.levels, plane->lib, plane->len, coverings->lib, coverings->len, joined, n, samples_joined, n,
                          scratch, n);
    if (a != 0)
        differ("a joined strip, or a part of it, is not restored");
    if (memcmp(apart, joined, n * sizeof *apart) != 0)
        differ("the numerators of a joined strip are not those of its parts");
    if (memcmp(samples_apart, samples_joined, n * sizeof *samples_apart) != 0)
        differ("the samples of a joined strip are not those of its parts");
    free(apart);
    free(joined);
    free(scratch);
    free(samples_apart);
    free(samples_joined);
}

static void call_join(struct tally *t)
{
    struct frame f, g;
    make_pair(&f, &g);
    count_strip(t, f);
    struct slice *left = lend(length_near(f.area), 8), *left_coverings = lend(length_near(f.blocks), 1), *right = lend(length_near(g.area), 8),
                 *right_coverings = lend(length_near(g.blocks), 1), *plane = lend(length_near(2 * f.area), 8),
                 *coverings = lend(length_near(2 * f.blocks), 1);
    fill_strip(left, left_coverings, f);
    fill_strip(right, right_coverings, g);
    settle();
    uint32_t a = tetrolet_join(f.height, f.width, f.levels, left->lib, left->len, left_coverings->lib, left_coverings->len, g.height, g.width, g.levels,
                               right->lib, right->len, right_coverings->lib, right_coverings->len, plane->lib, plane->len, coverings->lib,
                               coverings->len);
    unchanged(left);
    unchanged(left_coverings);
    unchanged(right);
    unchanged(right_coverings);
    compare_plain(t, a, plain_join(f.height, f.width, f.levels, left->plain, left->len, left_coverings->plain, left_coverings->len, g.height, g.width,
                                   g.levels, right->plain, right->len, right_coverings->plain, right_coverings->len, plane->plain, plane->len,
                                   coverings->plain, coverings->len));
    compare(t, a, base_join((int)below(2), f.height, f.width, f.levels, left->base, left->len, left_coverings->base, left_coverings->len, g.height, g.width, g.levels,
                            right->base, right->len, right_coverings->base, right_coverings->len, plane->base, plane->len, coverings->base,
                            coverings->len));
    if (a == 0)
        restores_to_both(f, left, left_coverings, right, right_coverings, plane, coverings);
}

/* A run of rows, or of columns, that stands among n: all of them, one at an end, one, the last few, inside one block, or any. */
static void good_run(size_t n, size_t *first, size_t *count)
{
    switch (below(8)) {
    case 0:
    case 1:
        *first = 0;
        *count = n;
        break;
    case 2:
        *first = once_in(2) ? 0 : n - 1;
        *count = 1;
        break;
    case 3:
        *first = below(n);
        *count = 1;
        break;
    case 4:
        *first = below(n);
        *count = n - *first;
        break;
    case 5:
        *count = 1 + below(4);
        *first = below(n / 4) * 4 + below(5 - *count);
        break;
    default:
        *first = below(n);
        *count = 1 + below(n - *first);
    }
}

/* A run that does not: none, one too many, behind the last, sums that wrap to a good end, or very large numbers. Now and then it does all the same. */
static void bad_run(size_t n, size_t *first, size_t *count)
{
    switch (below(9)) {
    case 0: *count = 0; break;
    case 1: *count = n - *first + 1; break;
    case 2: *first = n - *count + 1; break;
    case 3: *first = n; break;
    case 4: /* the sum is at most n, modulo 2^64 */
        *first = (size_t)0 - 1 - below(4);
        *count = (size_t)0 - *first + below(n + 1);
        break;
    case 5:
        *count = (size_t)0 - 1 - below(4);
        *first = (size_t)0 - *count + below(n + 1);
        break;
    case 6: *first = once_in(2) ? SIZE_MAX : (size_t)1 << (10 + below(54)); break;
    case 7: *count = once_in(2) ? SIZE_MAX : (size_t)1 << (10 + below(54)); break;
    default: *count = n + 1 + below(n);
    }
}

/* A window: its first row and column, its rows and its columns. */
struct window {
    size_t top, left, tall, wide;
};

/* A window of the image that the slices are made for; now and then one that does not fit, or that fits the turned image. */
static struct window make_window(struct frame f)
{
    struct window w;
    good_run(f.made_height, &w.top, &w.tall);
    good_run(f.made_width, &w.left, &w.wide);
    uint64_t kind = below(24);
    if (kind < 4)
        bad_run(f.made_height, &w.top, &w.tall);
    if (kind == 0 || (kind >= 4 && kind < 7))
        bad_run(f.made_width, &w.left, &w.wide);
    if (kind == 7) {
        good_run(f.made_width, &w.top, &w.tall);
        good_run(f.made_height, &w.left, &w.wide);
    }
    return w;
}

/* The samples of an accepted window are those of the restored image at the same places. */
static void is_window_of_image(struct frame f, struct window w, const struct slice *plane, const struct slice *coverings, const uint16_t *window)
{
    size_t n = plane->len;
    int64_t *numerators = malloc(n * sizeof *numerators), *scratch = malloc(n * sizeof *scratch);
    uint16_t *image = malloc(n * sizeof *image);
    if (tetrolet_restore(f.height, f.width, f.levels, plane->lib, n, coverings->lib, coverings->len, numerators, n, image, n, scratch, n) != 0)
        differ("the image of an accepted window is not restored");
    for (size_t x = 0; x < w.wide; x++)
        if (memcmp(window + x * w.tall, image + (w.left + x) * f.height + w.top, w.tall * sizeof *image) != 0)
            differ("the samples of a window are not those of the image");
    free(numerators);
    free(scratch);
    free(image);
}

static void call_window(struct tally *t)
{
    struct frame f = make_frame();
    count_strip(t, f);
    struct window w = make_window(f);
    int small = w.tall <= 512 && w.wide <= 512;
    struct slice *plane = lend(length_near(f.area), 8), *coverings = lend(length_near(f.blocks), 1),
                 *samples = lend(length_near(small ? w.tall * w.wide : below(20)), 2);
    fill_strip(plane, coverings, f);
    settle();
    uint32_t a = tetrolet_window(f.height, f.width, f.levels, plane->lib, plane->len, coverings->lib, coverings->len, w.top, w.left, w.tall, w.wide,
                                 samples->lib, samples->len);
    unchanged(plane);
    unchanged(coverings);
    if (asks_plain(f.area)) {
        int64_t numerators[256], scratch[256];
        uint16_t image[256];
        compare_plain(t, a, plain_window(words, WORDS, f.height, f.width, f.levels, plane->plain, plane->len, coverings->plain, coverings->len, w.top,
                                         w.left, w.tall, w.wide, samples->plain, samples->len, numerators, 256, image, 256, scratch, 256));
    }
    compare(t, a, base_window(f.height, f.width, f.levels, plane->base, plane->len, coverings->base, coverings->len, w.top, w.left, w.tall, w.wide,
                              samples->base, samples->len));
    if (a == 0)
        is_window_of_image(f, w, plane, coverings, samples->lib);
}

/* A step: none, small ones, the largest, the first that is too large, large ones whose low bits are a good one, or anything. */
static uint64_t make_step(void)
{
    switch (below(24)) {
    case 0:
    case 1: return 0;
    case 2: return 1;
    case 3:
    case 4: return 255;
    case 5: return 256;
    case 6: return (uint64_t)1 << 63;
    case 7: return UINT64_MAX;
    case 8: return ((uint64_t)1 << (8 + below(56))) + below(256);
    case 9: return next();
    default: return below(256);
    }
}

/* A low-pass that is flat or not, and few other entries, so that many neighbours are alike: none, small ones, or the largest. */
static void fill_sparse(int64_t *p, size_t n, struct frame f)
{
    uint64_t kind = below(3), flat = below(((uint64_t)4095 << 2 * f.made_levels) + 1), alike = below(3);
    for (size_t i = 0; i < n; i++) {
        int low;
        int64_t most = most_at(f, i, &low), v = kind == 1 ? 1 + (int64_t)below(9) : most;
        if (low)
            p[i] = alike ? (int64_t)flat : (int64_t)below((uint64_t)most + 1);
        else
            p[i] = kind == 0 || !once_in(12) ? 0 : once_in(2) ? v : -v;
    }
}

/* The label of each cell's piece, by the covering, as restoring shows it: of a low-pass that is 1 at one place, and of nothing else, it makes 1 at the
   cells of the piece with that label. */
static uint8_t labels[118][16];

static void find_labels(void)
{
    for (uint8_t covering = 1; covering <= 117; covering++)
        for (uint8_t label = 0; label < 4; label++) {
            int64_t plane[16] = { 0 }, numerators[16], scratch[16];
            uint16_t samples[16];
            plane[label / 2 * 4 + label % 2] = 1;
            if (tetrolet_restore(4, 4, 1, plane, 16, &covering, 1, numerators, 16, samples, 16, scratch, 16) != 0)
                differ("a low-pass of one 1 is not restored");
            for (int cell = 0; cell < 16; cell++)
                if (numerators[cell] != 0)
                    labels[covering][cell] = label;
        }
}

/* Decomposes an image by given coverings, in place. */
static void decompose_by(struct frame f, const uint8_t *coverings, int64_t *image)
{
    int64_t *from = malloc(f.height * f.width * sizeof *from);
    for (size_t r = 1; r <= f.levels; r++) {
        size_t h = f.height >> r, w = f.width >> r, down = h, across = w * f.height;
        memcpy(from, image, f.height * f.width * sizeof *from);
        for (size_t k = 0; k < (h / 2) * (w / 2); k++) {
            size_t i = k % (h / 2), j = k / (h / 2), count[4] = { 0 };
            int64_t v[4][4];
            for (size_t cell = 0; cell < 16; cell++) {
                size_t label = labels[coverings[k]][cell];
                v[label][count[label]++] = from[(4 * j + cell / 4) * f.height + 4 * i + cell % 4];
            }
            for (size_t label = 0; label < 4; label++) {
                int64_t *p = v[label], *to = image + (2 * j + label / 2) * f.height + 2 * i + label % 2;
                to[0] = p[0] + p[1] + p[2] + p[3];
                to[across] = p[0] + p[1] - p[2] - p[3];
                to[down] = p[0] - p[1] + p[2] - p[3];
                to[across + down] = p[0] - p[1] - p[2] + p[3];
            }
        }
        coverings += (h / 2) * (w / 2);
    }
    free(from);
}

/* Two neighbours: twice the sign of their difference, for the one up, for the other down. */
static void slope_between(const int64_t *values, size_t a, size_t b, int64_t *gradient)
{
    int64_t twice = values[a] > values[b] ? 2 : values[a] < values[b] ? -2 : 0;
    gradient[a] += twice;
    gradient[b] -= twice;
}

static void fill_gradient(struct frame f, const int64_t *values, int64_t *gradient)
{
    memset(gradient, 0, f.height * f.width * sizeof *gradient);
    for (size_t x = 0; x < f.width; x++)
        for (size_t y = 0; y < f.height; y++) {
            if (y + 1 < f.height)
                slope_between(values, x * f.height + y, x * f.height + y + 1, gradient);
            if (x + 1 < f.width)
                slope_between(values, x * f.height + y, (x + 1) * f.height + y, gradient);
        }
}

/* What an accepted step shows when it is decomposed by the same coverings: 16 * 4^R times the plane in band 0 and wherever the plane is not 0; at the
   other places the decomposed gradient of the numerators, -p * 4^R times. The step 0 gives 16 times the numerators. */
static void is_smoothed(struct frame f, const int64_t *plane, const uint8_t *coverings, uint64_t step, const int64_t *result)
{
    size_t n = f.height * f.width, blocks = tetrolet_blocks(f.height, f.width, f.levels);
    int64_t *numerators = malloc(n * sizeof *numerators), *gradient = malloc(n * sizeof *gradient), *shown = malloc(n * sizeof *shown);
    int64_t whole = (int64_t)1 << 2 * f.levels;
    uint16_t *samples = malloc(n * sizeof *samples);
    if (tetrolet_restore(f.height, f.width, f.levels, plane, n, coverings, blocks, numerators, n, samples, n, shown, n) != 0)
        differ("an accepted plane is not restored");
    fill_gradient(f, numerators, gradient);
    decompose_by(f, coverings, gradient);
    memcpy(shown, result, n * sizeof *shown);
    decompose_by(f, coverings, shown);
    for (size_t k = 0; k < n; k++) {
        int spared = (k % f.height < f.height >> f.levels && k / f.height < f.width >> f.levels) || plane[k] != 0;
        if (step == 0 && result[k] != 16 * numerators[k])
            differ("a step of 0 does not give 16 times the numerators");
        if (spared && shown[k] != 16 * whole * plane[k])
            differ("a step moves what it spares");
        if (!spared && shown[k] != -(int64_t)step * whole * gradient[k])
            differ("a step is not along the gradient");
    }
    free(numerators);
    free(gradient);
    free(shown);
    free(samples);
}

/* Smooths by a step, when the plane and the coverings are set. */
static void smooth_by(struct tally *t, struct frame f, uint64_t step, const struct slice *plane, const struct slice *coverings,
                      const struct slice *result, const struct slice *scratch)
{
    settle();
    uint32_t a = tetrolet_smooth(f.height, f.width, f.levels, plane->lib, plane->len, coverings->lib, coverings->len, step, result->lib, result->len,
                                 scratch->lib, scratch->len);
    unchanged(plane);
    unchanged(coverings);
    if (asks_plain(f.area)) {
        int64_t gradient[256], decomposed[256], projected[256];
        compare_plain(t, a, plain_smooth(words, WORDS, f.height, f.width, f.levels, plane->plain, plane->len, coverings->plain, coverings->len, step,
                                         result->plain, result->len, scratch->plain, scratch->len, gradient, 256, decomposed, 256, projected, 256));
    }
    compare(t, a, base_smooth(f.height, f.width, f.levels, plane->base, plane->len, coverings->base, coverings->len, step, result->base, result->len,
                              scratch->base, scratch->len));
    if (a == 0)
        is_smoothed(f, plane->lib, coverings->lib, step, result->lib);
}

/* Now and then there are several flaws at once. */
static void call_smooth(struct tally *t)
{
    struct frame f = make_frame();
    count_strip(t, f);
    int flawed = once_in(12);
    size_t lengths[4] = { f.area, f.blocks, f.area, f.area };
    lengths_near(lengths, 4, flawed);
    struct slice *plane = lend(lengths[0], 8), *coverings = lend(lengths[1], 1), *result = lend(lengths[2], 8), *scratch = lend(lengths[3], 8);
    uint64_t step = make_step();
    fill_strip(plane, coverings, f);
    if (once_in(4))
        fill_sparse(plane->base, plane->len, f);
    if (flawed)
        flaw_strip(plane, coverings);
    if (flawed && once_in(2))
        step = 256 + below(1000);
    smooth_by(t, f, step, plane, coverings, result, scratch);
}

/* A call, or several, for each of nine large images with the most levels. */
static void each_large(struct tally *t, void (*run)(struct tally *, struct frame))
{
    for (size_t height = 128; height <= 512; height *= 2)
        for (size_t width = 128; width <= 512; width *= 2) {
            struct frame f = { .made_height = height, .made_width = width };
            f.made_levels = made_depth(&f);
            settle_frame(&f);
            run(t, f);
        }
}

/* Large numbers: most entries at an end of their range and the others 0, so that they move; the largest step. */
static void smooth_large(struct tally *t, struct frame f)
{
    struct slice *plane = lend(f.area, 8), *coverings = lend(f.blocks, 1), *result = lend(f.area, 8), *scratch = lend(f.area, 8);
    fill_ends(plane->base, f.area, f, 8);
    fill_good_coverings(coverings->base, f.blocks);
    smooth_by(t, f, 255, plane, coverings, result, scratch);
    drop();
    call_number++;
}

/* Whether each numerator is 4^R times a whole number from 0 to 4,095. */
static int are_whole(const int64_t *numerators, size_t n, size_t levels)
{
    int64_t whole = (int64_t)1 << 2 * levels;
    for (size_t k = 0; k < n; k++)
        if (numerators[k] % whole != 0 || numerators[k] < 0 || numerators[k] / whole > 4095)
            return 0;
    return 1;
}

/* Whether each numerator is 4^R times its sample, and that at most 4,095. */
static int are_exact(const int64_t *numerators, const uint16_t *samples, size_t n, size_t levels)
{
    for (size_t k = 0; k < n; k++)
        if (samples[k] > 4095 || numerators[k] != (int64_t)samples[k] << 2 * levels)
            return 0;
    return 1;
}

/* What restoring as a master, which answered a, left beside what ordinary restoring leaves. It is the same, with exact samples where it is accepted; but
   where the answer is 20, ordinary restoring accepts the plane, and some numerator is not whole. */
static void is_master(struct frame f, const struct restoring *s, uint32_t a)
{
    uint32_t b = restore_base(tetrolet_restore, f, s);
    if (a == TETROLET_MASTER) {
        if (b != 0 || are_whole(s->numerators->base, s->numerators->len, f.levels))
            differ("a master is refused without a reason");
        put_back();
        return;
    }
    compare_entries(a, b);
    if (a == 0 && !are_exact(s->numerators->lib, s->samples->lib, s->samples->len, f.levels))
        differ("the samples of a master are not exact");
}

/* Restores as a master, when the plane and the coverings are set. */
static void restore_as_master(struct tally *t, struct frame f, const struct restoring *s)
{
    settle();
    uint32_t a = restore_lib(tetrolet_restore_master, f, s);
    unchanged(s->plane);
    unchanged(s->coverings);
    is_master(f, s, a);
    if (asks_plain(f.area))
        compare_plain(t, a, restore_plain(plain_restore_master, f, s));
    compare(t, a, restore_base(base_restore_master, f, s));
}

/* A place among n, the last one more often than another. */
static size_t place_in(size_t n)
{
    return once_in(4) ? n - 1 : below(n);
}

/* The values of an image: random ones from 0 to 4,095, or these two alone. Half of the images have one value at a limit or just past it. */
static void fill_values(int64_t *p, size_t n)
{
    static const int64_t limits[] = { -1, 0, 4095, 4096 };
    uint64_t range = 1 + below(4096), start = below(4096 - range + 1);
    int ends = once_in(3);
    for (size_t i = 0; i < n; i++)
        p[i] = (int64_t)(ends ? 4095 * below(2) : start + below(range));
    if (once_in(2))
        p[place_in(n)] = limits[below(4)];
}

/* A plane whose numerators are 4^R times such values. Its coverings are any, not those that decomposing would choose. */
static void fill_whole(int64_t *p, uint8_t *coverings, struct frame f)
{
    settle_frame(&f);
    fill_values(p, f.area);
    fill_good_coverings(coverings, f.blocks);
    decompose_by(f, coverings, p);
}

/* One entry changed by a power of two, 1 to 4^R. */
static void change_entry(int64_t *p, struct frame f)
{
    int64_t by = (int64_t)1 << below(2 * f.made_levels + 1);
    p[place_in(f.area)] += once_in(2) ? by : -by;
}

/* A plane that is a master, or nearly: of a real image, uncut, or of whole values, with one entry or one covering changed or without; or a strip as for
   other entries. */
static void fill_master(const struct slice *plane, const struct slice *coverings, struct frame f)
{
    int64_t *p = plane->base;
    uint8_t *c = coverings->base;
    uint64_t kind = below(8);
    if (kind < 2 || plane->len != f.area || coverings->len != f.blocks) {
        fill_strip(plane, coverings, f);
        return;
    }
    if (kind < 5)
        fill_whole(p, c, f);
    else
        fill_real(p, c, f);
    if (kind == 3 || kind == 6)
        change_entry(p, f);
    if (kind == 4 || kind == 7)
        fill_good_coverings(c + below(f.blocks), 1);
    spoil_plane(p, f.area);
    spoil_coverings(c, f.blocks);
}

/* Now and then there are several flaws at once. */
static void call_master(struct tally *t)
{
    struct frame f = make_frame();
    count_strip(t, f);
    int flawed = once_in(12);
    struct restoring s = lend_near(f, flawed);
    fill_master(s.plane, s.coverings, f);
    if (flawed)
        flaw_strip(s.plane, s.coverings);
    restore_as_master(t, f, &s);
}

/* A large plane. 0: of 4,095 and 0, so that it passes. 1 and 2: the last value past a limit. 3: a W of the last block one more. 4: one of the first block two
   more. 5: all entries at the ends of their ranges; with 8 levels the numerators are multiples of 4^8, and some of them past 2^31 either side of zero. */
enum { LARGE_KINDS = 6 };

static void fill_large(int kind, int64_t *p, const uint8_t *coverings, struct frame f)
{
    if (kind == 5) {
        fill_ends(p, f.area, f, 0);
        return;
    }
    for (size_t i = 0; i < f.area; i++)
        p[i] = (int64_t)(kind == 0 ? 4095 * below(2) : 1 + below(4094));
    if (kind == 1 || kind == 2)
        p[f.area - 1] = kind == 1 ? 4096 : -1;
    decompose_by(f, coverings, p);
    if (kind == 3)
        p[f.area - 1] += 1;
    if (kind == 4)
        p[f.area / 2] += 2;
}

static void master_large(struct tally *t, struct frame f)
{
    size_t lengths[5] = { f.area, f.blocks, f.area, f.area, f.area };
    for (int kind = 0; kind < LARGE_KINDS; kind++, call_number++) {
        struct restoring s = lend_restoring(lengths);
        fill_good_coverings(s.coverings->base, f.blocks);
        fill_large(kind, s.plane->base, s.coverings->base, f);
        restore_as_master(t, f, &s);
        drop();
    }
}

/* What an entry that shows a covering is lent. */
struct showing {
    struct slice *steps, *samples, *found;
};

static struct showing lend_showing(size_t steps, size_t samples)
{
    struct showing s;
    s.steps = lend(steps, 2);
    s.samples = lend(samples, 2);
    s.found = lend(1, 1);
    return s;
}

/* Whether a covering costs 0 on a block. Each two W of a piece add up to twice a difference of two of its cells, so that they are all 0 just where the four
   are alike. */
static int costs_nothing(const uint8_t *word, const uint16_t *block)
{
    int first[4] = { 0 };
    for (int cell = 15; cell >= 0; cell--)
        first[word[cell]] = cell;
    for (int cell = 0; cell < 16; cell++)
        if (block[cell] != block[first[word[cell]]])
            return 0;
    return 1;
}

/* Whether a covering is the only one that does. */
static int is_shown(uint8_t covering, const uint16_t *block)
{
    for (size_t n = 1; n <= 117; n++)
        if (costs_nothing(words + 16 * (n - 1), block) != (n == covering))
            return 0;
    return 1;
}

/* The block of a choice. Written with four digits to the base `count`, its number has the place of the step of piece 0 first and that of piece 3 last. */
static void fill_block(uint8_t covering, const uint16_t *steps, size_t count, size_t number, uint16_t *block)
{
    size_t place[4];
    for (int piece = 3; piece >= 0; piece--, number /= count)
        place[piece] = number % count;
    for (size_t cell = 0; cell < 16; cell++)
        block[cell] = steps[place[words[16 * (size_t)(covering - 1) + cell]]];
}

/* What an accepted call left: the block of the first choice that shows the covering, or the samples as they were where no choice does. Gives whether there
   is a block. */
static int is_first_shown(uint8_t covering, const struct showing *s)
{
    const uint16_t *steps = s->steps->lib;
    size_t n = s->steps->len, number = 0, all = n * n * n * n;
    uint16_t block[16];
    for (; number < all; number++) {
        fill_block(covering, steps, n, number, block);
        if (is_shown(covering, block))
            break;
    }
    int found = number < all;
    if (*(uint8_t *)s->found->lib != found)
        differ(found ? "a block is not found" : "a block is found where there is none");
    if (memcmp(s->samples->lib, found ? block : s->samples->old, sizeof block) != 0)
        differ(found ? "the samples are not those of the first choice" : "the samples are changed though there is no block");
    return found;
}

/* An image with the block at any place among its blocks of level 1. There it gets its covering, of all 117 and of a list that holds it, without a
   tolerance. */
static void is_chosen_in(struct frame f, uint8_t covering, const uint16_t *block)
{
    size_t rows = f.height / 4, i = below(rows), j = below(f.width / 4);
    uint16_t *image = malloc(f.area * sizeof *image);
    int64_t *plane = malloc(f.area * sizeof *plane), *scratch = malloc(f.area * sizeof *scratch);
    uint8_t *coverings = malloc(f.blocks), list[117];
    size_t count = fill_list_with(list, covering);
    fill_good_samples(image, f.area);
    for (size_t col = 0; col < 4; col++)
        memcpy(image + (4 * j + col) * f.height + 4 * i, block + 4 * col, 4 * sizeof *block);
    if (tetrolet_decompose(f.height, f.width, f.levels, image, f.area, plane, f.area, coverings, f.blocks, scratch, f.area) != 0
        || coverings[j * rows + i] != covering)
        differ("a block does not get the covering that it shows");
    if (tetrolet_decompose_listed(f.height, f.width, f.levels, 0, image, f.area, list, count, plane, f.area, coverings, f.blocks, scratch, f.area) != 0
        || coverings[j * rows + i] != covering)
        differ("a block does not get the covering that it shows by a list");
    free(image);
    free(plane);
    free(scratch);
    free(coverings);
}

/* The block alone, and in a larger image. */
static void is_chosen(uint8_t covering, const uint16_t *block)
{
    struct frame f = { .made_height = 4, .made_width = 4, .made_levels = 1 };
    settle_frame(&f);
    is_chosen_in(f, covering, block);
    do
        f = good_frame();
    while (f.area > 4096);
    is_chosen_in(f, covering, block);
}

/* Shows a covering, when the steps are set. Gives whether there is a block. */
static int show_by(struct tally *t, uint8_t covering, const struct showing *s)
{
    settle();
    uint32_t a = tetrolet_show(covering, s->steps->lib, s->steps->len, s->samples->lib, s->samples->len, s->found->lib);
    unchanged(s->steps);
    compare_plain(t, a, plain_show(words, WORDS, covering, s->steps->plain, s->steps->len, s->samples->plain, s->samples->len, s->found->plain));
    compare(t, a, base_show((int)below(2), covering, s->steps->base, s->steps->len, s->samples->base, s->samples->len, s->found->base));
    if (a != 0 || !is_first_shown(covering, s))
        return 0;
    is_chosen(covering, s->samples->lib);
    return 1;
}

/* n good steps: the lowest that there may be, the highest, near each other, or any. */
static void fill_steps(uint16_t *p, size_t n)
{
    uint64_t kind = below(5);
    for (size_t k = 0, low = 0; k < n; low = (size_t)p[k++] + 1) {
        size_t room = 4096 + k - n - low, near = room < 3 ? room : 3;
        p[k] = (uint16_t)(low + (kind == 0 ? 0 : kind == 1 ? room : kind == 2 ? below(near + 1) : below(room + 1)));
    }
}

/* One step changed, more often the last: the largest that is good, the first that is not, the largest number, the one before it again, a smaller one, or
   anything. Many of these are good steps all the same. */
static void spoil_steps(uint16_t *p, size_t n)
{
    size_t at = once_in(2) ? n - 1 : below(n);
    const uint16_t other[] = { 4095, 4096, 65535, p[at > 0 ? at - 1 : n - 1], (uint16_t)below(p[at] + 1), (uint16_t)below(65536) };
    p[at] = other[below(sizeof other / sizeof *other)];
}

static void call_show(struct tally *t)
{
    uint8_t covering = make_covering();
    size_t count = once_in(8) ? below(7) : 1 + below(4);
    struct showing s = lend_showing(count, once_in(8) ? below(21) : 16);
    fill_steps(s.steps->base, count);
    if (count > 0 && once_in(4))
        spoil_steps(s.steps->base, count);
    show_by(t, covering, &s);
}

/* Steps of which all four are taken, or some from the first on or up to the last. */
static const uint16_t ladders[][4] = { { 0, 1, 2, 3 }, { 4092, 4093, 4094, 4095 }, { 0, 1365, 2730, 4095 }, { 0, 1, 4094, 4095 }, { 17, 1000, 1001, 3300 } };

/* The coverings for which two steps are too few. */
static const uint8_t not_by_two[] = { 3, 10, 22, 33, 48, 61, 70, 96, 105, 114 };

/* Shows each covering by each list of steps. With one step no covering is shown, with two all but ten, with three and four all. Gives how many are. */
static unsigned long show_each(struct tally *t)
{
    unsigned long shown = 0;
    for (uint8_t covering = 1; covering <= 117; covering++)
        for (size_t k = 0; k < 8 * sizeof ladders / sizeof *ladders; k++, call_number++) {
            size_t count = 1 + k % 4, from = k / 4 % 2 * (4 - count);
            int awaited = count > 2 || (count == 2 && !memchr(not_by_two, covering, sizeof not_by_two));
            struct showing s = lend_showing(count, 16);
            memcpy(s.steps->base, ladders[k / 8] + from, s.steps->bytes);
            if (show_by(t, covering, &s) != awaited)
                differ("a covering is shown by too few steps, or not by enough");
            shown += (unsigned long)awaited;
            drop();
        }
    return shown;
}

/* A buffer for a text of n bytes: of that length, one more, one less, or any. */
static struct slice *lend_buffer(size_t n)
{
    uint64_t kind = below(6);
    return lend(kind == 0 ? n : kind == 1 ? n + 1 : kind == 2 && n > 0 ? n - 1 : kind == 3 ? below(n + 1) : n + below(100), 1);
}

static void call_write(struct tally *t)
{
    static uint8_t sheet[TETROLET_MAX_SHEET];
    struct frame f = make_frame();
    count_strip(t, f);
    struct slice *plane = lend(length_near(f.area), 8), *coverings = lend(length_near(f.blocks), 1), *length = lend(1, sizeof(size_t));
    fill_plane(plane->base, plane->len, f);
    fill_coverings(coverings->base, coverings->len);
    size_t n = 0;
    if (base_write(BASE_PRINTF, f.height, f.width, f.levels, plane->base, plane->len, coverings->base, coverings->len, sheet, sizeof sheet, &n) != 0)
        n = below(400);
    struct slice *buffer = lend_buffer(n);
    settle();
    uint32_t a = tetrolet_write(f.height, f.width, f.levels, plane->lib, plane->len, coverings->lib, coverings->len, buffer->lib, buffer->len,
                                length->lib);
    if (asks_plain(f.area))
        compare_plain(t, a, plain_write(f.height, f.width, f.levels, plane->plain, plane->len, coverings->plain, coverings->len, buffer->plain,
                                        buffer->len, length->plain));
    compare(t, a, base_write(BASE_DIGITS, f.height, f.width, f.levels, plane->base, plane->len, coverings->base, coverings->len, buffer->base, buffer->len,
                             length->base));
}

/* Reads the text into slices of these lengths. */
static void read_text(struct tally *t, size_t area, size_t plane_len, size_t coverings_len)
{
    struct slice *sheet = lend(text_len, 1), *plane = lend(plane_len, 8), *coverings = lend(coverings_len, 1), *height = lend(1, sizeof(size_t)),
                 *width = lend(1, sizeof(size_t)), *levels = lend(1, sizeof(size_t));
    memcpy(sheet->base, text, text_len);
    settle();
    uint32_t a = tetrolet_read(sheet->lib, sheet->len, plane->lib, plane->len, coverings->lib, coverings->len, height->lib, width->lib,
                               levels->lib);
    if (asks_plain(area))
        compare_plain(t, a, plain_read(sheet->plain, sheet->len, plane->plain, plane->len, coverings->plain, coverings->len, height->plain,
                                       width->plain, levels->plain));
    compare(t, a, base_read(sheet->base, sheet->len, plane->base, plane->len, coverings->base, coverings->len, height->base, width->base,
                            levels->base));
}

static void call_read(struct tally *t)
{
    struct frame f = make_frame();
    while (f.area > 4096)
        f = make_frame();
    count_strip(t, f);
    int64_t *p = malloc(f.area * sizeof *p);
    uint8_t *c = malloc(f.blocks);
    fill_plane(p, f.area, f);
    fill_good_coverings(c, f.blocks);
    if (base_write(BASE_DIGITS, f.made_height, f.made_width, f.made_levels, p, f.area, c, f.blocks, text, sizeof text, &text_len) != 0)
        text_len = below(64);
    free(p);
    free(c);
    damage_some();
    size_t plane_len = length_near(f.area);
    read_text(t, f.area, plane_len, length_near(f.blocks));
}

/* A sheet with `entries` entries at places all over its plane, in every prefix, and with every byte changed to every other value. */
static void read_each(struct tally *t, size_t height, size_t width, size_t levels, size_t entries)
{
    size_t area = height * width, blocks = tetrolet_blocks(height, width, levels), length;
    int64_t p[256] = { 0 };
    uint8_t c[64];
    for (size_t k = 0; k < entries; k++) {
        size_t i = k * area / entries;
        int low = i % height < height >> levels && i / height < width >> levels;
        p[i] = k % 2 && !low ? -(int64_t)(k * k + 1) : (int64_t)(k * k * k + 9);
    }
    for (size_t k = 0; k < blocks; k++)
        c[k] = (uint8_t)(117 - 23 * k % 117);
    if (area > 256 || blocks > 64 || base_write(BASE_DIGITS, height, width, levels, p, area, c, blocks, text, sizeof text, &length) != 0)
        abort();
    at_end = 1;
    for (text_len = 0; text_len <= length; text_len++, call_number++) {
        read_text(t, area, area, blocks);
        drop();
    }
    text_len = length;
    for (size_t at = 0; at < length; at++) {
        uint8_t kept = text[at];
        for (text[at] = (uint8_t)(kept + 1); text[at] != kept; text[at]++, call_number++) {
            read_text(t, area, area, blocks);
            drop();
        }
    }
    at_end = 0;
}

static void call_usage(struct tally *t)
{
    uint64_t kind = below(2000);
    size_t n = kind == 0 ? 21845 : kind == 1 ? 21846 : kind == 2 ? 21845 + below(1000) : kind < 100 ? below(3000) : below(60);
    struct slice *coverings = lend(n, 1), *length = lend(1, sizeof(size_t));
    fill_coverings(coverings->base, n);
    uint8_t list[TETROLET_MAX_USAGE];
    size_t size = 0;
    if (base_usage(coverings->base, n, list, sizeof list, &size) != 0)
        size = below(100);
    struct slice *buffer = lend_buffer(size);
    settle();
    uint32_t a = tetrolet_usage(coverings->lib, n, buffer->lib, buffer->len, length->lib);
    uint32_t b = base_usage(coverings->base, n, buffer->base, buffer->len, length->base);
    uint32_t c = plain_usage(coverings->plain, n, buffer->plain, buffer->len, length->plain);
    compare_plain(t, a, c);
    compare(t, a, b);
}

static void call_test_image(struct tally *t)
{
    static const uint32_t starts[] = { 0, 1, (uint32_t)1 << 31, UINT32_MAX };
    struct frame f = make_frame();
    count_strip(t, f);
    uint32_t start = once_in(3) ? starts[below(sizeof starts / sizeof *starts)] : (uint32_t)(next() >> 32);
    struct slice *samples = lend(length_near(f.area), 2);
    settle();
    uint32_t a = tetrolet_test_image(f.height, f.width, start, samples->lib, samples->len);
    compare_plain(t, a, plain_test_image(f.height, f.width, start, samples->plain, samples->len));
    compare(t, a, base_test_image(f.height, f.width, start, samples->base, samples->len));
}

int main(int argc, char **argv)
{
    uint64_t calls = argc > 1 ? strtoull(argv[1], NULL, 10) : 1000000;
    first_seed = argc > 2 ? strtoull(argv[2], NULL, 10) : 1;
    state = first_seed * 0x9e3779b97f4a7c15u + 88172645463325252u;
    base_init();
    plain_words(words, WORDS);
    make_slots();
    entry = "restore";
    find_labels();
    struct {
        void (*run)(struct tally *);
        struct tally tally;
    } entries[] = {
        { call_word, { "word", 0, { 0 }, 0, 0, 0 } },
        { call_decompose, { "decompose", 0, { 0 }, 0, 0, 0 } },
        { call_within, { "within", 0, { 0 }, 0, 0, 0 } },
        { call_listed, { "listed", 0, { 0 }, 0, 0, 0 } },
        { call_restore, { "restore", 0, { 0 }, 0, 0, 0 } },
        { call_restore_listed, { "restore listed", 0, { 0 }, 0, 0, 0 } },
        { call_master, { "restore master", 0, { 0 }, 0, 0, 0 } },
        { call_keep, { "keep", 0, { 0 }, 0, 0, 0 } },
        { call_threshold, { "threshold", 0, { 0 }, 0, 0, 0 } },
        { call_join, { "join", 0, { 0 }, 0, 0, 0 } },
        { call_window, { "window", 0, { 0 }, 0, 0, 0 } },
        { call_smooth, { "smooth", 0, { 0 }, 0, 0, 0 } },
        { call_write, { "write", 0, { 0 }, 0, 0, 0 } },
        { call_read, { "read", 0, { 0 }, 0, 0, 0 } },
        { call_usage, { "usage", 0, { 0 }, 0, 0, 0 } },
        { call_test_image, { "test image", 0, { 0 }, 0, 0, 0 } },
        { call_show, { "show", 0, { 0 }, 0, 0, 0 } },
    };
    size_t count = sizeof entries / sizeof *entries;
    struct tally each = { "read", 0, { 0 }, 0, 0, 0 };
    entry = each.name;
    read_each(&each, 4, 4, 1, 0);
    read_each(&each, 4, 4, 1, 3);
    read_each(&each, 4, 16, 1, 5);
    read_each(&each, 16, 8, 2, 9);
    printf("%llu texts near small sheets: %lu read, no difference\n", (unsigned long long)call_number, each.accepted);
    struct tally largest = { "smooth", 0, { 0 }, 0, 0, 0 };
    entry = largest.name;
    call_number = 0;
    each_large(&largest, smooth_large);
    printf("%lu large planes near the ends of their ranges smoothed, no difference\n", largest.accepted);
    struct tally masters = { "restore master", 0, { 0 }, 0, 0, 0 };
    entry = masters.name;
    call_number = 0;
    each_large(&masters, master_large);
    printf("%lu large planes restored as masters and %lu refused, no difference\n", masters.accepted, masters.refused[TETROLET_MASTER]);
    struct tally cards = { "show", 0, { 0 }, 0, 0, 0 };
    entry = cards.name;
    call_number = 0;
    unsigned long shown = show_each(&cards);
    printf("%lu blocks that show a covering, and %lu times none, no difference\n", shown, cards.accepted - shown);
    for (call_number = 0; call_number < calls; call_number++) {
        size_t k = below(count);
        entry = entries[k].tally.name;
        entries[k].run(&entries[k].tally);
        drop();
    }
    unsigned long tall = 0, wide = 0;
    for (size_t k = 0; k < count; k++) {
        struct tally *t = &entries[k].tally;
        printf("%-14s %8lu accepted; refused:", t->name, t->accepted);
        for (int n = 1; n < REFUSALS; n++)
            if (t->refused[n] != 0)
                printf("  %d: %lu", n, t->refused[n]);
        printf("; beside the second implementation: %lu; strips: %lu tall, %lu wide\n", t->plain, t->tall, t->wide);
        tall += t->tall;
        wide += t->wide;
    }
    printf("%llu calls, no difference; strips: %lu tall, %lu wide\n", (unsigned long long)calls, tall, wide);
    return 0;
}
