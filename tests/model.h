/* What tests/chip.c, tests/held.c, tests/checker.c, tests/census.c and bench/listings.c share: a plain model of the searches with so many places on their stack, columns of several kinds, and the count of checks. */
#ifndef MODEL_H
#define MODEL_H
#include "entries.h"
#include <limits.h>
#include <stdio.h>
#include <string.h>

enum { BITS = 30, LEVELS = 4, LARGEST = 2000, UNBOUNDED = LARGEST + 2, SPENT = 9, EMPTY = 13 };

static unsigned long checked, differ;

static void check(int right, const char *what) {
    checked++;
    if (right) return;
    differ++;
    printf("%s: differs\n", what);
}

/* The next number of a row of draws, 0..255, and one below n. */
static uint8_t drawn(void) {
    static uint64_t state = 20261119;
    return (uint8_t)((state = state * 6364136223846793005u + 1442695040888963407u) >> 56);
}

static inline unsigned below(unsigned n) { return ((unsigned)drawn() << 16 | (unsigned)drawn() << 8 | drawn()) % n; }

/* --- the model: a stack of so many places in the order, the first at 0 --- */

typedef struct { int sum, length; uint32_t bits; } path;

static int goes_before(path a, path b) {
    if (a.sum != b.sum) return a.sum > b.sum;
    if (a.length != b.length) return a.length > b.length;
    return a.bits < b.bits;
}

static int value_of(uint64_t level, int bit, int soft) {
    static const int agree[] = {2, 1, -1, -5}, disagree[] = {-60, -35, -20, -11};
    const int reads = soft > 3, doubt = reads ? 7 - soft : soft;
    return (bit == reads ? agree : disagree)[doubt] + 2 * (int)level;
}

/* The codes of each search at each level, as products of factors: a path has to begin a multiple of both. The supercode search has the level's two supercodes, at level 0 the code alone; the whole search has the level's code. */
enum { SUPERCODE, WHOLE, SEARCHES };
static const uint32_t codes[SEARCHES][LEVELS][2] = {
    {{0x43, 1}, {0x43, 0x57}, {0x1539, 0x67}, {0x1539, 0x1a9f}},
    {{0x43, 1}, {0x1539, 1}, {0x782cf, 1}, {0x1db2777, 1}},
};

static inline uint32_t times(uint32_t a, uint32_t b) {
    uint32_t product = 0;
    for (int k = 0; k < 16; k++) if (b >> k & 1) product ^= a << k;
    return product;
}

static inline void check_products(void) {
    int right = times(0x43, 0x57) == codes[SUPERCODE][2][0] && times(0x67, 0x49) == codes[SUPERCODE][3][1];
    for (int i = 0; i < LEVELS; i++) right &= times(codes[SUPERCODE][i][0], codes[SUPERCODE][i][1]) == codes[WHOLE][i][0] && codes[WHOLE][i][1] == 1;
    check(right, "the products of the factors");
}

/* Whether some bits after the path make it a multiple of g: what zeros after it leave over has to fit into their places. */
static int begins_word(path p, uint32_t g) {
    const int after = BITS - p.length;
    uint32_t rest = p.bits << after;
    int top = 0;
    while (g >> top > 1) top++;
    for (int k = BITS - 1; k >= top && after < top; k--) if (rest >> k & 1) rest ^= g << (k - top);
    return after >= top || rest >> after == 0;
}

typedef struct { path at[UNBOUNDED + 1]; int count, places; } stack;

/* Whether the path, or another, was pushed out. */
static int put_in(stack *s, path p) {
    int i = 0;
    for (int end = s->count; i < end;) {
        const int middle = (i + end) / 2;
        if (goes_before(s->at[middle], p)) i = middle + 1;
        else end = middle;
    }
    memmove(s->at + i + 1, s->at + i, (size_t)(s->count - i) * sizeof(path));
    s->at[i] = p;
    if (++s->count <= s->places) return 0;
    s->count--;
    return 1;
}

static int extend(stack *s, path p, int search, const uint8_t *soft, uint64_t level) {
    const uint32_t *const code = codes[search][level];
    int pushed = 0;
    for (int bit = 0; bit < 2; bit++) {
        const path longer = {p.sum + value_of(level, bit, soft[p.length]), p.length + 1, p.bits << 1 | (uint32_t)bit};
        if (begins_word(longer, code[0]) && begins_word(longer, code[1])) pushed |= put_in(s, longer);
    }
    return pushed;
}

/* The lowest sum of a prefix, by its definition. */
static int16_t low_point(const uint8_t *soft, uint64_t level, uint64_t word) {
    int low = INT_MAX, sum = 0;
    for (int k = 0; k < BITS; k++) {
        sum += value_of(level, (int)(word >> (BITS - 1 - k) & 1), soft[k]);
        if (sum < low) low = sum;
    }
    return (int16_t)low;
}

/* What the search tells, and after how many paths taken the first was pushed out; 0: none was. */
typedef struct { chip_found told; uint64_t first_push; } modelled;

/* The stack that the last search left: of a spent one with the extensions of the path taken last. */
static stack left;

/* The paths that the last search took. */
static path paths_taken[LARGEST];

static modelled model(int search, int places, const uint8_t *soft, uint64_t level, uint64_t limit) {
    modelled m = {.first_push = 0};
    left.count = 0;
    left.places = places;
    extend(&left, (path){0, 0, 0}, search, soft, level);
    while (m.told.count < limit) {
        if (!left.count) {
            m.told.number = EMPTY;
            return m;
        }
        const path p = left.at[0];
        memmove(left.at, left.at + 1, (size_t)--left.count * sizeof(path));
        paths_taken[m.told.count++] = p;
        if (p.length == BITS) {
            m.told.word = p.bits;
            m.told.low = low_point(soft, level, p.bits);
            return m;
        }
        if (!extend(&left, p, search, soft, level) || m.told.pushed) continue;
        m.told.pushed = 1;
        m.first_push = m.told.count;
    }
    m.told.number = SPENT;
    return m;
}

/* A listing: the lengths and the bits of so many lines; and whether the last is the answer of its search. */
enum { ROOM = LARGEST + 1 };
typedef struct { size_t count; int ends; uint64_t lengths[ROOM], bits[ROOM]; } listing;

/* The paths that the search takes on a column, or the first 2,000. */
static inline void list_paths(int search, const uint8_t *soft, uint64_t level, listing *out) {
    const chip_found f = model(search, UNBOUNDED, soft, level, LARGEST).told;
    out->count = f.count;
    out->ends = !f.number;
    for (size_t k = 0; k < out->count; k++) {
        out->lengths[k] = (uint64_t)paths_taken[k].length;
        out->bits[k] = paths_taken[k].bits;
    }
}

/* --- columns --- */

enum { KINDS = 8, RANDOM = 3 };

/* A word of the level, read surely, rightly but weakly, or with some bits misread, weakly or surely; random values; and random ones of two that are the least sure, the surest, or between. */
static inline void fill_column(uint8_t *column, uint64_t level, int kind) {
    uint64_t word = 0;
    for (uint64_t i = level; i < LEVELS; i++) word ^= entry_level_word(i, drawn() >> 2).value;
    for (int k = 0; k < BITS; k++) {
        const int doubt = kind == 0 ? 0 : kind == 1 ? drawn() % 4 : kind == 2 ? (drawn() < 30 ? 4 + drawn() % 3 : drawn() % 2) : drawn() < 50 ? 7 : 0;
        const int two = kind == 5 ? 3 : kind == 6 ? 0 : 2;
        column[k] = (uint8_t)(kind == RANDOM ? drawn() % 8 : kind > 4 ? (drawn() & 64 ? 7 - two : two) : word >> (BITS - 1 - k) & 1 ? 7 - doubt : doubt);
    }
}

#endif
