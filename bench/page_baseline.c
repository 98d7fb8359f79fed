/* The C baseline of page coding and page decoding: 01's levels over a C heap of bench/baseline.c, and Reed-Solomon rows with log tables, Berlekamp-Massey,
   Chien and Forney. It asks none of 01's questions but the tenth. */
#include "page_baseline.h"
#include "inputs.h"
#include <limits.h>
#include <string.h>

enum { COLUMNS = 63, MOST = 30 };

static const int roots[LEVELS] = {30, 12, 6, 4};
static uint8_t power[512], place[64];            /* powers of α, four times round, then zeros; logarithms, and 252 for 0 */
static uint8_t divisor[LEVELS][MOST + 1];        /* a row's divisor, entry k for x^k */
static uint32_t words[LEVELS][64];               /* level words */
static uint8_t flips[LEVELS][64][BITS];          /* 7 where a level word has a one */
static baseline_tables tables[LEVELS];

static inline uint8_t times(uint8_t a, uint8_t b) { return power[place[a] + place[b]]; }

/* a times α^k, k up to 189 */
static inline uint8_t shifted(uint8_t a, int k) { return power[place[a] + k]; }

void page_baseline_start(void) {
    place[0] = 4 * COLUMNS;
    for (int k = 0, a = 1; k < COLUMNS; k++, a = a << 1 ^ (a >> 5) * 67) {
        for (int n = 0; n < 4; n++) power[n * COLUMNS + k] = (uint8_t)a;
        place[a] = (uint8_t)k;
    }
    for (int i = 0; i < LEVELS; i++) {
        uint32_t g = generator(i);
        divisor[i][0] = 1;
        for (int m = 1; m <= roots[i]; m++)
            for (int k = m; k >= 0; k--) divisor[i][k] = (uint8_t)((k ? divisor[i][k - 1] : 0) ^ shifted(divisor[i][k], m));
        for (uint32_t s = 0; s < 64; s++) {
            uint32_t high = s << degree(g);
            words[i][s] = high ^ remainder_of(high, g);
            for (int j = 0; j < BITS; j++) flips[i][s][j] = words[i][s] >> (BITS - 1 - j) & 1 ? 7 : 0;
        }
        supercode_masks(i, tables[i].left, tables[i].right);
        branch_values(i, tables[i].values);
        rests_of(g, tables[i].rests);
    }
}

static void encode_row(int level, uint8_t *row) {
    int T = roots[level], data = COLUMNS - T;
    uint8_t rest[MOST + 1] = {0};                /* entry k for x^(T−1−k) */
    for (int j = 0; j < data; j++) {
        uint8_t a = row[j] ^ rest[0];
        memmove(rest, rest + 1, (size_t)T);
        if (a) for (int k = 0; k < T; k++) rest[k] ^= times(a, divisor[level][T - 1 - k]);
    }
    memcpy(row + data, rest, (size_t)T);
}

/* Outer decoding in place; 0: no word in reach. */
static int decode_row(int level, uint8_t *row, const uint8_t *marks) {
    int T = roots[level], s = 0, any = 0;
    uint8_t syndrome[MOST] = {0}, locator[MOST + 2] = {1}, before[MOST + 2], next[MOST + 2], value[MOST];
    for (int j = 0; j < COLUMNS; j++) s += marks[j];
    if (s > T) return 0;
    for (int j = 0; j < COLUMNS; j++)
        for (int m = 1; m <= T; m++) syndrome[m - 1] = shifted(syndrome[m - 1], m) ^ row[j];
    for (int k = 0; k < T; k++) any |= syndrome[k];
    if (!any) return 1;
    for (int j = 0, d = 0; j < COLUMNS; j++)
        if (marks[j]) {
            d++;
            for (int k = d; k > 0; k--) locator[k] ^= shifted(locator[k - 1], COLUMNS - 1 - j);
        }
    memcpy(before, locator, sizeof before);
    int length = s;
    for (int r = s + 1; r <= T; r++) {
        uint8_t gap = 0;
        for (int k = 0; k <= length && k < r; k++) gap ^= times(locator[k], syndrome[r - 1 - k]);
        memmove(before + 1, before, MOST + 1);
        before[0] = 0;
        if (!gap) continue;
        for (int k = 0; k <= MOST + 1; k++) next[k] = locator[k] ^ times(gap, before[k]);
        if (2 * length < r + s) {
            length = r + s - length;
            for (int k = 0; k <= MOST + 1; k++) before[k] = shifted(locator[k], COLUMNS - place[gap]);
        }
        memcpy(locator, next, sizeof locator);
    }
    if (2 * length - s > T) return 0;
    for (int k = 0; k < T; k++) {                /* the evaluator */
        value[k] = 0;
        for (int n = 0; n <= k && n <= length; n++) value[k] ^= times(locator[n], syndrome[k - n]);
    }
    int found = 0;
    uint8_t at[MOST], by[MOST];
    for (int j = 0; j < COLUMNS && found < length; j++) {
        int inverse = (j + 1) % COLUMNS;         /* column j has α^(62−j) */
        uint8_t a = 0, top = 0, slope = 0;
        for (int k = length; k >= 0; k--) a = shifted(a, inverse) ^ locator[k];
        if (a) continue;
        for (int k = length - 1; k >= 0; k--) top = shifted(top, inverse) ^ value[k];
        for (int k = (length - 1) | 1; k > 0; k -= 2) slope = shifted(slope, 2 * inverse) ^ locator[k];
        if (!slope) return 0;
        at[found] = (uint8_t)j;
        by[found++] = shifted(top, COLUMNS - place[slope]);
    }
    if (found < length) return 0;
    for (int k = 0; k < found; k++) row[at[k]] ^= by[k];
    return 1;
}

void page_baseline_encode(const uint8_t *data, uint8_t *page) {
    uint8_t rows[LEVELS][COLUMNS];
    for (int i = 0, n = 0; i < LEVELS; i++) {
        for (int j = 0; j < COLUMNS - roots[i]; j++, n++) {
            const uint8_t *b = data + n / 4 * 3;
            rows[i][j] = (uint8_t)((uint32_t)(b[0] << 16 | b[1] << 8 | b[2]) >> (18 - n % 4 * 6) & 63);
        }
        encode_row(i, rows[i]);
    }
    for (int j = 0; j < COLUMNS; j++) {
        uint32_t column = (words[0][rows[0][j]] ^ words[1][rows[1][j]] ^ words[2][rows[2][j]] ^ words[3][rows[3][j]]) << 2;
        for (int k = 0; k < 4; k++) page[4 * j + k] = (uint8_t)(column >> (24 - 8 * k));
    }
}

/* the number of ones, in pairs, fours and bytes; without -mpopcnt the builtin is a call */
static inline uint8_t ones(uint64_t m) {
    m -= m >> 1 & 0x5555555555555555u;
    m = (m & 0x3333333333333333u) + (m >> 2 & 0x3333333333333333u);
    return (uint8_t)(((m + (m >> 4)) & 0x0f0f0f0f0f0f0f0fu) * 0x0101010101010101u >> 56);
}

static void pack(const uint8_t symbols[200], uint8_t *data) {
    for (int n = 0; n < 50; n++) {
        uint32_t b = (uint32_t)(symbols[4 * n] << 18 | symbols[4 * n + 1] << 12 | symbols[4 * n + 2] << 6 | symbols[4 * n + 3]);
        for (int k = 0; k < 3; k++) data[3 * n + k] = (uint8_t)(b >> (16 - 8 * k));
    }
}

/* A row is a word if it is its data coded again: quicker than its values at the roots. */
page_outcome page_baseline_commit(const uint8_t *symbols, uint8_t *data) {
    uint8_t fronts[200], *front = fronts;
    for (int k = 0; k < LEVELS * COLUMNS; k++) if (symbols[k] > 63) return (page_outcome){.number = 5, .place = (uint64_t)k};
    for (int i = 0; i < LEVELS; i++, symbols += COLUMNS) {
        uint8_t row[COLUMNS];
        memcpy(row, symbols, sizeof row);
        encode_row(i, row);
        if (memcmp(row, symbols, sizeof row)) return (page_outcome){.number = 14, .place = (uint64_t)i};
        memcpy(front, row, (size_t)(COLUMNS - roots[i]));
        front += COLUMNS - roots[i];
    }
    pack(fronts, data);
    return (page_outcome){.number = 0};
}

page_outcome page_baseline_decode(baseline_search *search, const uint8_t *soft, int limit, int threshold, uint8_t *data) {
    page_outcome o = {.low = INT_MAX};
    uint8_t page[COLUMNS][BITS], symbols[200], *symbol = symbols;
    memcpy(page, soft, sizeof page);
    for (int i = 0; i < LEVELS; i++) {
        uint8_t row[COLUMNS], was[COLUMNS], marks[COLUMNS];
        uint64_t changed = 0, erased = 0;
        for (int j = 0; j < COLUMNS; j++) {
            baseline_outcome c = search(page[j], &tables[i], limit, threshold);
            marks[j] = (uint8_t)c.spent;
            if (!c.spent && c.low < o.low) o.low = c.low;
            o.steps += c.spent ? (uint32_t)limit : c.count;
            erased |= (uint64_t)marks[j] << j;
            for (int n = 3; n >= i; n--) {       /* re-imaging */
                was[j] = c.word >> (6 * n + 6) & 63;
                c.word ^= words[n][was[j]];
            }
        }
        memcpy(row, was, sizeof row);
        if (!decode_row(i, row, marks)) return (page_outcome){.number = 10, .place = (uint64_t)i};
        for (int j = 0; j < COLUMNS; j++) {
            changed |= (uint64_t)(!marks[j] && row[j] != was[j]) << j;
            if (i < 3 && row[j]) for (int k = 0; k < BITS; k++) page[j][k] ^= flips[i][row[j]][k];
        }
        o.changed_marks[i] = changed;
        o.erased_marks[i] = erased;
        o.changed[i] = ones(changed);
        o.erased[i] = ones(erased);
        memcpy(symbol, row, (size_t)(COLUMNS - roots[i]));
        symbol += COLUMNS - roots[i];
    }
    pack(symbols, data);
    return o;
}
