/* What tests/vectors.c and tests/long.c share: the lines of vector files, what a line says of the store, buffers that a refusal leaves as they were, a word's sums on a column. */
#ifndef RECORDS_H
#define RECORDS_H
#include "entries.h"
#include <limits.h>
#include <stdio.h>
#include <stdlib.h>
#include <string.h>

enum { LINE = 32768, FIELDS = 2048 };

typedef struct { char *field[FIELDS]; int count; } record;
typedef struct { unsigned long checked, differ, left; } tally;

/* What a line says of the store: as it should be, otherwise, a call that is not there yet, or nothing by itself. */
typedef enum { SAME, DIFFERS, LEFT, PASSED } verdict;

static record split(char *line) {
    record r = {{0}, 0};
    for (char *word = strtok(line, " \n"); word && r.count < FIELDS; word = strtok(NULL, " \n")) r.field[r.count++] = word;
    return r;
}

static uint64_t decimal(const char *text) { return strtoull(text, NULL, 10); }

/* A number of so many hexadecimal digits; -1 where there are not so many. */
static int hex_of(const char *text, int digits) {
    char number[8] = {0};
    for (int k = 0; k < digits; k++) if (!(number[k] = text[k])) return -1;
    return (int)strtoul(number, NULL, 16);
}

/* Two hexadecimal digits a byte, `-` for none. */
static size_t bytes_of(const char *text, uint8_t *out, size_t room) {
    size_t n = 0;
    if (!strcmp(text, "-")) return 0;
    for (int value; n < room && (value = hex_of(text, 2)) >= 0; text += 2) out[n++] = (uint8_t)value;
    return n;
}

/* A soft column or page as digits; gives how many there are. */
static size_t digits_of(const char *text, uint8_t *out, size_t room) {
    size_t n = 0;
    for (; text[n] && n < room; n++) out[n] = (uint8_t)(text[n] - '0');
    return n;
}

static verdict is(told t, uint64_t number, uint64_t place, uint64_t value) {
    return t.number == number && t.place == place && t.value == value ? SAME : DIFFERS;
}

static int same_found(found a, found b) { return a.number == b.number && a.place == b.place && a.word == b.word && a.count == b.count && a.low == b.low; }

/* A byte that no call writes by chance: what a buffer holds before a call. */
enum { UNTOUCHED = 0xa5 };

static int untouched(const void *out, size_t n) {
    for (size_t i = 0; i < n; i++) if (((const uint8_t *)out)[i] != UNTOUCHED) return 0;
    return 1;
}

/* The low point and the sum of a word on a soft column of so many bits, straight from their definitions, with the branch values of the level: the lowest sum of a prefix, and that of all bits. */
typedef struct { int low, sum; } walk;

static walk walk_of(int bits, const uint8_t *soft, uint64_t level, uint64_t word) {
    static const int agree[] = {2, 1, -1, -5}, disagree[] = {-60, -35, -20, -11};
    walk w = {INT_MAX, 0};
    for (int k = 0; k < bits; k++) {
        int reads = soft[k] > 3, doubt = reads ? 7 - soft[k] : soft[k];
        w.sum += ((word >> (bits - 1 - k) & 1) == (uint64_t)reads ? agree : disagree)[doubt] + 2 * (int)level;
        if (w.sum < w.low) w.low = w.sum;
    }
    return w;
}

/* A search by the mode that a line names. */
typedef found searching(const char *mode, uint64_t level, const uint8_t *soft, size_t count, uint64_t limit);

/* `SOFT LEVEL LIMIT MODE 9`, or a word's line: it has so many fields, the last its count or, of seven, its low point, which is reckoned here as well; a refusal tells nothing more. */
static verdict search_line(const record *r, int fields, int bits, searching *search) {
    uint8_t soft[LINE];
    if (r->count != 5 && r->count != fields) return DIFFERS;
    const size_t n = digits_of(r->field[0], soft, sizeof soft);
    found f = search(r->field[3], decimal(r->field[1]), soft, n, decimal(r->field[2]));
    if (r->count == 5) return f.number == decimal(r->field[4]) && f.place == 0 && !f.word && !f.count && !f.low ? SAME : DIFFERS;
    if (f.number || n != (size_t)bits) return DIFFERS;
    int low = walk_of(bits, soft, decimal(r->field[1]), f.word).low;
    if (fields == 7 && low != atoi(r->field[6])) return DIFFERS;
    return f.word == decimal(r->field[4]) && f.count == decimal(r->field[5]) && f.low == low ? SAME : DIFFERS;
}

/* The lines of a file of this name, each told by the given function; a line that is longer than there is room for differs. */
static tally check_lines(FILE *file, const char *path, verdict (*line_of)(const record *)) {
    tally t = {0, 0, 0};
    char line[LINE];
    for (unsigned long at = 1; fgets(line, sizeof line, file); at++) {
        const int whole = strchr(line, '\n') || feof(file);
        record r = split(line);
        if (!r.count) continue;
        verdict v = whole ? line_of(&r) : DIFFERS;
        if (v == LEFT) { t.left++; continue; }
        if (v == PASSED) continue;
        t.checked++;
        if (v == DIFFERS) {
            t.differ++;
            printf("%s:%lu: differs\n", path, at);
        }
    }
    return t;
}

/* The next number of a row of draws, 0..255. */
static uint8_t drawn(uint64_t *state) { return (uint8_t)((*state = *state * 6364136223846793005u + 1442695040888963407u) >> 56); }

#endif
