/* make-samples FOLDER: writes the dumps of samples/ through the test entries: clean.dump, worn.dump and refused.dump. The same bytes at every run. */
#include "entries.h"
#include <stdio.h>
#include <stdlib.h>
#include <string.h>

enum { DATA = 150, WRITTEN = 252, COLUMNS = 63, BITS = 30, SOFT = COLUMNS * BITS, DUMP = 2048 };

static uint64_t state = 20261115;

/* xorshift64: the next number below n */
static unsigned below(unsigned n) {
    state ^= state << 13;
    state ^= state >> 7;
    state ^= state << 17;
    return (unsigned)((state >> 33) % n);
}

/* Records of a feed weigher, one a line, as far as they fit. */
static void records(uint8_t *data) {
    char text[DATA + 32];
    size_t n = 0;
    memset(data, ' ', DATA);
    for (int day = 9; ; day++) {
        int k = snprintf(text, sizeof text, "2026-11-%02d silo %d feed %d.%d kg\n", day, day % 3 + 1, 410 + day * 37 % 90, day * 7 % 10);
        if (n + (size_t)k > DATA) break;
        memcpy(data + n, text, (size_t)k);
        n += (size_t)k;
    }
}

/* Surely read bits: 0 or 7. */
static void soft_of(const uint8_t *written, uint8_t *soft) {
    for (int j = 0; j < COLUMNS; j++)
        for (int i = 0; i < BITS; i++) soft[j * BITS + i] = written[4 * j + i / 8] >> (7 - i % 8) & 1 ? 7 : 0;
}

/* Wears a page: each value moves towards the other bit by a few steps, and a share of wrong bits (per thousand) results. */
static void wear(uint8_t *soft, unsigned wrong) {
    for (int k = 0; k < SOFT; k++) {
        unsigned steps = below(1000) < wrong ? 4 + below(3) : below(4) * below(2);
        soft[k] = (uint8_t)(soft[k] ? 7 - steps : steps);
    }
}

/* A column that is no longer readable. */
static void spoil(uint8_t *soft, int column) {
    for (int i = 0; i < BITS; i++) soft[column * BITS + i] = (uint8_t)(3 + below(2));
}

static void save(const char *folder, const char *name, const uint8_t *soft) {
    char path[4096];
    uint8_t dump[DUMP];
    snprintf(path, sizeof path, "%s/%s", folder, name);
    if (entry_write_dump(soft, SOFT, dump, DUMP).number) { fprintf(stderr, "make-samples: %s is no soft page\n", name); exit(1); }
    FILE *f = fopen(path, "wb");
    if (!f || fwrite(dump, 1, DUMP, f) != DUMP || fclose(f)) { perror(path); exit(1); }
}

int main(int argc, char **argv) {
    uint8_t data[DATA], written[WRITTEN], soft[SOFT];
    if (argc != 2) { fprintf(stderr, "usage: make-samples FOLDER\n"); return 1; }
    records(data);
    if (entry_encode_page(data, DATA, written, WRITTEN).number) return 1;
    soft_of(written, soft);
    save(argv[1], "clean.dump", soft);
    wear(soft, 6);
    spoil(soft, 20);
    spoil(soft, 41);
    save(argv[1], "worn.dump", soft);
    soft_of(written, soft);
    wear(soft, 2);
    for (int j = 0; j < 5; j++) spoil(soft, 7 + 11 * j);
    save(argv[1], "refused.dump", soft);
    return 0;
}
