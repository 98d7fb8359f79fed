/* The C baseline of dump reading: 01's questions 7, 8 and 5 of a dump of 2,048 bytes, block by block, then the values. */
#ifndef DUMP_BASELINE_H
#define DUMP_BASELINE_H
#include <stdint.h>
#include <string.h>

enum { BLOCKS = 4, BLOCK = 512, FIRST = 16, VALUES = 480, PAGE_VALUES = 1890 };

/* 0, or the number of the question that is answered no and 256 times its place; `soft` is written only where it is 0 */
static inline uint64_t baseline_read_dump(const uint8_t *dump, uint8_t *soft) {
    uint8_t values[PAGE_VALUES];
    for (int b = 0; b < BLOCKS; b++) {
        const uint8_t *block = dump + b * BLOCK;
        int kept = b < BLOCKS - 1 ? VALUES : PAGE_VALUES - b * VALUES;
        uint8_t other = (uint8_t)(block[0] ^ 0x50) | (uint8_t)(block[1] ^ 0x47) | (uint8_t)(block[2] ^ b);
        for (int k = 3; k < FIRST; k++) other |= block[k];
        for (int k = FIRST + kept; k < BLOCK - 2; k++) other |= block[k];
        if (other) return 7 + 256 * (uint64_t)b;
        uint16_t sum = 0;
        for (int k = 0; k < BLOCK - 2; k++) sum = (uint16_t)(sum + (k + 1) * block[k]);
        if (sum != (block[BLOCK - 2] << 8 | block[BLOCK - 1])) return 8 + 256 * (uint64_t)b;
        memcpy(values + b * VALUES, block + FIRST, (size_t)kept);
    }
    for (int k = 0; k < PAGE_VALUES; k++) if (values[k] > 7) return 5 + 256 * (uint64_t)k;
    memcpy(soft, values, PAGE_VALUES);
    return 0;
}

#endif
