/* The census of flips (02, point 14) by the tests' own search, tests/model.h, which tests existence by remainders and keeps a sorted stack. Prints the 16 lines that flipcensus has to print; with the word
   `table`, a row for each of them with the totals at the limits 200, 500 and 2,000; with the word `paths`, for each level how many paths either search takes where the one flip is at position 0 to 29.
   The patterns are the numbers below 2^30 with so many ones, in ascending order; there have to be as many as 30 over so many. */
#include "model.h"

enum { CENSUS_LIMIT = 200, MOST_ONES = 3 };

typedef struct { unsigned long zero, other, spent; } totals;

/* The next number with as many ones. */
static uint32_t next_pattern(uint32_t p) {
    const uint32_t lowest = p & -p, carried = p + lowest;
    return carried | ((carried ^ p) >> 2) / lowest;
}

/* What a search tells of a pattern, position k at bit k. */
static chip_found searched(int search, uint32_t pattern, uint64_t level, uint64_t limit) {
    uint8_t soft[BITS];
    for (int k = 0; k < BITS; k++) soft[k] = pattern >> k & 1 ? 7 : 0;
    return model(search, UNBOUNDED, soft, level, limit).told;
}

static totals counted(uint64_t level, int ones, uint64_t limit) {
    static const unsigned long patterns[MOST_ONES + 1] = {1, 30, 30 * 29 / 2, 30 * 29 * 28 / 6};
    totals t = {0, 0, 0};
    for (uint32_t p = (1u << ones) - 1; p < 1u << BITS; p = next_pattern(p)) {
        const chip_found f = searched(SUPERCODE, p, level, limit);
        if (f.number == SPENT) t.spent++;
        else if (f.word) t.other++;
        else t.zero++;
        if (!ones) break;
    }
    check(t.zero + t.other + t.spent == patterns[ones], "the number of patterns");
    return t;
}

int main(int words, char **word) {
    const int table = words > 1 && !strcmp(word[1], "table"), paths = words > 1 && !strcmp(word[1], "paths");
    check_products();
    for (uint64_t level = 0; level < LEVELS; level++) {
        for (int search = SUPERCODE; search < SEARCHES && paths; search++) {
            printf("level %d %s paths", (int)level, search == WHOLE ? "whole" : "supercode");
            for (int k = 0; k < BITS; k++) printf(" %lu", (unsigned long)searched(search, 1u << k, level, LARGEST).count);
            printf("\n");
        }
        for (int ones = 0; ones <= MOST_ONES && !paths; ones++) {
            const totals t = counted(level, ones, CENSUS_LIMIT);
            if (!table) {
                printf("level %d ones %d zero %lu other %lu spent %lu\n", (int)level, ones, t.zero, t.other, t.spent);
                continue;
            }
            const totals more = counted(level, ones, 500), most = counted(level, ones, LARGEST);
            printf("| %d | %d | %lu | %lu | %lu | %lu | %lu | %lu | %lu | %lu | %lu |\n", (int)level, ones, t.zero, t.other, t.spent, more.zero, more.other, more.spent, most.zero, most.other, most.spent);
        }
    }
    return differ != 0;
}
