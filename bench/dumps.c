/* Dumps: the store's reading, questions included, and the C baseline's of the same dumps, in one process, in turns; the least of the rounds counts. What is
   read, and the refusals of damaged dumps, are compared. */
#include "../tests/entries.h"
#include "dump_baseline.h"
#include "inputs.h"
#include <stdio.h>

enum { DUMP = BLOCKS * BLOCK, DUMPS = 100, ROUNDS = 200, WAYS = 2 };

static uint8_t dumps[DUMPS][DUMP], soft[WAYS][DUMPS][PAGE_VALUES];
static uint64_t answers[WAYS][DUMPS];

static void read_all(int way) {
    for (int d = 0; d < DUMPS; d++) {
        if (way) {
            answers[way][d] = baseline_read_dump(dumps[d], soft[way][d]);
            continue;
        }
        filled f = entry_read_dump(dumps[d], DUMP, soft[0][d], PAGE_VALUES);
        answers[0][d] = f.number + 256 * f.place;
    }
}

static int same(void) { return !memcmp(answers[0], answers[1], sizeof answers[0]) && !memcmp(soft[0], soft[1], sizeof soft[0]); }

int main(void) {
    uint8_t values[PAGE_VALUES];
    for (int d = 0; d < DUMPS; d++) {
        for (int k = 0; k < PAGE_VALUES; k++) values[k] = soft_of(0, -1);
        entry_write_dump(values, PAGE_VALUES, dumps[d], DUMP);
    }
    double best[WAYS] = {1e9, 1e9};
    for (int round = 0; round < ROUNDS; round++)
        for (int way = 0; way < WAYS; way++) {
            double from = seconds();
            read_all(way);
            double t = seconds() - from;
            if (t < best[way]) best[way] = t;
        }
    int differ = !same();
    for (int d = 0; d < DUMPS; d++) dumps[d][draw() % DUMP] ^= (uint8_t)(1 + draw() % 255);
    for (int way = 0; way < WAYS; way++) read_all(way);
    differ |= !same();
    printf("dump reading, microseconds a dump: store | C, ratio\n");
    printf("%-14s %9.3f | %9.3f %.2f%s\n", "reading", best[0] / DUMPS * 1e6, best[1] / DUMPS * 1e6, best[0] / best[1], differ ? "  ANSWERS DIFFER" : "");
    return differ;
}
