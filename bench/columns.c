/* Column searches: the store's and the two C baselines' on the same columns, in one process, in turns; the least of the rounds counts.
   columns LIMIT [THRESHOLD] prints one row a kind of column, a level and a search: the times and the ratio of the store's to each baseline's. With a threshold
   the searches have list of two. */
#include "baseline.h"
#include "inputs.h"
#include <stdio.h>
#include <stdlib.h>
#include <string.h>

enum { COLUMNS = 2000, ROUNDS = 9 };

/* crates/measured: the search of every column of a buffer over one set of arrays; the answers folded into one number */
uint64_t measured_searches(uint64_t level, const uint8_t *soft, size_t count, uint64_t limit, uint64_t supercode);
uint64_t measured_list_searches(uint64_t level, const uint8_t *soft, size_t count, uint64_t limit, uint64_t supercode, int64_t threshold);

/* Random words of the level, read with noise of the given strength. */
static void fill(uint8_t *soft, int level, double sigma) {
    uint32_t g = generator(level);
    for (int c = 0; c < COLUMNS; c++) {
        uint32_t word = product((uint32_t)(draw() >> (64 - (BITS - degree(g)))), g);
        for (int j = 0; j < BITS; j++)
            soft[c * BITS + j] = soft_of(word >> (BITS - 1 - j) & 1, sigma);
    }
}

static uint64_t baseline_searches(baseline_search *one, const uint8_t *soft, const baseline_tables *tables, int limit, int threshold) {
    uint64_t fold = 0;
    for (int c = 0; c < COLUMNS; c++) {
        baseline_outcome o = one(soft + c * BITS, tables, limit, threshold);
        fold ^= (uint64_t)(uint16_t)o.low << 48 ^ ((uint64_t)o.word * 2048 + o.count);
    }
    return fold;
}

int main(int argc, char **argv) {
    static uint8_t soft[COLUMNS * BITS];
    int limit = argc > 1 ? atoi(argv[1]) : 200, list = argc > 2, threshold = list ? atoi(argv[2]) : 0, differ = 0;
    printf("column searches, ");
    if (list) printf("list of two, threshold %d, ", threshold);
    printf("limit %d, microseconds a column: store | plain C heap, ratio | packed C heap, ratio\n", limit);
    for (size_t k = 0; k < KINDS; k++)
        for (int level = 0; level < LEVELS; level++)
            for (int supercode = 0; supercode < 2; supercode++) {
                baseline_tables tables = {0};
                if (supercode) supercode_masks(level, tables.left, tables.right);
                else masks_of(generator(level), tables.left);
                branch_values(level, tables.values);
                rests_of(generator(level), tables.rests);
                fill(soft, level, kinds[k].sigma);
                double ours = 1e9, plain = 1e9, packed = 1e9;
                uint64_t a = 0, b = 0, c = 0;
                for (int round = 0; round < ROUNDS; round++) {
                    double t = seconds();
                    a = list ? measured_list_searches((uint64_t)level, soft, sizeof soft, (uint64_t)limit, (uint64_t)supercode, threshold)
                             : measured_searches((uint64_t)level, soft, sizeof soft, (uint64_t)limit, (uint64_t)supercode);
                    double u = seconds();
                    b = baseline_searches(list ? baseline_plain_list : baseline_plain, soft, &tables, limit, threshold);
                    double v = seconds();
                    c = baseline_searches(list ? baseline_packed_list : baseline_packed, soft, &tables, limit, threshold);
                    double w = seconds();
                    if (u - t < ours) ours = u - t;
                    if (v - u < plain) plain = v - u;
                    if (w - v < packed) packed = w - v;
                }
                differ |= a != b || a != c;
                printf("%-7s level %d %-9s %8.3f | %8.3f %.2f | %8.3f %.2f%s\n", kinds[k].name, level, supercode ? "supercode" : "whole", ours / COLUMNS * 1e6,
                       plain / COLUMNS * 1e6, ours / plain, packed / COLUMNS * 1e6, ours / packed, a == b && a == c ? "" : "  ANSWERS DIFFER");
            }
    return differ;
}
