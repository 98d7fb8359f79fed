/* The chip's search, the supercode search with 64 places on its stack: the store's and the two C models' on the same columns, in one process, in turns; the least of the rounds counts.
   chip LIMIT prints one row a kind of column, the four levels together: the times and the ratio of the store's to each model's. */
#include "chip_model.h"
#include "inputs.h"
#include <stdio.h>
#include <stdlib.h>

enum { COLUMNS = 2000, ROUNDS = 15 };
enum { STORE, PLAIN, CAREFUL, WAYS };

/* crates/measured: the search of every column of a buffer over one set of arrays; the answers folded into one number */
uint64_t measured_chip_searches(uint64_t level, const uint8_t *soft, size_t count, uint64_t limit);

/* The columns of a kind at each level, a limit, and each level's tables of the models. */
static uint8_t soft[LEVELS][COLUMNS * BITS];
static int limit;
static baseline_tables tables[LEVELS];

/* Random words of the level, read with noise of the given strength. */
static void fill(double sigma) {
    for (int level = 0; level < LEVELS; level++) {
        const uint32_t g = generator(level);
        for (int c = 0; c < COLUMNS; c++) {
            const uint32_t word = product((uint32_t)(draw() >> (64 - (BITS - degree(g)))), g);
            for (int j = 0; j < BITS; j++) soft[level][c * BITS + j] = soft_of(word >> (BITS - 1 - j) & 1, sigma);
        }
    }
}

/* One answer as a number: no two answers of one limit have the same, for a count is the limit's exactly at a 9. */
static inline uint64_t folded(chip_outcome o) {
    if (o.number) return (uint64_t)1 << 46 ^ (uint64_t)o.count << 1 ^ o.pushed;
    return (uint64_t)(uint16_t)o.low << 48 ^ (uint64_t)o.pushed << 47 ^ (uint64_t)o.word << 11 ^ o.count;
}

static uint64_t searches(int way, int level, const uint8_t *columns, size_t count) {
    uint64_t fold = 0;
    if (way == STORE) return measured_chip_searches((uint64_t)level, columns, count, (uint64_t)limit);
    if (way == PLAIN) for (size_t a = 0; a < count; a += BITS) fold ^= folded(chip_plain(columns + a, &tables[level], limit));
    else for (size_t a = 0; a < count; a += BITS) fold ^= folded(chip_careful(columns + a, &tables[level], limit));
    return fold;
}

/* Column by column the same answer in every way: of many columns together two differences could hide each other. Counts the columns with a path pushed out, and those by 9 and by 13. */
static int all_same(int *pushed, int *spent, int *emptied) {
    int same = 1;
    *pushed = *spent = *emptied = 0;
    for (int level = 0; level < LEVELS; level++)
        for (int c = 0; c < COLUMNS; c++) {
            const uint8_t *column = soft[level] + c * BITS;
            const chip_outcome o = chip_careful(column, &tables[level], limit);
            for (int way = 0; way < WAYS; way++) same &= searches(way, level, column, BITS) == folded(o);
            *pushed += o.pushed;
            *spent += o.number == 9;
            *emptied += o.number == 13;
        }
    return same;
}

int main(int argc, char **argv) {
    int differ = 0;
    limit = argc > 1 ? atoi(argv[1]) : 200;
    for (int level = 0; level < LEVELS; level++) {
        supercode_masks(level, tables[level].left, tables[level].right);
        branch_values(level, tables[level].values);
    }
    printf("the chip's search, 64 places, limit %d, microseconds a column: store | plain C model, ratio | careful C model, ratio\n", limit);
    for (size_t k = 0; k < KINDS; k++) {
        double sum[WAYS] = {0};
        int pushed, spent, emptied, same = 1;
        fill(kinds[k].sigma);
        for (int level = 0; level < LEVELS; level++) {
            double least[WAYS];
            uint64_t folds[WAYS];
            for (int round = 0; round < ROUNDS; round++)
                for (int way = 0; way < WAYS; way++) {
                    const int turn = (way + round) % WAYS;
                    const double start = seconds();
                    folds[turn] = searches(turn, level, soft[level], sizeof soft[level]);
                    const double t = seconds() - start;
                    if (!round || t < least[turn]) least[turn] = t;
                }
            for (int way = 0; way < WAYS; way++) {
                sum[way] += least[way];
                same &= folds[way] == folds[STORE];
            }
        }
        same &= all_same(&pushed, &spent, &emptied);
        differ |= !same;
        printf("%-7s %8.3f", kinds[k].name, sum[STORE] / (LEVELS * COLUMNS) * 1e6);
        for (int way = PLAIN; way < WAYS; way++) printf(" | %8.3f %.2f", sum[way] / (LEVELS * COLUMNS) * 1e6, sum[STORE] / sum[way]);
        printf("  (of %d columns %d pushed a path out, %d ended by 9, %d by 13)%s\n", LEVELS * COLUMNS, pushed, spent, emptied, same ? "" : "  ANSWERS DIFFER");
    }
    return differ;
}
