/* The checker of listings beside the search whose listing it judges, on the same columns, in one process, in turns; the least of the rounds counts.
   checker prints one row a kind of column, level and search: the times of the search and of the checker, their ratio, and the lines that are judged in a second. */
#include "../tests/entries.h"
#include "inputs.h"
#include "listings.h"
#include <stdio.h>

enum { LIMIT = 2000, COLUMNS = 200, ROUNDS = 25, TRIES = 1000000 };
enum { SEARCH, CHECKER, WAYS };

/* Columns of a kind and level whose search ends, and their listings one behind the other: that of column c begins at line first[c]. */
static uint8_t soft[COLUMNS][BITS];
static uint64_t lengths[COLUMNS * LIMIT], bits[COLUMNS * LIMIT];
static size_t first[COLUMNS + 1];

static found search(int supercode, int level, const uint8_t *column) {
    return supercode ? entry_search_supercode((uint64_t)level, column, BITS, LIMIT) : entry_search_whole((uint64_t)level, column, BITS, LIMIT);
}

/* Random words of the level, read with noise of the given strength; whether enough columns were found whose search ends. */
static int fill(double sigma, int supercode, int level) {
    const uint32_t g = generator(level);
    long drawn = 0;
    for (int c = 0; c < COLUMNS; c++) {
        do {
            const uint32_t word = product((uint32_t)(draw() >> (64 - (BITS - degree(g)))), g);
            if (++drawn > TRIES) return 0;
            for (int j = 0; j < BITS; j++) soft[c][j] = soft_of(word >> (BITS - 1 - j) & 1, sigma);
        } while (search(supercode, level, soft[c]).number);
        first[c + 1] = first[c] + listing_of(supercode, soft[c], (uint64_t)level, lengths + first[c], bits + first[c]);
    }
    return 1;
}

/* The search ends as the listing does, and the checker accepts it. */
static int right(int way, int c, int supercode, int level) {
    const size_t at = first[c], lines = first[c + 1] - at;
    if (way == SEARCH) {
        const found f = search(supercode, level, soft[c]);
        return !f.number && f.count == lines && f.word == bits[at + lines - 1];
    }
    const listing_told t = entry_check_listing(soft[c], BITS, (uint64_t)level, supercode, lengths + at, lines, bits + at, lines);
    return !t.number && !t.line;
}

/* Seconds that all columns take in one of the ways. */
static double timed(int way, int supercode, int level, int *same) {
    const double start = seconds();
    for (int c = 0; c < COLUMNS; c++) *same &= right(way, c, supercode, level);
    return seconds() - start;
}

int main(void) {
    int differ = 0;
    printf("the checker of listings, %d columns a row whose search ends within %d steps, microseconds a column: search | checker, ratio | millions of lines a second\n", COLUMNS, LIMIT);
    for (size_t k = 0; k < KINDS; k++)
        for (int level = 0; level < LEVELS; level++)
            for (int supercode = 0; supercode < 2; supercode++) {
                double least[WAYS];
                int same = 1;
                if (!fill(kinds[k].sigma, supercode, level)) {
                    printf("%-7s level %d %-9s too few columns whose search ends\n", kinds[k].name, level, supercode ? "supercode" : "whole");
                    continue;
                }
                for (int round = 0; round < ROUNDS; round++)
                    for (int way = 0; way < WAYS; way++) {
                        const int turn = (way + round) % WAYS;
                        const double t = timed(turn, supercode, level, &same);
                        if (!round || t < least[turn]) least[turn] = t;
                    }
                differ |= !same;
                printf("%-7s level %d %-9s %8.3f | %8.3f %.2f | %6.2f  (%.0f lines a column)%s\n", kinds[k].name, level, supercode ? "supercode" : "whole", least[SEARCH] / COLUMNS * 1e6,
                       least[CHECKER] / COLUMNS * 1e6, least[CHECKER] / least[SEARCH], (double)first[COLUMNS] / least[CHECKER] * 1e-6, (double)first[COLUMNS] / COLUMNS, same ? "" : "  ANSWERS DIFFER");
            }
    return differ;
}
