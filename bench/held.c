/* Held searches: steps that are taken up beside one supercode search of as many, on columns that 2,000 steps do not end, in one process, in turns; the least of the rounds counts.
   held prints one row a kind of column and level: the times of one search, of twenty parts and of the last part alone, with their ratios to the one search's; then what a call costs that
   only passes the store by value, refused by 16, what one of a single step costs, and the difference: the test of the state, and the entry made anew. */
#include "../tests/entries.h"
#include "inputs.h"
#include <stdio.h>

enum { LIMIT = 2000, PART = 100, HELD = LIMIT - PART, NAMES = 4, COLUMNS = 60, STORES = COLUMNS / NAMES, ROUNDS = 15, TRIES = 10000000, SPENT = 9, NAME = 16 };
enum { ONCE, PARTS, LAST_PART, REFUSED, ONE_STEP, WAYS };

static const struct { const char *name; int two; } drawn_from[] = {{"random", 0}, {"3s, 4s", 1}};

/* Columns of a kind and level, four to a store; their stores after 1,900 steps; and the empty store. */
static uint8_t soft[COLUMNS][BITS];
static held_store stores[STORES], empty;

/* Columns that are spent at 2,000; how many were drawn for them, 0 if they were not found. */
static long fill(int two, uint64_t level) {
    long drawn = 0;
    for (int c = 0; c < COLUMNS; c++)
        do {
            if (++drawn > TRIES) return 0;
            for (int j = 0; j < BITS; j++) soft[c][j] = (uint8_t)(two ? 3 + (draw() >> 63) : draw() >> 61);
        } while (entry_search_supercode(level, soft[c], BITS, LIMIT).number != SPENT);
    return drawn;
}

/* The stores after 1,900 steps of each column. */
static int prepare(uint64_t level) {
    int same = 1;
    empty = entry_empty_store();
    for (int s = 0; s < STORES; s++) {
        stores[s] = empty;
        for (uint64_t k = 0; k < NAMES; k++) {
            const held_found h = entry_hold_search(stores[s], k, soft[NAMES * s + (int)k], BITS, level, HELD);
            same &= h.found.number == SPENT;
            stores[s] = h.store;
        }
    }
    return same;
}

/* Whether a call told this number and left the name with this limit. */
static int tells(const held_found *h, uint64_t number, uint64_t name, uint64_t limit) { return h->found.number == number && h->store.names[name].limit == limit; }

/* 2,000 steps in twenty parts; two variables in turns, so that C copies a store into a call and no other way. */
static int in_parts(const uint8_t *column, uint64_t level, uint64_t name) {
    held_found one = entry_hold_search(empty, name, column, BITS, level, PART), other = entry_take_up(one.store, name, PART);
    for (int steps = 2 * PART; steps < LIMIT; steps += 2 * PART) {
        one = entry_take_up(other.store, name, PART);
        other = entry_take_up(one.store, name, PART);
    }
    return tells(&other, SPENT, name, LIMIT);
}

/* One way to search a column, or a call on its store: whether it told what it has to. */
static int made(int way, int c, uint64_t level) {
    const uint64_t name = (uint64_t)(c % NAMES);
    if (way == ONCE) return entry_search_supercode(level, soft[c], BITS, LIMIT).number == SPENT;
    if (way == PARTS) return in_parts(soft[c], level, name);
    const held_found h = entry_take_up(stores[c / NAMES], way == REFUSED ? NAMES : name, way == ONE_STEP ? 1 : PART);
    return tells(&h, way == REFUSED ? NAME : SPENT, name, way == REFUSED ? HELD : way == ONE_STEP ? HELD + 1 : LIMIT);
}

/* Seconds that all columns take in one of the ways. */
static double timed(int way, uint64_t level, int *same) {
    const double start = seconds();
    for (int c = 0; c < COLUMNS; c++) *same &= made(way, c, level);
    return seconds() - start;
}

int main(void) {
    int differ = 0;
    double passing = 0, one_step = 0, searched = 0;
    printf("held searches, %d columns a level that are spent at %d, microseconds a column: one search of %d | twenty parts of %d, ratio | the last %d taken up after %d, ratio\n", COLUMNS, LIMIT, LIMIT, PART, PART, HELD);
    for (size_t k = 0; k < sizeof drawn_from / sizeof drawn_from[0]; k++)
        for (uint64_t level = 1; level < LEVELS; level++) {
            double least[WAYS];
            const long drawn = fill(drawn_from[k].two, level);
            int same = drawn && prepare(level);
            for (int round = 0; round < ROUNDS; round++)
                for (int way = 0; way < WAYS; way++) {
                    const int turn = (way + round) % WAYS;
                    const double t = timed(turn, level, &same);
                    if (!round || t < least[turn]) least[turn] = t;
                }
            differ |= !same;
            printf("%-6s level %d %8.3f", drawn_from[k].name, (int)level, least[ONCE] / COLUMNS * 1e6);
            for (int way = PARTS; way <= LAST_PART; way++) printf(" | %8.3f %.2f", least[way] / COLUMNS * 1e6, least[way] / least[ONCE]);
            printf("  (of %ld columns drawn)%s\n", drawn, same ? "" : "  ANSWERS DIFFER");
            passing += least[REFUSED];
            one_step += least[ONE_STEP];
            searched += COLUMNS;
        }
    printf("a store of %zu bytes, microseconds a call, all columns together: refused by 16, the store by value alone | one step taken up after %d | the rest, the test of the state and the entry made anew\n", sizeof(held_store), HELD);
    printf("store   %8.3f | %8.3f | %8.3f\n", passing / searched * 1e6, one_step / searched * 1e6, (one_step - passing) / searched * 1e6);
    return differ;
}
