/* Batches of 200 columns, the levels in turn: search_batch, 200 single calls and loops over the C baselines on the same columns, in one process, in turns; the least of the rounds counts.
   batches LIMIT prints one row a kind of column: the times and the ratio of search_batch's to each other's. */
#include "../c/batch.h"
#include "../tests/entries.h"
#include "baseline.h"
#include "inputs.h"
#include <stdio.h>
#include <stdlib.h>
#include <string.h>

enum { COLUMNS = 200, BATCHES = 10, ROUNDS = 15 };
enum { ONE_CALL, SINGLE_CALLS, PLAIN, PLAIN_ASKING, PACKED, WAYS };

/* The batches of a kind of column, a limit, and each level's tables of the baselines. */
static uint8_t soft[BATCHES][COLUMNS * BITS];
static int limit;
static baseline_tables tables[LEVELS];

/* What search_batch, the single calls and the C loop with questions write, and what the bare C loops write. */
static batch_job by_batch[BATCHES][COLUMNS], by_singles[BATCHES][COLUMNS], by_asking_loop[BATCHES][COLUMNS];
static baseline_outcome by_plain[BATCHES][COLUMNS], by_packed[BATCHES][COLUMNS];

/* Random words of the column's level, read with noise of the given strength. */
static void fill(double sigma) {
    for (int b = 0; b < BATCHES; b++)
        for (int c = 0; c < COLUMNS; c++) {
            const uint32_t g = generator(c % LEVELS), word = product((uint32_t)(draw() >> (64 - (BITS - degree(g)))), g);
            for (int j = 0; j < BITS; j++) soft[b][c * BITS + j] = soft_of(word >> (BITS - 1 - j) & 1, sigma);
            by_batch[b][c] = by_singles[b][c] = by_asking_loop[b][c] = (batch_job){.level = (uint64_t)(c % LEVELS), .first = (uint64_t)(c * BITS)};
        }
}

static void refuse(batch_job *job, uint64_t number, uint64_t place) {
    job->number = number;
    job->place = place;
}

static void answer(batch_job *job, uint64_t word, uint64_t count, int64_t low) {
    job->number = job->place = 0;
    job->word = word;
    job->count = count;
    job->low = low;
}

static void singles(const uint8_t *buffer, batch_job *jobs) {
    for (int c = 0; c < COLUMNS; c++) {
        const found f = entry_search_supercode(jobs[c].level, buffer + jobs[c].first, BITS, (uint64_t)limit);
        if (f.number) refuse(&jobs[c], f.number, f.place);
        else answer(&jobs[c], f.word, f.count, f.low);
    }
}

static inline uint64_t eight(const uint8_t *bytes) {
    uint64_t all;
    memcpy(&all, bytes, sizeof all);
    return all;
}

/* The place of the first value above 7, BITS if there is none. */
static inline int first_bad(const uint8_t *column) {
    int k = BITS;
    if ((eight(column) | eight(column + 8) | eight(column + 16) | eight(column + 22)) & 0xf8f8f8f8f8f8f8f8u)
        for (k = 0; column[k] <= 7;) k++;
    return k;
}

/* search_batch in C: the same questions, the same list. */
static void asking_loop(const uint8_t *buffer, size_t count, batch_job *jobs, size_t job_count, uint64_t with_limit) {
    for (batch_job *job = jobs; job < jobs + job_count; job++) {
        if (count < BITS || job->first > count - BITS) { refuse(job, BATCH_OUTSIDE, 0); continue; }
        if (job->level >= LEVELS) { refuse(job, BATCH_LEVEL, 0); continue; }
        if (with_limit < 1 || with_limit > BATCH_LARGEST_LIMIT) { refuse(job, BATCH_LIMIT, 0); continue; }
        const uint8_t *column = buffer + job->first;
        const int bad = first_bad(column);
        if (bad < BITS) { refuse(job, BATCH_VALUE, (uint64_t)bad); continue; }
        const baseline_outcome o = baseline_plain(column, &tables[job->level], (int)with_limit, 0);
        if (o.spent) refuse(job, BATCH_SPENT, 0);
        else answer(job, o.word, o.count, o.low);
    }
}

static void bare_loop(baseline_search *one, const uint8_t *buffer, baseline_outcome *outcomes) {
    for (int c = 0; c < COLUMNS; c++) outcomes[c] = one(buffer + c * BITS, &tables[c % LEVELS], limit, 0);
}

/* Seconds that all batches take in one of the ways. */
static double timed(int way) {
    const double start = seconds();
    for (int b = 0; b < BATCHES; b++) {
        if (way == ONE_CALL) search_batch(soft[b], sizeof soft[b], by_batch[b], COLUMNS, (uint64_t)limit);
        if (way == SINGLE_CALLS) singles(soft[b], by_singles[b]);
        if (way == PLAIN) bare_loop(baseline_plain, soft[b], by_plain[b]);
        if (way == PLAIN_ASKING) asking_loop(soft[b], sizeof soft[b], by_asking_loop[b], COLUMNS, (uint64_t)limit);
        if (way == PACKED) bare_loop(baseline_packed, soft[b], by_packed[b]);
    }
    return seconds() - start;
}

static int tells(const batch_job *job, baseline_outcome o) {
    if (o.spent) return job->number == BATCH_SPENT;
    return job->number == BATCH_OK && job->word == o.word && job->count == o.count && job->low == o.low;
}

/* Every way gave the same answers. */
static int all_same(void) {
    int same = !memcmp(by_batch, by_singles, sizeof by_batch) && !memcmp(by_batch, by_asking_loop, sizeof by_batch);
    for (int b = 0; b < BATCHES; b++)
        for (int c = 0; c < COLUMNS; c++) same &= tells(&by_batch[b][c], by_plain[b][c]) && tells(&by_batch[b][c], by_packed[b][c]);
    return same;
}

int main(int argc, char **argv) {
    int differ = 0;
    limit = argc > 1 ? atoi(argv[1]) : 200;
    for (int level = 0; level < LEVELS; level++) {
        supercode_masks(level, tables[level].left, tables[level].right);
        branch_values(level, tables[level].values);
    }
    printf("batches of %d columns, supercode search, limit %d, microseconds a column: one call | single calls, ratio | plain C heap, ratio | plain C heap with the questions, ratio | packed C heap, ratio\n", COLUMNS, limit);
    for (size_t k = 0; k < KINDS; k++) {
        double least[WAYS];
        fill(kinds[k].sigma);
        for (int round = 0; round < ROUNDS; round++)
            for (int way = 0; way < WAYS; way++) {
                const int turn = (way + round) % WAYS;
                const double t = timed(turn);
                if (!round || t < least[turn]) least[turn] = t;
            }
        const int same = all_same();
        differ |= !same;
        printf("%-7s %8.3f", kinds[k].name, least[ONE_CALL] / (BATCHES * COLUMNS) * 1e6);
        for (int way = SINGLE_CALLS; way < WAYS; way++) printf(" | %8.3f %.2f", least[way] / (BATCHES * COLUMNS) * 1e6, least[ONE_CALL] / least[way]);
        printf("%s\n", same ? "" : "  ANSWERS DIFFER");
    }
    return differ;
}
