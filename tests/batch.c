/* Calls search_batch as a C program does: the stored batches of a vector folder (default tests/vectors), 200 columns in one call, a long list, every length, first bytes near both ends of the
   numbers, levels, limits, bad values, the order of the questions. Each list but the long one is given in one call, in reversed order and job by job, and each job is to answer as the single
   supercode call does on its 30 bytes. Nothing but number, place and an answered job's word, count and low point may change. Prints `batch: N checked, M differ`; fails if one differs. */
#include "../c/batch.h"
#include "entries.h"
#include <stdio.h>
#include <stdlib.h>
#include <string.h>

enum { COLUMN = BATCH_COLUMN_LEN, ROOM = 2335 * COLUMN, JOBS = ROOM - COLUMN + 1, LINE = 8192, LEVELS = 4 };

_Static_assert(sizeof(batch_job) == 56, "a job has 56 bytes");

static unsigned long checked, differ;

static void check(int right, const char *what) {
    checked++;
    if (right) return;
    differ++;
    printf("%s: differs\n", what);
}

/* A job before a call: its answer holds what no call writes by chance. */
static batch_job asking(uint64_t level, uint64_t first) {
    return (batch_job){.level = level, .first = first, .number = 77, .place = 78, .word = 0x123456789abcdef0, .count = 80, .low = -81};
}

static batch_job refused(uint64_t level, uint64_t first, uint64_t number, uint64_t place) {
    batch_job job = asking(level, first);
    job.number = number;
    job.place = place;
    return job;
}

static batch_job answered(uint64_t level, uint64_t first, uint64_t word, uint64_t count, int64_t low) {
    return (batch_job){.level = level, .first = first, .word = word, .count = count, .low = low};
}

static int same(batch_job a, batch_job b) { return !memcmp(&a, &b, sizeof a); }

/* The buffer of a batch, its limit, and its jobs as they are to be after the call. */
static uint8_t soft[ROOM];
static size_t len, jobs;
static uint64_t limit;
static batch_job due[JOBS];

/* How many jobs were to get each number. */
static unsigned long numbers[BATCH_OUTSIDE + 1];

static void begin(size_t count, uint64_t with_limit) {
    len = count;
    jobs = 0;
    limit = with_limit;
}

/* What the single call makes of a job. */
static batch_job by_single_call(uint64_t level, uint64_t first) {
    if (len < COLUMN || first > len - COLUMN) return refused(level, first, BATCH_OUTSIDE, 0);
    const found f = entry_search_supercode(level, soft + first, COLUMN, limit);
    return f.number ? refused(level, first, f.number, f.place) : answered(level, first, f.word, f.count, f.low);
}

/* A job whose answer is known from elsewhere: the single call gives it too. */
static void expect(batch_job job) {
    check(same(job, by_single_call(job.level, job.first)), "single call");
    due[jobs++] = job;
}

static void expect_as_single(uint64_t level, uint64_t first) { due[jobs++] = by_single_call(level, first); }

/* One call. The list stands between two jobs that could be done and are not to be; what has length 0 is given as NULL and as a pointer. */
static void call(const char *what, const batch_job *expected, size_t n) {
    static batch_job list[JOBS + 2];
    static uint8_t kept[ROOM];
    const batch_job guard = asking(0, 0);
    memcpy(kept, soft, len);
    for (int null = len && n; null < 2; null++) {
        list[0] = list[n + 1] = guard;
        for (size_t i = 0; i < n; i++) list[i + 1] = asking(expected[i].level, expected[i].first);
        search_batch(len || !null ? soft : NULL, len, n || !null ? list + 1 : NULL, n, limit);
        check(same(list[0], guard) && same(list[n + 1], guard) && !memcmp(soft, kept, len), what);
        for (size_t i = 0; i < n; i++) check(same(list[i + 1], expected[i]), what);
    }
}

/* The list in one call, in reversed order and job by job. */
static void run(const char *what) {
    static batch_job reversed[JOBS];
    for (size_t i = 0; i < jobs; i++) {
        numbers[due[i].number]++;
        reversed[jobs - 1 - i] = due[i];
        call(what, due + i, 1);
    }
    call(what, due, jobs);
    call(what, reversed, jobs);
}

/* Two hexadecimal digits a byte, `-` for none. */
static size_t bytes_of(const char *text, uint8_t *to, size_t room) {
    size_t n = 0;
    for (unsigned value; n < room && sscanf(text + 2 * n, "%2x", &value) == 1; n++) to[n] = (uint8_t)value;
    return n;
}

/* A line `job LEVEL FIRST NUMBER PLACE [WORD COUNT LOW]` from LEVEL on. */
static void job_line(char *at, const char *path) {
    const uint64_t level = strtoull(at, &at, 10), first = strtoull(at, &at, 10), number = strtoull(at, &at, 10), place = strtoull(at, &at, 10);
    batch_job job = refused(level, first, number, place);
    if (number == BATCH_OK) {
        const uint64_t word = strtoull(at, &at, 10), count = strtoull(at, &at, 10);
        job = answered(level, first, word, count, strtoll(at, &at, 10));
    }
    const int right = *at == '\n' && number <= BATCH_OUTSIDE;
    check(right, path);
    if (right) expect(job);
}

/* batch.txt, whose form is in tests/vectors/README.md; each number occurs. */
static void batches(const char *folder) {
    static char path[LINE], line[LINE];
    size_t missing = 0, lines = 0;
    snprintf(path, sizeof path, "%s/batch.txt", folder);
    FILE *file = fopen(path, "r");
    for (char *at; file && fgets(line, sizeof line, file); lines++) {
        if (!missing && !strncmp(line, "batch ", 6)) {
            begin(0, strtoull(line + 6, &at, 10));
            missing = strtoull(at, &at, 10);
            len = bytes_of(at + 1, soft, ROOM);
            check(missing <= JOBS && len < ROOM, path);
        } else if (missing && !strncmp(line, "job ", 4)) {
            job_line(line + 4, path);
            missing--;
        } else check(0, path);
        if (!missing) run(path);
    }
    if (file) fclose(file);
    check(lines && !missing, path);
    check(numbers[BATCH_OK] && numbers[BATCH_LEVEL] && numbers[BATCH_LIMIT] && numbers[BATCH_VALUE] && numbers[BATCH_SPENT] && numbers[BATCH_OUTSIDE], path);
}

/* The next number of a row of draws, 0..255. */
static uint8_t drawn(void) {
    static uint64_t state = 20261118;
    return (uint8_t)((state = state * 6364136223846793005u + 1442695040888963407u) >> 56);
}

/* A word of the level, read surely, rightly but weakly, or with some bits misread; or random values. */
static void fill_column(uint8_t *column, uint64_t level, int kind) {
    uint64_t word = 0;
    for (uint64_t i = level; i < LEVELS; i++) word ^= entry_level_word(i, drawn() >> 2).value;
    for (int k = 0; k < COLUMN; k++) {
        const int doubt = kind == 0 ? 0 : kind == 1 ? drawn() % 3 : drawn() < 12 ? 4 + drawn() % 3 : drawn() % 2;
        column[k] = (uint8_t)(kind == 3 ? drawn() % 8 : word >> (COLUMN - 1 - k) & 1 ? 7 - doubt : doubt);
    }
}

/* 200 columns of 30 bytes one after the other, each at its level; then with some of them refused, one by each question. */
static void many(void) {
    enum { COLUMNS = 200, LEN = COLUMNS * COLUMN };
    static const uint64_t limits[] = {1, COLUMN, 200, 500, BATCH_LARGEST_LIMIT, 0, BATCH_LARGEST_LIMIT + 1, (uint64_t)1 << 32, ((uint64_t)1 << 32) + 200, UINT64_MAX};
    for (size_t l = 0; l < sizeof limits / sizeof limits[0]; l++) {
        for (int c = 0; c < COLUMNS; c++) fill_column(soft + c * COLUMN, c % LEVELS, c / LEVELS % 4);
        begin(LEN, limits[l]);
        for (uint64_t c = 0; c < COLUMNS; c++) expect_as_single(c % LEVELS, c * COLUMN);
        run("200 columns");
        soft[11 * COLUMN + 7] = 8;
        jobs = 0;
        for (uint64_t c = 0; c < COLUMNS; c++) expect_as_single(c == 5 ? LEVELS : c % LEVELS, c == 2 ? LEN : c * COLUMN);
        run("200 columns, some refused");
        check(due[2].number == BATCH_OUTSIDE && due[5].number == BATCH_LEVEL && due[11].number == (limits[l] - 1 < BATCH_LARGEST_LIMIT ? BATCH_VALUE : BATCH_LIMIT), "200 columns, the refused ones");
    }
}

/* A job at every byte of a buffer of some 70,000, where a column can begin: in one call alone. */
static void long_list(void) {
    for (int at = 0; at < JOBS; at += COLUMN) fill_column(soft + at, at % LEVELS, 0);
    begin(ROOM, 60);
    for (uint64_t first = 0; first < JOBS; first++) expect_as_single(first % LEVELS, first);
    call("a long list", due, jobs);
    check(due[JOBS - 1].number == BATCH_OK, "a long list's last column");
}

/* Columns of zeros, which take 30 steps at each level, in a buffer of any length: the first byte may be up to the length less 30. */
static void lengths(void) {
    static const size_t counts[] = {0, 1, COLUMN - 1, COLUMN, COLUMN + 1, 2 * COLUMN, ROOM};
    static const uint64_t beyond[] = {UINT64_MAX, UINT64_MAX - 28, UINT64_MAX - 29, UINT64_MAX - 30, UINT64_MAX - ROOM, (uint64_t)1 << 63, ((uint64_t)1 << 63) - 1, (uint64_t)1 << 32, ROOM};
    memset(soft, 0, ROOM);
    for (size_t c = 0; c < sizeof counts / sizeof counts[0]; c++) {
        const size_t count = counts[c];
        begin(count, 200);
        run("an empty list");
        for (size_t i = 0; i < sizeof beyond / sizeof beyond[0]; i++) expect(refused(i % LEVELS, beyond[i], BATCH_OUTSIDE, 0));
        for (uint64_t first = 0; first < 3; first++) expect(first + COLUMN <= count ? answered(first, first, 0, COLUMN, 2 + 2 * (int64_t)first) : refused(first, first, BATCH_OUTSIDE, 0));
        if (count >= COLUMN) expect(answered(3, count - COLUMN, 0, COLUMN, 8));
        for (uint64_t over = COLUMN; over-- > 0;) expect(refused(3, count - over, BATCH_OUTSIDE, 0));
        run("lengths and first bytes");
    }
}

/* Jobs on the same and on overlapping columns, at all levels and above. */
static void overlaps(void) {
    static const uint64_t above[] = {LEVELS, 256, (uint64_t)1 << 32, ((uint64_t)1 << 32) + 1, (uint64_t)1 << 63, UINT64_MAX};
    for (int kind = 0; kind < 4; kind++) {
        for (uint64_t c = 0; c < 3; c++) fill_column(soft + c * COLUMN, c, kind);
        begin(3 * COLUMN, 500);
        for (uint64_t level = 0; level < LEVELS; level++) expect_as_single(level, COLUMN);
        for (size_t i = 0; i < sizeof above / sizeof above[0]; i++) expect(refused(above[i], COLUMN, BATCH_LEVEL, 0));
        for (uint64_t level = 0; level < LEVELS; level++) expect_as_single(level, COLUMN);
        for (uint64_t first = 0; first <= 2 * COLUMN; first++) expect_as_single(first % LEVELS, first);
        run("overlapping jobs");
    }
}

/* A column with a bad value at each position, and the last one bad as well, among bytes that are no soft values. Of a job that several questions refuse the first one tells. */
static void questions(void) {
    enum { LEN = 4 * COLUMN };
    static const uint64_t firsts[] = {0, 1, 37, LEN - COLUMN - 1, LEN - COLUMN}, bad_limits[] = {0, BATCH_LARGEST_LIMIT + 1, (uint64_t)1 << 32, UINT64_MAX};
    for (size_t f = 0; f < sizeof firsts / sizeof firsts[0]; f++)
        for (uint64_t k = 0; k <= COLUMN; k++) {
            const uint64_t first = firsts[f];
            for (int i = 0; i < LEN; i++) soft[i] = (uint8_t)(8 + drawn() % 248);
            memset(soft + first, 0, COLUMN);
            if (k < COLUMN) soft[first + COLUMN - 1] = 255;
            if (k < COLUMN) soft[first + k] = (uint8_t)(k % 2 ? 8 : 128);
            begin(LEN, COLUMN);
            expect(refused(UINT64_MAX, UINT64_MAX - k, BATCH_OUTSIDE, 0));
            for (uint64_t level = 0; level < LEVELS; level++) expect(k < COLUMN ? refused(level, first, BATCH_VALUE, k) : answered(level, first, 0, COLUMN, 2 + 2 * (int64_t)level));
            expect(refused(LEVELS, first, BATCH_LEVEL, 0));
            if (first > 0) expect(refused(1, first - 1, BATCH_VALUE, 0));
            if (first < LEN - COLUMN) expect(refused(2, first + 1, BATCH_VALUE, k == 0 || k == COLUMN ? COLUMN - 1 - (k == 0) : k - 1));
            run("values and questions");
            begin(LEN, COLUMN - 1);
            expect(k < COLUMN ? refused(3, first, BATCH_VALUE, k) : refused(3, first, BATCH_SPENT, 0));
            run("values, then a spent search");
            begin(LEN, bad_limits[k % 4]);
            expect(refused(LEVELS, LEN - COLUMN + 1, BATCH_OUTSIDE, 0));
            expect(refused(LEVELS, first, BATCH_LEVEL, 0));
            expect(refused(3, first, BATCH_LIMIT, 0));
            run("a bad limit");
        }
}

int main(int argc, char **argv) {
    batches(argc > 1 ? argv[1] : "tests/vectors");
    many();
    long_list();
    lengths();
    overlaps();
    questions();
    printf("batch: %lu checked, %lu differ\n", checked, differ);
    return differ || !checked;
}
