/* Calls the station's entries as a C program does: every length, NULL with length 0, limits, thresholds, bad values, late refusals, altered rows, pages whose changed and erased columns are known, and
   the stored pages and dumps of a vector folder (default tests/vectors).
   A refused call may change no byte of any buffer or of the bytes around it. Prints `N checked, M differ`; fails if one differs. */
#include "../c/station.h"
#include "listing.h"
#include <stdio.h>
#include <stdlib.h>
#include <string.h>

enum { GUARD = 64, ROOM = 4096, LINE = 8192, BLOCK = 512, BLOCKS = 4, COLUMNS_AT = 16, VALUES = 480, CHECK_AT = 510, BITS = 30, TOTALS = 12, LOW_AT = 76 };

/* A lent buffer between guards, and what it held before the call. */
typedef struct { uint8_t space[GUARD + ROOM + GUARD], before[GUARD + ROOM + GUARD]; size_t len; } buffer;

static unsigned long checked, differ;

static void check(int right, const char *what, uint64_t result) {
    checked++;
    if (right) return;
    differ++;
    printf("%s: differs, number %u place %lu\n", what, station_number(result), (unsigned long)station_place(result));
}

/* A buffer of a length, with given contents as far as there are any and a pattern elsewhere. */
static void lend(buffer *b, const uint8_t *contents, size_t count, size_t len) {
    b->len = len;
    for (size_t i = 0; i < sizeof b->space; i++) b->space[i] = (uint8_t)(0xa5 ^ i);
    if (count) memcpy(b->space + GUARD, contents, count < len ? count : len);
    memcpy(b->before, b->space, sizeof b->space);
}

static uint8_t *bytes(buffer *b) { return b->len ? b->space + GUARD : NULL; }

static int kept(const buffer *b) { return !memcmp(b->space, b->before, sizeof b->space); }

/* The buffer begins with the bytes that are known, and nothing around it changed. */
static int holds(const buffer *b, const uint8_t *expected, size_t known) {
    const size_t after = GUARD + b->len;
    return !memcmp(b->space, b->before, GUARD) && !memcmp(b->space + GUARD, expected, known)
           && !memcmp(b->space + after, b->before + after, sizeof b->space - after);
}

static int is(uint64_t result, unsigned number, uint64_t place) { return station_number(result) == number && station_place(result) == place; }

static buffer in, out, report, symbols;

static void encode(const char *what, const uint8_t *data, size_t data_len, size_t page_len, unsigned number, const uint8_t *page) {
    lend(&in, data, STATION_DATA_LEN, data_len);
    lend(&out, NULL, 0, page_len);
    uint64_t r = station_encode_page(bytes(&in), in.len, bytes(&out), out.len);
    check(is(r, number, 0) && kept(&in) && (page ? holds(&out, page, out.len) : kept(&out)), what, r);
}

static void read_dump(const char *what, const uint8_t *dump, size_t dump_len, size_t soft_len, unsigned number, uint64_t place, const uint8_t *soft) {
    lend(&in, dump, STATION_DUMP_LEN, dump_len);
    lend(&out, NULL, 0, soft_len);
    uint64_t r = station_read_dump(bytes(&in), in.len, bytes(&out), out.len);
    check(is(r, number, place) && kept(&in) && (soft ? holds(&out, soft, out.len) : kept(&out)), what, r);
}

/* What a page is to tell, its marks and its low point if they are known; entry 2i of totals and marks for the changed columns of level i, entry 2i + 1 for the erased ones. */
typedef struct { uint8_t data[STATION_DATA_LEN]; int marked; uint64_t steps, totals[2 * STATION_LEVELS], marks[2 * STATION_LEVELS]; int low; } answer;

/* A number, high byte first. */
static void put(uint8_t *to, int n, uint64_t number) {
    for (int i = 0; i < n; i++) to[i] = (uint8_t)(number >> 8 * (n - 1 - i));
}

static int reported(const buffer *b, const answer *told) {
    uint8_t expected[STATION_REPORT_LEN];
    put(expected, 4, told->steps);
    for (int k = 0; k < 2 * STATION_LEVELS; k++) {
        put(expected + 4 + k, 1, told->totals[k]);
        put(expected + TOTALS + 8 * k, 8, told->marks[k]);
    }
    put(expected + LOW_AT, 2, (uint64_t)told->low);
    return holds(b, expected, told->marked ? STATION_REPORT_LEN : TOTALS);
}

/* Commits symbols: the data, or a refusal. */
static void commit(const char *what, const uint8_t *rows, size_t symbols_len, size_t data_len, unsigned number, uint64_t place, const uint8_t *data) {
    lend(&in, rows, STATION_SYMBOLS_LEN, symbols_len);
    lend(&out, NULL, 0, data_len);
    uint64_t r = station_commit_page(bytes(&in), in.len, bytes(&out), out.len);
    check(is(r, number, place) && kept(&in) && (data ? holds(&out, data, out.len) : kept(&out)), what, r);
}

/* Asks: what an answer fills in is committed, and is to be the data. With the default limit both entries are called, and are to do the same. */
static void ask(const char *what, const uint8_t *soft, size_t soft_len, uint64_t limit, size_t symbols_len, size_t report_len, unsigned number, uint64_t place, const answer *told) {
    for (int named = limit != STATION_DEFAULT_LIMIT; named < 2; named++) {
        lend(&in, soft, STATION_SOFT_LEN, soft_len);
        lend(&symbols, NULL, 0, symbols_len);
        lend(&report, NULL, 0, report_len);
        uint64_t r = named ? station_ask_page_limit(bytes(&in), in.len, limit, bytes(&symbols), symbols.len, bytes(&report), report.len)
                           : station_ask_page(bytes(&in), in.len, bytes(&symbols), symbols.len, bytes(&report), report.len);
        int left = told ? holds(&symbols, bytes(&symbols), symbols.len) && reported(&report, told) : kept(&symbols) && kept(&report);
        check(is(r, number, place) && kept(&in) && left, what, r);
        if (told) commit(what, bytes(&symbols), STATION_SYMBOLS_LEN, STATION_DATA_LEN, STATION_OK, 0, told->data);
    }
}

/* Asks where the data have their length, then decodes. With the default limit both entries are called, and are to do the same. */
static void decode(const char *what, const uint8_t *soft, size_t soft_len, uint64_t limit, size_t data_len, size_t report_len, unsigned number, uint64_t place, const answer *told) {
    if (data_len == STATION_DATA_LEN) ask(what, soft, soft_len, limit, STATION_SYMBOLS_LEN, report_len, number, place, told);
    for (int named = limit != STATION_DEFAULT_LIMIT; named < 2; named++) {
        lend(&in, soft, STATION_SOFT_LEN, soft_len);
        lend(&out, NULL, 0, data_len);
        lend(&report, NULL, 0, report_len);
        uint64_t r = named ? station_decode_page_limit(bytes(&in), in.len, limit, bytes(&out), out.len, bytes(&report), report.len)
                           : station_decode_page(bytes(&in), in.len, bytes(&out), out.len, bytes(&report), report.len);
        int left = told ? holds(&out, told->data, out.len) && reported(&report, told) : kept(&out) && kept(&report);
        check(is(r, number, place) && kept(&in) && left, what, r);
    }
}

/* Decodes with list of two. */
static void decode_list(const char *what, const uint8_t *soft, size_t soft_len, uint64_t limit, int64_t threshold, size_t data_len, size_t report_len, unsigned number, uint64_t place,
                        const answer *told) {
    lend(&in, soft, STATION_SOFT_LEN, soft_len);
    lend(&out, NULL, 0, data_len);
    lend(&report, NULL, 0, report_len);
    uint64_t r = station_decode_page_list(bytes(&in), in.len, limit, threshold, bytes(&out), out.len, bytes(&report), report.len);
    int left = told ? holds(&out, told->data, out.len) && reported(&report, told) : kept(&out) && kept(&report);
    check(is(r, number, place) && kept(&in) && left, what, r);
}

/* A wrong length: 0, one less, one more, far more. */
enum { WRONG = 4 };
static size_t wrong(size_t len, int k) {
    const size_t lengths[WRONG] = {0, len - 1, len + 1, ROOM};
    return lengths[k];
}

/* The input's length is asked before the outputs', and both before the limit, the threshold and the values, which are bad here. */
static void lengths(void) {
    static uint8_t bad[STATION_DUMP_LEN];
    const uint64_t limits[] = {STATION_DEFAULT_LIMIT, 0};
    memset(bad, 8, sizeof bad);
    for (int k = 0; k < WRONG; k++) {
        size_t data = wrong(STATION_DATA_LEN, k), page = wrong(STATION_PAGE_LEN, k), rows = wrong(STATION_SYMBOLS_LEN, k), soft = wrong(STATION_SOFT_LEN, k), dump = wrong(STATION_DUMP_LEN, k), told = wrong(STATION_REPORT_LEN, k);
        encode("encode, data length", bad, data, STATION_PAGE_LEN, STATION_INPUT_LENGTH, NULL);
        encode("encode, page length", bad, STATION_DATA_LEN, page, STATION_OUTPUT_LENGTH, NULL);
        encode("encode, both lengths", bad, data, page, STATION_INPUT_LENGTH, NULL);
        read_dump("read, dump length", bad, dump, STATION_SOFT_LEN, STATION_INPUT_LENGTH, 0, NULL);
        read_dump("read, soft length", bad, STATION_DUMP_LEN, soft, STATION_OUTPUT_LENGTH, 0, NULL);
        read_dump("read, both lengths", bad, dump, soft, STATION_INPUT_LENGTH, 0, NULL);
        for (int l = 0; l < 2; l++) {
            decode("decode, soft length", bad, soft, limits[l], STATION_DATA_LEN, STATION_REPORT_LEN, STATION_INPUT_LENGTH, 0, NULL);
            decode("decode, data length", bad, STATION_SOFT_LEN, limits[l], data, STATION_REPORT_LEN, STATION_OUTPUT_LENGTH, 0, NULL);
            decode("decode, report length", bad, STATION_SOFT_LEN, limits[l], STATION_DATA_LEN, told, STATION_OUTPUT_LENGTH, 0, NULL);
            decode("decode, all lengths", bad, soft, limits[l], data, told, STATION_INPUT_LENGTH, 0, NULL);
            decode_list("list, soft length", bad, soft, limits[l], INT64_MAX, STATION_DATA_LEN, STATION_REPORT_LEN, STATION_INPUT_LENGTH, 0, NULL);
            decode_list("list, data length", bad, STATION_SOFT_LEN, limits[l], INT64_MAX, data, STATION_REPORT_LEN, STATION_OUTPUT_LENGTH, 0, NULL);
            decode_list("list, report length", bad, STATION_SOFT_LEN, limits[l], INT64_MAX, STATION_DATA_LEN, told, STATION_OUTPUT_LENGTH, 0, NULL);
            decode_list("list, all lengths", bad, soft, limits[l], INT64_MAX, data, told, STATION_INPUT_LENGTH, 0, NULL);
            ask("ask, symbols length", bad, STATION_SOFT_LEN, limits[l], rows, STATION_REPORT_LEN, STATION_OUTPUT_LENGTH, 0, NULL);
            ask("ask, all lengths", bad, soft, limits[l], rows, told, STATION_INPUT_LENGTH, 0, NULL);
        }
        commit("commit, symbols length", bad, rows, STATION_DATA_LEN, STATION_INPUT_LENGTH, 0, NULL);
        commit("commit, data length", bad, STATION_SYMBOLS_LEN, data, STATION_OUTPUT_LENGTH, 0, NULL);
        commit("commit, both lengths", bad, rows, data, STATION_INPUT_LENGTH, 0, NULL);
    }
    decode("decode, a report without marks", bad, STATION_SOFT_LEN, STATION_DEFAULT_LIMIT, STATION_DATA_LEN, TOTALS, STATION_OUTPUT_LENGTH, 0, NULL);
    decode("decode, a report without low point", bad, STATION_SOFT_LEN, STATION_DEFAULT_LIMIT, STATION_DATA_LEN, LOW_AT, STATION_OUTPUT_LENGTH, 0, NULL);
}

/* Bad soft values: the first one is the place. */
static void soft_values(void) {
    const size_t at[] = {0, 29, 30, 977, STATION_SOFT_LEN - 1};
    for (size_t i = 0; i < sizeof at / sizeof at[0]; i++) {
        uint8_t soft[STATION_SOFT_LEN] = {0};
        soft[STATION_SOFT_LEN - 1] = 255;
        soft[at[i]] = 8;
        decode("decode, soft value", soft, sizeof soft, STATION_DEFAULT_LIMIT, STATION_DATA_LEN, STATION_REPORT_LEN, STATION_VALUE, at[i], NULL);
        decode_list("list, soft value", soft, sizeof soft, STATION_DEFAULT_LIMIT, 0, STATION_DATA_LEN, STATION_REPORT_LEN, STATION_VALUE, at[i], NULL);
    }
}

/* Symbols of the all-zero page, altered: the first that is above 63 is the place of 5, whatever the rows are; then the lowest row that is no word is that of 14. A row
   of equal symbols is a word at every level, and its data come out; a cleared buffer gives zeros. */
static void rows(void) {
    static const int at[STATION_LEVELS] = {0, 33, 62, 7}, ends[STATION_LEVELS + 1] = {0, 33, 84, 141, 200};
    uint8_t page[STATION_SYMBOLS_LEN] = {0}, zeros[STATION_DATA_LEN] = {0};
    commit("commit, a cleared buffer", page, sizeof page, STATION_DATA_LEN, STATION_OK, 0, zeros);
    for (int i = STATION_LEVELS; i-- > 0;) {
        uint8_t data[STATION_DATA_LEN] = {0}, word[STATION_SYMBOLS_LEN] = {0};
        word[STATION_COLUMNS * i + at[i]] = page[STATION_COLUMNS * i + at[i]] = (uint8_t)(1 + i);
        commit("commit, an altered symbol", word, sizeof word, STATION_DATA_LEN, STATION_ROW, (uint64_t)i, NULL);
        commit("commit, an altered symbol in each row from this on", page, sizeof page, STATION_DATA_LEN, STATION_ROW, (uint64_t)i, NULL);
        page[STATION_SYMBOLS_LEN - 1] = 64;
        commit("commit, a symbol above 63 in row 3", page, sizeof page, STATION_DATA_LEN, STATION_VALUE, STATION_SYMBOLS_LEN - 1, NULL);
        page[STATION_SYMBOLS_LEN - 1] = 0;
        memset(word + STATION_COLUMNS * i, 1, STATION_COLUMNS);
        for (int s = ends[i]; s < ends[i + 1]; s++) data[(6 * s + 5) / 8] |= (uint8_t)(0x80 >> (6 * s + 5) % 8);
        commit("commit, another word", word, sizeof word, STATION_DATA_LEN, STATION_OK, 0, data);
    }
}

/* The page of zeros, read surely: 30 steps a column at each level, so every column is spent below that. A limit outside 1..STATION_LARGEST_LIMIT is asked before the values. */
static void limits(void) {
    static const struct { uint64_t limit; unsigned number; } cases[] = {
        {0, STATION_LIMIT}, {1, STATION_NO_WORD}, {BITS - 1, STATION_NO_WORD}, {BITS, STATION_OK}, {STATION_DEFAULT_LIMIT, STATION_OK}, {500, STATION_OK},
        {STATION_LARGEST_LIMIT, STATION_OK}, {STATION_LARGEST_LIMIT + 1, STATION_LIMIT}, {(uint64_t)1 << 32, STATION_LIMIT}, {((uint64_t)1 << 32) + 1, STATION_LIMIT}, {UINT64_MAX, STATION_LIMIT},
    };
    const answer zeros = {.marked = 1, .steps = STATION_LEVELS * STATION_COLUMNS * BITS, .low = 2};
    for (size_t i = 0; i < sizeof cases / sizeof cases[0]; i++) {
        uint8_t soft[STATION_SOFT_LEN] = {0};
        unsigned number = cases[i].number;
        decode("decode, limit", soft, sizeof soft, cases[i].limit, STATION_DATA_LEN, STATION_REPORT_LEN, number, 0, number == STATION_OK ? &zeros : NULL);
        soft[977] = 8;
        int asked = number == STATION_LIMIT;
        decode("decode, limit and soft value", soft, sizeof soft, cases[i].limit, STATION_DATA_LEN, STATION_REPORT_LEN, asked ? STATION_LIMIT : STATION_VALUE, asked ? 0 : 977, NULL);
    }
}

/* With list of two the page of zeros takes no step, whatever the limit is, and a page with a one in each column is refused by 10 where the limit is small. A threshold outside
   -STATION_LARGEST_THRESHOLD..STATION_LARGEST_THRESHOLD is asked after the limit and before the values. */
static void thresholds(void) {
    static const struct { int64_t threshold; unsigned number; } cases[] = {
        {-STATION_LARGEST_THRESHOLD, STATION_OK}, {-1, STATION_OK}, {0, STATION_OK}, {STATION_LARGEST_THRESHOLD, STATION_OK}, {-STATION_LARGEST_THRESHOLD - 1, STATION_THRESHOLD},
        {STATION_LARGEST_THRESHOLD + 1, STATION_THRESHOLD}, {-65536, STATION_THRESHOLD}, {65536, STATION_THRESHOLD}, {-((int64_t)1 << 32), STATION_THRESHOLD}, {(int64_t)1 << 32, STATION_THRESHOLD},
        {INT64_MIN, STATION_THRESHOLD}, {INT64_MAX, STATION_THRESHOLD},
    };
    static const uint64_t limits[] = {0, 1, BITS, STATION_DEFAULT_LIMIT, STATION_LARGEST_LIMIT, STATION_LARGEST_LIMIT + 1, ((uint64_t)1 << 32) + 1, UINT64_MAX};
    const answer zeros = {.marked = 1, .low = 2};
    for (size_t i = 0; i < sizeof cases / sizeof cases[0]; i++)
        for (size_t l = 0; l < sizeof limits / sizeof limits[0]; l++) {
            uint8_t soft[STATION_SOFT_LEN] = {0};
            uint64_t limit = limits[l];
            int64_t threshold = cases[i].threshold;
            unsigned number = limit < 1 || limit > STATION_LARGEST_LIMIT ? STATION_LIMIT : cases[i].number;
            int taken = number == STATION_OK;
            decode_list("list, threshold", soft, sizeof soft, limit, threshold, STATION_DATA_LEN, STATION_REPORT_LEN, number, 0, taken ? &zeros : NULL);
            for (int j = 0; j < STATION_COLUMNS; j++) soft[j * BITS] = 7;
            if (!taken || limit < BITS) decode_list("list, no words", soft, sizeof soft, limit, threshold, STATION_DATA_LEN, STATION_REPORT_LEN, taken ? STATION_NO_WORD : number, 0, NULL);
            soft[977] = 8;
            decode_list("list, threshold and soft value", soft, sizeof soft, limit, threshold, STATION_DATA_LEN, STATION_REPORT_LEN, taken ? STATION_VALUE : number, taken ? 977 : 0, NULL);
        }
}

/* The check of a block, high byte first: the sum of (k + 1) * byte k. */
static void set_check(uint8_t *block) {
    unsigned sum = 0;
    for (unsigned k = 0; k < CHECK_AT; k++) sum += (k + 1) * block[k];
    block[CHECK_AT] = (uint8_t)(sum >> 8);
    block[CHECK_AT + 1] = (uint8_t)sum;
}

static void write_dump(const uint8_t soft[STATION_SOFT_LEN], uint8_t dump[STATION_DUMP_LEN]) {
    memset(dump, 0, STATION_DUMP_LEN);
    for (size_t i = 0; i < STATION_SOFT_LEN; i++) dump[i / VALUES * BLOCK + COLUMNS_AT + i % VALUES] = soft[i];
    for (int b = 0; b < BLOCKS; b++) {
        uint8_t *block = dump + BLOCK * b;
        block[0] = 0x50;
        block[1] = 0x47;
        block[2] = (uint8_t)b;
        set_check(block);
    }
}

/* Dumps with one or two faults, in the order of the questions: 7 and 8 block by block, then 5. */
static void dumps(void) {
    uint8_t soft[STATION_SOFT_LEN], dump[STATION_DUMP_LEN];
    for (int i = 0; i < STATION_SOFT_LEN; i++) soft[i] = (uint8_t)(i * 5 % 8);
    write_dump(soft, dump);
    read_dump("read", dump, sizeof dump, STATION_SOFT_LEN, STATION_OK, 0, soft);
    for (int b = 0; b < BLOCKS; b++) {
        uint8_t *block = dump + BLOCK * b;
        write_dump(soft, dump);
        block[2] ^= 4;
        set_check(block);
        read_dump("read, block number", dump, sizeof dump, STATION_SOFT_LEN, STATION_FIXED_BYTES, (uint64_t)b, NULL);
        write_dump(soft, dump);
        block[CHECK_AT + 1] ^= 1;
        dump[STATION_DUMP_LEN - BLOCK] ^= b < BLOCKS - 1;
        read_dump("read, check, then a later block's fixed byte", dump, sizeof dump, STATION_SOFT_LEN, STATION_CHECK, (uint64_t)b, NULL);
        write_dump(soft, dump);
        block[COLUMNS_AT + 7] = 8;
        read_dump("read, value without its check", dump, sizeof dump, STATION_SOFT_LEN, STATION_CHECK, (uint64_t)b, NULL);
        set_check(block);
        read_dump("read, value", dump, sizeof dump, STATION_SOFT_LEN, STATION_VALUE, (uint64_t)(VALUES * b + 7), NULL);
        dump[STATION_DUMP_LEN - BLOCK + 3] = 1;
        read_dump("read, value, then a later block's zero byte", dump, sizeof dump, STATION_SOFT_LEN, STATION_FIXED_BYTES, BLOCKS - 1, NULL);
    }
    write_dump(soft, dump);
    dump[STATION_DUMP_LEN - BLOCK + COLUMNS_AT + VALUES - 1] = 1;
    set_check(dump + STATION_DUMP_LEN - BLOCK);
    read_dump("read, the missing 64th column", dump, sizeof dump, STATION_SOFT_LEN, STATION_FIXED_BYTES, BLOCKS - 1, NULL);
}

/* Two hexadecimal digits a byte. */
static void bytes_of(const char *text, uint8_t *to, size_t n) {
    for (size_t i = 0; i < n && text[2 * i] && text[2 * i + 1]; i++) {
        const char digits[3] = {text[2 * i], text[2 * i + 1], 0};
        to[i] = (uint8_t)strtoul(digits, NULL, 16);
    }
}

/* An answered page, with list of two if there is a threshold: its data, its report and the header's readers. Each mark has as many ones as its total, none at bit 63, and no column is both changed
   and erased. */
static void answered(const char *name, const uint8_t *soft, uint64_t limit, const int64_t *threshold, const answer *told) {
    if (threshold) decode_list(name, soft, STATION_SOFT_LEN, limit, *threshold, STATION_DATA_LEN, STATION_REPORT_LEN, STATION_OK, 0, told);
    else decode(name, soft, STATION_SOFT_LEN, limit, STATION_DATA_LEN, STATION_REPORT_LEN, STATION_OK, 0, told);
    const uint8_t *r = bytes(&report);
    int same = station_steps(r) == told->steps && (!told->marked || station_low(r) == told->low);
    for (unsigned i = 0; i < STATION_LEVELS; i++) {
        uint64_t changed = station_changed_mark(r, i), erased = station_erased_mark(r, i), changes = told->totals[2 * i], erasures = told->totals[2 * i + 1];
        same &= station_changed(r, i) == changes && station_erased(r, i) == erasures;
        same &= (uint64_t)__builtin_popcountll(changed) == changes && (uint64_t)__builtin_popcountll(erased) == erasures;
        same &= !(changed & erased) && !((changed | erased) >> STATION_COLUMNS);
        same &= !told->marked || (changed == told->marks[2 * i] && erased == told->marks[2 * i + 1]);
    }
    check(same, "the header's readers of a report", 0);
}

/* Adds a word to a column that is read surely. */
static void add_word(uint8_t *column, uint32_t word) {
    for (int p = 0; p < BITS; p++) if (word >> (BITS - 1 - p) & 1) column[p] = (uint8_t)(7 - column[p]);
}

/* A page whose columns are known. Column 0 reads as nothing. Column 33 is read with the level-1 word of symbol 1 added: changed at level 1, and spent at levels 2 and 3, where that word stays in
   it, with a limit up to 500. Column 62 is read with the level-3 word of symbol 1 added: changed at level 3 alone. */
static void known_columns(uint64_t limit) {
    enum { LEVEL_1_WORD = 5433, LEVEL_3_WORD = 31139703 };
    uint8_t page[STATION_PAGE_LEN], soft[STATION_SOFT_LEN];
    answer told = {.marked = 1, .steps = 2 * (62 * BITS + limit) + 2 * (61 * BITS + 2 * limit), .low = 2};
    for (int i = 0; i < STATION_DATA_LEN; i++) told.data[i] = (uint8_t)(37 * i + 11);
    for (int i = 0; i < STATION_LEVELS; i++) {
        told.totals[2 * i + 1] = i < 2 ? 1 : 2;
        told.marks[2 * i + 1] = (i < 2 ? 0 : (uint64_t)1 << 33) | 1;
    }
    told.totals[2 * 1] = 1;
    told.marks[2 * 1] = (uint64_t)1 << 33;
    told.totals[2 * 3] = 1;
    told.marks[2 * 3] = (uint64_t)1 << 62;
    check(station_encode_page(told.data, STATION_DATA_LEN, page, sizeof page) == STATION_OK, "encode", 0);
    for (int k = 0; k < STATION_SOFT_LEN; k++) soft[k] = page[k / BITS * 4 + k % BITS / 8] >> (7 - k % BITS % 8) & 1 ? 7 : 0;
    memset(soft, 3, BITS);
    add_word(soft + 33 * BITS, LEVEL_1_WORD);
    add_word(soft + 62 * BITS, LEVEL_3_WORD);
    answered("known columns", soft, limit, NULL, &told);
    /* With list of two, and column 0 as it was written: every column but 33 reads as a word at every level, and takes no step. */
    for (int k = 0; k < BITS; k++) soft[k] = page[k / 8] >> (7 - k % 8) & 1 ? 7 : 0;
    for (int i = 0; i < STATION_LEVELS; i++) {
        told.totals[2 * i + 1] = i < 2 ? 0 : 1;
        told.marks[2 * i + 1] = i < 2 ? 0 : (uint64_t)1 << 33;
    }
    told.steps = 2 * limit;
    for (int64_t threshold = -STATION_LARGEST_THRESHOLD; threshold <= STATION_LARGEST_THRESHOLD; threshold += STATION_LARGEST_THRESHOLD) answered("known columns, list", soft, limit, &threshold, &told);
}

/* The page of zeros, read surely but for soft 7 at position 0 of column 0. Its search takes 347 steps at level 0 and 1020, 717 and 1177 at the others: with 500 the column keeps its answer at
   level 0, the zero word, whose first bit has -60; with the default it is spent there too, and the other columns' first bits, 2 each, are the lowest.
   With list of two the other columns take no step. The zero word's sum is -2 at level 0 and positive at the others: with the threshold -2 no second word is sought, and with limit 347 no step
   is left for one. */
static void seven_at_position_0(uint64_t limit) {
    static const uint64_t taken[STATION_LEVELS] = {347, 1020, 717, 1177};
    uint8_t soft[STATION_SOFT_LEN] = {7};
    answer told = {.marked = 1, .steps = STATION_LEVELS * 62 * BITS, .low = limit < taken[0] ? 2 : -60};
    for (int i = 0; i < STATION_LEVELS; i++) {
        int spent = taken[i] > limit;
        told.steps += spent ? limit : taken[i];
        told.totals[2 * i + 1] = told.marks[2 * i + 1] = (uint64_t)spent;
    }
    answered("soft 7 at position 0", soft, limit, NULL, &told);
    const int64_t thresholds[] = {-STATION_LARGEST_THRESHOLD, -2, -1, STATION_LARGEST_THRESHOLD};
    told.steps -= STATION_LEVELS * 62 * BITS;
    for (int k = 0; k < (limit > taken[0] ? 2 : 4); k++) answered("soft 7 at position 0, list", soft, limit, &thresholds[k], &told);
}

/* The rest of an expect line after `ok`. In reports.txt the steps are followed by the low point, and each total by its mark. */
static void expected(const char *name, char *at, int marked, const uint8_t *soft, uint64_t limit, const int64_t *threshold, const uint8_t *data) {
    answer told = {.marked = marked, .steps = strtoul(at, &at, 10)};
    if (marked && !strncmp(at, " low ", 5)) told.low = (int)strtol(at + 5, &at, 10);
    for (int k = 0; k < 2 * STATION_LEVELS; k++) {
        told.totals[k] = strtoul(at, &at, 10);
        if (marked) told.marks[k] = strtoull(at, &at, 16);
    }
    if (!strcmp(at, " same")) memcpy(told.data, data, STATION_DATA_LEN);
    else if (strlen(at) == 1 + 2 * STATION_DATA_LEN) bytes_of(at + 1, told.data, STATION_DATA_LEN);
    else check(0, "an expect line", 0);
    answered(name, soft, limit, threshold, &told);
}

/* pages.txt or reports.txt, whose forms are in tests/vectors/README.md: the lines of the supercode decoder, in reports.txt also those with list of two. Gives how many pages are refused after level 0,
   when their first rows are already decoded. */
static unsigned long pages(const char *folder, const char *text, int marked) {
    static char path[LINE], line[LINE], name[LINE];
    static uint8_t data[STATION_DATA_LEN], page[STATION_PAGE_LEN], soft[STATION_SOFT_LEN];
    const char *mode = "expect super ", *list = "expect super2 ";
    unsigned number;
    unsigned long place, late = 0, lines[2] = {0, 0};
    snprintf(path, sizeof path, "%s/%s", folder, text);
    FILE *file = fopen(path, "r");
    while (file && fgets(line, sizeof line, file)) {
        line[strcspn(line, "\n")] = 0;
        if (!strncmp(line, "page ", 5)) strcpy(name, line + 5);
        if (!strncmp(line, "data ", 5)) bytes_of(line + 5, data, sizeof data);
        if (!strncmp(line, "written ", 8)) {
            bytes_of(line + 8, page, sizeof page);
            encode(name, data, sizeof data, sizeof page, STATION_OK, page);
        }
        if (!strncmp(line, "soft ", 5)) for (int i = 0; i < STATION_SOFT_LEN && line[5 + i]; i++) soft[i] = (uint8_t)(line[5 + i] - '0');
        const int listed = marked && !strncmp(line, list, strlen(list));
        if (!listed && strncmp(line, mode, strlen(mode))) continue;
        char *rest = line + strlen(listed ? list : mode);
        uint64_t limit = strtoull(rest, &rest, 10);
        int64_t threshold = listed ? strtoll(rest, &rest, 10) : 0;
        const char *before = marked && !listed ? " - " : " ";
        lines[listed]++;
        if (!strncmp(rest, before, strlen(before))) rest += strlen(before);
        if (!strncmp(rest, "ok ", 3)) expected(name, rest + 3, marked, soft, limit, listed ? &threshold : NULL, data);
        else if (sscanf(rest, "refused %u %lu", &number, &place) == 2) {
            if (listed) decode_list(name, soft, sizeof soft, limit, threshold, STATION_DATA_LEN, STATION_REPORT_LEN, number, place, NULL);
            else decode(name, soft, sizeof soft, limit, STATION_DATA_LEN, STATION_REPORT_LEN, number, place, NULL);
            late += number == STATION_NO_WORD && place > 0;
        } else check(0, "an expect line", 0);
    }
    if (file) fclose(file);
    check(lines[0] > 0 && (!marked || lines[1] > 0), path, 0);
    return late;
}

/* A dump, read and decoded: with 500, as the dump service names it, into what readpage printed before its default became 200, and by the call that names none into what it prints now. */
static void listed(const char *folder, const char *name) {
    static uint8_t dump[ROOM + 1], soft[STATION_SOFT_LEN], data[STATION_DATA_LEN], told[STATION_REPORT_LEN];
    char text[LISTING];
    uint64_t read = station_read_dump(dump, dump_bytes(folder, name, dump, sizeof dump), soft, sizeof soft);
    for (int k = 0; k < LISTINGS; k++) {
        uint64_t limit = listings[k].limit, r = read;
        if (!read && limit == STATION_DEFAULT_LIMIT) r = station_decode_page(soft, sizeof soft, data, sizeof data, told, sizeof told);
        if (!read && limit != STATION_DEFAULT_LIMIT) r = station_decode_page_limit(soft, sizeof soft, limit, data, sizeof data, told, sizeof told);
        paged p = {.number = station_number(r), .place = station_place(r), .steps = station_steps(told)};
        for (unsigned i = 0; i < STATION_LEVELS; i++) {
            p.changed[i] = (uint8_t)station_changed(told, i);
            p.erased[i] = (uint8_t)station_erased(told, i);
            p.changed_marks[i] = station_changed_mark(told, i);
            p.erased_marks[i] = station_erased_mark(told, i);
        }
        listing(&p, data, text);
        check(is_listed(folder, name, listings[k].suffix, text), name, r);
    }
}

int main(int argc, char **argv) {
    const char *folder = argc > 1 ? argv[1] : "tests/vectors";
    lengths();
    soft_values();
    rows();
    limits();
    thresholds();
    dumps();
    known_columns(STATION_DEFAULT_LIMIT);
    known_columns(500);
    seven_at_position_0(STATION_DEFAULT_LIMIT);
    seven_at_position_0(346);
    seven_at_position_0(347);
    seven_at_position_0(500);
    seven_at_position_0(STATION_LARGEST_LIMIT);
    check(pages(folder, "pages.txt", 0) > 0, "a page refused after level 0", 0);
    pages(folder, "reports.txt", 1);
    check(each_dump(folder, listed) > 0, "stored dumps", 0);
    printf("%lu checked, %lu differ\n", checked, differ);
    return differ != 0;
}
