/* Checks the long page through its test entries: every line of the vector files in the folders named, whose formats are those of tests/vectors/README.md, then what needs no file. A line a file or a part, then
   `N checked, M differ`; a folder without lines, or with a file of another name, differs. */
#include "long_entries.h"
#include "records.h"
#include <dirent.h>

enum { BITS = 42, LEVELS = 4, ELEMENTS = 512, ROW = 482, SOFT = ROW * BITS, DATA = 2061, COLUMN_BYTES = 6, WRITTEN = ROW * COLUMN_BYTES };

static const size_t roots[LEVELS] = {68, 16, 8, 4};

/* Three hexadecimal digits a symbol. */
static size_t symbols_of(const char *text, uint16_t *out, size_t room) {
    size_t n = 0;
    for (int value; n < room && (value = hex_of(text, 3)) >= 0; text += 3) out[n++] = (uint16_t)value;
    return n;
}

/* code.txt: a column is also the sum of its level words. */
static verdict code_line(const record *r) {
    if (!strcmp(r->field[0], "encode") && r->count == 6) {
        uint16_t s[LEVELS];
        uint64_t sum = 0;
        for (uint64_t i = 0; i < LEVELS; i++) {
            s[i] = (uint16_t)decimal(r->field[1 + i]);
            const told word = long_level_word(i, s[i]);
            if (word.number) return DIFFERS;
            sum ^= word.value;
        }
        return sum == decimal(r->field[5]) ? is(long_encode_column(s, LEVELS), 0, 0, sum) : DIFFERS;
    }
    if (!strcmp(r->field[0], "reimage") && r->count == 4) return is(long_reimage(decimal(r->field[1]), decimal(r->field[2])), 0, 0, decimal(r->field[3]));
    return DIFFERS;
}

static found searched(const char *mode, uint64_t level, const uint8_t *soft, size_t n, uint64_t limit) {
    return mode[0] == 'w' ? long_search_whole(level, soft, n, limit) : long_search_supercode(level, soft, n, limit);
}

/* columns.txt */
static verdict column_line(const record *r) { return search_line(r, 7, BITS, searched); }

/* What a row call wrote is the word of the line, or nothing; and nothing after the row. */
static verdict wrote(filled f, const uint16_t out[ROW + 1], const char *expected) {
    uint16_t word[ROW];
    if (!strcmp(expected, "10")) return f.number == 10 && f.place == 0 && untouched(out, (ROW + 1) * sizeof *out) ? SAME : DIFFERS;
    return f.number == 0 && f.place == 0 && symbols_of(expected, word, ROW) == ROW && !memcmp(out, word, sizeof word) && untouched(out + ROW, sizeof *out) ? SAME : DIFFERS;
}

/* outer.txt */
static verdict outer_line(const record *r) {
    uint16_t in[ROW + 1], out[ROW + 1];
    uint8_t marks[ROW + 1];
    memset(out, UNTOUCHED, sizeof out);
    const size_t n = r->count > 2 ? symbols_of(r->field[2], in, ROW + 1) : 0;
    if (!strcmp(r->field[0], "encode") && r->count == 4) return wrote(long_encode_row(decimal(r->field[1]), in, n, out, ROW), out, r->field[3]);
    if (!strcmp(r->field[0], "decode") && r->count == 5)
        return wrote(long_decode_row(decimal(r->field[1]), in, n, marks, digits_of(r->field[3], marks, sizeof marks), out, ROW), out, r->field[4]);
    return DIFFERS;
}

static const char *const modes[] = {"super", "whole"};

static long_paged decoded(const char *mode, const uint8_t *soft, size_t n, uint64_t limit, uint8_t *data, size_t room) {
    return mode[0] == 'w' ? long_decode_page_whole(soft, n, limit, data, room) : long_decode_page(soft, n, limit, data, room);
}

static int same_report(long_paged a, long_paged b) {
    return a.number == b.number && a.place == b.place && a.steps == b.steps && a.low == b.low && !memcmp(a.changed, b.changed, sizeof a.changed) && !memcmp(a.erased, b.erased, sizeof a.erased);
}

/* The column that a written page has at j: 42 bits from the top, then six zeros. */
static uint64_t written_column(const uint8_t *page, int j) {
    uint64_t column = 0;
    for (int k = 0; k < COLUMN_BYTES; k++) column = column << 8 | page[COLUMN_BYTES * j + k];
    return column;
}

/* A page by single calls: at each level the searches of its columns, re-imaging, the row, and the level's words taken off. Leaves the report, and of an answered page what is written for its rows; 0: a single
   call answers otherwise than it may. */
static int by_single_calls(const char *mode, const uint8_t *soft, uint64_t limit, long_paged *report, uint8_t page[WRITTEN]) {
    static uint8_t column[ROW][BITS];
    uint64_t word[ROW] = {0};
    *report = (long_paged){.low = INT16_MAX};
    memcpy(column, soft, SOFT);
    for (uint64_t i = 0; i < LEVELS; i++) {
        uint16_t read[ROW] = {0}, row[ROW];
        uint8_t marks[ROW];
        for (int j = 0; j < ROW; j++) {
            const found f = searched(mode, i, column[j], BITS, limit);
            marks[j] = f.number == 9;
            report->steps += f.number ? limit : f.count;
            report->erased[i] = (uint16_t)(report->erased[i] + marks[j]);
            if (marks[j]) continue;
            const told symbol = long_reimage(i, f.word);
            if (f.number || symbol.number || f.low != walk_of(BITS, column[j], i, f.word).low) return 0;
            read[j] = (uint16_t)symbol.value;
            if (f.low < report->low) report->low = f.low;
        }
        const filled decoding = long_decode_row(i, read, ROW, marks, ROW, row, ROW);
        if (decoding.number) {
            *report = (long_paged){.number = 10, .place = i};
            return decoding.number == 10 && !decoding.place;
        }
        for (int j = 0; j < ROW; j++) {
            const told taken = long_level_word(i, row[j]);
            if (taken.number) return 0;
            report->changed[i] = (uint16_t)(report->changed[i] + (!marks[j] && row[j] != read[j]));
            for (int k = 0; k < BITS; k++) if (taken.value >> (BITS - 1 - k) & 1) column[j][k] = (uint8_t)(7 - column[j][k]);
            word[j] ^= taken.value;
        }
    }
    for (int j = 0; j < ROW; j++)
        for (int k = 0; k < COLUMN_BYTES; k++) page[COLUMN_BYTES * j + k] = (uint8_t)(word[j] << 6 >> (40 - 8 * k));
    return 1;
}

/* pages.txt: a record is its lines page, data, written, soft, then expect lines. What the expect lines need is kept from the lines before. */
static uint8_t page_data[DATA], page_soft[SOFT];

/* Pages and limits where both decoders ran, those where they differ, all of them outside demand 3's premise, and those where a decoder answered. */
static unsigned long pages_compared, pages_apart, pages_answered;

/* At several limits: each decoder tells what single calls tell, and its data are those of the same rows; demand 3: an answered page with no column erased at levels 1 to 3 by the supercode decoder meets the
   premise, and there both decoders agree. */
static verdict both_decoders(const uint8_t *soft) {
    static const uint64_t limits[] = {41, 42, 60, 200, 500, 2000};
    static uint8_t data[2][DATA], rows[WRITTEN], page[WRITTEN];
    for (size_t l = 0; l < sizeof limits / sizeof limits[0]; l++) {
        long_paged p[2], single;
        memset(data, UNTOUCHED, sizeof data);
        for (int k = 0; k < 2; k++) {
            p[k] = decoded(modes[k], soft, SOFT, limits[l], data[k], DATA);
            if (!by_single_calls(modes[k], soft, limits[l], &single, rows) || !same_report(p[k], single)) return DIFFERS;
            if (p[k].number ? !untouched(data[k], DATA) : long_encode_page(data[k], DATA, page, WRITTEN).number || memcmp(page, rows, WRITTEN)) return DIFFERS;
            pages_answered += !p[k].number;
        }
        const uint64_t steps = p[1].steps;
        p[1].steps = p[0].steps;
        const int same = same_report(p[0], p[1]) && !memcmp(data[0], data[1], DATA), premise = !p[0].number && !p[0].erased[1] && !p[0].erased[2] && !p[0].erased[3];
        if (premise && !(same && steps <= p[0].steps)) return DIFFERS;
        pages_compared++;
        pages_apart += !same;
    }
    return SAME;
}

static int level_totals(long_paged p, char *const *field) {
    for (int i = 0; i < LEVELS; i++, field += 2) if (p.changed[i] != decimal(field[0]) || p.erased[i] != decimal(field[1])) return 0;
    return 1;
}

/* The data of an expect line: `same` for those of the record, else in hexadecimal. */
static int data_of_line(const uint8_t *out, const char *text) {
    uint8_t expected[DATA];
    if (!strcmp(text, "same")) return !memcmp(out, page_data, DATA);
    return bytes_of(text, expected, DATA) == DATA && !memcmp(out, expected, DATA);
}

static verdict page_line(const record *r) {
    uint8_t out[WRITTEN + 1], expected[WRITTEN];
    memset(out, UNTOUCHED, sizeof out);
    if (!strcmp(r->field[0], "page")) return r->count == 2 ? SAME : DIFFERS;
    if (!strcmp(r->field[0], "data") && r->count == 2) return bytes_of(r->field[1], page_data, DATA) == DATA ? SAME : DIFFERS;
    if (!strcmp(r->field[0], "written") && r->count == 2) {
        const filled f = long_encode_page(page_data, DATA, out, WRITTEN);
        return !f.number && !f.place && bytes_of(r->field[1], expected, WRITTEN) == WRITTEN && !memcmp(out, expected, WRITTEN) && untouched(out + WRITTEN, 1) ? SAME : DIFFERS;
    }
    if (!strcmp(r->field[0], "soft") && r->count == 2) return digits_of(r->field[1], page_soft, SOFT) == SOFT && strlen(r->field[1]) == SOFT ? both_decoders(page_soft) : DIFFERS;
    if (strcmp(r->field[0], "expect") || r->count < 6) return DIFFERS;
    const long_paged p = decoded(r->field[1], page_soft, SOFT, decimal(r->field[2]), out, DATA);
    if (!strcmp(r->field[3], "refused") && r->count == 6) {
        const long_paged refusal = {.number = decimal(r->field[4]), .place = decimal(r->field[5])};
        return same_report(p, refusal) && untouched(out, sizeof out) ? SAME : DIFFERS;
    }
    if (strcmp(r->field[3], "ok") || strcmp(r->field[5], "low") || r->count != 16) return DIFFERS;
    return !p.number && !p.place && p.steps == decimal(r->field[4]) && p.low == atoi(r->field[6]) && level_totals(p, r->field + 7) && data_of_line(out, r->field[15]) && untouched(out + DATA, sizeof out - DATA)
               ? SAME
               : DIFFERS;
}

static const struct { const char *name; verdict (*line_of)(const record *); } texts[] = {{"code.txt", code_line}, {"columns.txt", column_line}, {"outer.txt", outer_line}, {"pages.txt", page_line}};
enum { TEXTS = sizeof texts / sizeof texts[0] };

/* Whether a file of the folder is one of the texts, or hidden. */
static int is_known(const char *name) {
    int known = name[0] == '.';
    for (int k = 0; k < TEXTS; k++) known |= !strcmp(name, texts[k].name);
    return known;
}

/* The files of a folder, which need not have every one. */
static tally check_folder(const char *folder) {
    tally all = {0, 0, 0};
    for (int k = 0; k < TEXTS; k++) {
        char path[4096];
        snprintf(path, sizeof path, "%s/%s", folder, texts[k].name);
        FILE *file = fopen(path, "r");
        if (!file) continue;
        const tally t = check_lines(file, path, texts[k].line_of);
        fclose(file);
        printf("%s: %lu checked, %lu differ\n", path, t.checked, t.differ);
        all.checked += t.checked;
        all.differ += t.differ;
    }
    DIR *dir = opendir(folder);
    for (struct dirent *entry; dir && (entry = readdir(dir));) {
        if (is_known(entry->d_name)) continue;
        all.differ++;
        printf("%s/%s: not known\n", folder, entry->d_name);
    }
    if (dir) closedir(dir);
    return all;
}

/* --- what needs no file --- */

static unsigned long checked, differ;

static void check(int right, const char *what) {
    checked++;
    if (right) return;
    differ++;
    printf("%s: differs\n", what);
}

/* The generator of a level, as the product of its factors: f1; f3 and x^3 + x^2 + 1; f5 and x^3 + x + 1; f7, x^2 + x + 1 and x + 1. */
static uint64_t generator(uint64_t level) {
    static const struct { uint64_t level, factor; } factors[] = {{0, 0x43}, {1, 0x57}, {1, 0xd}, {2, 0x67}, {2, 0xb}, {3, 0x49}, {3, 7}, {3, 3}};
    uint64_t g = 1;
    for (size_t n = 0; n < sizeof factors / sizeof factors[0]; n++) {
        uint64_t product = 0;
        for (int k = 0; k < 7; k++) if (factors[n].factor >> k & 1) product ^= g << k;
        if (factors[n].level <= level) g = product;
    }
    return g;
}

static int divides(uint64_t g, uint64_t word) {
    int top = 63;
    while (!(g >> top)) top--;
    for (int k = 63; k >= top; k--) if (word >> k & 1) word ^= g << (k - top);
    return !word;
}

/* Each level's words: 9·(3 − i) zeros, the symbol, and a multiple of the generator; re-imaging gives the symbol back, also with words of the higher levels added, and refuses every other column near it. */
static void check_words(void) {
    uint64_t state = 20261118;
    for (uint64_t i = 0; i < LEVELS; i++)
        for (uint64_t s = 0; s < ELEMENTS; s++) {
            const told word = long_level_word(i, s);
            uint64_t sum = word.value;
            check(!word.number && !word.place && word.value >> (9 * i + 6) == s && divides(generator(i), word.value), "a level word");
            for (uint64_t h = i + 1; h < LEVELS; h++) sum ^= long_level_word(h, 2u * drawn(&state) + drawn(&state) % 2).value;
            check(is(long_reimage(i, word.value), 0, 0, s) == SAME && is(long_reimage(i, sum), 0, 0, s) == SAME, "the symbol of a word");
            const uint64_t other = sum ^ (uint64_t)1 << drawn(&state) % BITS;
            check(is(long_reimage(i, other), 6, 0, 0) == SAME, "a column that is no word");
            for (uint64_t h = i + 1; s && h < LEVELS; h++) check(is(long_reimage(h, word.value), 6, 0, 0) == SAME, "a word of a lower level");
        }
}

/* Arguments of calls: those allowed, those next to them, and those that are like an allowed one in their low bits. */
static const uint64_t levels[] = {0, 1, 2, 3, 4, 5, 256, (uint64_t)1 << 32, UINT64_MAX};
static const uint64_t limits[] = {0, 1, 41, 42, 2000, 2001, 65536 + 200, ((uint64_t)1 << 32) + 200, UINT64_MAX};
enum { LEVEL_CASES = sizeof levels / sizeof levels[0], LIMIT_CASES = sizeof limits / sizeof limits[0] };

static int limit_allowed(uint64_t limit) { return limit >= 1 && limit <= 2000; }

/* Two values put into an input of zeros; the first that is out of range is at `bad`, NONE where there is none. */
enum { NONE = -1, EDITS = 4 };
typedef struct { int at[2], value[2], bad; } edit;

/* The questions of column coding, level words and re-imaging, in their order. */
static void check_column_questions(void) {
    static const size_t counts[] = {4, 0, 3, 5};
    static const edit edits[] = {{{0, 3}, {256, 511}, NONE}, {{0, 0}, {512, 512}, 0}, {{3, 2}, {512, 256}, 3}, {{2, 1}, {512, 65535}, 1}};
    static const struct { uint64_t symbol; int allowed; } symbols[] = {{0, 1}, {256, 1}, {511, 1}, {512, 0}, {65536, 0}, {(uint64_t)1 << 32, 0}, {UINT64_MAX, 0}};
    static const struct { uint64_t column; int allowed, word; } columns[] = {
        {0, 1, 1}, {1, 1, 0}, {((uint64_t)1 << 42) - 1, 1, 0}, {(uint64_t)1 << 42, 0, 0}, {(uint64_t)1 << 63, 0, 0}, {UINT64_MAX, 0, 0},
    };
    for (size_t n = 0; n < sizeof counts / sizeof counts[0]; n++)
        for (int e = 0; e < EDITS; e++) {
            uint16_t s[5] = {0};
            for (int k = 0; k < 2; k++) s[edits[e].at[k]] = (uint16_t)edits[e].value[k];
            const told t = long_encode_column(s, counts[n]);
            const uint64_t number = counts[n] != 4 ? 1 : edits[e].bad != NONE ? 5 : 0;
            check(t.number == number && t.place == (number == 5 ? (uint64_t)edits[e].bad : 0) && (!number || !t.value), "a question of column coding");
        }
    for (int l = 0; l < LEVEL_CASES; l++) {
        for (size_t k = 0; k < sizeof symbols / sizeof symbols[0]; k++) {
            const told t = long_level_word(levels[l], symbols[k].symbol);
            check(t.number == (levels[l] > 3 ? 3 : symbols[k].allowed ? 0 : 5) && !t.place && (!t.number || !t.value), "a question of level words");
        }
        for (size_t k = 0; k < sizeof columns / sizeof columns[0]; k++) {
            const told t = long_reimage(levels[l], columns[k].column);
            check(t.number == (levels[l] > 3 ? 3 : !columns[k].allowed ? 5 : columns[k].word ? 0 : 6) && !t.place && !t.value, "a question of re-imaging");
        }
    }
}

/* The questions of both searches, in their order, on the column of zeros, whose word takes 42 steps. */
static void check_search_questions(void) {
    static const size_t counts[] = {BITS, 0, 1, 30, BITS - 1, BITS + 1, 2 * BITS};
    static const edit edits[EDITS] = {{{0, 0}, {0, 0}, NONE}, {{0, 41}, {8, 8}, 0}, {{41, 41}, {8, 8}, 41}, {{30, 17}, {8, 255}, 17}};
    for (size_t n = 0; n < sizeof counts / sizeof counts[0]; n++)
        for (int l = 0; l < LEVEL_CASES; l++)
            for (int m = 0; m < LIMIT_CASES; m++)
                for (int e = 0; e < EDITS; e++)
                    for (int k = 0; k < 2; k++) {
                        uint8_t soft[2 * BITS] = {0};
                        for (int v = 0; v < 2; v++) soft[edits[e].at[v]] = (uint8_t)edits[e].value[v];
                        const uint64_t number = counts[n] != BITS ? 1 : levels[l] > 3 ? 3 : !limit_allowed(limits[m]) ? 4 : edits[e].bad != NONE ? 5 : limits[m] < BITS ? 9 : 0;
                        const found zero = {.count = BITS, .low = (int16_t)(2 + 2 * levels[l])}, refusal = {.number = number, .place = number == 5 ? (uint64_t)edits[e].bad : 0};
                        check(same_found(searched(modes[k], levels[l], soft, counts[n], limits[m]), number ? refusal : zero), "a question of a search");
                    }
}

/* A row call that tells this number and place: a refusal leaves the buffer as it was; else it holds the row of zeros, and nothing after it is written. */
static int row_told(filled f, uint64_t number, uint64_t place, const uint16_t *out, size_t room) {
    static const uint16_t zeros[ROW];
    if (f.number != number || f.place != place) return 0;
    return number ? untouched(out, room * sizeof *out) : !memcmp(out, zeros, sizeof zeros) && untouched(out + ROW, (room - ROW) * sizeof *out);
}

static const edit row_edits[EDITS] = {{{0, 0}, {0, 0}, NONE}, {{0, 5}, {512, 65535}, 0}, {{413, 413}, {512, 512}, 413}, {{300, 17}, {513, 65535}, 17}};
static const edit mark_edits[EDITS] = {{{0, 0}, {1, 1}, NONE}, {{0, 5}, {2, 255}, 0}, {{481, 481}, {2, 2}, 481}, {{300, 17}, {128, 255}, 17}};

/* The questions of row coding and row decoding, in their order. For a level above 3 no length of data is stated. */
static void check_row_questions(void) {
    static const size_t counts[] = {414, 466, 474, 478, 0, 33, 413, 415, ROW}, lengths[] = {ROW, 0, 63, ROW - 1, ROW + 1};
    enum { COUNTS = sizeof counts / sizeof counts[0], LENGTHS = sizeof lengths / sizeof lengths[0], ROOM = ROW + 2 };
    for (int l = 0; l < LEVEL_CASES; l++)
        for (int r = 0; r < LENGTHS; r++)
            for (int e = 0; e < EDITS; e++) {
                uint16_t in[ROOM] = {0}, out[ROOM];
                for (int v = 0; v < 2; v++) in[row_edits[e].at[v]] = (uint16_t)row_edits[e].value[v];
                for (int n = 0; n < COUNTS; n++) {
                    const uint64_t number = levels[l] < LEVELS && counts[n] != ROW - roots[levels[l]] ? 1 : lengths[r] != ROW ? 2 : levels[l] > 3 ? 3 : row_edits[e].bad != NONE ? 5 : 0;
                    memset(out, UNTOUCHED, sizeof out);
                    check(row_told(long_encode_row(levels[l], in, counts[n], out, lengths[r]), number, number == 5 ? (uint64_t)row_edits[e].bad : 0, out, ROOM), "a question of row coding");
                }
                for (int n = 0; n < LENGTHS * LENGTHS; n++)
                    for (int m = 0; m < EDITS; m++) {
                        uint8_t marks[ROOM] = {0};
                        for (int v = 0; v < 2; v++) marks[mark_edits[m].at[v]] = (uint8_t)mark_edits[m].value[v];
                        const size_t symbols = lengths[n / LENGTHS], marked = lengths[n % LENGTHS];
                        const uint64_t number = symbols != ROW || marked != ROW ? 1 : lengths[r] != ROW ? 2 : levels[l] > 3 ? 3 : row_edits[e].bad != NONE || mark_edits[m].bad != NONE ? 5 : 0;
                        const int place = number != 5 ? 0 : row_edits[e].bad != NONE ? row_edits[e].bad : ROW + mark_edits[m].bad;
                        memset(out, UNTOUCHED, sizeof out);
                        check(row_told(long_decode_row(levels[l], in, symbols, marks, marked, out, lengths[r]), number, (uint64_t)place, out, ROOM), "a question of row decoding");
                    }
            }
    /* question 10: on the row of zeros T marks decode, T + 1 do not */
    for (uint64_t i = 0; i < LEVELS; i++)
        for (size_t more = 0; more < 2; more++) {
            uint16_t in[ROW] = {0}, out[ROOM];
            uint8_t marks[ROW] = {0};
            memset(out, UNTOUCHED, sizeof out);
            memset(marks + 17, 1, roots[i] + more);
            check(row_told(long_decode_row(i, in, ROW, marks, ROW, out, ROW), more ? 10 : 0, 0, out, ROOM), "a row's reach");
        }
}

/* The questions of page coding and of both page decoders, in their order, on data and values of zero. With fewer steps than a column's 42 the page is refused by 10 at level 0. */
static void check_page_questions(void) {
    static const size_t datas[] = {DATA, 0, 150, DATA - 1, DATA + 1, WRITTEN}, writtens[] = {WRITTEN, 0, 252, WRITTEN - 1, WRITTEN + 1, DATA}, softs[] = {SOFT, 0, 1890, SOFT - 1, SOFT + 1, SOFT - BITS, SOFT + BITS};
    static const edit edits[EDITS] = {{{0, 0}, {0, 0}, NONE}, {{0, 41}, {8, 8}, 0}, {{SOFT - 1, SOFT - 1}, {8, 8}, SOFT - 1}, {{9001, 9000}, {8, 255}, 9000}};
    static const uint8_t zeros[WRITTEN + 1];
    static uint8_t out[2 * WRITTEN], soft[SOFT + BITS];
    enum { DATAS = sizeof datas / sizeof datas[0], SOFTS = sizeof softs / sizeof softs[0] };
    for (int n = 0; n < DATAS; n++)
        for (int r = 0; r < DATAS; r++) {
            const uint64_t number = datas[n] != DATA ? 1 : writtens[r] != WRITTEN ? 2 : 0;
            memset(out, UNTOUCHED, sizeof out);
            const filled f = long_encode_page(zeros, datas[n], out, writtens[r]);
            check(f.number == number && !f.place && (number ? untouched(out, sizeof out) : !memcmp(out, zeros, WRITTEN) && untouched(out + WRITTEN, sizeof out - WRITTEN)), "a question of page coding");
        }
    for (int e = 0; e < EDITS; e++) {
        memset(soft, 0, sizeof soft);
        for (int v = 0; v < 2; v++) soft[edits[e].at[v]] = (uint8_t)edits[e].value[v];
        for (int n = 0; n < SOFTS; n++)
            for (int r = 0; r < DATAS; r++)
                for (int m = 0; m < LIMIT_CASES; m++)
                    for (int k = 0; k < 2; k++) {
                        const uint64_t number = softs[n] != SOFT ? 1 : datas[r] != DATA ? 2 : !limit_allowed(limits[m]) ? 4 : edits[e].bad != NONE ? 5 : limits[m] < BITS ? 10 : 0;
                        const long_paged zero = {.steps = LEVELS * SOFT, .low = 2}, refusal = {.number = number, .place = number == 5 ? (uint64_t)edits[e].bad : 0};
                        memset(out, UNTOUCHED, sizeof out);
                        const long_paged p = decoded(modes[k], soft, softs[n], limits[m], out, datas[r]);
                        check(same_report(p, number ? refusal : zero) && (number ? untouched(out, sizeof out) : !memcmp(out, zeros, DATA) && untouched(out + DATA, sizeof out - DATA)), "a question of page decoding");
                    }
    }
}

static part looked_up(const uint8_t *page, size_t count, size_t column) {
    part p = {page, 0};
    long_column_of(page, count, column, &p);
    return p;
}

/* The look-up hands back the page's own 42 bytes of a column; for a column above 481 or a page of another length the part is empty. */
static void check_look_ups(void) {
    static const size_t beyond[] = {ROW, ROW + 1, 2 * ROW, 65536, (size_t)1 << 32, (size_t)1 << 63, SIZE_MAX}, others[] = {0, BITS, 1890, SOFT - BITS, SOFT - 1, SOFT + 1, SOFT + BITS};
    static uint8_t page[SOFT + BITS], kept[SOFT + BITS];
    for (int i = 0; i < SOFT + BITS; i++) kept[i] = page[i] = (uint8_t)(i * 5 / 3 % 8);
    for (size_t j = 0; j < ROW; j++) {
        const part p = looked_up(page, SOFT, j);
        check(p.bytes == page + BITS * j && p.count == BITS, "a column looked up");
    }
    for (size_t i = 0; i < sizeof beyond / sizeof beyond[0]; i++) check(!looked_up(page, SOFT, beyond[i]).count, "a column that is not there");
    for (size_t i = 0; i < sizeof others / sizeof others[0]; i++)
        for (size_t j = 0; j <= ROW; j++) check(!looked_up(page, others[i], j).count, "a column of another page");
    check(!memcmp(page, kept, sizeof page), "a page after its look-ups");
}

/* Drawn data come back from their written page read with surest values, by both decoders, and from one whose first columns are read with the least sure values that are right, at limits where some of those are
   spent, as single calls tell it. */
static void check_trips(void) {
    static uint8_t data[DATA], page[WRITTEN], rows[WRITTEN], soft[SOFT], back[DATA];
    const long_paged clean = {.steps = LEVELS * SOFT, .low = 2};
    uint64_t state = 20261118;
    unsigned long with_erased = 0;
    for (int weak = 0; weak < 6; weak++) {
        for (int i = 0; i < DATA; i++) data[i] = drawn(&state);
        check(!long_encode_page(data, DATA, page, WRITTEN).number, "a page's coding");
        for (int j = 0; j < ROW; j++) {
            const uint64_t column = written_column(page, j);
            check(!(column & 63), "the end of a written column");
            for (int k = 0; k < BITS; k++) soft[BITS * j + k] = (uint8_t)((column >> (BITS + 5 - k) & 1 ? 7 : 0) ^ (j < weak ? 3 : 0));
        }
        for (int k = 0; k < 2; k++) {
            long_paged single;
            memset(back, UNTOUCHED, DATA);
            const long_paged p = decoded(modes[k], soft, SOFT, 500, back, DATA);
            check(!p.number && !memcmp(back, data, DATA) && (weak || same_report(p, clean)), "a page read back");
            check(by_single_calls(modes[k], soft, 500, &single, rows) && same_report(p, single) && !memcmp(rows, page, WRITTEN), "a page read back by single calls");
            for (int i = 0; i < LEVELS; i++) check(!p.changed[i] && p.erased[i] <= weak, "the totals of right readings");
            with_erased += p.erased[0] + p.erased[1] + p.erased[2] + p.erased[3];
        }
    }
    check(with_erased > 0, "right readings that are spent");
}

static const struct { const char *name; void (*part)(void); } parts[] = {
    {"level words", check_words}, {"questions of columns", check_column_questions}, {"questions of searches", check_search_questions}, {"questions of rows", check_row_questions},
    {"questions of pages", check_page_questions}, {"look-ups", check_look_ups}, {"round trips", check_trips},
};

int main(int argc, char **argv) {
    tally all = {0, 0, 0};
    for (int i = 1; i < argc; i++) {
        const tally t = check_folder(argv[i]);
        all.checked += t.checked;
        all.differ += t.differ + !t.checked;
    }
    if (pages_compared) {
        printf("pages and limits outside the premise where the two decoders differ: %lu of %lu; pages answered: %lu\n", pages_apart, pages_compared, pages_answered);
        all.differ += !pages_apart + !pages_answered;
    }
    for (size_t k = 0; k < sizeof parts / sizeof parts[0]; k++) {
        const unsigned long c = checked, d = differ;
        parts[k].part();
        printf("%s: %lu checked, %lu differ\n", parts[k].name, checked - c, differ - d);
    }
    printf("%lu checked, %lu differ\n", all.checked + checked, all.differ + differ);
    return all.differ || differ || !all.checked;
}
