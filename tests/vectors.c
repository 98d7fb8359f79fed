/* Checks the vector files of a folder through the test entries: a line a file, then `N checked, M differ`.
   The formats are those of tests/vectors/README.md. Lines of calls that the store does not have yet are counted as left, in files of other names too; batch.txt is left to tests/run-batch. */
#include "listing.h"
#include <dirent.h>
#include <limits.h>
#include <stddef.h>
#include <stdio.h>
#include <stdlib.h>
#include <string.h>

enum { LINE = 32768, FIELDS = 2048, BITS = 30, ROW = 63, SOFT = 1890, DUMP = 2048, DATA = 150, WRITTEN = 252, SYMBOLS = 252 };

typedef struct { char *field[FIELDS]; int count; } record;
typedef struct { unsigned long checked, differ, left; } tally;

/* What a line says of the store: as it should be, otherwise, a call that is not there yet, or nothing by itself. */
typedef enum { SAME, DIFFERS, LEFT, PASSED } verdict;

static record split(char *line) {
    record r = {{0}, 0};
    for (char *word = strtok(line, " \n"); word && r.count < FIELDS; word = strtok(NULL, " \n")) r.field[r.count++] = word;
    return r;
}

static uint64_t decimal(const char *text) { return strtoull(text, NULL, 10); }

static uint64_t hexadecimal(const char *text) { return strtoull(text, NULL, 16); }

/* Two hexadecimal digits a byte, `-` for none. */
static size_t bytes_of(const char *text, uint8_t *out, size_t room) {
    size_t n = 0;
    if (!strcmp(text, "-")) return 0;
    for (; text[0] && text[1] && n < room; text += 2) {
        char digits[3] = {text[0], text[1], 0};
        out[n++] = (uint8_t)strtoul(digits, NULL, 16);
    }
    return n;
}

static verdict is(told t, uint64_t number, uint64_t place, uint64_t value) {
    return t.number == number && t.place == place && t.value == value ? SAME : DIFFERS;
}

/* A refusal line ends in number and place. */
static verdict refuses(uint64_t number, uint64_t place, const record *r) {
    return number == decimal(r->field[r->count - 2]) && place == decimal(r->field[r->count - 1]) ? SAME : DIFFERS;
}

/* A byte that no call writes by chance: what a buffer holds before a call. */
enum { UNTOUCHED = 0xa5 };

static int untouched(const uint8_t *out, size_t n) {
    for (size_t i = 0; i < n; i++) if (out[i] != UNTOUCHED) return 0;
    return 1;
}

/* code.txt */
static verdict code_line(const record *r) {
    if (!strcmp(r->field[0], "encode") && r->count == 6) {
        uint8_t s[4];
        for (int i = 0; i < 4; i++) s[i] = (uint8_t)decimal(r->field[1 + i]);
        return is(entry_encode_column(s, 4), 0, 0, decimal(r->field[5]));
    }
    if (!strcmp(r->field[0], "word") && r->count == 4)
        return is(entry_level_word(decimal(r->field[1]), decimal(r->field[2])), 0, 0, decimal(r->field[3]));
    if (!strcmp(r->field[0], "reimage") && r->count == 4)
        return is(entry_reimage(decimal(r->field[1]), decimal(r->field[2])), 0, 0, decimal(r->field[3]));
    if (!strcmp(r->field[0], "reimage") && r->count == 6 && !strcmp(r->field[3], "refused"))
        return is(entry_reimage(decimal(r->field[1]), decimal(r->field[2])), decimal(r->field[4]), decimal(r->field[5]), 0);
    return DIFFERS;
}

/* The low point and the sum of a word on a soft column, straight from their definitions, with the branch values of the level: the lowest sum of a prefix, and that of all bits. */
typedef struct { int low, sum; } walk;

static walk walk_of(const uint8_t *soft, uint64_t level, uint64_t word) {
    static const int agree[] = {2, 1, -1, -5}, disagree[] = {-60, -35, -20, -11};
    walk w = {INT_MAX, 0};
    for (int k = 0; k < BITS; k++) {
        int reads = soft[k] > 3, doubt = reads ? 7 - soft[k] : soft[k];
        w.sum += ((word >> (BITS - 1 - k) & 1) == (uint64_t)reads ? agree : disagree)[doubt] + 2 * (int)level;
        if (w.sum < w.low) w.low = w.sum;
    }
    return w;
}

/* How columns are searched: over the whole code or the supercodes, and with list of two, which has a threshold, or without. */
typedef struct { int whole, list; int64_t threshold; } way;

static way without_list(const char *mode) { return (way){mode[0] == 'w', 0, 0}; }

static way with_list(const char *mode, int64_t threshold) { return (way){mode[0] == 'w', 1, threshold}; }

static found searched(way w, const uint8_t *soft, size_t n, uint64_t level, uint64_t limit) {
    if (w.list) return w.whole ? entry_search_whole_list(level, soft, n, limit, w.threshold) : entry_search_supercode_list(level, soft, n, limit, w.threshold);
    return w.whole ? entry_search_whole(level, soft, n, limit) : entry_search_supercode(level, soft, n, limit);
}

static int same_found(found a, found b) { return a.number == b.number && a.place == b.place && a.word == b.word && a.count == b.count && a.low == b.low; }

/* A word's line has so many fields, the last its count or, of seven, its low point, which is reckoned here as well; a refusal tells nothing more. */
static verdict search_line(const record *r, int fields) {
    uint8_t soft[LINE];
    size_t n = strlen(r->field[0]);
    if (r->count != 5 && r->count != fields) return DIFFERS;
    for (size_t i = 0; i < n; i++) soft[i] = (uint8_t)(r->field[0][i] - '0');
    found f = searched(without_list(r->field[3]), soft, n, decimal(r->field[1]), decimal(r->field[2]));
    if (r->count == 5) return f.number == decimal(r->field[4]) && f.place == 0 && !f.word && !f.count && !f.low ? SAME : DIFFERS;
    if (f.number || n != BITS) return DIFFERS;
    int low = walk_of(soft, decimal(r->field[1]), f.word).low;
    if (fields == 7 && low != atoi(r->field[6])) return DIFFERS;
    return f.word == decimal(r->field[4]) && f.count == decimal(r->field[5]) && f.low == low ? SAME : DIFFERS;
}

/* columns.txt */
static verdict column_line(const record *r) { return search_line(r, 6); }

/* search.txt and lows.txt */
static verdict low_line(const record *r) { return search_line(r, 7); }

static uint64_t hard_reading(const uint8_t *soft) {
    uint64_t word = 0;
    for (int k = 0; k < BITS; k++) word = word << 1 | soft[k] >> 2;
    return word;
}

/* What a column tells for each threshold: its hard reading if that is a word, and without steps; what the search without list tells where that is 9, or its sum is no less than the threshold; and for
   every threshold above the sum the same, after more steps, or with the first word and the limit for a count. */
static int thresholds_agree(const char *mode, const uint8_t *soft, uint64_t level, uint64_t limit) {
    const found f = searched(without_list(mode), soft, BITS, level, limit), most = searched(with_list(mode, 2000), soft, BITS, level, limit);
    if (!entry_reimage(level, hard_reading(soft)).number) {
        const found hard = {.word = hard_reading(soft), .low = (int16_t)walk_of(soft, level, hard_reading(soft)).low};
        return same_found(most, hard) && same_found(searched(with_list(mode, -2000), soft, BITS, level, 1), hard);
    }
    if (f.number) return same_found(most, f) && same_found(searched(with_list(mode, -2000), soft, BITS, level, limit), f);
    const int sum = walk_of(soft, level, f.word).sum, best = walk_of(soft, level, most.word).sum, ended = most.count == limit && most.word == f.word;
    return !most.number && (most.count > f.count || ended) && most.count <= limit && (most.word == f.word || best > sum) && same_found(searched(with_list(mode, -2000), soft, BITS, level, limit), f)
           && same_found(searched(with_list(mode, sum), soft, BITS, level, limit), f) && same_found(searched(with_list(mode, sum + 1), soft, BITS, level, limit), most);
}

/* What a line of list2.txt says of the way to its answer, beside what the search without list tells. */
static int way_told(const char *how, const uint8_t *soft, uint64_t level, uint64_t limit, int64_t threshold, found answer, found first) {
    if (!strcmp(how, "hard")) return answer.count == 0 && answer.word == hard_reading(soft);
    const int sum = walk_of(soft, level, first.word).sum, answers_sum = walk_of(soft, level, answer.word).sum, more = answer.count > first.count && answer.count <= limit;
    if (first.number || !entry_reimage(level, hard_reading(soft)).number) return 0;
    if (!strcmp(how, "first")) return sum >= threshold && same_found(answer, first);
    if (sum >= threshold) return 0;
    if (!strcmp(how, "kept")) return more && answer.word == first.word;
    if (!strcmp(how, "second")) return more && answers_sum > sum;
    return !strcmp(how, "ended") && answer.count == limit && answer.word == first.word;
}

/* What the lines of list2.txt end in, and how many end so. */
static struct { const char *how; unsigned long lines; } endings[] = {{"hard", 0}, {"first", 0}, {"kept", 0}, {"second", 0}, {"ended", 0}, {"9", 0}};
enum { ENDINGS = sizeof endings / sizeof endings[0] };

/* list2.txt */
static verdict list_line(const record *r) {
    uint8_t soft[BITS];
    if ((r->count != 6 && r->count != 9) || strlen(r->field[0]) != BITS) return DIFFERS;
    for (int k = 0; k < ENDINGS; k++) endings[k].lines += !strcmp(r->field[r->count - 1], endings[k].how);
    for (size_t i = 0; i < BITS; i++) soft[i] = (uint8_t)(r->field[0][i] - '0');
    const uint64_t level = decimal(r->field[1]), limit = decimal(r->field[2]);
    const char *mode = r->field[3];
    const int64_t threshold = strtoll(r->field[4], NULL, 10);
    const found answer = searched(with_list(mode, threshold), soft, BITS, level, limit), first = searched(without_list(mode), soft, BITS, level, limit), spent = {.number = 9};
    if (!thresholds_agree(mode, soft, level, limit)) return DIFFERS;
    if (r->count == 6) return decimal(r->field[5]) == 9 && same_found(answer, spent) && same_found(first, spent) ? SAME : DIFFERS;
    const found told = {.word = decimal(r->field[5]), .count = decimal(r->field[6]), .low = (int16_t)atoi(r->field[7])};
    return same_found(answer, told) && told.low == walk_of(soft, level, told.word).low && way_told(r->field[8], soft, level, limit, threshold, answer, first) ? SAME : DIFFERS;
}

/* chip.txt: an answer or a refusal has the paths taken and whether one was pushed out; the low point is reckoned here as well. */
static verdict chip_line(const record *r) {
    uint8_t soft[BITS];
    if (r->count != 9 || strlen(r->field[0]) != BITS) return DIFFERS;
    for (size_t i = 0; i < BITS; i++) soft[i] = (uint8_t)(r->field[0][i] - '0');
    const uint64_t level = decimal(r->field[1]);
    const chip_found f = entry_search_chip(soft, BITS, level, decimal(r->field[2]));
    if (!strcmp(r->field[3], "refused") && !strcmp(r->field[5], "pushed") && !strcmp(r->field[7], "steps"))
        return f.number == decimal(r->field[4]) && !f.place && f.pushed == decimal(r->field[6]) && f.count == decimal(r->field[8]) && !f.word && !f.low ? SAME : DIFFERS;
    if (strcmp(r->field[3], "ok") || strcmp(r->field[7], "pushed") || f.number || f.place) return DIFFERS;
    if (f.low != atoi(r->field[6]) || f.low != walk_of(soft, level, f.word).low) return DIFFERS;
    return f.word == decimal(r->field[4]) && f.count == decimal(r->field[5]) && f.pushed == decimal(r->field[8]) ? SAME : DIFFERS;
}

/* held.txt: the store of the story so far. */
static held_store story_store;

/* What the names hold: `level:summed limit` or `-`. */
static int holds_so(const held_store *s, char *const *fields) {
    for (int k = 0; k < 4; k++) {
        const held_search *h = &s->names[k];
        char text[64] = "-";
        if (h->limit) snprintf(text, sizeof text, "%llu:%llu", (unsigned long long)h->level, (unsigned long long)h->limit);
        if (strcmp(text, fields[k])) return 0;
    }
    return 1;
}

/* `story K`, or a call with its answer, `word,count,low` or `-`, and the names after it; the low point is reckoned here as well, and a held column is that of its call. */
static verdict held_line(const record *r) {
    static held_found h;
    uint8_t soft[LINE] = {0};
    const int holding = !strcmp(r->field[0], "hold"), given = holding ? 5 : 3;
    if (!strcmp(r->field[0], "story") && r->count == 2) {
        story_store = entry_empty_store();
        return PASSED;
    }
    if ((!holding && strcmp(r->field[0], "resume")) || r->count != given + 10 || strcmp(r->field[given], "->") || strcmp(r->field[given + 4], "|") || strcmp(r->field[given + 5], "held")) return DIFFERS;
    const uint64_t name = decimal(r->field[1]), limit = decimal(r->field[given - 1]);
    const held_search *const before = name < 4 ? &story_store.names[name] : NULL;
    uint64_t level = before ? before->level : 0;
    if (holding) {
        const size_t n = bytes_of(r->field[2], soft, sizeof soft);
        level = decimal(r->field[3]);
        h = entry_hold_search(story_store, name, soft, n, level, limit);
    } else {
        if (before) memcpy(soft, before->column, BITS);
        h = entry_take_up(story_store, name, limit);
    }
    const found f = h.found;
    found told = {.number = decimal(r->field[given + 1]), .place = decimal(r->field[given + 2])};
    char *answer = r->field[given + 3];
    if (strcmp(answer, "-")) {
        told.word = strtoull(answer, &answer, 10);
        told.count = *answer == ',' ? strtoull(answer + 1, &answer, 10) : 0;
        told.low = (int16_t)(*answer == ',' ? strtol(answer + 1, &answer, 10) : 0);
        if (*answer || told.number || told.low != walk_of(soft, level, told.word).low) return DIFFERS;
    } else if (!told.number) return DIFFERS;
    const int column_kept = f.number != 9 || name > 3 || !memcmp(h.store.names[name].column, soft, BITS);
    story_store = h.store;
    return same_found(f, told) && holds_so(&story_store, r->field + given + 6) && column_kept ? SAME : DIFFERS;
}

/* listing.txt: lines `LEN:BITS` after the first five fields. An accepted listing has as many lines as the search takes, and its last is the word; without the wrong line and all after it a listing is wrong
   at the same line, or accepted where that line followed the answer. */
static verdict listing_line(const record *r) {
    static uint64_t lengths[FIELDS], bits[FIELDS];
    uint8_t soft[BITS];
    enum { HEAD = 5 };
    if (strcmp(r->field[0], "listing") || r->count <= HEAD || r->count == FIELDS || strlen(r->field[1]) != BITS) return DIFFERS;
    for (size_t i = 0; i < BITS; i++) soft[i] = (uint8_t)(r->field[1][i] - '0');
    const uint64_t level = decimal(r->field[2]), wrong = decimal(r->field[4]);
    const way w = without_list(r->field[3]);
    const size_t n = (size_t)(r->count - HEAD);
    for (size_t k = 0; k < n; k++) {
        char *end;
        lengths[k] = strtoull(r->field[HEAD + k], &end, 10);
        if (*end != ':') return DIFFERS;
        bits[k] = decimal(end + 1);
    }
    const listing_told t = entry_check_listing(soft, BITS, level, !w.whole, lengths, n, bits, n);
    if (t.number || t.place || t.line != wrong) return DIFFERS;
    const size_t right = wrong ? (size_t)wrong - 1 : n;
    const int ends = right && lengths[right - 1] == BITS;
    if (wrong && right) {
        const listing_told cut = entry_check_listing(soft, BITS, level, !w.whole, lengths, right, bits, right);
        if (cut.number || cut.place || cut.line != (ends ? 0 : wrong)) return DIFFERS;
    }
    if (!ends) return wrong ? SAME : DIFFERS;
    const found f = searched(w, soft, BITS, level, 2000);
    return !f.number && f.count == right && f.word == bits[right - 1] ? SAME : DIFFERS;
}

/* What a row call wrote is the word of the line, or nothing. */
static verdict wrote(filled f, const uint8_t *out, const char *expected) {
    uint8_t word[ROW];
    if (!strcmp(expected, "10")) return f.number == 10 && f.place == 0 && untouched(out, ROW) ? SAME : DIFFERS;
    return f.number == 0 && bytes_of(expected, word, ROW) == ROW && !memcmp(out, word, ROW) ? SAME : DIFFERS;
}

/* outer.txt */
static verdict outer_line(const record *r) {
    uint8_t in[LINE], marks[LINE], out[ROW];
    memset(out, UNTOUCHED, ROW);
    size_t n = r->count > 2 ? bytes_of(r->field[2], in, sizeof in) : 0;
    if (!strcmp(r->field[0], "encode") && r->count == 4)
        return wrote(entry_encode_row(decimal(r->field[1]), in, n, out, ROW), out, r->field[3]);
    if (!strcmp(r->field[0], "decode") && r->count == 5) {
        size_t marked = strlen(r->field[3]);
        for (size_t i = 0; i < marked; i++) marks[i] = (uint8_t)(r->field[3][i] - '0');
        return wrote(entry_decode_row(decimal(r->field[1]), in, n, marks, marked, out, ROW), out, r->field[4]);
    }
    return DIFFERS;
}

/* A refused row call changes nothing. */
static verdict row_refuses(filled f, const uint8_t *out, const record *r) {
    return refuses(f.number, f.place, r) == SAME && (f.number == 0 || untouched(out, ROW)) ? SAME : DIFFERS;
}

static paged decoded(way w, const uint8_t *soft, size_t n, uint64_t limit, uint8_t *data, size_t room) {
    if (w.list) return w.whole ? entry_decode_page_whole_list(soft, n, limit, w.threshold, data, room) : entry_decode_page_list(soft, n, limit, w.threshold, data, room);
    return w.whole ? entry_decode_page_whole(soft, n, limit, data, room) : entry_decode_page(soft, n, limit, data, room);
}

static paged asked(way w, const uint8_t *soft, size_t n, uint64_t limit, uint8_t *symbols, size_t room) {
    if (w.list) return w.whole ? entry_ask_page_whole_list(soft, n, limit, w.threshold, symbols, room) : entry_ask_page_list(soft, n, limit, w.threshold, symbols, room);
    return w.whole ? entry_ask_page_whole(soft, n, limit, symbols, room) : entry_ask_page(soft, n, limit, symbols, room);
}

/* pages.txt: a record is its lines page, data, written, soft, then expect lines. What the expect lines need is kept from the lines before. */
static uint8_t page_data[DATA], page_soft[SOFT];

/* Number, place, steps, totals, marks and low point are the same. */
static int same_report(const paged *a, const paged *b) { return !memcmp(a, b, offsetof(paged, low)) && a->low == b->low; }

/* An answered page's marks have as many ones as its totals, none at bit 63, and no column is both changed and erased. A refused page tells only number and place. */
static int report_right(const paged *p) {
    if (p->number) {
        const paged refusal = {.number = p->number, .place = p->place};
        return same_report(p, &refusal);
    }
    for (int i = 0; i < 4; i++) {
        uint64_t changed = p->changed_marks[i], erased = p->erased_marks[i];
        if (changed & erased || (changed | erased) >> ROW || __builtin_popcountll(changed) != p->changed[i] || __builtin_popcountll(erased) != p->erased[i]) return 0;
    }
    return 1;
}

static int level_totals(const paged *p, const record *r) {
    for (int i = 0; i < 4; i++)
        if (p->changed[i] != decimal(r->field[5 + 2 * i]) || p->erased[i] != decimal(r->field[6 + 2 * i])) return 0;
    return 1;
}

/* Pages and limits where both decoders ran, and those where they differ, all of them outside demand 3's premise. */
static unsigned long pages_compared, pages_apart;

/* Demand 3, at several limits: an answered page with no column erased at levels 1 to 3 by the supercode decoder meets the premise, and there both decoders agree. */
static verdict both_decoders(const uint8_t *soft) {
    static const uint64_t limits[] = {30, 40, 60, 100, 200, 500, 2000};
    verdict v = SAME;
    for (size_t i = 0; i < sizeof limits / sizeof limits[0]; i++) {
        uint8_t by_supercode[DATA] = {0}, by_whole[DATA] = {0};
        paged s = entry_decode_page(soft, SOFT, limits[i], by_supercode, DATA), w = entry_decode_page_whole(soft, SOFT, limits[i], by_whole, DATA);
        paged with_its_steps = w;
        with_its_steps.steps = s.steps;
        int same = same_report(&s, &with_its_steps) && !memcmp(by_supercode, by_whole, DATA);
        int premise = s.number == 0 && !s.erased[1] && !s.erased[2] && !s.erased[3];
        if (!report_right(&s) || !report_right(&w) || (premise && !(same && w.steps <= s.steps))) v = DIFFERS;
        pages_compared++;
        pages_apart += !same;
    }
    return v;
}

/* Pages and thresholds with list of two where no supercode search, first or second, was ended by limit 1000, and second words were sought: the page takes more steps than with the threshold -2000. */
static unsigned long seconds_compared;

/* Point 1 of document 02: with list of two both decoders agree where no supercode search at levels 1 to 3 is ended by the limit. None is, where a larger limit gives the same data in as many steps:
   the columns are then the same at every level, and a search that the smaller limit ends takes more steps with the larger one. */
static verdict both_list_decoders(const uint8_t *soft) {
    static const int64_t thresholds[] = {-2000, -60, 0, 60, 2000};
    uint64_t unsought = 0;
    verdict v = SAME;
    for (size_t i = 0; i < sizeof thresholds / sizeof thresholds[0]; i++) {
        uint8_t by_supercode[DATA] = {0}, by_whole[DATA] = {0}, by_more[DATA] = {0};
        const paged s = decoded(with_list("s", thresholds[i]), soft, SOFT, 1000, by_supercode, DATA), more = decoded(with_list("s", thresholds[i]), soft, SOFT, 2000, by_more, DATA);
        paged w = decoded(with_list("w", thresholds[i]), soft, SOFT, 1000, by_whole, DATA);
        if (!report_right(&s) || !report_right(&w) || !report_right(&more)) v = DIFFERS;
        if (thresholds[i] == -2000) unsought = s.steps;
        if (s.number || more.number || s.steps != more.steps || memcmp(by_supercode, by_more, DATA)) continue;
        seconds_compared += s.steps > unsought;
        const uint64_t steps = w.steps;
        w.steps = s.steps;
        if (!same_report(&s, &more) || !same_report(&s, &w) || steps > s.steps || memcmp(by_supercode, by_whole, DATA)) v = DIFFERS;
    }
    return v;
}

/* Row i of symbols, coded anew from its data. */
static int row_is_word(const uint8_t *symbols, uint64_t i) {
    static const size_t data[] = {33, 51, 57, 59};
    uint8_t row[ROW];
    filled f = entry_encode_row(i, symbols + ROW * i, data[i], row, ROW);
    return f.number == 0 && !memcmp(row, symbols + ROW * i, ROW);
}

/* A commit that is refused, and changes nothing. */
static int commit_refuses(const uint8_t *symbols, size_t n, size_t room, uint64_t number, uint64_t place) {
    uint8_t out[2 * DATA];
    memset(out, UNTOUCHED, sizeof out);
    filled f = entry_commit_page(symbols, n, out, room);
    return f.number == number && f.place == place && untouched(out, sizeof out);
}

/* Asking tells what decoding told, p with the data. An answer's symbols are four words, and committing them writes these data; with a symbol altered in a row
   alone, or in this and all higher rows, that row is refused. A refusal changes no symbol. */
static int asks_alike(way w, uint64_t limit, const paged *p, const uint8_t *data) {
    uint8_t symbols[SYMBOLS + 1], out[DATA];
    memset(symbols, UNTOUCHED, sizeof symbols);
    paged a = asked(w, page_soft, SOFT, limit, symbols, SYMBOLS);
    if (!same_report(&a, p) || symbols[SYMBOLS] != UNTOUCHED) return 0;
    if (a.number) return untouched(symbols, sizeof symbols);
    filled f = entry_commit_page(symbols, SYMBOLS, out, DATA);
    if (f.number || f.place || memcmp(out, data, DATA)) return 0;
    uint8_t altered[SYMBOLS];
    memcpy(altered, symbols, SYMBOLS);
    for (uint64_t i = 4; i-- > 0;) {
        uint64_t at = ROW * i + (limit + 17 * i) % ROW;
        if (!row_is_word(symbols, i)) return 0;
        symbols[at] ^= (uint8_t)(1 + limit % 63);
        if (!commit_refuses(symbols, SYMBOLS, DATA, 14, i)) return 0;
        altered[at] = symbols[at];
        symbols[at] ^= (uint8_t)(1 + limit % 63);
        if (!commit_refuses(altered, SYMBOLS, DATA, 14, i)) return 0;
    }
    return 1;
}

/* The data of an expect line: `same` for those of the record, else in hexadecimal. */
static int data_of_line(const uint8_t *out, const char *text) {
    uint8_t expected[WRITTEN];
    if (!strcmp(text, "same")) return !memcmp(out, page_data, DATA);
    return bytes_of(text, expected, WRITTEN) == DATA && !memcmp(out, expected, DATA);
}

static verdict page_line(const record *r) {
    uint8_t out[WRITTEN], expected[WRITTEN];
    memset(out, UNTOUCHED, sizeof out);
    if (!strcmp(r->field[0], "page")) return PASSED;
    if (!strcmp(r->field[0], "data") && r->count == 2) return bytes_of(r->field[1], page_data, DATA) == DATA ? PASSED : DIFFERS;
    if (!strcmp(r->field[0], "written") && r->count == 2) {
        filled f = entry_encode_page(page_data, DATA, out, WRITTEN);
        return f.number == 0 && bytes_of(r->field[1], expected, WRITTEN) == WRITTEN && !memcmp(out, expected, WRITTEN) ? SAME : DIFFERS;
    }
    if (!strcmp(r->field[0], "soft") && r->count == 2 && strlen(r->field[1]) == SOFT) {
        for (size_t i = 0; i < SOFT; i++) page_soft[i] = (uint8_t)(r->field[1][i] - '0');
        return both_decoders(page_soft) == SAME ? both_list_decoders(page_soft) : DIFFERS;
    }
    if (strcmp(r->field[0], "expect") || r->count < 6) return DIFFERS;
    paged p = decoded(without_list(r->field[1]), page_soft, SOFT, decimal(r->field[2]), out, DATA);
    if (!report_right(&p)) return DIFFERS;
    if (!strcmp(r->field[3], "refused") && r->count == 6)
        return p.number == decimal(r->field[4]) && p.place == decimal(r->field[5]) && untouched(out, sizeof out) ? SAME : DIFFERS;
    if (strcmp(r->field[3], "ok") || r->count != 14) return DIFFERS;
    return p.number == 0 && p.steps == decimal(r->field[4]) && level_totals(&p, r) && data_of_line(out, r->field[13]) ? SAME : DIFFERS;
}

static int level_marks(const paged *p, char *const *field) {
    for (int i = 0; i < 4; i++, field += 4)
        if (p->changed[i] != decimal(field[0]) || p->changed_marks[i] != hexadecimal(field[1]) || p->erased[i] != decimal(field[2]) || p->erased_marks[i] != hexadecimal(field[3])) return 0;
    return 1;
}

/* reports.txt: the other lines are as in pages.txt. */
static verdict report_line(const record *r) {
    uint8_t out[WRITTEN];
    if (strcmp(r->field[0], "expect")) return page_line(r);
    if (r->count < 7) return DIFFERS;
    const int list = !strcmp(r->field[1], "whole2") || !strcmp(r->field[1], "super2");
    if (!list && strcmp(r->field[1], "whole") && strcmp(r->field[1], "super")) return LEFT;
    if (list == !strcmp(r->field[3], "-")) return DIFFERS;
    const way w = list ? with_list(r->field[1], strtoll(r->field[3], NULL, 10)) : without_list(r->field[1]);
    memset(out, UNTOUCHED, sizeof out);
    paged p = decoded(w, page_soft, SOFT, decimal(r->field[2]), out, DATA);
    if (!report_right(&p) || !asks_alike(w, decimal(r->field[2]), &p, out)) return DIFFERS;
    if (!strcmp(r->field[4], "refused") && r->count == 7) return refuses(p.number, p.place, r) == SAME && untouched(out, sizeof out) ? SAME : DIFFERS;
    if (strcmp(r->field[4], "ok") || strcmp(r->field[6], "low") || r->count != 25) return DIFFERS;
    return p.number == 0 && p.steps == decimal(r->field[5]) && p.low == atoi(r->field[7]) && level_marks(&p, r->field + 8) && data_of_line(out, r->field[24]) ? SAME : DIFFERS;
}

/* chip-pages.txt: as reports.txt, with the flag, which a refusal tells too. */
static verdict chip_page_line(const record *r) {
    uint8_t out[WRITTEN];
    if (strcmp(r->field[0], "expect")) return page_line(r);
    if (r->count < 9 || strcmp(r->field[1], "chip") || strcmp(r->field[3], "-")) return DIFFERS;
    memset(out, UNTOUCHED, sizeof out);
    const chip_paged c = entry_decode_page_chip(page_soft, SOFT, decimal(r->field[2]), out, DATA);
    const paged p = c.page;
    if (!report_right(&p)) return DIFFERS;
    if (!strcmp(r->field[4], "refused") && !strcmp(r->field[7], "pushed") && r->count == 9)
        return p.number == decimal(r->field[5]) && p.place == decimal(r->field[6]) && c.pushed == decimal(r->field[8]) && untouched(out, sizeof out) ? SAME : DIFFERS;
    if (strcmp(r->field[4], "ok") || strcmp(r->field[6], "low") || strcmp(r->field[8], "pushed") || r->count != 27) return DIFFERS;
    return p.number == 0 && p.steps == decimal(r->field[5]) && p.low == atoi(r->field[7]) && c.pushed == decimal(r->field[9]) && level_marks(&p, r->field + 10) && data_of_line(out, r->field[26])
           && untouched(out + DATA, sizeof out - DATA) ? SAME : DIFFERS;
}

/* commit.txt: what is written encodes to the same rows. */
static verdict commit_line(const record *r) {
    uint8_t symbols[LINE], data[DATA], out[2 * DATA], page[WRITTEN];
    if (strcmp(r->field[0], "commit") || r->count < 4) return DIFFERS;
    size_t n = bytes_of(r->field[1], symbols, sizeof symbols);
    if (!strcmp(r->field[2], "refused") && r->count == 5) return commit_refuses(symbols, n, DATA, decimal(r->field[3]), decimal(r->field[4])) ? SAME : DIFFERS;
    if (strcmp(r->field[2], "ok") || n != SYMBOLS || bytes_of(r->field[3], data, DATA) != DATA) return DIFFERS;
    memset(out, UNTOUCHED, sizeof out);
    filled f = entry_commit_page(symbols, n, out, DATA);
    if (f.number || f.place || memcmp(out, data, DATA) || !untouched(out + DATA, DATA)) return DIFFERS;
    if (entry_encode_page(out, DATA, page, WRITTEN).number) return DIFFERS;
    for (int j = 0; j < ROW; j++) {
        const uint8_t column[] = {symbols[j], symbols[ROW + j], symbols[2 * ROW + j], symbols[3 * ROW + j]};
        uint64_t word = entry_encode_column(column, 4).value << 2;
        for (int b = 0; b < 4; b++) if (page[4 * j + b] != (uint8_t)(word >> (24 - 8 * b))) return DIFFERS;
    }
    return SAME;
}

/* The input of a dump or page line: all zero, or the dump of the all-zero soft page, cut or lengthened by zeros, with the line's edits. */
static void dump_input(uint8_t *in, int of_dump, const char *edits) {
    static uint8_t soft[SOFT];
    memset(in, 0, LINE);
    if (of_dump) entry_write_dump(soft, SOFT, in, DUMP);
    for (const char *at = edits; strcmp(edits, "-") && at; at = strchr(at, ',') ? strchr(at, ',') + 1 : NULL) {
        unsigned long place = strtoul(at, NULL, 10), value = strtoul(strchr(at, ':') + 1, NULL, 10);
        in[place] = (uint8_t)value;
    }
}

typedef filled filling(const uint8_t *in, size_t count, uint8_t *out, size_t room);

static verdict dump_refuses(filling *call, const record *r, int of_dump, size_t whole) {
    static uint8_t in[LINE], out[LINE];
    size_t n = decimal(r->field[1]), room = decimal(r->field[2]);
    if (n > LINE || room > LINE || whole > LINE) return DIFFERS;
    dump_input(in, of_dump, r->field[3]);
    if (of_dump && n < whole) memset(in + n, 0, LINE - n);
    memset(out, UNTOUCHED, LINE);
    filled f = call(in, n, out, room);
    return refuses(f.number, f.place, r) == SAME && (f.number == 0 || untouched(out, LINE)) ? SAME : DIFFERS;
}

/* refusals.txt */
static verdict refusal_line(const record *r) {
    uint8_t bytes[LINE], marks[LINE], out[ROW], page[512];
    memset(out, UNTOUCHED, ROW);
    if (!strcmp(r->field[0], "encode_column") && r->count == 4) {
        size_t n = bytes_of(r->field[1], bytes, sizeof bytes);
        told t = entry_encode_column(bytes, n);
        return refuses(t.number, t.place, r);
    }
    if (!strcmp(r->field[0], "level_word") && r->count == 5) {
        told t = entry_level_word(decimal(r->field[1]), decimal(r->field[2]));
        return refuses(t.number, t.place, r);
    }
    if (!strcmp(r->field[0], "reimage") && r->count == 5) {
        told t = entry_reimage(decimal(r->field[1]), decimal(r->field[2]));
        return refuses(t.number, t.place, r);
    }
    if (!strcmp(r->field[0], "search") && r->count == 7) {
        size_t n = bytes_of(r->field[4], bytes, sizeof bytes);
        found f = searched(without_list(r->field[1]), bytes, n, decimal(r->field[2]), decimal(r->field[3]));
        return refuses(f.number, f.place, r);
    }
    if (!strcmp(r->field[0], "outer_encode") && r->count == 5) {
        size_t n = bytes_of(r->field[2], bytes, sizeof bytes);
        return row_refuses(entry_encode_row(decimal(r->field[1]), bytes, n, out, ROW), out, r);
    }
    if (!strcmp(r->field[0], "outer_decode") && r->count == 6) {
        size_t n = bytes_of(r->field[2], bytes, sizeof bytes), marked = bytes_of(r->field[3], marks, sizeof marks);
        return row_refuses(entry_decode_row(decimal(r->field[1]), bytes, n, marks, marked, out, ROW), out, r);
    }
    if (!strcmp(r->field[0], "encode_page") && r->count == 5) {
        memset(bytes, 0, sizeof bytes);
        memset(page, UNTOUCHED, sizeof page);
        filled f = entry_encode_page(bytes, decimal(r->field[1]), page, decimal(r->field[2]));
        return refuses(f.number, f.place, r) == SAME && (f.number == 0 || untouched(page, sizeof page)) ? SAME : DIFFERS;
    }
    if (!strcmp(r->field[0], "decode_page") && r->count == 8) {
        dump_input(bytes, 0, r->field[5]);
        memset(page, UNTOUCHED, sizeof page);
        paged p = decoded(without_list(r->field[3]), bytes, decimal(r->field[1]), decimal(r->field[4]), page, decimal(r->field[2]));
        return refuses(p.number, p.place, r) == SAME && report_right(&p) && (p.number == 0 || untouched(page, sizeof page)) ? SAME : DIFFERS;
    }
    if (!strcmp(r->field[0], "write_dump") && r->count == 6)
        return dump_refuses(entry_write_dump, r, 0, SOFT);
    if (!strcmp(r->field[0], "read_dump") && r->count == 6)
        return dump_refuses(entry_read_dump, r, 1, DUMP);
    return LEFT;
}

/* A folder need not have every file; where it has list2.txt, each of its endings occurs. */
static tally check_file(const char *folder, const char *name, verdict (*line_of)(const record *)) {
    tally t = {0, 0, 0};
    char path[4096], line[LINE];
    snprintf(path, sizeof path, "%s/%s", folder, name);
    FILE *file = fopen(path, "r");
    if (!file) return t;
    for (unsigned long at = 1; fgets(line, sizeof line, file); at++) {
        record r = split(line);
        if (!r.count) continue;
        verdict v = line_of(&r);
        if (v == LEFT) { t.left++; continue; }
        if (v == PASSED) continue;
        t.checked++;
        if (v == DIFFERS) {
            t.differ++;
            printf("%s:%lu: differs\n", path, at);
        }
    }
    fclose(file);
    for (int k = 0; line_of == list_line && k < ENDINGS; k++) {
        if (endings[k].lines) continue;
        t.differ++;
        printf("%s: no line ends in %s\n", path, endings[k].how);
    }
    printf("%s: %lu checked, %lu differ", name, t.checked, t.differ);
    if (t.left) printf(", %lu of calls to come", t.left);
    printf("\n");
    return t;
}

static unsigned long listings_apart;

/* A stored dump, read and decoded with the limit of each of its listings. */
static void check_dump(const char *folder, const char *name) {
    static uint8_t in[2 * LINE], soft[SOFT], data[DATA];
    char text[LISTING];
    filled f = entry_read_dump(in, dump_bytes(folder, name, in, sizeof in), soft, SOFT);
    for (int k = 0; k < LISTINGS; k++) {
        paged p = {.number = f.number, .place = f.place};
        if (!f.number) p = entry_decode_page(soft, SOFT, listings[k].limit, data, DATA);
        listing(&p, data, text);
        if (is_listed(folder, name, listings[k].suffix, text)) continue;
        listings_apart++;
        printf("%s/dumps/%s.%s: differs\n", folder, name, listings[k].suffix);
    }
}

static const struct { const char *name; verdict (*line_of)(const record *); } texts[] = {
    {"code.txt", code_line}, {"columns.txt", column_line}, {"search.txt", low_line}, {"lows.txt", low_line}, {"list2.txt", list_line}, {"chip.txt", chip_line}, {"held.txt", held_line}, {"listing.txt", listing_line}, {"outer.txt", outer_line}, {"pages.txt", page_line}, {"reports.txt", report_line}, {"chip-pages.txt", chip_page_line}, {"commit.txt", commit_line}, {"refusals.txt", refusal_line},
};
enum { TEXTS = sizeof texts / sizeof texts[0] };

/* Files of calls to come, in the folder itself or in a folder below it, and batch.txt: how many lines each has. */
static void count_left(const char *folder, const char *below) {
    char path[4096];
    snprintf(path, sizeof path, "%s/%s", folder, below);
    DIR *dir = opendir(path);
    if (!dir) return;
    for (struct dirent *entry; (entry = readdir(dir));) {
        size_t n = strlen(entry->d_name);
        int known = n < 5 || strcmp(entry->d_name + n - 4, ".txt");
        for (int i = 0; i < TEXTS; i++) known |= !*below && !strcmp(entry->d_name, texts[i].name);
        snprintf(path, sizeof path, "%s/%s%s", folder, below, entry->d_name);
        FILE *file = known ? NULL : fopen(path, "r");
        if (!file) continue;
        unsigned long lines = 0;
        for (int c; (c = getc(file)) != EOF;) lines += c == '\n';
        fclose(file);
        printf("%s%s: %lu %s\n", below, entry->d_name, lines, strcmp(entry->d_name, "batch.txt") ? "of calls to come" : "for tests/run-batch");
    }
    closedir(dir);
}

static tally check_dumps(const char *folder) {
    tally t = {LISTINGS * each_dump(folder, check_dump), 0, 0};
    t.differ = listings_apart;
    listings_apart = 0;
    if (t.checked) printf("dumps: %lu checked, %lu differ\n", t.checked, t.differ);
    return t;
}

/* The next number of a row of draws, 0..255. */
static uint8_t drawn(uint64_t *state) { return (uint8_t)((*state = *state * 6364136223846793005u + 1442695040888963407u) >> 56); }

/* Drawn data and their written page. */
static void write_page(uint64_t *state, uint8_t *data, uint8_t *page) {
    for (int i = 0; i < DATA; i++) data[i] = drawn(state);
    entry_encode_page(data, DATA, page, WRITTEN);
}

/* The bit of a written page that soft value k is a reading of. */
static int written_bit(const uint8_t *page, int k) { return page[k / 30 * 4 + k % 30 / 8] >> (7 - k % 30 % 8) & 1; }

/* Random data come back from a written page read with surest values, by both decoders, through a dump; with list of two unsearched, also from weak values that read as the written bits; and no dump
   with one byte changed is accepted. */
static tally check_trips(void) {
    static uint8_t data[DATA], page[WRITTEN], soft[SOFT], again[SOFT], dump[DUMP], back[DATA];
    tally t = {0, 0, 0};
    const paged clean = {.steps = 7560, .low = 2};
    uint64_t state = 20261115;
    for (int trip = 0; trip < 40; trip++) {
        write_page(&state, data, page);
        for (int k = 0; k < SOFT; k++) soft[k] = written_bit(page, k) ? 7 : 0;
        filled w = entry_write_dump(soft, SOFT, dump, DUMP), r = entry_read_dump(dump, DUMP, again, SOFT);
        paged s = entry_decode_page(again, SOFT, 500, back, DATA);
        int same = !w.number && !r.number && same_report(&s, &clean) && !memcmp(soft, again, SOFT) && !memcmp(data, back, DATA);
        memset(back, UNTOUCHED, DATA);
        paged h = entry_decode_page_whole(again, SOFT, 500, back, DATA);
        t.checked++;
        t.differ += !(same && same_report(&h, &clean) && !memcmp(data, back, DATA));
        const uint64_t limit = trip % 2 ? 1 : 2000;
        const int64_t threshold = trip % 4 < 2 ? -2000 : 2000;
        paged unsearched = {.low = 2};
        for (int weak = 0; weak < 2; weak++) {
            for (int k = 0; weak && k < SOFT; k++) soft[k] ^= drawn(&state) >> 6;
            for (int j = 0; j < ROW; j++) {
                const int low = walk_of(soft + BITS * j, 0, hard_reading(soft + BITS * j)).low;
                if (low < unsearched.low) unsearched.low = (int16_t)low;
            }
            for (int k = 0; k < 2; k++, t.checked++) {
                memset(back, UNTOUCHED, DATA);
                const paged p = decoded(with_list(k ? "w" : "s", threshold), soft, SOFT, limit, back, DATA);
                t.differ += !(same_report(&p, &unsearched) && !memcmp(data, back, DATA));
            }
        }
    }
    for (int k = 0; k < DUMP; k++) {
        uint8_t kept = dump[k];
        dump[k] = (uint8_t)(kept + 1);
        memset(again, UNTOUCHED, SOFT);
        filled r = entry_read_dump(dump, DUMP, again, SOFT);
        dump[k] = kept;
        t.checked++;
        t.differ += !(r.number && untouched(again, SOFT));
    }
    printf("round trips: %lu checked, %lu differ\n", t.checked, t.differ);
    return t;
}

/* An asking that is refused, and changes nothing. */
static int ask_refuses(way w, const uint8_t *soft, size_t n, uint64_t limit, size_t room, uint64_t number, uint64_t place) {
    uint8_t symbols[2 * SYMBOLS];
    memset(symbols, UNTOUCHED, sizeof symbols);
    const paged a = asked(w, soft, n, limit, symbols, room), refusal = {.number = number, .place = place};
    return same_report(&a, &refusal) && untouched(symbols, sizeof symbols);
}

/* The questions of asking and committing, in their order, and what committing takes. */
static tally check_commits(void) {
    static const char *const modes[] = {"super", "whole"};
    static const int ends[] = {0, 6 * 33, 6 * 84, 6 * 141, 6 * 200};
    static uint8_t symbols[2][SYMBOLS + 1], data[2][DATA], page[WRITTEN], soft[SOFT + 1], out[DATA];
    tally t = {0, 0, 0};
    uint64_t state = 20261116;
    for (int k = 0; k < 2; k++, t.checked++) {
        write_page(&state, data[k], page);
        for (int j = 0; j < SOFT; j++) soft[j] = written_bit(page, j) ? 7 : 0;
        t.differ += entry_ask_page(soft, SOFT, 200, symbols[k], SYMBOLS).number != 0;
    }
    /* lengths: the input's before the output's, and both before the limit and the values, or the symbols and the rows, which are bad here */
    soft[977] = 8;
    symbols[0][3 * ROW + 20] ^= 64;
    symbols[0][5] ^= 1;
    for (int n = -1; n <= 1; n++) {
        for (int room = -1; room <= 1; room++) {
            for (int k = 0; k < 2; k++, t.checked++) t.differ += !ask_refuses(without_list(modes[k]), soft, (size_t)(SOFT + n), 0, (size_t)(SYMBOLS + room), n ? 1 : room ? 2 : 4, 0);
            t.differ += !commit_refuses(symbols[0], (size_t)(SYMBOLS + n), (size_t)(DATA + room), n ? 1 : room ? 2 : 5, n || room ? 0 : 3 * ROW + 20);
            t.checked++;
        }
    }
    /* the limit, then the values; a symbol of 64 in row 3, then row 0 that is no word */
    for (int k = 0; k < 2; k++, t.checked += 2) {
        t.differ += !ask_refuses(without_list(modes[k]), soft, SOFT, 2001, SYMBOLS, 4, 0);
        t.differ += !ask_refuses(without_list(modes[k]), soft, SOFT, 2000, SYMBOLS, 5, 977);
    }
    symbols[0][3 * ROW + 20] ^= 64;
    t.differ += !commit_refuses(symbols[0], SYMBOLS, DATA, 14, 0);
    t.checked++;
    symbols[0][5] ^= 1;
    /* a row exchanged with another word is taken, and the data of the other word come out in its place */
    for (int i = 0; i < 4; i++, t.checked++) {
        uint8_t mixed[SYMBOLS];
        memcpy(mixed, symbols[0], SYMBOLS);
        memcpy(mixed + ROW * i, symbols[1] + ROW * i, ROW);
        int right = entry_commit_page(mixed, SYMBOLS, out, DATA).number == 0;
        for (int b = 0; b < 8 * DATA; b++) right &= !((out[b / 8] ^ data[b >= ends[i] && b < ends[i + 1]][b / 8]) >> (7 - b % 8) & 1);
        t.differ += !right;
    }
    printf("asking and committing: %lu checked, %lu differ\n", t.checked, t.differ);
    return t;
}

/* A page decode that is refused, and changes nothing. */
static int decode_refuses(way w, const uint8_t *soft, size_t n, uint64_t limit, size_t room, uint64_t number, uint64_t place) {
    uint8_t data[2 * DATA];
    memset(data, UNTOUCHED, sizeof data);
    const paged p = decoded(w, soft, n, limit, data, room), refusal = {.number = number, .place = place};
    return same_report(&p, &refusal) && untouched(data, sizeof data);
}

/* The questions of the calls with list of two, in their order: the threshold after the lengths, the level and the limit, and before the values. */
static tally check_lists(void) {
    static const char *const modes[] = {"super", "whole"};
    static const uint64_t limits[] = {0, 1, 2000, 2001, UINT64_MAX};
    static const struct { int64_t threshold; int taken; } cases[] = {
        {-2000, 1}, {-1, 1}, {0, 1}, {2000, 1}, {-2001, 0}, {2001, 0}, {-65536, 0}, {65536, 0}, {-((int64_t)1 << 32), 0}, {(int64_t)1 << 32, 0}, {INT64_MIN, 0}, {INT64_MAX, 0},
    };
    static uint8_t soft[SOFT + 1];
    tally t = {0, 0, 0};
    for (size_t c = 0; c < sizeof cases / sizeof cases[0]; c++)
        for (size_t l = 0; l < sizeof limits / sizeof limits[0]; l++)
            for (int k = 0; k < 2; k++) {
                const way w = with_list(modes[k], cases[c].threshold);
                const uint64_t limit = limits[l], number = limit - 1 > 1999 ? 4 : cases[c].taken ? 0 : 11;
                /* a column and a page with a bad value, of every length near the right one; then levels up to the first wrong one */
                memset(soft, 0, sizeof soft);
                soft[17] = 8;
                for (int n = -1; n <= 1; n++, t.checked++) {
                    const found refusal = {.number = n ? 1 : number ? number : 5, .place = n || number ? 0 : 17};
                    t.differ += !same_found(searched(w, soft, (size_t)(BITS + n), 3, limit), refusal);
                    for (int room = -1; room <= 1; room++, t.checked += 2) {
                        const uint64_t by = n ? 1 : room ? 2 : number ? number : 5, place = by == 5 ? 17 : 0;
                        t.differ += !decode_refuses(w, soft, (size_t)(SOFT + n), limit, (size_t)(DATA + room), by, place);
                        t.differ += !ask_refuses(w, soft, (size_t)(SOFT + n), limit, (size_t)(SYMBOLS + room), by, place);
                    }
                }
                soft[17] = 0;
                for (uint64_t level = 0; level <= 4; level++, t.checked++) {
                    const found zero = {.low = (int16_t)(2 + 2 * level)}, refusal = {.number = level > 3 ? 3 : number};
                    t.differ += !same_found(searched(w, soft, BITS, level, limit), refusal.number ? refusal : zero);
                }
                /* a page of zeros but for a one in each column is no page of words: without steps enough it is refused by 10 */
                for (int j = 0; j < ROW; j++) soft[BITS * j] = 7;
                if (number == 0 && limit > BITS) continue;
                t.differ += !decode_refuses(w, soft, SOFT, limit, DATA, number ? number : 10, 0);
                t.differ += !ask_refuses(w, soft, SOFT, limit, SYMBOLS, number ? number : 10, 0);
                t.checked += 2;
            }
    printf("list of two, refusals: %lu checked, %lu differ\n", t.checked, t.differ);
    return t;
}

/* Columns of level 3 whose first and second word have the same sum: the first stands, be it the smaller number or the larger. Which word is second, and the counts of one word and of both, were
   found without a stack, from the order of all 64 words and by counting the paths ahead. One step nearer to the second word at the last position, and it wins, in as many steps. */
static tally check_ties(void) {
    enum { LEVEL = 3, WORD = 285615441 };
    static const struct { const char *column; uint64_t first, second; } cases[] = {{"050005000002600050010202020005", WORD, 0}, {"020002000005100020060505050002", 0, WORD}};
    static const struct { const char *mode; uint64_t one, both; } counts[] = {{"super", 42, 552}, {"whole", 30, 61}};
    tally t = {0, 0, 0};
    for (int c = 0; c < 2; c++)
        for (int k = 0; k < 2; k++) {
            uint8_t soft[BITS], nearer[BITS];
            for (int i = 0; i < BITS; i++) nearer[i] = soft[i] = (uint8_t)(cases[c].column[i] - '0');
            nearer[BITS - 1] = (uint8_t)(cases[c].second & 1 ? soft[BITS - 1] + 1 : soft[BITS - 1] - 1);
            const char *mode = counts[k].mode;
            const way list = with_list(mode, 2000);
            const uint64_t a = cases[c].first, b = cases[c].second, both = counts[k].both;
            const walk of_a = walk_of(soft, LEVEL, a), of_b = walk_of(soft, LEVEL, b);
            const found first = {.word = a, .count = counts[k].one, .low = (int16_t)of_a.low}, kept = {.word = a, .count = both, .low = first.low}, ended = {.word = a, .count = both - 1, .low = first.low};
            const found second = {.word = b, .count = both, .low = (int16_t)walk_of(nearer, LEVEL, b).low};
            const int right[] = {
                !entry_reimage(LEVEL, a).number && !entry_reimage(LEVEL, b).number && of_a.sum == of_b.sum,
                same_found(searched(without_list(mode), soft, BITS, LEVEL, 2000), first),
                same_found(searched(list, soft, BITS, LEVEL, 2000), kept) && kept.count > first.count,
                same_found(searched(list, soft, BITS, LEVEL, both), kept),
                same_found(searched(list, soft, BITS, LEVEL, both - 1), ended),
                thresholds_agree(mode, soft, LEVEL, 2000),
                same_found(searched(list, nearer, BITS, LEVEL, both), second),
            };
            for (size_t i = 0; i < sizeof right / sizeof right[0]; i++, t.checked++) t.differ += !right[i];
        }
    printf("list of two, ties: %lu checked, %lu differ\n", t.checked, t.differ);
    return t;
}

/* Columns that read as a word of their level, all values as sure: the steps by the supercode and by the whole search, whatever the word; 0 where 2,000 do not suffice. The table of docs/AGING.md. */
static tally check_weak_columns(void) {
    static const uint64_t steps[4][4][2] = {
        {{30, 30}, {30, 30}, {30, 30}, {30, 30}}, {{30, 30}, {30, 30}, {30, 30}, {30, 30}}, {{85, 85}, {30, 30}, {30, 30}, {30, 30}}, {{0, 0}, {0, 0}, {1533, 1004}, {30, 30}},
    };
    tally t = {0, 0, 0};
    uint64_t state = 20261117;
    for (int doubt = 0; doubt < 4; doubt++)
        for (uint64_t level = 0; level < 4; level++)
            for (int n = 0; n < 20; n++) {
                uint8_t soft[BITS];
                uint64_t word = 0;
                for (uint64_t i = level; i < 4; i++) word ^= entry_level_word(i, drawn(&state) >> 2).value;
                for (int k = 0; k < BITS; k++) soft[k] = (uint8_t)(word >> (BITS - 1 - k) & 1 ? 7 - doubt : doubt);
                for (int whole = 0; whole < 2; whole++, t.checked++) {
                    const uint64_t due = steps[doubt][level][whole];
                    const found read = {.word = word, .count = due, .low = (int16_t)walk_of(soft, level, word).low}, spent = {.number = 9};
                    t.differ += !same_found(searched(without_list(whole ? "whole" : "super"), soft, BITS, level, 2000), due ? read : spent);
                }
            }
    printf("columns of one sureness: %lu checked, %lu differ\n", t.checked, t.differ);
    return t;
}

/* A page of right readings, by single searches of its columns: at each level those of the columns with the lower levels' written words taken off. Each finds the written word or is spent, and an
   answer takes up to 30, 12, 6, 4 spent ones. `page` is what was written, `soft` what is read of it. */
static int clean_report(way w, const uint8_t *page, const uint8_t *soft, uint64_t limit, paged *report) {
    static const int roots[] = {30, 12, 6, 4};
    uint8_t column[ROW][BITS];
    uint64_t word[ROW];
    const paged answer = {.low = INT16_MAX};
    *report = answer;
    memcpy(column, soft, SOFT);
    for (int j = 0; j < ROW; j++) word[j] = ((uint64_t)page[4 * j] << 24 | (uint64_t)page[4 * j + 1] << 16 | (uint64_t)page[4 * j + 2] << 8 | page[4 * j + 3]) >> 2;
    for (uint64_t i = 0; i < 4; i++) {
        for (int j = 0; j < ROW; j++) {
            const found f = searched(w, column[j], BITS, i, limit);
            const told reimaged = entry_reimage(i, word[j]), of_level = entry_level_word(i, reimaged.value);
            if ((f.number && f.number != 9) || (!f.number && (f.word != word[j] || f.low != walk_of(column[j], i, f.word).low)) || reimaged.number) return 0;
            report->steps += f.number ? limit : f.count;
            report->erased_marks[i] |= (uint64_t)(f.number == 9) << j;
            if (!f.number && f.low < report->low) report->low = f.low;
            for (int k = 0; k < BITS; k++) if (of_level.value >> (BITS - 1 - k) & 1) column[j][k] = (uint8_t)(7 - column[j][k]);
            word[j] ^= of_level.value;
        }
        report->erased[i] = (uint8_t)__builtin_popcountll(report->erased_marks[i]);
        if (report->erased[i] > roots[i]) {
            const paged refusal = {.number = 10, .place = i};
            *report = refusal;
            return 1;
        }
    }
    return 1;
}

/* How weak the right readings of a page are: of the least sureness in the first columns, else sure; of the last sureness but one; of any. Of the first kind it is known what comes of a page with limits
   500 and 2,000, by either search: the level that refuses it, or how many columns are erased at levels 0 to 2. */
enum { MIXTURES = 8, LAST_BUT_ONE = 6, ANY = 7, BACK = -1 };
static const struct { int least_sure, refused[2]; uint8_t erased[2][3]; } mixtures[LAST_BUT_ONE] = {
    {0, {BACK, BACK}, {{0, 0, 0}, {0, 0, 0}}}, {6, {BACK, BACK}, {{6, 6, 6}, {6, 6, 0}}}, {7, {2, BACK}, {{0, 0, 0}, {7, 7, 0}}},
    {12, {2, BACK}, {{0, 0, 0}, {12, 12, 0}}}, {13, {1, 1}, {{0}}},                       {ROW, {0, 0}, {{0}}},
};

static int doubt_of(int mixture, int column, uint8_t draw) { return mixture == ANY ? draw % 4 : mixture == LAST_BUT_ONE ? 2 : column < mixtures[mixture].least_sure ? 3 : 0; }

static int known_page(int mixture, uint64_t limit, const paged *p) {
    const int large = limit == 2000;
    if (mixture >= LAST_BUT_ONE || (limit != 500 && !large)) return 1;
    if (mixtures[mixture].refused[large] != BACK) return p->number == 10 && p->place == (uint64_t)mixtures[mixture].refused[large];
    return !p->number && !memcmp(p->erased, mixtures[mixture].erased[large], 3) && !p->erased[3];
}

/* Decoding and asking of such a page give its data with no column changed, or refuse it by 10 and write nothing, as the single searches tell; with list of two they give the data in 0 steps with none
   erased. The report is left in p. */
static int clean_page_right(way w, int mixture, const uint8_t *data, const uint8_t *page, const uint8_t *soft, uint64_t limit, paged *p) {
    uint8_t out[DATA], symbols[SYMBOLS], committed[DATA];
    paged expected;
    memset(out, UNTOUCHED, DATA);
    memset(symbols, UNTOUCHED, SYMBOLS);
    *p = decoded(w, soft, SOFT, limit, out, DATA);
    const paged a = asked(w, soft, SOFT, limit, symbols, SYMBOLS), unsearched = {.low = p->low};
    if (!clean_report(w, page, soft, limit, &expected) || !same_report(p, &expected) || !same_report(&a, &expected)) return 0;
    if (w.list ? !same_report(p, &unsearched) : !known_page(mixture, limit, p)) return 0;
    if (p->number) return p->number == 10 && untouched(out, DATA) && untouched(symbols, SYMBOLS);
    return !memcmp(out, data, DATA) && !entry_commit_page(symbols, SYMBOLS, committed, DATA).number && !memcmp(committed, data, DATA);
}

/* Point 12 of document 02, right but weak readings. That no column is spent has to be asked: with limits that suffice for sure readings, pages with erased columns and refused ones are met as well. */
static tally check_clean(void) {
    static const char *const modes[] = {"super", "whole"};
    static const uint64_t limits[] = {1, 29, 30, 60, 200, 500, 2000};
    static const int64_t thresholds[] = {-2000, 0, 2000};
    uint8_t data[DATA], page[WRITTEN], soft[SOFT];
    unsigned long unharmed = 0, with_erased = 0, refused = 0;
    tally t = {0, 0, 0};
    uint64_t state = 20261117;
    for (int mixture = 0; mixture < MIXTURES; mixture++) {
        write_page(&state, data, page);
        for (int k = 0; k < SOFT; k++) {
            const int doubt = doubt_of(mixture, k / BITS, drawn(&state));
            soft[k] = (uint8_t)(written_bit(page, k) ? 7 - doubt : doubt);
        }
        for (size_t l = 0; l < sizeof limits / sizeof limits[0]; l++)
            for (int k = 0; k < 2; k++) {
                paged p;
                for (int c = 0; c < 3; c++, t.checked++) t.differ += !clean_page_right(with_list(modes[k], thresholds[c]), mixture, data, page, soft, limits[l], &p);
                t.differ += !clean_page_right(without_list(modes[k]), mixture, data, page, soft, limits[l], &p);
                t.checked++;
                if (limits[l] >= BITS) *(p.number ? &refused : p.erased[0] || p.erased[1] || p.erased[2] || p.erased[3] ? &with_erased : &unharmed) += 1;
            }
    }
    t.differ += !unharmed + !with_erased + !refused;
    printf("right but weak readings: %lu checked, %lu differ; without list of two, from limit 30 on, %lu came back unharmed, %lu with erased columns, %lu were refused\n", t.checked, t.differ, unharmed, with_erased, refused);
    return t;
}

static part looked_up(const uint8_t *page, size_t count, size_t column) {
    part p = {page, 0};
    entry_column_of(page, count, column, &p);
    return p;
}

/* The look-up hands back the page's own 30 bytes of a column; for a column above 62 or a page of another length the part is empty. */
static tally check_look_ups(void) {
    static const size_t beyond[] = {63, 64, 126, (size_t)1 << 63, SIZE_MAX}, others[] = {0, 30, SOFT - 30, SOFT - 1, SOFT + 1, SOFT + 30};
    static uint8_t page[SOFT + 30], kept[SOFT + 30];
    tally t = {0, 0, 0};
    for (int i = 0; i < SOFT + 30; i++) kept[i] = page[i] = (uint8_t)(i * 5 / 3 % 8);
    for (size_t j = 0; j < ROW; j++, t.checked++) {
        part p = looked_up(page, SOFT, j);
        t.differ += !(p.bytes == page + 30 * j && p.count == 30 && !memcmp(p.bytes, kept + 30 * j, 30));
    }
    for (size_t i = 0; i < sizeof beyond / sizeof beyond[0]; i++, t.checked++) t.differ += looked_up(page, SOFT, beyond[i]).count != 0;
    for (size_t i = 0; i < sizeof others / sizeof others[0]; i++)
        for (size_t j = 0; j <= ROW; j++, t.checked++) t.differ += looked_up(page, others[i], j).count != 0;
    t.checked++;
    t.differ += memcmp(page, kept, sizeof page) != 0;
    printf("look-ups: %lu checked, %lu differ\n", t.checked, t.differ);
    return t;
}

int main(int argc, char **argv) {
    const char *folder = argc > 1 ? argv[1] : "tests/vectors";
    tally parts[TEXTS + 8];
    for (int i = 0; i < TEXTS; i++) parts[i] = check_file(folder, texts[i].name, texts[i].line_of);
    count_left(folder, "");
    count_left(folder, "long/");
    parts[TEXTS] = check_dumps(folder);
    parts[TEXTS + 1] = check_trips();
    parts[TEXTS + 2] = check_commits();
    parts[TEXTS + 3] = check_look_ups();
    parts[TEXTS + 4] = check_lists();
    parts[TEXTS + 5] = check_ties();
    parts[TEXTS + 6] = check_weak_columns();
    parts[TEXTS + 7] = check_clean();
    unsigned long checked = 0, differ = 0;
    if (pages_compared) {
        printf("pages and limits outside the premise where the two decoders differ: %lu\n", pages_apart);
        printf("pages and thresholds with list of two inside the premise where second words were sought: %lu\n", seconds_compared);
        differ += !pages_apart + !seconds_compared;
    }
    for (int i = 0; i < TEXTS + 8; i++) {
        checked += parts[i].checked;
        differ += parts[i].differ;
    }
    printf("%lu checked, %lu differ\n", checked, differ);
    return differ || !checked;
}
