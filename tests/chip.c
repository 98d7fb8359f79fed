/* The chip's search, with 64 places on its stack, and page decoding by it, as a C program calls them: what the stored vectors do not say. The questions in their order; columns of several kinds at all
   levels and limits, and pages, beside a plain model; the borders of 9, 13 and the flag; and where no path was pushed out the supercode search's answer. What has to occur is searched for, and not
   to find it fails too. Prints `chip: N checked, M differ`; fails if one differs. */
#include "model.h"

enum { ROW = 63, SOFT = ROW * BITS, DATA = 150, WRITTEN = 252, SYMBOLS = LEVELS * ROW, PLACES = 64, NO_WORD = 10 };

/* --- columns --- */

static int same(chip_found a, chip_found b) { return a.number == b.number && a.place == b.place && a.word == b.word && a.count == b.count && a.low == b.low && a.pushed == b.pushed; }

/* What the supercode search tells, in the chip's terms: a 9 has the limit as its count. */
static chip_found by_supercode(const uint8_t *soft, uint64_t level, uint64_t limit) {
    const found f = entry_search_supercode(level, soft, BITS, limit);
    return (chip_found){.number = f.number, .place = f.place, .word = f.word, .count = f.number == SPENT ? limit : f.count, .low = f.low};
}

/* How often a number was told at a level, with the flag or without. */
static unsigned long seen[LEVELS][EMPTY + 1][2];

/* The search of a column, which is to tell what the model tells. Without a path pushed out it is the supercode search, and so it is, but for the flag, with a limit below 128: the first path can be
   pushed out after 63 were taken, and the 64 that stand before it would be taken before it. An empty stack has pushed one out, and is never met at level 0. */
static modelled searched(const char *what, const uint8_t *soft, uint64_t level, uint64_t limit) {
    uint8_t kept[BITS];
    memcpy(kept, soft, BITS);
    const modelled m = model(SUPERCODE, PLACES, soft, level, limit);
    const chip_found c = entry_search_chip(soft, BITS, level, limit);
    check(same(c, m.told) && !memcmp(kept, soft, BITS), what);
    check(c.pushed ? c.pushed == 1 && c.count > 62 : same(c, by_supercode(soft, level, limit)), what);
    if (limit < 128) {
        chip_found without_flag = c;
        without_flag.pushed = 0;
        check(same(without_flag, by_supercode(soft, level, limit)), what);
    }
    check(c.number != EMPTY || (c.pushed && level > 0 && c.count < limit), what);
    seen[level][m.told.number][m.told.pushed]++;
    return m;
}

/* Columns of every kind, at every level, with limits of all sizes. Each number occurs, with the flag and without, as far as it can. */
static void columns(void) {
    static const uint64_t limits[] = {1, 2, BITS - 1, BITS, BITS + 1, 62, 63, 64, 65, 66, 100, 200, 500, LARGEST - 1, LARGEST};
    for (uint64_t level = 0; level < LEVELS; level++) {
        for (int n = 0; n < 40 * KINDS; n++) {
            uint8_t soft[BITS];
            fill_column(soft, level, n % KINDS);
            searched("columns, a limit of the list", soft, level, limits[below(sizeof limits / sizeof limits[0])]);
            searched("columns, a small limit", soft, level, 1 + below(300));
            searched("columns, any limit", soft, level, 1 + below(LARGEST));
            /* with places for all, the model is the supercode search */
            if (n % 4 == 0) check(same(model(SUPERCODE, UNBOUNDED, soft, level, LARGEST).told, by_supercode(soft, level, LARGEST)), "columns, the model without a bound");
        }
        check(seen[level][0][0] && seen[level][0][1] && seen[level][SPENT][0] && seen[level][SPENT][1] && !seen[level][EMPTY][0] && !seen[level][EMPTY][1] == !level, "columns, what occurred");
    }
}

/* Some limits of every size, and each of the last hundred up to the given one: on columns that answer after a path was pushed out, and on those whose stack gets empty. */
static void limits_of(const uint8_t *soft, uint64_t level, uint64_t up_to) {
    for (uint64_t limit = 1; limit <= up_to; limit += limit + 100 < up_to ? 1 + limit / 40 : 1) searched("limits of one column", soft, level, limit);
}

enum { TRIES = 4000 };

/* A column whose stack is empty after so many were taken: 9 with that limit, 13 with one more and with every larger one. */
static void borders_of_13(uint64_t level) {
    uint8_t soft[BITS];
    modelled m = {.first_push = 0};
    for (int n = 0; n < TRIES && m.told.number != EMPTY; n++) {
        fill_column(soft, level, n % KINDS);
        m = model(SUPERCODE, PLACES, soft, level, LARGEST);
    }
    check(m.told.number == EMPTY, "a stack that gets empty");
    if (m.told.number != EMPTY) return;
    const uint64_t taken = m.told.count;
    const chip_found emptied = {.number = EMPTY, .count = taken, .pushed = 1}, spent = {.number = SPENT, .count = taken, .pushed = 1};
    check(same(entry_search_chip(soft, BITS, level, taken), spent), "an empty stack, the limit taken");
    check(same(entry_search_chip(soft, BITS, level, taken + 1), emptied), "an empty stack, one less than the limit taken");
    check(same(entry_search_chip(soft, BITS, level, LARGEST), emptied), "an empty stack, the largest limit");
    limits_of(soft, level, taken + 5 < LARGEST ? taken + 5 : LARGEST);
}

/* A column whose first path is pushed out by the extensions of the path taken at the limit: they still go in. With one step less none is pushed out, with one more it stays said. */
static void borders_of_the_flag(uint64_t level) {
    for (int kind = 1; kind < KINDS; kind++) {
        uint8_t soft[BITS];
        modelled m = {.first_push = 0};
        for (int n = 0; n < TRIES && m.first_push < 2; n++) {
            fill_column(soft, level, kind);
            m = model(SUPERCODE, PLACES, soft, level, LARGEST);
        }
        if (m.first_push < 2) {
            check(kind != RANDOM, "a path that is pushed out");
            continue;
        }
        const uint64_t at = m.first_push;
        const chip_found pushed = {.number = SPENT, .count = at, .pushed = 1}, before = {.number = SPENT, .count = at - 1};
        check(same(entry_search_chip(soft, BITS, level, at), pushed), "a path pushed out by the last extensions");
        check(same(entry_search_chip(soft, BITS, level, at - 1), before), "no path pushed out one step before");
        if (at < LARGEST) check(searched("one step later", soft, level, at + 1).told.pushed == 1, "a path pushed out stays said");
    }
}

/* Columns where a path was pushed out and the chip answers: with the supercode search's word, and with another word than it. */
static void answers(uint64_t level) {
    int as_supercode = 0, other_word = 0;
    for (int n = 0; n < TRIES && !(as_supercode && other_word); n++) {
        uint8_t soft[BITS];
        fill_column(soft, level, n % KINDS);
        const chip_found c = entry_search_chip(soft, BITS, level, LARGEST), u = by_supercode(soft, level, LARGEST);
        if (!c.pushed || c.number || u.number) continue;
        int *const found_one = c.word == u.word ? &as_supercode : &other_word;
        if (!*found_one) limits_of(soft, level, c.count + 1 < LARGEST ? c.count + 1 : LARGEST);
        *found_one = 1;
    }
    check(as_supercode, "an answer with a path pushed out, the supercode search's word");
    check(other_word, "an answer with a path pushed out, another word");
}

/* The first question that is answered no tells, with its place and nothing more. The values are random, so that a search that were made would tell more. */
static void column_questions(void) {
    static const size_t lengths[] = {BITS, 0, 1, BITS - 1, BITS + 1, 2 * BITS};
    static const uint64_t levels[] = {0, 1, 2, 3, 4, 256, (uint64_t)1 << 32, ((uint64_t)1 << 32) + 1, (uint64_t)1 << 63, UINT64_MAX};
    static const uint64_t limits[] = {200, 1, LARGEST, 0, LARGEST + 1, (uint64_t)1 << 32, ((uint64_t)1 << 32) + 200, UINT64_MAX};
    for (size_t n = 0; n < sizeof lengths / sizeof lengths[0]; n++)
        for (size_t i = 0; i < sizeof levels / sizeof levels[0]; i++)
            for (size_t l = 0; l < sizeof limits / sizeof limits[0]; l++)
                for (size_t bad = 0; bad <= BITS; bad++) {
                    uint8_t soft[2 * BITS];
                    for (int k = 0; k < 2 * BITS; k++) soft[k] = drawn() % 8;
                    if (bad < BITS) soft[BITS - 1] = 255;
                    if (bad < BITS) soft[bad] = bad % 2 ? 8 : 128;
                    const uint64_t number = lengths[n] != BITS ? 1 : levels[i] >= LEVELS ? 3 : limits[l] - 1 >= LARGEST ? 4 : bad < BITS ? 5 : 0;
                    const chip_found refusal = {.number = number, .place = number == 5 ? bad : 0};
                    if (number) check(same(entry_search_chip(soft, lengths[n], levels[i], limits[l]), refusal), "a column's questions");
                    else searched("a column that is not refused", soft, levels[i], limits[l]);
                }
}

/* --- pages --- */

enum { UNTOUCHED = 0xa5 };

static int untouched(const uint8_t *out, size_t n) {
    for (size_t k = 0; k < n; k++) if (out[k] != UNTOUCHED) return 0;
    return 1;
}

static int same_page(const chip_paged *c, const chip_paged *d) {
    const paged *a = &c->page, *b = &d->page;
    return a->number == b->number && a->place == b->place && a->steps == b->steps && !memcmp(a->changed, b->changed, LEVELS) && !memcmp(a->erased, b->erased, LEVELS) && a->low == b->low && c->pushed == d->pushed
           && !memcmp(a->changed_marks, b->changed_marks, sizeof a->changed_marks) && !memcmp(a->erased_marks, b->erased_marks, sizeof a->erased_marks);
}

/* What the supercode decoder tells, in the chip's terms. */
static chip_paged page_by_supercode(const uint8_t *soft, uint64_t limit, uint8_t *data) {
    return (chip_paged){.page = entry_decode_page(soft, SOFT, limit, data, DATA)};
}

/* A symbol's word of a level taken off a column. */
static void take_off(uint8_t *column, uint64_t level, uint8_t symbol) {
    const uint64_t word = entry_level_word(level, symbol).value;
    for (int k = 0; k < BITS; k++) if (word >> (BITS - 1 - k) & 1) column[k] = (uint8_t)(7 - column[k]);
}

/* How many columns of a page had an empty stack. */
typedef struct { chip_paged told; int flag[LEVELS], emptied; } modelled_page;

/* Page decoding by single searches of the model and single rows: a spent search and an empty stack are erasures, each with its steps. */
static modelled_page page_model(const uint8_t *soft, uint64_t limit, uint8_t *data) {
    modelled_page m = {.told = {.page = {.low = INT16_MAX}}, .emptied = 0};
    uint8_t column[ROW][BITS], symbols[SYMBOLS];
    memcpy(column, soft, SOFT);
    for (uint64_t i = 0; i < LEVELS; i++) {
        uint8_t row[ROW], marks[ROW], *const corrected = symbols + ROW * i;
        for (int j = 0; j < ROW; j++) {
            const chip_found f = model(SUPERCODE, PLACES, column[j], i, limit).told;
            m.told.page.steps += f.count;
            m.flag[i] |= f.pushed;
            m.emptied += f.number == EMPTY;
            marks[j] = f.number != 0;
            row[j] = marks[j] ? 0 : (uint8_t)entry_reimage(i, f.word).value;
            if (!marks[j] && f.low < m.told.page.low) m.told.page.low = f.low;
        }
        m.told.pushed |= (uint8_t)m.flag[i];
        if (entry_decode_row(i, row, ROW, marks, ROW, corrected, ROW).number) {
            m.told = (chip_paged){.page = {.number = NO_WORD, .place = i}, .pushed = m.told.pushed};
            return m;
        }
        for (int j = 0; j < ROW; j++) {
            const int changed = !marks[j] && row[j] != corrected[j];
            m.told.page.erased[i] += marks[j];
            m.told.page.changed[i] += (uint8_t)changed;
            m.told.page.erased_marks[i] |= (uint64_t)marks[j] << j;
            m.told.page.changed_marks[i] |= (uint64_t)changed << j;
            take_off(column[j], i, corrected[j]);
        }
    }
    entry_commit_page(symbols, SYMBOLS, data, DATA);
    return m;
}

/* Pages that were answered or refused by 10, with the flag or without; answered ones with an empty stack. */
static unsigned long pages_seen[2][2], pages_emptied;

static modelled_page decoded(const char *what, const uint8_t *soft, uint64_t limit) {
    uint8_t data[DATA + 1], due[DATA], other[DATA];
    memset(data, UNTOUCHED, sizeof data);
    memset(due, UNTOUCHED, sizeof due);
    memset(other, UNTOUCHED, sizeof other);
    const modelled_page m = page_model(soft, limit, due);
    const chip_paged c = entry_decode_page_chip(soft, SOFT, limit, data, DATA), u = page_by_supercode(soft, limit, other);
    const int as_supercode = same_page(&c, &u) && !memcmp(data, other, DATA);
    check(same_page(&c, &m.told) && !memcmp(data, due, DATA) && data[DATA] == UNTOUCHED, what);
    check(c.page.number ? untouched(data, sizeof data) && c.page.number == NO_WORD : 1, what);
    check(c.pushed ? c.pushed == 1 : as_supercode, what);
    pages_seen[c.page.number != 0][c.pushed & 1]++;
    pages_emptied += !c.page.number && m.emptied;
    return m;
}

static int written_bit(const uint8_t *page, int k) { return page[k / BITS * 4 + k % BITS / 8] >> (7 - k % BITS % 8) & 1; }

/* A page of random data, each bit surely read but for some, of 256, that are misread with some doubt, and as many that are weak. */
static void fill_page(uint8_t *soft, int misread) {
    uint8_t data[DATA], page[WRITTEN];
    for (int k = 0; k < DATA; k++) data[k] = drawn();
    entry_encode_page(data, DATA, page, WRITTEN);
    for (int k = 0; k < SOFT; k++) {
        const int chance = drawn(), doubt = chance < misread ? 4 + drawn() % 3 : chance < 2 * misread ? 1 + drawn() % 3 : 0;
        soft[k] = (uint8_t)(written_bit(page, k) ? 7 - doubt : doubt);
    }
}

static void pages(void) {
    static const uint64_t limits[] = {1, BITS - 1, BITS, 63, 64, 70, 100, 200, 500, LARGEST};
    uint8_t soft[SOFT];
    for (int n = 0; n < 60; n++) {
        fill_page(soft, n % 15);
        decoded("pages", soft, limits[below(sizeof limits / sizeof limits[0])]);
        decoded("pages, limit 200", soft, 200);
        if (n % 3 == 0) decoded("pages, limit 500", soft, 500);
    }
    for (int n = 0; n < 4; n++) {
        for (int k = 0; k < SOFT; k++) soft[k] = drawn() % 8;
        decoded("pages of random values", soft, n ? 1 + below(200) : 200);
    }
    check(pages_seen[0][0] && pages_seen[0][1] && pages_seen[1][0] && pages_seen[1][1], "pages, what occurred");
    check(pages_emptied > 0, "an answered page with an empty stack");
}

/* A page that the chip loses and the supercode decoder reads. */
static void lost_page(void) {
    uint8_t soft[SOFT], data[DATA];
    int lost = 0;
    for (int n = 0; n < TRIES / 10 && !lost; n++) {
        fill_page(soft, 17);
        lost = entry_decode_page_chip(soft, SOFT, LARGEST, data, DATA).page.number == NO_WORD && !entry_decode_page(soft, SOFT, LARGEST, data, DATA).number;
    }
    check(lost, "a page that the chip alone loses");
    check(decoded("a page that the chip alone loses", soft, LARGEST).told.pushed == 1, "a page that the chip alone loses");
}

/* Four rows of symbols, of which the last may be no word in reach, as a page read surely. */
static void fill_from_rows(uint8_t *soft, uint8_t *symbols, int broken) {
    static const size_t front[LEVELS] = {33, 51, 57, 59};
    for (uint64_t i = 0; i < LEVELS; i++) {
        uint8_t data[ROW];
        for (int j = 0; j < ROW; j++) data[j] = drawn() >> 2;
        entry_encode_row(i, data, front[i], symbols + ROW * i, ROW);
        for (int j = 0; broken && i == 3 && j < 20; j++) symbols[ROW * i + 3 * (unsigned)j] = drawn() >> 2;
    }
    for (int j = 0; j < ROW; j++) {
        const uint8_t of_column[LEVELS] = {symbols[j], symbols[ROW + j], symbols[2 * ROW + j], symbols[3 * ROW + j]};
        const uint64_t word = entry_encode_column(of_column, LEVELS).value;
        for (int k = 0; k < BITS; k++) soft[BITS * j + k] = word >> (BITS - 1 - k) & 1 ? 7 : 0;
    }
}

/* What the searches of a column tell at the four levels, the right words before each taken off. */
static void at_levels(const uint8_t *soft, const uint8_t *symbols, int j, uint64_t limit, chip_found *told) {
    uint8_t column[BITS];
    memcpy(column, soft + BITS * j, BITS);
    for (uint64_t i = 0; i < LEVELS; i++) {
        told[i] = model(SUPERCODE, PLACES, column, i, limit).told;
        take_off(column, i, symbols[ROW * i + (unsigned)j]);
    }
}

enum { WORN = 17 };

/* One column of a page of sure readings, with some of its values drawn anew. */
static void wear(uint8_t *soft, const uint8_t *sure) {
    for (int k = 0; k < BITS; k++) soft[BITS * WORN + k] = drawn() < 70 ? drawn() % 8 : sure[k];
}

/* Pages with a column whose stack gets empty at a level: there it is erased, with the steps taken, and the page comes back. */
static void emptied_columns(void) {
    for (int level = 1; level < LEVELS; level++) {
        uint8_t soft[SOFT], symbols[SYMBOLS], sure[BITS];
        chip_found told[LEVELS] = {{.number = 0}};
        fill_from_rows(soft, symbols, 0);
        memcpy(sure, soft + BITS * WORN, BITS);
        for (int n = 0; n < TRIES && told[level].number != EMPTY; n++) {
            wear(soft, sure);
            at_levels(soft, symbols, WORN, LARGEST, told);
        }
        const modelled_page m = decoded("a page with an empty stack", soft, LARGEST);
        const uint64_t steps = (ROW - 1) * BITS * LEVELS + told[0].count + told[1].count + told[2].count + told[3].count;
        check(told[level].number == EMPTY && !m.told.page.number && m.told.page.steps == steps && m.told.page.erased_marks[level] == (uint64_t)1 << WORN && m.told.pushed, "a page with an empty stack");
    }
}

/* Pages of which the searches of one level alone push a path out: the flag is of all searches made, not of the last ones. So it is where row 3 is no word in reach, and the page is refused after
   the searches of all levels. Without the worn column no path is pushed out in either. */
static void flags_of_pages(void) {
    enum { LIMIT = 100 };
    for (int broken = 0; broken < 2; broken++)
        for (int level = 0; level < LEVELS; level++) {
            const uint64_t number = broken ? NO_WORD : 0, place = broken ? 3 : 0;
            uint8_t soft[SOFT], symbols[SYMBOLS], sure[BITS], data[DATA];
            modelled_page m;
            do fill_from_rows(soft, symbols, broken);
            while (entry_decode_page(soft, SOFT, LIMIT, data, DATA).number != number);
            memcpy(sure, soft + BITS * WORN, BITS);
            m = decoded("a page read surely", soft, LIMIT);
            check(!m.told.pushed && m.told.page.number == number && m.told.page.place == place, "a page read surely, no path pushed out");
            int found_one = 0;
            for (int n = 0; n < 5 * TRIES && !found_one; n++) {
                chip_found told[LEVELS];
                wear(soft, sure);
                at_levels(soft, symbols, WORN, LIMIT, told);
                if (!told[level].pushed || told[0].pushed + told[1].pushed + told[2].pushed + told[3].pushed > 1) continue;
                m = page_model(soft, LIMIT, data);
                found_one = m.told.page.number == number && m.told.page.place == place;
            }
            check(found_one, "a page with a path pushed out at one level alone");
            m = decoded("a page with a worn column", soft, LIMIT);
            check(m.told.pushed && m.flag[level] && m.flag[0] + m.flag[1] + m.flag[2] + m.flag[3] == 1, "a page with a path pushed out at one level alone");
        }
}

/* As for a column: the length of the input before that of the output, both before the limit, and that before the values; no byte of the output is touched. */
static void page_questions(void) {
    static const size_t lengths[] = {SOFT, 0, BITS, SOFT - 1, SOFT + 1}, rooms[] = {DATA, 0, DATA - 1, DATA + 1, WRITTEN};
    static const uint64_t limits[] = {1, 0, LARGEST, LARGEST + 1, (uint64_t)1 << 32, ((uint64_t)1 << 32) + 200, UINT64_MAX};
    static const size_t places[] = {SOFT, 0, 1, BITS - 1, BITS, 977, SOFT - 2, SOFT - 1};
    uint8_t soft[SOFT + 1], out[2 * WRITTEN];
    for (size_t n = 0; n < sizeof lengths / sizeof lengths[0]; n++)
        for (size_t r = 0; r < sizeof rooms / sizeof rooms[0]; r++)
            for (size_t l = 0; l < sizeof limits / sizeof limits[0]; l++)
                for (size_t b = 0; b < sizeof places / sizeof places[0]; b++) {
                    const size_t bad = places[b];
                    for (int k = 0; k <= SOFT; k++) soft[k] = drawn() % 8;
                    if (bad < SOFT) soft[SOFT - 1] = 255;
                    if (bad < SOFT) soft[bad] = bad % 2 ? 8 : 128;
                    const uint64_t number = lengths[n] != SOFT ? 1 : rooms[r] != DATA ? 2 : limits[l] - 1 >= LARGEST ? 4 : bad < SOFT ? 5 : 0;
                    const chip_paged refusal = {.page = {.number = number, .place = number == 5 ? bad : 0}};
                    if (!number) {
                        decoded("a page that is not refused by its questions", soft, limits[l]);
                        continue;
                    }
                    memset(out, UNTOUCHED, sizeof out);
                    const chip_paged c = entry_decode_page_chip(soft, lengths[n], limits[l], out, rooms[r]);
                    check(same_page(&c, &refusal) && untouched(out, sizeof out), "a page's questions");
                }
}

int main(void) {
    check_products();
    column_questions();
    columns();
    for (uint64_t level = 0; level < LEVELS; level++) {
        if (level) borders_of_13(level);
        borders_of_the_flag(level);
        answers(level);
    }
    page_questions();
    pages();
    lost_page();
    emptied_columns();
    flags_of_pages();
    printf("chip: %lu checked, %lu differ\n", checked, differ);
    return differ || !checked;
}
