/* The aging study: readings of worn flash are simulated and given to the store. `aging pages` writes what came back of whole pages, `aging columns` how often
   a column of each level was misread or unread, `aging spreads` the same for other thresholds of the reading, `aging ties` how much the written word matters,
   `aging lists` what list of two changes for whole pages, `aging chip` how often the chip's stack of 64 places overflows and what that changes; each as a table
   for bench/aging_bound.py and bench/aging_tables.py. */
#include "../tests/entries.h"
#include "inputs.h"
#include <stdio.h>
#include <string.h>

enum { DATA = 150, WRITTEN = 252, SOFT = 1890, PAGES = 2000, CHIP_PAGES = 10000, COLUMNS = 63, LIMITS = 3, WAYS = 5, READINGS = 8, CONTROL = 1000 };

static const uint64_t limits[LIMITS] = {200, 500, 2000};

/* Ways to read a page: decode with the first limit and, if that is refused by 10, once more with the second; 0: no second decode. */
typedef struct { uint64_t first, second; } way;
static const way ways[WAYS] = {{200, 0}, {500, 0}, {2000, 0}, {200, 2000}, {500, 2000}};

/* raw bit error rates in millionths */
static const int page_rates[] = {10,    100,   300,   1000,  2000,  4000,  6000,  8000,  10000,
                                 15000, 20000, 25000, 30000, 35000, 40000, 45000, 50000, 60000};
static const int column_rates[] = {5,    8,    9,    10,   11,   12,   13,   15,   20,   50,   100,   150,   190,   210,
                                   230,  260,  290,  320,  350,  400,  500,  600,  800,  900,  1000,  1100,  1200,  1300,
                                   1500, 2000, 2250, 2500, 2750, 3000, 3500, 4000, 6000, 8000, 10000, 15000, 20000, 30000, 40000};
static const int list_rates[] = {1000, 5000, 20000, 35000, 40000};
static const int chip_rates[] = {5000, 20000, 40000};
static const int tie_rates[] = {11, 230, 290, 1100, 2250};
static const int spread_rates[] = {2, 5, 10, 20, 50, 100, 200, 500, 1000, 2000, 4000, 6000, 8000};

/* distances of the reading thresholds, of those of inputs.h; 0: all seven in the middle, so that every reading is a surest one */
static const double spreads[] = {0, 0.5, 1.5};

/* Without list of two, and with it: no sum is below the first threshold, every sum below the last. */
static const struct { int list; int64_t threshold; } choices[] = {{0, 0}, {1, -2000}, {1, 0}, {1, 50}, {1, 2000}};
enum { CHOICES = sizeof choices / sizeof *choices };

/* Columns read at each level, in millions: many where the promise of a way may end, if this level decides there; else one. */
static const struct { int from, up_to, millions[LEVELS]; } many[] = {
    {5, 20, {1, 1, 1, 10}},
    {100, 350, {1, 1, 1, 10}},
    {900, 1300, {1, 1, 1, 10}},
    {1500, 3500, {1, 1, 20, 4}},
};
enum { MILLION = 1000000, SPREAD_COLUMNS = 500000, COVER = 6 };

/* The plan above was chosen with draws of other seeds, so that the upper limits are not of the draws it was chosen by. */
enum { FRESH = 1000000000 };

/* entry k: the chance, of 2^64, that a bit written as 0 is read above k */
static uint64_t above[READINGS - 1];

static double tail(double x) { return erfc(x / sqrt(2)) / 2; }

/* 1/σ for a raw bit error rate */
static double inverse_tail(double rate) {
    double low = 0, high = 10;
    for (int i = 0; i < 100; i++) {
        double middle = (low + high) / 2;
        if (tail(middle) > rate) low = middle;
        else high = middle;
    }
    return low;
}

/* The channel of inputs.h's soft_of, its thresholds spread, as the chances of the eight readings; the draws start anew. */
static void start(int rate, double spread, uint64_t seed) {
    double strength = inverse_tail(rate / 1e6);
    for (int k = 0; k < READINGS - 1; k++) above[k] = (uint64_t)ldexp(tail((1 + spread * (2 * k - 6) / 7) * strength), 64);
    state = seed * 0x9E3779B97F4A7C15u;
    for (int i = 0; i < 64; i++) draw();
}

/* A rare column takes several rare draws, and successive draws of inputs.h satisfy linear relations; the product breaks them (xorshift64*). */
static inline uint64_t scrambled(void) { return draw() * 2685821657736338717u; }

static inline uint8_t reading(int bit) {
    uint64_t chance = scrambled();
    int q = 0;
    for (int k = 0; k < READINGS - 1; k++) q += chance < above[k];
    return (uint8_t)(bit ? 7 - q : q);
}

typedef struct { uint64_t back, wrong, answered, steps, changed[LEVELS], erased[LEVELS]; } page_tally;

static void tally_page(const paged o, const uint8_t *back, const uint8_t *data, page_tally *t) {
    if (o.number) return;
    int same = !memcmp(back, data, DATA);
    t->answered++;
    t->back += (uint64_t)same;
    t->wrong += (uint64_t)!same;
    t->steps += o.steps;
    for (int i = 0; i < LEVELS; i++) {
        t->changed[i] += o.changed[i];
        t->erased[i] += o.erased[i];
    }
}

static void read_page(const uint8_t *data, const uint8_t *soft, way w, page_tally *t) {
    uint8_t back[DATA];
    paged o = entry_decode_page(soft, SOFT, w.first, back, DATA);
    if (o.number == 10 && w.second) o = entry_decode_page(soft, SOFT, w.second, back, DATA);
    tally_page(o, back, data, t);
}

/* A page of random data, written and read. */
static void draw_page(uint8_t *data, uint8_t *soft) {
    uint8_t written[WRITTEN];
    for (int k = 0; k < DATA; k++) data[k] = (uint8_t)(scrambled() >> 56);
    entry_encode_page(data, DATA, written, WRITTEN);
    for (int n = 0; n < SOFT; n++) soft[n] = reading(written[n / BITS * 4 + n % BITS / 8] >> (7 - n % BITS % 8) & 1);
}

/* Every way reads the same pages. */
static void pages(int rate) {
    page_tally tallies[WAYS] = {0};
    start(rate, 1, (uint64_t)rate);
    for (int p = 0; p < PAGES; p++) {
        uint8_t data[DATA], soft[SOFT];
        draw_page(data, soft);
        for (int w = 0; w < WAYS; w++) read_page(data, soft, ways[w], &tallies[w]);
    }
    for (int w = 0; w < WAYS; w++) {
        page_tally t = tallies[w];
        printf("%d,%d,%d,%d,%d,%d,%d,%.0f", rate, (int)ways[w].first, (int)ways[w].second, PAGES, (int)t.back, PAGES - (int)t.answered, (int)t.wrong,
               (double)t.steps);
        for (int i = 0; i < LEVELS; i++) printf(",%d", (int)t.erased[i]);
        printf("\n");
    }
}

/* Pages drawn as above, one decode each, without list of two and with it. */
static void lists(int rate, uint64_t limit) {
    page_tally tallies[CHOICES] = {0};
    start(rate, 1, (uint64_t)rate);
    for (int p = 0; p < PAGES; p++) {
        uint8_t data[DATA], soft[SOFT], back[DATA];
        draw_page(data, soft);
        for (int c = 0; c < CHOICES; c++) {
            paged o = choices[c].list ? entry_decode_page_list(soft, SOFT, limit, choices[c].threshold, back, DATA) : entry_decode_page(soft, SOFT, limit, back, DATA);
            tally_page(o, back, data, &tallies[c]);
        }
    }
    for (int c = 0; c < CHOICES; c++) {
        page_tally t = tallies[c];
        printf("%d,%d,%d,%d,%d,%d,%d,%d,%.0f", rate, (int)limit, choices[c].list, (int)choices[c].threshold, PAGES, (int)t.back, PAGES - (int)t.answered, (int)t.wrong,
               (double)t.steps);
        for (int i = 0; i < LEVELS; i++) printf(",%d", (int)t.changed[i]);
        printf("\n");
    }
    fflush(stdout);
}

/* Columns of a level, searched with 64 places and without a bound: those where a path was pushed out, those ended by 9 and by 13, those answered that are misread or, where both answer, another word,
   and those that one search reads rightly and the other does not. */
typedef struct { uint64_t pushed, spent[2], emptied, misread[2], other, lost, gained, steps[2]; } chip_tally;

static void tally_chip(chip_found c, found s, uint64_t word, uint64_t limit, chip_tally *t) {
    const int by_chip = !c.number && c.word == word, by_supercode = !s.number && s.word == word;
    t->pushed += c.pushed;
    t->spent[0] += c.number == 9;
    t->spent[1] += s.number == 9;
    t->emptied += c.number == 13;
    t->misread[0] += !c.number && c.word != word;
    t->misread[1] += !s.number && s.word != word;
    t->other += !c.number && !s.number && c.word != s.word;
    t->lost += by_supercode && !by_chip;
    t->gained += by_chip && !by_supercode;
    t->steps[0] += c.count;
    t->steps[1] += s.number ? limit : s.count;
}

/* The columns of a page, at each level those with the written words of the levels before it taken off. */
static void chip_columns(const uint8_t *data, const uint8_t *soft, uint64_t limit, chip_tally *tallies) {
    uint8_t written[WRITTEN], column[BITS];
    entry_encode_page(data, DATA, written, WRITTEN);
    for (int j = 0; j < COLUMNS; j++) {
        uint64_t word = 0;
        for (int k = 0; k < 4; k++) word = word << 8 | written[4 * j + k];
        word >>= 2;
        memcpy(column, soft + BITS * j, BITS);
        for (uint64_t i = 0; i < LEVELS; i++) {
            tally_chip(entry_search_chip(column, BITS, i, limit), entry_search_supercode(i, column, BITS, limit), word, limit, &tallies[i]);
            const uint64_t of_level = entry_level_word(i, entry_reimage(i, word).value).value;
            for (int k = 0; k < BITS; k++) if (of_level >> (BITS - 1 - k) & 1) column[k] = (uint8_t)(7 - column[k]);
            word ^= of_level;
        }
    }
}

/* Pages drawn as above, one decode each by the chip's search and by the supercode search, and their columns by both. */
static void chip(int rate) {
    page_tally by_chip[LIMITS] = {0}, by_supercode[LIMITS] = {0};
    uint64_t pushed[LIMITS] = {0};
    chip_tally tallies[LIMITS][LEVELS] = {0};
    start(rate, 1, (uint64_t)rate);
    for (int p = 0; p < CHIP_PAGES; p++) {
        uint8_t data[DATA], soft[SOFT], back[DATA];
        draw_page(data, soft);
        for (int l = 0; l < LIMITS; l++) {
            const chip_paged c = entry_decode_page_chip(soft, SOFT, limits[l], back, DATA);
            tally_page(c.page, back, data, &by_chip[l]);
            pushed[l] += c.pushed;
            tally_page(entry_decode_page(soft, SOFT, limits[l], back, DATA), back, data, &by_supercode[l]);
            chip_columns(data, soft, limits[l], tallies[l]);
        }
    }
    for (int l = 0; l < LIMITS; l++)
        for (int i = 0; i < LEVELS; i++) {
            const page_tally c = by_chip[l], s = by_supercode[l];
            const chip_tally t = tallies[l][i];
            printf("%d,%d,%d,%d,%d,%d,%d,%d,%d,", rate, (int)limits[l], i, CHIP_PAGES, (int)pushed[l], CHIP_PAGES - (int)c.answered, (int)c.wrong, CHIP_PAGES - (int)s.answered, (int)s.wrong);
            printf("%d,%d,%d,%d,%d,%d,%d,%d,%d,%d,%.0f,%.0f\n", CHIP_PAGES * COLUMNS, (int)t.pushed, (int)t.spent[0], (int)t.emptied, (int)t.spent[1], (int)t.misread[0], (int)t.misread[1], (int)t.other,
                   (int)t.lost, (int)t.gained, (double)t.steps[0], (double)t.steps[1]);
        }
    fflush(stdout);
}

typedef struct { uint64_t misread, unread, steps; } column_tally;

/* What a search with this limit gives, seen from the search with the largest: the word does not depend on the limit, and the search is spent exactly if the
   count is above it (demand 3). Now and then the smaller limit is searched too; whether it agrees is returned. */
static int tally(found most, uint32_t word, const uint8_t *soft, int level, uint64_t limit, int control, column_tally *t) {
    int unread = most.number || most.count > limit;
    t->unread += (uint64_t)unread;
    t->misread += !unread && most.word != word;
    t->steps += unread ? limit : most.count;
    if (!control) return 1;
    found o = entry_search_supercode((uint64_t)level, soft, BITS, limit);
    return unread ? o.number == 9 : !o.number && o.word == most.word && o.count == most.count;
}

/* The word of g's code whose information bits, those before the remainder, are all one. Of two paths of one length and sum the one with 0 where they first
   differ goes first, so this word loses every tie with another word: no word has another ahead of it more often. */
static uint32_t last_word(uint32_t g) {
    uint32_t information = (1u << BITS) - (1u << degree(g));
    return information | remainder_of(information, g);
}

/* Columns of the level's last word: what page decoding may search there once the levels before it are taken off. */
static int columns(int rate, double spread, int level, int count) {
    column_tally tallies[LIMITS] = {0};
    uint32_t word = last_word(generator(level));
    int agree = 1;
    uint64_t wrong_bits = 0;
    start(rate, spread, (uint64_t)(FRESH + LEVELS * rate + level));
    for (int c = 0; c < count; c++) {
        uint8_t soft[BITS];
        for (int j = 0; j < BITS; j++) {
            int bit = word >> (BITS - 1 - j) & 1;
            soft[j] = reading(bit);
            wrong_bits += soft[j] / 4 != bit;
        }
        found most = entry_search_supercode((uint64_t)level, soft, BITS, limits[LIMITS - 1]);
        for (int l = 0; l < LIMITS; l++) agree &= tally(most, word, soft, level, limits[l], c % CONTROL == 0, &tallies[l]);
    }
    for (int l = 0; l < LIMITS; l++)
        printf("%g,%d,%d,%d,%d,%d,%d,%.0f,%.0f\n", spread, rate, level, (int)limits[l], count, (int)tallies[l].misread, (int)tallies[l].unread,
               (double)tallies[l].steps, (double)wrong_bits);
    fflush(stdout);
    return agree;
}

/* Words of the level whose ones cover every place: the last word, then whichever covers most of the rest, so at least half of it. Returns how many. */
static int cover(int level, uint32_t *words) {
    uint32_t g = generator(level), open = ((1u << BITS) - 1) & ~last_word(g);
    int count = 1;
    words[0] = last_word(g);
    for (; open; count++) {
        uint32_t best = 0;
        for (uint32_t m = 1; m < 1u << (BITS - degree(g)); m++) {
            uint32_t word = m << degree(g) | remainder_of(m << degree(g), g);
            if (__builtin_popcount(word & open) > __builtin_popcount(best & open)) best = word;
        }
        words[count] = best;
        open &= ~best;
    }
    return count;
}

/* The steps to read this word with this noise, one more than the largest limit if another word or none comes out. */
static uint64_t steps_to(uint32_t word, const uint8_t *noise, int level) {
    uint8_t soft[BITS];
    for (int j = 0; j < BITS; j++) soft[j] = word >> (BITS - 1 - j) & 1 ? 7 - noise[j] : noise[j];
    found o = entry_search_supercode((uint64_t)level, soft, BITS, limits[LIMITS - 1]);
    return o.number || o.word != word ? limits[LIMITS - 1] + 1 : o.count;
}

/* With one noise, a path that ties with the written word is ahead of it exactly if the word has a one where they part. The zero word wins every tie, so its
   count and what the words of a cover have above it are together no less than the count of any word (demand 3). */
static void ties(int rate, int level) {
    uint32_t words[COVER];
    uint64_t last[LIMITS] = {0}, any[LIMITS] = {0};
    int covering = cover(level, words);
    start(rate, 1, (uint64_t)(FRESH + LEVELS * rate + level));
    for (int c = 0; c < MILLION; c++) {
        uint8_t noise[BITS];
        for (int j = 0; j < BITS; j++) noise[j] = reading(0);
        uint64_t least = steps_to(0, noise, level), first = steps_to(words[0], noise, level), most = first;
        for (int k = 1; k < covering; k++) most += steps_to(words[k], noise, level) - least;
        for (int l = 0; l < LIMITS; l++) {
            last[l] += first > limits[l];
            any[l] += most > limits[l];
        }
    }
    for (int l = 0; l < LIMITS; l++) printf("%d,%d,%d,%d,%d,%d\n", rate, level, (int)limits[l], MILLION, (int)last[l], (int)any[l]);
    fflush(stdout);
}

static int millions(int rate, int level) {
    for (size_t m = 0; m < sizeof many / sizeof *many; m++)
        if (rate >= many[m].from && rate <= many[m].up_to) return many[m].millions[level];
    return 1;
}

static int all_columns(void) {
    int agree = 1;
    for (size_t r = 0; r < sizeof column_rates / sizeof *column_rates; r++)
        for (int level = 0; level < LEVELS; level++) agree &= columns(column_rates[r], 1, level, MILLION * millions(column_rates[r], level));
    return agree;
}

static int all_spreads(void) {
    int agree = 1;
    for (size_t s = 0; s < sizeof spreads / sizeof *spreads; s++)
        for (size_t r = 0; r < sizeof spread_rates / sizeof *spread_rates; r++)
            for (int level = 0; level < LEVELS; level++) agree &= columns(spread_rates[r], spreads[s], level, SPREAD_COLUMNS);
    return agree;
}

int main(int argc, char **argv) {
    int agree = 1;
    if (argc != 2) return 2;
    if (!strcmp(argv[1], "pages")) {
        printf("rate,limit,then,pages,back,refused,wrong,steps,erased0,erased1,erased2,erased3\n");
        for (size_t r = 0; r < sizeof page_rates / sizeof *page_rates; r++) pages(page_rates[r]);
    } else if (!strcmp(argv[1], "lists")) {
        printf("rate,limit,list,threshold,pages,back,refused,wrong,steps,changed0,changed1,changed2,changed3\n");
        for (size_t r = 0; r < sizeof list_rates / sizeof *list_rates; r++)
            for (int l = 0; l < LIMITS; l++) lists(list_rates[r], limits[l]);
    } else if (!strcmp(argv[1], "chip")) {
        printf("rate,limit,level,pages,pages_pushed,refused,wrong,supercode_refused,supercode_wrong,columns,pushed,spent,emptied,supercode_spent,misread,supercode_misread,other_word,lost,gained,steps,"
               "supercode_steps\n");
        for (size_t r = 0; r < sizeof chip_rates / sizeof *chip_rates; r++) chip(chip_rates[r]);
    } else if (!strcmp(argv[1], "ties")) {
        printf("rate,level,limit,columns,last_word,any_word\n");
        for (size_t r = 0; r < sizeof tie_rates / sizeof *tie_rates; r++)
            for (int level = 1; level < LEVELS; level++) ties(tie_rates[r], level);
    } else {
        printf("spread,rate,level,limit,columns,misread,unread,steps,wrong_bits\n");
        agree = strcmp(argv[1], "spreads") ? all_columns() : all_spreads();
    }
    if (!agree) fprintf(stderr, "aging: a smaller limit does not give what demand 3 says\n");
    return !agree;
}
