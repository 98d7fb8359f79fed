/* Pages: the store's coding, decoding (supercode search, without list of two and with it) and committing, questions included, and the C baseline's on the same pages,
   in one process, in turns; the least of the rounds counts. Every page's bytes, steps, changed and erased columns with their marks, low points and refusals are compared.
   Decoding by the chip's search stands beside decoding by the supercode search, and the two are the same where no path was pushed out. */
#include "../tests/entries.h"
#include "inputs.h"
#include "page_baseline.h"
#include <stdio.h>
#include <string.h>

enum { DATA = 150, WRITTEN = 252, SYMBOLS = 252, SOFT = 1890, PAGES = 100, ROUNDS = 20, WAYS = 3, NO_WORD = 10 };

/* Limits: the first decode's and that of a second one if the first is refused by 10; 0: no second decode. The default, the default before document 02's
   point 9, and the way that c/station.h advises; then the first two with list of two, whose threshold comes last: few sums at levels
   1 to 3 are below 0, all are below 2000. */
typedef struct { const char *name; int first, then, list, threshold; } limits;
static const limits uses[] = {
    {"limit 200, the default", 200, 0, 0, 0}, {"limit 500", 500, 0, 0, 0}, {"limit 200, and 2000 if that is refused by 10", 200, 2000, 0, 0},
    {"list of two, threshold 0, limit 200", 200, 0, 1, 0}, {"list of two, threshold 2000, limit 200", 200, 0, 1, 2000}, {"list of two, threshold 0, limit 500", 500, 0, 1, 0},
};
enum { USES = sizeof uses / sizeof uses[0] };

static uint8_t data[PAGES][DATA], soft[PAGES][SOFT], written[2][PAGES][WRITTEN], back[WAYS][PAGES][DATA];
static page_outcome outcomes[WAYS][PAGES];

static void least(double *best, double from) {
    double t = seconds() - from;
    if (t < *best) *best = t;
}

static void decode_once(int way, int p, int limit, const limits *use) {
    static baseline_search *const searches[2][WAYS] = {{NULL, baseline_plain, baseline_packed}, {NULL, baseline_plain_list, baseline_packed_list}};
    if (way) {
        outcomes[way][p] = page_baseline_decode(searches[use->list][way], soft[p], limit, use->threshold, back[way][p]);
        return;
    }
    paged o = use->list ? entry_decode_page_list(soft[p], SOFT, (uint64_t)limit, use->threshold, back[0][p], DATA)
                        : entry_decode_page(soft[p], SOFT, (uint64_t)limit, back[0][p], DATA);
    outcomes[0][p] = (page_outcome){.number = o.number, .place = o.place, .steps = o.steps, .low = o.low};
    memcpy(outcomes[0][p].changed, o.changed, sizeof o.changed);
    memcpy(outcomes[0][p].erased, o.erased, sizeof o.erased);
    memcpy(outcomes[0][p].changed_marks, o.changed_marks, sizeof o.changed_marks);
    memcpy(outcomes[0][p].erased_marks, o.erased_marks, sizeof o.erased_marks);
}

/* whether the page was decoded twice */
static int decode(int way, int p, const limits *use) {
    decode_once(way, p, use->first, use);
    int again = use->then && outcomes[way][p].number == NO_WORD;
    if (again) decode_once(way, p, use->then, use);
    return again;
}

/* The written pages, read with noise of the given strength. */
static void fill(double sigma) {
    for (int p = 0; p < PAGES; p++)
        for (int n = 0; n < SOFT; n++) soft[p][n] = soft_of(written[1][p][n / BITS * 4 + n % BITS / 8] >> (7 - n % BITS % 8) & 1, sigma);
}

/* The rows of one use of the limits; whether an answer differs. */
static int decoding(const limits *use) {
    int differ = 0;
    printf("page decoding, supercode search, %s, microseconds a page: store | C with the plain heap, ratio | with the packed heap, ratio\n", use->name);
    for (int k = 0; k < KINDS; k++) {
        fill(kinds[k].sigma);
        double best[WAYS] = {1e9, 1e9, 1e9};
        int twice = 0;
        memset(back, 0, sizeof back);
        for (int round = 0; round < ROUNDS; round++)
            for (int way = 0; way < WAYS; way++) {
                twice = 0;
                double t = seconds();
                for (int p = 0; p < PAGES; p++) twice += decode(way, p, use);
                least(&best[way], t);
            }
        uint64_t steps = 0;
        int refused = 0, right = 0;
        for (int p = 0; p < PAGES; p++) {
            steps += outcomes[0][p].steps;
            refused += outcomes[0][p].number != 0;
            right += !memcmp(back[0][p], data[p], DATA);
        }
        int wrong = 0;
        for (int way = 1; way < WAYS; way++) wrong |= memcmp(back[0], back[way], sizeof back[0]) || memcmp(outcomes[0], outcomes[way], sizeof outcomes[0]);
        differ |= wrong;
        printf("%-14s %9.3f | %9.3f %.2f | %9.3f %.2f  (of %d pages %d as written, %d refused", kinds[k].name, best[0] / PAGES * 1e6, best[1] / PAGES * 1e6, best[0] / best[1],
               best[2] / PAGES * 1e6, best[0] / best[2], PAGES, right, refused);
        if (use->then) printf(", %d decoded twice", twice);
        printf("; %.0f steps a page not refused)%s\n", refused < PAGES ? (double)steps / (PAGES - refused) : 0.0, wrong ? "  ANSWERS DIFFER" : "");
    }
    return differ;
}

/* What the chip's page decoding tells is what the supercode decoder tells. */
static int same_page(const paged *c, const paged *s) {
    return c->number == s->number && c->place == s->place && c->steps == s->steps && c->low == s->low && !memcmp(c->changed, s->changed, sizeof c->changed) && !memcmp(c->erased, s->erased, sizeof c->erased)
           && !memcmp(c->changed_marks, s->changed_marks, sizeof c->changed_marks) && !memcmp(c->erased_marks, s->erased_marks, sizeof c->erased_marks);
}

/* The rows of decoding by the chip's search; whether a page without a path pushed out differs. */
static int chips(int limit) {
    static chip_paged by_chip[PAGES];
    static paged by_supercode[PAGES];
    int differ = 0;
    printf("page decoding, the chip's search, 64 places, limit %d, microseconds a page: store | store with the supercode search, ratio\n", limit);
    for (int k = 0; k < KINDS; k++) {
        double best[2] = {1e9, 1e9};
        int pushed = 0, refused[2] = {0, 0}, wrong = 0;
        fill(kinds[k].sigma);
        memset(back, 0, sizeof back);
        for (int round = 0; round < ROUNDS; round++)
            for (int way = 0; way < 2; way++) {
                const int chip = (way + round) % 2;
                double t = seconds();
                for (int p = 0; p < PAGES; p++)
                    if (chip) by_chip[p] = entry_decode_page_chip(soft[p], SOFT, (uint64_t)limit, back[1][p], DATA);
                    else by_supercode[p] = entry_decode_page(soft[p], SOFT, (uint64_t)limit, back[0][p], DATA);
                least(&best[chip], t);
            }
        for (int p = 0; p < PAGES; p++) {
            pushed += by_chip[p].pushed;
            refused[1] += by_chip[p].page.number != 0;
            refused[0] += by_supercode[p].number != 0;
            wrong |= !by_chip[p].pushed && (!same_page(&by_chip[p].page, &by_supercode[p]) || memcmp(back[0][p], back[1][p], DATA));
        }
        differ |= wrong;
        printf("%-14s %9.3f | %9.3f %.2f  (of %d pages %d pushed a path out; %d refused, with the supercode search %d)%s\n", kinds[k].name, best[1] / PAGES * 1e6, best[0] / PAGES * 1e6, best[1] / best[0],
               PAGES, pushed, refused[1], refused[0], wrong ? "  ANSWERS DIFFER" : "");
    }
    return differ;
}

/* Committing: the symbols of the written pages, read surely; whether the data differ. */
static int committing(void) {
    static uint8_t symbols[PAGES][SYMBOLS];
    double best[2] = {1e9, 1e9};
    for (int p = 0; p < PAGES; p++) {
        for (int n = 0; n < SOFT; n++) soft[p][n] = written[1][p][n / BITS * 4 + n % BITS / 8] >> (7 - n % BITS % 8) & 1 ? 7 : 0;
        entry_ask_page(soft[p], SOFT, 200, symbols[p], SYMBOLS);
    }
    for (int round = 0; round < 5 * ROUNDS; round++) {
        double t = seconds();
        for (int p = 0; p < PAGES; p++) entry_commit_page(symbols[p], SYMBOLS, back[0][p], DATA);
        least(&best[0], t);
        t = seconds();
        for (int p = 0; p < PAGES; p++) page_baseline_commit(symbols[p], back[1][p]);
        least(&best[1], t);
    }
    int wrong = memcmp(back[0], data, sizeof data) || memcmp(back[1], data, sizeof data);
    printf("committing, microseconds a page: store | C, ratio\n");
    printf("%-14s %9.3f | %9.3f %.2f%s\n", "committing", best[0] / PAGES * 1e6, best[1] / PAGES * 1e6, best[0] / best[1], wrong ? "  DATA DIFFER" : "");
    return wrong;
}

int main(void) {
    int differ = 0;
    page_baseline_start();
    for (int p = 0; p < PAGES; p++) for (int k = 0; k < DATA; k++) data[p][k] = (uint8_t)(draw() >> 56);
    double code[2] = {1e9, 1e9};
    for (int round = 0; round < 5 * ROUNDS; round++) {
        double t = seconds();
        for (int p = 0; p < PAGES; p++) entry_encode_page(data[p], DATA, written[0][p], WRITTEN);
        least(&code[0], t);
        t = seconds();
        for (int p = 0; p < PAGES; p++) page_baseline_encode(data[p], written[1][p]);
        least(&code[1], t);
    }
    int wrong = !!memcmp(written[0], written[1], sizeof written[0]);
    differ |= wrong;
    printf("page coding, microseconds a page: store | C, ratio\n");
    printf("%-14s %9.3f | %9.3f %.2f%s\n", "coding", code[0] / PAGES * 1e6, code[1] / PAGES * 1e6, code[0] / code[1], wrong ? "  PAGES DIFFER" : "");
    differ |= committing();
    const uint64_t drawn = state;
    for (int u = 0; u < USES; u++) {
        state = drawn; /* the same pages for every use */
        differ |= decoding(&uses[u]);
    }
    for (int limit = 200; limit <= 500; limit += 300) {
        state = drawn;
        differ |= chips(limit);
    }
    return differ;
}
