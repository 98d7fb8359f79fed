/* What bench/pages.c and bench/long_pages.c share: pages coded and decoded (supercode search) by the store, questions included, and by the C baselines on the same pages, in one process, in turns; the least of
   the rounds counts. Every page's bytes and whatever is told of it are compared. PAGES and ROUNDS are the including file's. */
#ifndef DECODING_H
#define DECODING_H
#include "inputs.h"
#include "page_baseline.h"
#include <stdio.h>
#include <string.h>

#ifdef LONG_PAGE
#define PAGE "long page"
#else
#define PAGE "page"
#endif

enum { WAYS = 3, NO_WORD = 10 };

/* Limits: the first decode's and that of a second one if the first is refused by 10; 0: no second decode. With list of two its threshold comes last. */
typedef struct { const char *name; int first, then, list, threshold; } limits;

static uint8_t data[PAGES][DATA], soft[PAGES][SOFT], written[2][PAGES][WRITTEN], back[WAYS][PAGES][DATA];
static page_outcome outcomes[WAYS][PAGES];

static void least(double *best, double from) {
    double t = seconds() - from;
    if (t < *best) *best = t;
}

/* the store's coding of a page's data; and the decoding of a page by the store, way 0, or by a baseline */
static void store_encode(int p);
static void decode_once(int way, int p, int limit, const limits *use);

/* whether the page was decoded twice */
static int decode(int way, int p, const limits *use) {
    decode_once(way, p, use->first, use);
    int again = use->then && outcomes[way][p].number == NO_WORD;
    if (again) decode_once(way, p, use->then, use);
    return again;
}

/* The written pages, read with noise of the given strength. */
static void fill(double sigma) {
    for (int p = 0; p < PAGES; p++)
        for (int n = 0; n < SOFT; n++) soft[p][n] = soft_of(written[1][p][n / BITS * COLUMN_BYTES + n % BITS / 8] >> (7 - n % BITS % 8) & 1, sigma);
}

/* The rows of one use of the limits; whether an answer differs. */
static int decoding(const limits *use) {
    int differ = 0;
    printf(PAGE " decoding, supercode search, %s, microseconds a page: store | C with the plain heap, ratio | with the packed heap, ratio\n", use->name);
    for (int k = 0; k < KINDS; k++) {
        fill(kinds[k].sigma);
        double best[WAYS] = {1e9, 1e9, 1e9};
        int twice = 0;
        memset(back, 0, sizeof back);
        for (int round = 0; round < ROUNDS; round++)
            for (int way = 0; way < WAYS; way++) {
                twice = 0;
                double t = seconds();
                for (int p = 0; p < PAGES; p++) twice += decode(way, p, use);
                least(&best[way], t);
            }
        uint64_t steps = 0;
        int refused = 0, right = 0;
        for (int p = 0; p < PAGES; p++) {
            steps += outcomes[0][p].steps;
            refused += outcomes[0][p].number != 0;
            right += !memcmp(back[0][p], data[p], DATA);
        }
        int wrong = 0;
        for (int way = 1; way < WAYS; way++) wrong |= memcmp(back[0], back[way], sizeof back[0]) || memcmp(outcomes[0], outcomes[way], sizeof outcomes[0]);
        differ |= wrong;
        printf("%-14s %9.3f | %9.3f %.2f | %9.3f %.2f  (of %d pages %d as written, %d refused", kinds[k].name, best[0] / PAGES * 1e6, best[1] / PAGES * 1e6, best[0] / best[1],
               best[2] / PAGES * 1e6, best[0] / best[2], PAGES, right, refused);
        if (use->then) printf(", %d decoded twice", twice);
        printf("; %.0f steps a page not refused)%s\n", refused < PAGES ? (double)steps / (PAGES - refused) : 0.0, wrong ? "  ANSWERS DIFFER" : "");
    }
    return differ;
}

/* The row of coding, with drawn data; whether a page differs. */
static int coding(void) {
    double best[2] = {1e9, 1e9};
    for (int p = 0; p < PAGES; p++) for (int k = 0; k < DATA; k++) data[p][k] = (uint8_t)(draw() >> 56);
    for (int round = 0; round < 5 * ROUNDS; round++) {
        double t = seconds();
        for (int p = 0; p < PAGES; p++) store_encode(p);
        least(&best[0], t);
        t = seconds();
        for (int p = 0; p < PAGES; p++) page_baseline_encode(data[p], written[1][p]);
        least(&best[1], t);
    }
    int wrong = !!memcmp(written[0], written[1], sizeof written[0]);
    printf(PAGE " coding, microseconds a page: store | C, ratio\n");
    printf("%-14s %9.3f | %9.3f %.2f%s\n", "coding", best[0] / PAGES * 1e6, best[1] / PAGES * 1e6, best[0] / best[1], wrong ? "  PAGES DIFFER" : "");
    return wrong;
}

#endif
