/* Long pages, compiled with -DLONG_PAGE: the store's coding and decoding and the C baseline's on the same pages, as bench/decoding.h has it; then what a byte of data costs the store, beside the short page's. */
#include "../tests/long_entries.h"

enum { PAGES = 20, ROUNDS = 5 };

#include "decoding.h"

/* The uses of bench/pages.c that have no list of two. */
static const limits uses[] = {{"limit 200", 200, 0, 0, 0}, {"limit 500", 500, 0, 0, 0}, {"limit 200, and 2000 if that is refused by 10", 200, 2000, 0, 0}};
enum { USES = sizeof uses / sizeof uses[0] };

static void store_encode(int p) { long_encode_page(data[p], DATA, written[0][p], WRITTEN); }

static void decode_once(int way, int p, int limit, const limits *use) {
    static baseline_search *const searches[WAYS] = {NULL, baseline_plain, baseline_packed};
    if (way) {
        outcomes[way][p] = page_baseline_decode(searches[way], soft[p], limit, use->threshold, back[way][p]);
        return;
    }
    const long_paged o = long_decode_page(soft[p], SOFT, (uint64_t)limit, back[0][p], DATA);
    outcomes[0][p] = (page_outcome){.number = o.number, .place = o.place, .steps = o.steps, .low = o.low};
    memcpy(outcomes[0][p].changed, o.changed, sizeof o.changed);
    memcpy(outcomes[0][p].erased, o.erased, sizeof o.erased);
}

/* As many bytes of data in short pages. */
enum { SHORT_BITS = 30, SHORT_DATA = 150, SHORT_WRITTEN = 252, SHORT_SOFT = 1890, SHORT_PAGES = (PAGES * DATA + SHORT_DATA - 1) / SHORT_DATA };
static uint8_t short_data[SHORT_PAGES][SHORT_DATA], short_written[SHORT_PAGES][SHORT_WRITTEN], short_soft[SHORT_PAGES][SHORT_SOFT];

static void short_fill(double sigma) {
    for (int p = 0; p < SHORT_PAGES; p++)
        for (int n = 0; n < SHORT_SOFT; n++) short_soft[p][n] = soft_of(short_written[p][n / SHORT_BITS * 4 + n % SHORT_BITS / 8] >> (7 - n % SHORT_BITS % 8) & 1, sigma);
}

/* One row: what a byte of data costs, and of how many pages, long and short, it is told that they are refused. */
static void cost(const char *name, const double best[2], const int refused[2]) {
    const double a = best[0] / (PAGES * DATA) * 1e9, b = best[1] / (SHORT_PAGES * SHORT_DATA) * 1e9;
    printf("%-14s %9.3f | %9.3f %.2f  (refused: %d of %d pages | %d of %d)\n", name, a, b, a / b, refused[0], PAGES, refused[1], SHORT_PAGES);
}

static void coding_a_byte(void) {
    double best[2] = {1e9, 1e9};
    const int refused[2] = {0, 0};
    for (int p = 0; p < SHORT_PAGES; p++) for (int k = 0; k < SHORT_DATA; k++) short_data[p][k] = (uint8_t)(draw() >> 56);
    for (int round = 0; round < 5 * ROUNDS; round++) {
        double t = seconds();
        for (int p = 0; p < PAGES; p++) store_encode(p);
        least(&best[0], t);
        t = seconds();
        for (int p = 0; p < SHORT_PAGES; p++) entry_encode_page(short_data[p], SHORT_DATA, short_written[p], SHORT_WRITTEN);
        least(&best[1], t);
    }
    printf("coding, nanoseconds a byte of data: the store's long pages | its short pages, ratio\n");
    cost("coding", best, refused);
}

static void decoding_a_byte(int limit) {
    printf("decoding, supercode search, limit %d, nanoseconds a byte of data: the store's long pages | its short pages, ratio\n", limit);
    for (int k = 0; k < KINDS; k++) {
        double best[2] = {1e9, 1e9};
        int refused[2] = {0, 0};
        fill(kinds[k].sigma);
        short_fill(kinds[k].sigma);
        for (int round = 0; round < ROUNDS; round++) {
            refused[0] = refused[1] = 0;
            double t = seconds();
            for (int p = 0; p < PAGES; p++) refused[0] += long_decode_page(soft[p], SOFT, (uint64_t)limit, back[0][p], DATA).number != 0;
            least(&best[0], t);
            t = seconds();
            for (int p = 0; p < SHORT_PAGES; p++) refused[1] += entry_decode_page(short_soft[p], SHORT_SOFT, (uint64_t)limit, short_data[p], SHORT_DATA).number != 0;
            least(&best[1], t);
        }
        cost(kinds[k].name, best, refused);
    }
}

int main(void) {
    int differ = 0;
    page_baseline_start();
    differ |= coding();
    const uint64_t drawn = state;
    for (int u = 0; u < USES; u++) {
        state = drawn; /* the same pages for every use */
        differ |= decoding(&uses[u]);
    }
    coding_a_byte();
    decoding_a_byte(200);
    decoding_a_byte(500);
    return differ;
}
