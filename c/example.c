/* One page of a station: weights are written, the page wears, and its bits are read as eight levels. The station asks what decoding would give, when the page is worn
   more a second time with a larger limit; it looks at the damage, and only then commits the weights in the place of its old record. Compiles as C and as C++. */
#include "station.h"
#include <stdio.h>
#include <string.h>

enum { COLUMN_BITS = 30, COLUMN_BYTES = 4, RECORD = 25, RECORDS = STATION_DATA_LEN / RECORD, ENOUGH = 1 };

/* A fixed sequence of numbers that look random. */
static uint32_t next(uint32_t *state) {
    *state = *state * 1664525u + 1013904223u;
    return *state >> 8;
}

/* Six records of 25 bytes: a pen, the weight stocked and the weight gained, on a day. */
static void weigh(uint32_t day, uint8_t data[STATION_DATA_LEN]) {
    uint32_t state = day;
    for (unsigned pen = 0; pen < RECORDS; pen++) {
        unsigned stock = next(&state) % 100000, gain = next(&state) % 100;
        char line[RECORD + 1];
        snprintf(line, sizeof line, "pen %u stock %05u gain %02u", pen % 10, stock, gain);
        memcpy(data + RECORD * pen, line, RECORD);
    }
}

/* Bit k of the page, column after column: a column's 30 bits stand at the top of its four bytes. */
static int written_bit(const uint8_t page[STATION_PAGE_LEN], int k) {
    int column = k / COLUMN_BITS, bit = k % COLUMN_BITS;
    return page[COLUMN_BYTES * column + bit / 8] >> (7 - bit % 8) & 1;
}

/* Reads a worn page. Of a thousand bits some 2 are read wrongly and surely, 8 wrongly and weakly, 100 rightly and weakly, each times the wear, the others
   rightly and surely. Gives how many were read wrongly. */
static int read_worn(const uint8_t page[STATION_PAGE_LEN], unsigned wear, uint8_t soft[STATION_SOFT_LEN]) {
    uint32_t state = 1;
    int wrong = 0;
    for (int k = 0; k < STATION_SOFT_LEN; k++) {
        uint32_t luck = next(&state) % 1000;
        int misread = luck < 10 * wear, weak = luck >= 2 * wear && luck < 110 * wear;
        int sureness = weak ? (int)(luck % 2) : 3;
        int bit = written_bit(page, k) ^ misread;
        soft[k] = (uint8_t)(bit ? 4 + sureness : 3 - sureness);
        wrong += misread;
    }
    return wrong;
}

static int refused(const char *call, uint64_t result) {
    if (station_number(result) == STATION_OK) return 0;
    printf("%s refused %u place %lu\n", call, station_number(result), (unsigned long)station_place(result));
    return 1;
}

/* How many columns, and which: column j stands at bit j of the mark. */
static void print_columns(const char *what, unsigned total, uint64_t mark) {
    printf(" %s %u%s", what, total, total ? ":" : "");
    for (unsigned j = 0; j < STATION_COLUMNS; j++)
        if (mark >> j & 1) printf(" %u", j);
}

static void print_report(const uint8_t report[STATION_REPORT_LEN]) {
    printf("steps %lu low point %d\n", (unsigned long)station_steps(report), station_low(report));
    for (unsigned level = 0; level < STATION_LEVELS; level++) {
        printf("level %u", level);
        print_columns("changed", station_changed(report, level), station_changed_mark(report, level));
        print_columns("erased", station_erased(report, level), station_erased_mark(report, level));
        printf("\n");
    }
}

/* Asks as a station should: with the default limit and, if no word is in reach then, once more with the largest. Decoding goes the same way, with the data in the place
   of the symbols. */
static uint64_t ask(const uint8_t soft[STATION_SOFT_LEN], uint8_t symbols[STATION_SYMBOLS_LEN], uint8_t report[STATION_REPORT_LEN]) {
    uint64_t result = station_ask_page(soft, STATION_SOFT_LEN, symbols, STATION_SYMBOLS_LEN, report, STATION_REPORT_LEN);
    if (station_number(result) != STATION_NO_WORD) return result;
    printf("no word in reach at level %lu with limit %d: once more with %d\n", (unsigned long)station_place(result), STATION_DEFAULT_LIMIT, STATION_LARGEST_LIMIT);
    return station_ask_page_limit(soft, STATION_SOFT_LEN, STATION_LARGEST_LIMIT, symbols, STATION_SYMBOLS_LEN, report, STATION_REPORT_LEN);
}

/* How many columns more a level could lose: twice the changed ones plus the erased ones may come to 30, 12, 6 and 4. Gives the least of the levels. */
static unsigned reserve(const uint8_t report[STATION_REPORT_LEN]) {
    static const unsigned roots[STATION_LEVELS] = {30, 12, 6, 4};
    unsigned least = roots[0];
    for (unsigned level = 0; level < STATION_LEVELS; level++) {
        unsigned left = roots[level] - (2 * station_changed(report, level) + station_erased(report, level));
        if (left < least) least = left;
    }
    return least;
}

int main(void) {
    uint8_t data[STATION_DATA_LEN], page[STATION_PAGE_LEN], soft[STATION_SOFT_LEN], symbols[STATION_SYMBOLS_LEN], record[STATION_DATA_LEN], report[STATION_REPORT_LEN];
    weigh(7, data);
    if (refused("encode", station_encode_page(data, sizeof data, page, sizeof page))) return 1;
    for (unsigned wear = 1; wear <= 2; wear++) {
        uint8_t older[STATION_DATA_LEN];
        weigh(6, older);
        memcpy(record, older, sizeof record);
        printf("%d of %d bits read wrongly\n", read_worn(page, wear, soft), STATION_SOFT_LEN);
        if (refused("ask", ask(soft, symbols, report))) return 1;
        print_report(report);
        printf("reserve %u, and the old record is %s\n", reserve(report), memcmp(record, older, sizeof record) ? "gone" : "still there");
        if (reserve(report) < ENOUGH) {
            puts("too little reserve: the old record stays");
            continue;
        }
        if (refused("commit", station_commit_page(symbols, sizeof symbols, record, sizeof record))) return 1;
        int same = !memcmp(data, record, sizeof data);
        puts(same ? "the data are as written" : "the data differ");
        if (!same) return 1;
    }
    for (int i = 0; i < RECORDS; i++) printf("%.*s\n", RECORD, (const char *)record + RECORD * i);
    return 0;
}
