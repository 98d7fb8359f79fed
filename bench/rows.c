/* Rows: the store's coding and decoding, questions included, and libfec's on the same words, in one process, in turns; the least of the rounds counts. */
#include "../tests/entries.h"
#include <fec.h>
#include <stdio.h>
#include <string.h>
#include <time.h>

enum { COLUMNS = 63, LEVELS = 4, WORDS = 256, ROUNDS = 40 };

static const int roots[LEVELS] = {30, 12, 6, 4};

static uint64_t state = 88172645463325252u;

static unsigned draw(unsigned below) {
    state ^= state << 13;
    state ^= state >> 7;
    state ^= state << 17;
    return (unsigned)(state >> 33) % below;
}

static double seconds(void) {
    struct timespec t;
    clock_gettime(CLOCK_PROCESS_CPUTIME_ID, &t);
    return (double)t.tv_sec + (double)t.tv_nsec * 1e-9;
}

static uint8_t sent[WORDS][COLUMNS], read_[WORDS][COLUMNS], marks[WORDS][COLUMNS], ours[WORDS][COLUMNS], theirs[WORDS][COLUMNS];
static int erased[WORDS][COLUMNS];

static void damage(int errors, int erasures) {
    memset(marks, 0, sizeof marks);
    memcpy(read_, sent, sizeof sent);
    for (int w = 0; w < WORDS; w++) {
        for (int k = 0; k < erasures;) {
            unsigned j = draw(COLUMNS);
            if (marks[w][j]) continue;
            marks[w][j] = 1;
            erased[w][k++] = (int)j;
            read_[w][j] = (uint8_t)draw(64);
        }
        for (int k = 0; k < errors;) {
            unsigned j = draw(COLUMNS);
            if (marks[w][j] || read_[w][j] != sent[w][j]) continue;
            read_[w][j] ^= (uint8_t)(1 + draw(63));
            k++;
        }
    }
}

int main(void) {
    int differ = 0;
    printf("rows, microseconds a row: store | libfec, ratio\n");
    for (int level = 0; level < LEVELS; level++) {
        int T = roots[level], data = COLUMNS - T;
        void *code = init_rs_char(6, 0x43, 1, 1, T, 0);
        for (int w = 0; w < WORDS; w++) {
            for (int j = 0; j < data; j++) sent[w][j] = (uint8_t)draw(64);
            encode_rs_char(code, sent[w], sent[w] + data);
        }
        const struct { const char *name; int errors, erasures; } modes[] = {
            {"clean", 0, 0}, {"1 error", 1, 0}, {"T/2 errors", T / 2, 0}, {"1 erasure", 0, 1}, {"T erasures", 0, T}, {"T/2 erasures, T/4 errors", T / 4, T / 2},
        };
        double a = 1e9, b = 1e9;
        for (int round = 0; round < ROUNDS; round++) {
            double t = seconds();
            for (int w = 0; w < WORDS; w++) entry_encode_row((uint64_t)level, sent[w], (size_t)data, ours[w], COLUMNS);
            double u = seconds();
            for (int w = 0; w < WORDS; w++) encode_rs_char(code, sent[w], theirs[w]);
            double v = seconds();
            if (u - t < a) a = u - t;
            if (v - u < b) b = v - u;
        }
        differ |= !!memcmp(ours, sent, sizeof sent);
        printf("T = %2d %-26s %7.3f | %7.3f %.2f\n", T, "encode", a / WORDS * 1e6, b / WORDS * 1e6, a / b);
        for (size_t m = 0; m < sizeof modes / sizeof modes[0]; m++) {
            damage(modes[m].errors, modes[m].erasures);
            a = b = 1e9;
            for (int round = 0; round < ROUNDS; round++) {
                memcpy(theirs, read_, sizeof read_);
                double t = seconds();
                for (int w = 0; w < WORDS; w++) entry_decode_row((uint64_t)level, read_[w], COLUMNS, marks[w], COLUMNS, ours[w], COLUMNS);
                double u = seconds();
                for (int w = 0; w < WORDS; w++) {
                    int places[COLUMNS];
                    memcpy(places, erased[w], sizeof places);
                    decode_rs_char(code, theirs[w], places, modes[m].erasures);
                }
                double v = seconds();
                if (u - t < a) a = u - t;
                if (v - u < b) b = v - u;
            }
            int wrong = memcmp(ours, sent, sizeof sent) || memcmp(theirs, sent, sizeof sent);
            differ |= !!wrong;
            printf("T = %2d %-26s %7.3f | %7.3f %.2f%s\n", T, modes[m].name, a / WORDS * 1e6, b / WORDS * 1e6, a / b, wrong ? "  WORDS DIFFER" : "");
        }
        free_rs_char(code);
    }
    return differ;
}
