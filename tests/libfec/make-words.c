/* Reed-Solomon words by another program: Debian's libfec, 6 bits, polynomial 0x43, first root 1, step 1, T roots. Writes lines in the format of outer.txt:
   coded words of all four levels, and words with errors and erasures up to and beyond reach. The output is stored beside this file, so that the tests
   need no libfec.   gcc -O2 -o make-words make-words.c -lfec && ./make-words > outer.txt
   libfec is no oracle for reach: where T - s is odd it also gives words with 2·e + s = T + 1. There, and wherever what it gives lies beyond
   2·e + s <= T, the line has 10, which is 01's answer. */
#include <fec.h>
#include <stdint.h>
#include <stdio.h>
#include <string.h>

enum { COLUMNS = 63, LEVELS = 4, WORDS = 6, TRIES = 40 };

static const int roots[LEVELS] = {30, 12, 6, 4};

static uint64_t state = 20261115;

/* xorshift: the same words in every run */
static unsigned draw(unsigned below) {
    state ^= state << 13;
    state ^= state >> 7;
    state ^= state << 17;
    return (unsigned)(state >> 33) % below;
}

static void print_symbols(const unsigned char *s, int n) {
    for (int i = 0; i < n; i++) printf("%02x", s[i]);
}

static void random_word(void *code, unsigned char *word, int level) {
    int data = COLUMNS - roots[level];
    for (int i = 0; i < data; i++) word[i] = (unsigned char)draw(64);
    encode_rs_char(code, word, word + data);
}

static void decode_line(void *code, int level, const unsigned char *sent, int errors, int erasures) {
    unsigned char read[COLUMNS], given[COLUMNS], marks[COLUMNS] = {0};
    int erased[COLUMNS], wrong = 0;
    memcpy(read, sent, COLUMNS);
    for (int k = 0; k < erasures;) {
        unsigned j = draw(COLUMNS);
        if (marks[j]) continue;
        marks[j] = 1;
        erased[k++] = (int)j;
        read[j] = (unsigned char)draw(64);
    }
    for (int k = 0; k < errors;) {
        unsigned j = draw(COLUMNS);
        if (marks[j] || read[j] != sent[j]) continue;
        read[j] ^= (unsigned char)(1 + draw(63));
        k++;
    }
    memcpy(given, read, COLUMNS);
    int found = decode_rs_char(code, given, erased, erasures) >= 0;
    for (int j = 0; j < COLUMNS; j++) wrong += !marks[j] && given[j] != read[j];
    printf("decode %d ", level);
    print_symbols(read, COLUMNS);
    printf(" ");
    for (int j = 0; j < COLUMNS; j++) printf("%d", marks[j]);
    printf(" ");
    if (found && 2 * wrong + erasures <= roots[level]) print_symbols(given, COLUMNS);
    else printf("10");
    printf("\n");
}

int main(void) {
    for (int level = 0; level < LEVELS; level++) {
        int T = roots[level];
        void *code = init_rs_char(6, 0x43, 1, 1, T, 0);
        unsigned char sent[COLUMNS];
        for (int k = 0; k < WORDS; k++) {
            random_word(code, sent, level);
            printf("encode %d ", level);
            print_symbols(sent, COLUMNS - T);
            printf(" ");
            print_symbols(sent, COLUMNS);
            printf("\n");
        }
        for (int k = 0; k < TRIES; k++) {
            random_word(code, sent, level);
            int erasures = (int)draw((unsigned)T + 1), most = (T - erasures) / 2;
            decode_line(code, level, sent, most ? (int)draw((unsigned)most + 1) : 0, erasures);
            decode_line(code, level, sent, most, erasures);
            decode_line(code, level, sent, most + 1, erasures);
        }
        random_word(code, sent, level);
        decode_line(code, level, sent, 0, 0);
        decode_line(code, level, sent, T / 2, 0);
        decode_line(code, level, sent, T / 2 + 1, 0);
        decode_line(code, level, sent, 0, T);
        free_rs_char(code);
    }
    return 0;
}
