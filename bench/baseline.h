/* The C baselines that bench/run compares the store with. */
#ifndef BASELINE_H
#define BASELINE_H
#include <stdint.h>

/* spent: no word; low: the word's low point */
typedef struct { uint32_t word, count; int low, spent; } baseline_outcome;

/* What a search looks up: one mask a position for each of two codes, entry t checking a path's bit t + 1; its level's branch values, entry [b][q] for
   bit b and soft value q; and, for hard readings, the remainders of six bits by the level's generator, entry [k][v] for the bits v at x^(6k). */
typedef struct { uint32_t left[30], right[30]; int8_t values[2][8]; uint32_t rests[5][64]; } baseline_tables;

/* The search, and the search with list of two, which alone looks at the threshold. */
typedef baseline_outcome baseline_search(const uint8_t *soft, const baseline_tables *tables, int limit, int threshold);
baseline_search baseline_plain, baseline_packed, baseline_plain_list, baseline_packed_list;

#endif
