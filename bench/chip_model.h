/* Two C models of the chip's search, the supercode search with 64 places on its stack: the baselines of bench/chip.c. */
#ifndef CHIP_MODEL_H
#define CHIP_MODEL_H
#include "baseline.h"

/* number 0: the word, its count and its low point; 9 or 13: the paths taken as the count. pushed: whether a path was pushed out. */
typedef struct { uint32_t word, count; int16_t low; uint8_t number, pushed; } chip_outcome;

/* of the tables the checks of the two supercodes and the branch values are looked at */
typedef chip_outcome chip_search(const uint8_t *soft, const baseline_tables *tables, int limit);
chip_search chip_plain, chip_careful;

#endif
