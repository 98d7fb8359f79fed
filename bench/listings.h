/* The listings that bench/checker.c gives to the checker. */
#ifndef LISTINGS_H
#define LISTINGS_H
#include <stddef.h>
#include <stdint.h>

/* The lengths and the bits of the paths that a search takes on a column, up to 2,000, and how many they are; 0 if it does not end by then. */
size_t listing_of(int in_supercodes, const uint8_t *soft, uint64_t level, uint64_t *lengths, uint64_t *bits);

#endif
