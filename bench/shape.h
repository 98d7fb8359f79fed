/* The numbers of the page that a baseline is compiled for: the short page's, or with -DLONG_PAGE the long page's. */
#ifndef SHAPE_H
#define SHAPE_H
#include <stdint.h>

enum { LEVELS = 4 };

/* the bits of a column, and what holds them; the width of a symbol, and what holds one; the field's polynomial; a row's symbols, and each level's roots; the bytes of a written column and of a page's data */
#ifdef LONG_PAGE
enum { BITS = 42, WIDTH = 9, POLYNOMIAL = 0x211, ROW = 482, MOST_ROOTS = 68, COLUMN_BYTES = 6, DATA = 2061 };
typedef uint64_t word_bits;
typedef uint16_t symbol;
static const int roots[LEVELS] = {68, 16, 8, 4};
#else
enum { BITS = 30, WIDTH = 6, POLYNOMIAL = 0x43, ROW = 63, MOST_ROOTS = 30, COLUMN_BYTES = 4, DATA = 150 };
typedef uint32_t word_bits;
typedef uint8_t symbol;
static const int roots[LEVELS] = {30, 12, 6, 4};
#endif
enum { ELEMENTS = 1 << WIDTH, WRITTEN = ROW * COLUMN_BYTES, SOFT = ROW * BITS };

#endif
