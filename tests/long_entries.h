/* The test entries of crates/long_entries, as the archive made by `rt staticlib` has them: the long page's calls. Symbols are 0..511 and come as 16 bits; what a call tells is told as by the entries of
   the short page, but for the report of page decoding. */
#ifndef LONG_ENTRIES_H
#define LONG_ENTRIES_H
#include "entries.h"

/* What page decoding tells: of each level the totals; and the low point. */
typedef struct { uint64_t number, place, steps; uint16_t changed[4], erased[4]; int16_t low; } long_paged;

/* Columns: that of four symbols, level 0's first; the word of a level's symbol; the symbol that a word carries at its level; and the searches of a soft column. */
told long_encode_column(const uint16_t *symbols, size_t count);
told long_level_word(uint64_t level, uint64_t symbol);
told long_reimage(uint64_t level, uint64_t column);
found long_search_whole(uint64_t level, const uint8_t *soft, size_t count, uint64_t limit);
found long_search_supercode(uint64_t level, const uint8_t *soft, size_t count, uint64_t limit);

/* Rows of 482 symbols: that of a level's data, and the word in reach of symbols and marks, a byte each. */
filled long_encode_row(uint64_t level, const uint16_t *data, size_t count, uint16_t *out, size_t room);
filled long_decode_row(uint64_t level, const uint16_t *symbols, size_t count, const uint8_t *marks, size_t marked, uint16_t *out, size_t room);

/* Pages: the 2,892 written bytes of 2,061 bytes of data; the data of a soft page of 20,244 values, by the supercode search or the whole search; and the page's own 42 bytes of a column. */
filled long_encode_page(const uint8_t *data, size_t count, uint8_t *out, size_t room);
long_paged long_decode_page(const uint8_t *soft, size_t count, uint64_t limit, uint8_t *data, size_t room);
long_paged long_decode_page_whole(const uint8_t *soft, size_t count, uint64_t limit, uint8_t *data, size_t room);
void long_column_of(const uint8_t *page, size_t count, size_t column, part *out);

#endif
