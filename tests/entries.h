/* The test entries of crates/entries_c, crates/chip_entries, crates/held_entries and crates/checker_entries, as the archives that tests/make-archives builds have them. */
#ifndef ENTRIES_H
#define ENTRIES_H
#include <stdbool.h>
#include <stddef.h>
#include <stdint.h>

/* What a call tells: number 0 if nothing is refused, the place, the value. */
typedef struct { uint64_t number, place, value; } told;

/* What a search tells: the word, the count and the low point where number is 0. */
typedef struct { uint64_t number, place, word, count; int16_t low; } found;

/* What a call that fills a buffer tells. */
typedef struct { uint64_t number, place; } filled;

/* What page decoding and asking tell: of each level the totals and the marks, column j at bit j; and the low point. */
typedef struct { uint64_t number, place, steps; uint8_t changed[4], erased[4]; uint64_t changed_marks[4], erased_marks[4]; int16_t low; } paged;

/* What the chip's search tells: where number is 0 the word, the count and the low point; where it is 9 or 13 the paths taken as the count, and no word; of both whether a path was pushed out. */
typedef struct { uint64_t number, place, word, count; int16_t low; uint8_t pushed; } chip_found;

/* What page decoding by the chip's search tells: as page decoding, and whether any search made pushed a path out, which a 10 tells too. */
typedef struct { paged page; uint8_t pushed; } chip_paged;

/* A held search: its summed limit, 0 where nothing is held, its level and its column; the number of paths on the stack; the last path taken, its bits, its sum and its length; the lowest sum of those
   taken; the stack's three arrays. The store has four names. */
typedef struct { uint64_t limit, level, paths, last; int16_t sum, low; uint8_t len, column[30], lens[2002]; int16_t sums[2002]; uint32_t bits[2002]; } held_search;
typedef struct { held_search names[4]; } held_store;

/* What a call on a store tells, and the store. */
typedef struct { found found; held_store store; } held_found;

/* What the checker of listings tells: where number is 0 the first wrong line, counted from 1; 0: it is accepted. */
typedef struct { uint64_t number, place, line; } listing_told;

/* A part of the caller's own bytes. */
typedef struct { const uint8_t *bytes; size_t count; } part;

told entry_encode_column(const uint8_t *symbols, size_t count);
told entry_level_word(uint64_t level, uint64_t symbol);
told entry_reimage(uint64_t level, uint64_t column);
found entry_search_whole(uint64_t level, const uint8_t *soft, size_t count, uint64_t limit);
found entry_search_supercode(uint64_t level, const uint8_t *soft, size_t count, uint64_t limit);
found entry_search_whole_list(uint64_t level, const uint8_t *soft, size_t count, uint64_t limit, int64_t threshold);
found entry_search_supercode_list(uint64_t level, const uint8_t *soft, size_t count, uint64_t limit, int64_t threshold);
chip_found entry_search_chip(const uint8_t *soft, size_t count, uint64_t level, uint64_t limit);
held_store entry_empty_store(void);
held_found entry_hold_search(held_store store, uint64_t name, const uint8_t *soft, size_t count, uint64_t level, uint64_t limit);
held_found entry_take_up(held_store store, uint64_t name, uint64_t limit);
listing_told entry_check_listing(const uint8_t *soft, size_t count, uint64_t level, bool in_supercodes, const uint64_t *lengths, size_t lines, const uint64_t *bits, size_t lines_of_bits);
filled entry_encode_row(uint64_t level, const uint8_t *data, size_t count, uint8_t *out, size_t room);
filled entry_decode_row(uint64_t level, const uint8_t *symbols, size_t count, const uint8_t *marks, size_t marked, uint8_t *out, size_t room);
filled entry_encode_page(const uint8_t *data, size_t count, uint8_t *out, size_t room);
paged entry_decode_page(const uint8_t *soft, size_t count, uint64_t limit, uint8_t *data, size_t room);
paged entry_decode_page_whole(const uint8_t *soft, size_t count, uint64_t limit, uint8_t *data, size_t room);
paged entry_ask_page(const uint8_t *soft, size_t count, uint64_t limit, uint8_t *symbols, size_t room);
paged entry_ask_page_whole(const uint8_t *soft, size_t count, uint64_t limit, uint8_t *symbols, size_t room);
paged entry_decode_page_list(const uint8_t *soft, size_t count, uint64_t limit, int64_t threshold, uint8_t *data, size_t room);
paged entry_decode_page_whole_list(const uint8_t *soft, size_t count, uint64_t limit, int64_t threshold, uint8_t *data, size_t room);
paged entry_ask_page_list(const uint8_t *soft, size_t count, uint64_t limit, int64_t threshold, uint8_t *symbols, size_t room);
paged entry_ask_page_whole_list(const uint8_t *soft, size_t count, uint64_t limit, int64_t threshold, uint8_t *symbols, size_t room);
chip_paged entry_decode_page_chip(const uint8_t *soft, size_t count, uint64_t limit, uint8_t *data, size_t room);
filled entry_commit_page(const uint8_t *symbols, size_t count, uint8_t *data, size_t room);
void entry_column_of(const uint8_t *page, size_t count, size_t column, part *out);
filled entry_write_dump(const uint8_t *soft, size_t count, uint8_t *out, size_t room);
filled entry_read_dump(const uint8_t *dump, size_t count, uint8_t *out, size_t room);

#endif
