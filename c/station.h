/* station.h: the station's C interface to the soft page store.

   A page holds 150 bytes of data in 63 columns of 30 bits. Eight calls serve it:

       station_encode_page         data                        -> written page
       station_read_dump           chip dump                   -> soft page
       station_decode_page         soft page                   -> data and a report
       station_decode_page_limit   soft page, limit            -> data and a report
       station_decode_page_list    soft page, limit, threshold -> data and a report
       station_ask_page            soft page                   -> corrected symbols and a report
       station_ask_page_limit      soft page, limit            -> corrected symbols and a report
       station_commit_page         corrected symbols           -> data

   BUFFERS. Each is passed as a pointer and a length in bytes and stays the caller's; nothing is kept after the call. The pointer is valid for
   that length; with length 0 it may be NULL. An output may not overlap another buffer of the call.

   RESULT. 0 is success. Else it is number + 256 * place: the number of the first question that was answered no, and where. A refused call
   changes no byte of any buffer. The questions are asked in this order:

       STATION_INPUT_LENGTH    1   has the input the stated length?
       STATION_OUTPUT_LENGTH   2   has every output the stated length?
       STATION_LIMIT           4   is the limit 1..STATION_LARGEST_LIMIT?
       STATION_THRESHOLD      11   is the threshold -STATION_LARGEST_THRESHOLD..STATION_LARGEST_THRESHOLD?
       STATION_FIXED_BYTES     7   are a dump block's fixed and zero bytes right?    place: the block, 0..3
       STATION_CHECK           8   is its check right? (7 and 8 go block by block)   place: the block, 0..3
       STATION_VALUE           5   is each soft value 0..7?                          place: the first bad one in the soft page, 0..1889
                                   is each symbol 0..63?                             place: the first bad one of the symbols, 0..251
       STATION_ROW            14   is each row of symbols a word of its outer code?  place: the lowest level whose row is none, 0..3
       STATION_NO_WORD        10   is there an outer word in reach?                  place: the level, 0..3

   The place is 0 where none is named.

   LIMIT. The most steps that the search of a column takes at a level; a column that has no word by then counts as erased. The calls that name
   no limit take STATION_DEFAULT_LIMIT, which was 500 and is 200 now: worn pages take less time, and more of them are refused by 10.
   Whoever counted on 500, as the dump service did, must name it: station_decode_page_limit(soft, soft_len, 500, ...).

   LIST OF TWO. A choice that station_decode_page_list alone makes. A column that reads as a word of its level (0..3 as bit 0, 4..7 as bit 1) is taken as it
   reads, in 0 steps. Else it is searched, and where the word found has a sum below the threshold, the search goes on to a second word; of the two the
   one with the larger sum is taken, the first on a tie. The limit and the steps cover both words; where the limit ends the second search, the first
   word stands and the steps are the limit. Sums are -1,800..60 at level 0 and -1,620..240 at level 3: with the threshold -STATION_LARGEST_THRESHOLD no
   second word is sought, with STATION_LARGEST_THRESHOLD for every column that is searched and found. docs/AGING.md has a table of what thresholds do;
   asking has no list of two, so a station that decodes with it and has to know the damage before the old record is overwritten decodes into a
   second buffer of STATION_DATA_LEN bytes, reads the report, and copies.

   WEAK READINGS. A page whose soft values all read as the written bits, however weakly, never comes back as other data: decoding gives its data with no
   column changed, or refuses it by 10 because more columns are erased at a level than its row bears, 30, 12, 6 or 4. station_decode_page_list searches
   none of its columns and always gives its data, in 0 steps and with no column erased.

   ASK, THEN COMMIT. Decoding writes over its data buffer as soon as there is an answer. A station that has to know the damage before the old record
   is overwritten asks first: station_ask_page touches no data. It returns what station_decode_page would return, with the same report, and fills in
   the corrected symbols: four rows of 63, row after row, the row of level 0 first. If the report is good enough, station_commit_page writes the data
   that the rows hold, and for symbols that are as asking left them these are exactly the bytes that station_decode_page would have written.
   The buffer of symbols is not a written page, though both have 252 bytes: a written page stands column after column and goes to the flash, the
   symbols stay in the station's memory.
   Commit only symbols whose asking returned 0: after a refusal the buffer still holds what it held. Committing judges each row again, since the
   buffer may have been altered between, but it takes any four words, whoever filled them, and does not know which page was asked about: the symbols
   of another page are taken, and so is a cleared buffer, or any buffer of one repeated byte 0..63; zeros write 150 bytes of zero over the record. Of
   the symbols as asking left them, a row with 1 to 30, 12, 6 or 4 altered bytes (level 0 to 3) is always refused, by 5 where a byte is above 63 and
   else by 14; a row of random symbols 0..63 is taken once in 2^180, 2^72, 2^36 or 2^24. So keep the buffer as safe as the data, or decode into a
   second buffer of STATION_DATA_LEN bytes, read the report, and copy.

   THREADS. The calls have no state and allocate nothing; they may run at the same time on different buffers.

   STACK. As measured on x86-64, page decoding and asking take some 28 KB and the others up to 4 KB.

   The archive is libstation.a, made by `tests/make-archives station`. It needs memcpy and memset of the C library, and nothing else. */
#ifndef STATION_H
#define STATION_H

#include <stddef.h>
#include <stdint.h>

#ifdef __cplusplus
extern "C" {
#endif

/* Lengths in bytes, the numbers of levels and columns, limits, and the largest threshold: the smallest is its negative. */
enum {
    STATION_DATA_LEN = 150,
    STATION_PAGE_LEN = 252,
    STATION_SOFT_LEN = 1890,
    STATION_DUMP_LEN = 2048,
    STATION_REPORT_LEN = 78,
    STATION_SYMBOLS_LEN = 252,
    STATION_LEVELS = 4,
    STATION_COLUMNS = 63,
    STATION_DEFAULT_LIMIT = 200,
    STATION_LARGEST_LIMIT = 2000,
    STATION_LARGEST_THRESHOLD = 2000
};

/* Numbers of refusals. */
enum {
    STATION_OK = 0,
    STATION_INPUT_LENGTH = 1,
    STATION_OUTPUT_LENGTH = 2,
    STATION_LIMIT = 4,
    STATION_VALUE = 5,
    STATION_FIXED_BYTES = 7,
    STATION_CHECK = 8,
    STATION_NO_WORD = 10,
    STATION_THRESHOLD = 11,
    STATION_ROW = 14
};

/* Codes STATION_DATA_LEN bytes of data as a written page of STATION_PAGE_LEN bytes: four bytes a column, 30 bits from the top and two zeros.
   Refused by 1 and 2. */
uint64_t station_encode_page(const uint8_t *data, size_t data_len, uint8_t *page, size_t page_len);

/* Decodes a soft page of STATION_SOFT_LEN values, 30 a column; 0..3 read as bit 0 and 4..7 as bit 1, 0 and 7 being the surest. Gives
   STATION_DATA_LEN bytes of data and a report of STATION_REPORT_LEN bytes, which station_steps, station_changed, station_erased,
   station_changed_mark, station_erased_mark and station_low read. Refused by 1, 2, 4, 5 and 10. */
uint64_t station_decode_page_limit(const uint8_t *soft, size_t soft_len, uint64_t limit, uint8_t *data, size_t data_len, uint8_t *report, size_t report_len);

/* The same with STATION_DEFAULT_LIMIT. Refused by 1, 2, 5 and 10.

   A page that it refuses by 10 is not lost yet: decode it once more, with station_decode_page_limit and STATION_LARGEST_LIMIT. That decode may
   take ten times as many steps as the first. Without it the promise of fewer than one bad page in 10^16 ends at a raw bit error rate of
   0.0013 %, with it at 0.032 %, and with STATION_LARGEST_LIMIT from the start at 0.225 %, on the channel of docs/AGING.md. */
uint64_t station_decode_page(const uint8_t *soft, size_t soft_len, uint8_t *data, size_t data_len, uint8_t *report, size_t report_len);

/* station_decode_page_limit with list of two, and with the threshold named; the rates above are worked out without it, see docs/AGING.md. Refused by
   1, 2, 4, 11, 5 and 10. */
uint64_t station_decode_page_list(const uint8_t *soft, size_t soft_len, uint64_t limit, int64_t threshold, uint8_t *data, size_t data_len, uint8_t *report, size_t report_len);

/* Asks what station_decode_page_limit would give for the soft page: returns what it would, with the report that it would write, and in place of the
   data gives STATION_SYMBOLS_LEN corrected symbols for station_commit_page. Refused by 1, 2, 4, 5 and 10. */
uint64_t station_ask_page_limit(const uint8_t *soft, size_t soft_len, uint64_t limit, uint8_t *symbols, size_t symbols_len, uint8_t *report, size_t report_len);

/* The same with STATION_DEFAULT_LIMIT. Refused by 1, 2, 5 and 10. A page that it refuses by 10 is to be asked about once more, with
   station_ask_page_limit and STATION_LARGEST_LIMIT: what is said at station_decode_page holds here too. */
uint64_t station_ask_page(const uint8_t *soft, size_t soft_len, uint8_t *symbols, size_t symbols_len, uint8_t *report, size_t report_len);

/* Writes the STATION_DATA_LEN bytes of data that the four rows of STATION_SYMBOLS_LEN symbols hold. Refused by 1, 2, 5 and 14. */
uint64_t station_commit_page(const uint8_t *symbols, size_t symbols_len, uint8_t *data, size_t data_len);

/* Reads the soft page of STATION_SOFT_LEN values out of a dump of STATION_DUMP_LEN bytes, four blocks of 512. Refused by 1, 2, 7, 8 and 5. */
uint64_t station_read_dump(const uint8_t *dump, size_t dump_len, uint8_t *soft, size_t soft_len);

/* The number of a result: STATION_OK or that of the refusal. */
static inline unsigned station_number(uint64_t result) { return (unsigned)(result % 256); }

/* The place of a result. */
static inline uint64_t station_place(uint64_t result) { return result / 256; }

/* The steps that the searches of a page took together. */
static inline uint32_t station_steps(const uint8_t report[STATION_REPORT_LEN]) {
    return (uint32_t)report[0] << 24 | (uint32_t)report[1] << 16 | (uint32_t)report[2] << 8 | report[3];
}

/* How many columns the row of a level, below STATION_LEVELS, changed; erased ones are not among them. */
static inline unsigned station_changed(const uint8_t report[STATION_REPORT_LEN], unsigned level) { return report[4 + 2 * level]; }

/* How many columns of a level, below STATION_LEVELS, were erased. */
static inline unsigned station_erased(const uint8_t report[STATION_REPORT_LEN], unsigned level) { return report[5 + 2 * level]; }

/* A mark: eight bytes, high byte first. Column j stands at bit j; bit 63 is 0. */
static inline uint64_t station_mark(const uint8_t bytes[8]) {
    uint64_t mark = 0;
    for (int k = 0; k < 8; k++) mark = mark << 8 | bytes[k];
    return mark;
}

/* Which columns the row of a level, below STATION_LEVELS, changed: a mark with as many ones as station_changed says. */
static inline uint64_t station_changed_mark(const uint8_t report[STATION_REPORT_LEN], unsigned level) { return station_mark(report + 12 + 16 * level); }

/* Which columns of a level, below STATION_LEVELS, were erased: a mark with as many ones as station_erased says. */
static inline uint64_t station_erased_mark(const uint8_t report[STATION_REPORT_LEN], unsigned level) { return station_mark(report + 20 + 16 * level); }

/* How close a column came to being lost: the lowest sum that a prefix of a column's word has, over the words that the searches returned at all
   levels; with list of two words taken as they read count too. A page that is read surely has 2; the lower, the closer. Erased columns, the lost
   ones, have none: read it beside station_erased. The report ends in it: two bytes, two's complement, high byte first. */
static inline int station_low(const uint8_t report[STATION_REPORT_LEN]) {
    int32_t bits = (int32_t)report[76] << 8 | report[77];
    return (int)(bits < 32768 ? bits : bits - 65536);
}

#ifdef __cplusplus
}
#endif

#endif
