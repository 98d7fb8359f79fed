/* batch.h: the searches of many columns in one call.

   A column is 30 soft values in a buffer, one a byte; 0..3 read as bit 0 and 4..7 as bit 1, 0 and 7 being the surest. A job names a column, by its first
   byte in the buffer, and the level whose code is searched, and gets its answer written into it:

       search_batch   soft values, a list of jobs, limit -> an answer in each job

   The jobs are done in list order, each for itself: a job is answered, or refused, as in a list of its own. Columns may overlap, and jobs may be alike.

   BUFFERS. Buffer and list are passed as a pointer and a length and stay the caller's; nothing is kept after the call. The pointer is valid for that
   length, in bytes or in jobs, and any length will do; with length 0 it may be NULL. The list may not overlap the buffer. The buffer is only read.

   ANSWER. Number and place are 0, and word, count and low point are filled in. Level and first stay as they were.

   REFUSALS. The call itself refuses nothing. A refused job gets the number of the first question that was answered no, and where; its other fields keep
   what they held, so look at the number before word, count and low. The questions are asked of each job in this order:

       BATCH_OUTSIDE   12   do its 30 bytes lie in the buffer?
       BATCH_LEVEL      3   is its level 0..3?
       BATCH_LIMIT      4   is the call's limit 1..BATCH_LARGEST_LIMIT?
       BATCH_VALUE      5   is each of its soft values 0..7?   place: the first bad one in its column, 0..29
       BATCH_SPENT      9   has its search found a word within the limit?

   The place is 0 where none is named. Bytes outside the columns of the jobs may be anything.

   LIMIT. The most steps that each search takes; it is the same for all jobs of a call.

   THREADS. The call has no state and allocates nothing; it may run at the same time on different lists, the buffer being the same or not.

   STACK. As measured on x86-64, the call takes some 24 KB, whatever the lengths are.

   The archive is libstore_batches.a, made by `tests/make-archives store_batches_c`. It needs memset of the C library, and nothing else. */
#ifndef BATCH_H
#define BATCH_H

#include <stddef.h>
#include <stdint.h>

#ifdef __cplusplus
extern "C" {
#endif

/* The length of a column in bytes, and the largest limit. */
enum {
    BATCH_COLUMN_LEN = 30,
    BATCH_LARGEST_LIMIT = 2000
};

/* Numbers of refusals. */
enum {
    BATCH_OK = 0,
    BATCH_LEVEL = 3,
    BATCH_LIMIT = 4,
    BATCH_VALUE = 5,
    BATCH_SPENT = 9,
    BATCH_OUTSIDE = 12
};

/* A job of 56 bytes. The caller sets level and first, the call number and place and, where number is BATCH_OK, word, count and low. */
typedef struct {
    uint64_t level;  /* 0..3 */
    uint64_t first;  /* the column's first byte, counted from the buffer's */
    uint64_t number; /* BATCH_OK or that of the refusal */
    uint64_t place;
    uint64_t word;   /* the word found: 30 bits, the column's first as the highest */
    uint64_t count;  /* the steps that the search took */
    int64_t low;     /* the lowest sum that a prefix of the word has: the lower, the closer the column came to being lost */
} batch_job;

/* Does the jobs of a list on the columns of a buffer, with one limit, by the supercode search. */
void search_batch(const uint8_t *soft, size_t soft_len, batch_job *jobs, size_t jobs_len, uint64_t limit);

#ifdef __cplusplus
}
#endif

#endif
