/* The C baseline of a whole page. */
#ifndef PAGE_BASELINE_H
#define PAGE_BASELINE_H
#include "baseline.h"

/* number 0, or 10 with the level as place; of each level the totals and the marks, column j at bit j; the low point */
typedef struct { uint64_t number, place, steps; uint8_t changed[4], erased[4]; uint64_t changed_marks[4], erased_marks[4]; int64_t low; } page_outcome;

/* makes the tables; call it first */
void page_baseline_start(void);
void page_baseline_encode(const uint8_t *data, uint8_t *page);
/* the data that four rows of symbols hold; number 0, 5 or 14 with its place */
page_outcome page_baseline_commit(const uint8_t *symbols, uint8_t *data);
/* by one of the four searches; the threshold is that of list of two */
page_outcome page_baseline_decode(baseline_search *search, const uint8_t *soft, int limit, int threshold, uint8_t *data);

#endif
