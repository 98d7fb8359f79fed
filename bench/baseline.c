/* Two C baselines of the column search: 01's stack search as C programmers who care for speed write it. Both keep the stack as a binary heap, compare the
   better of two extensions with the root before they put it in, take the one extension that a check leaves by its parity, and skip no step. The low point is
   the lowest sum of the paths taken, as in the store.
   With list of two the hard reading is tried first, and a second search goes on from the heap that the first one left; the lowest sum of all paths taken is
   the low point of the second word too, because no path taken before a word has a sum below that word's low point.
   `plain` keeps a path as a struct and compares field by field. `packed` keeps it as one 64-bit key, sum, length and inverted bits from the top, so that
   the larger key stands before: the fastest form known to us in C, which 01's three arrays do not allow. */
#include "baseline.h"
#include <limits.h>
#include <string.h>

enum { ROOM = 2002, BITS = 30 };

typedef struct { int16_t sum; uint8_t length; uint32_t bits; } plain_path;
typedef uint64_t packed_path;

static inline plain_path plain_of(int sum, unsigned length, uint32_t bits) { return (plain_path){(int16_t)sum, (uint8_t)length, bits}; }

static inline int plain_before(plain_path p, plain_path q) {
    if (p.sum != q.sum) return p.sum > q.sum;
    if (p.length != q.length) return p.length > q.length;
    return p.bits < q.bits;
}

static inline int plain_sum(plain_path p) { return p.sum; }
static inline unsigned plain_length(plain_path p) { return p.length; }
static inline uint32_t plain_bits(plain_path p) { return p.bits; }

#define LOW 0x3ffffffffffu

static inline packed_path packed_of(int sum, unsigned length, uint32_t bits) {
    return (uint64_t)(uint16_t)(sum + 32768) << 48 | (uint64_t)length << 42 | (LOW - bits);
}

static inline int packed_before(packed_path p, packed_path q) { return p > q; }
static inline int packed_sum(packed_path p) { return (int)(p >> 48) - 32768; }
static inline unsigned packed_length(packed_path p) { return p >> 42 & 63; }
static inline uint32_t packed_bits(packed_path p) { return (uint32_t)(LOW - (p & LOW)); }

/* The hard readings of eight values as a byte, the first on top: the product moves bit 0 of byte k to bit 63 - k (on a machine with the low byte first). */
static inline uint32_t eight_hard(const uint8_t *soft) {
    uint64_t values;
    memcpy(&values, soft, sizeof values);
    return (uint32_t)((values >> 2 & 0x0101010101010101u) * 0x8040201008040201u >> 56);
}

static inline uint32_t hard_reading(const uint8_t *soft) {
    return eight_hard(soft) << 22 | eight_hard(soft + 8) << 14 | eight_hard(soft + 16) << 6 | (eight_hard(soft + 22) & 63);
}

/* the remainder of 30 bits by the level's generator; 0: a word of the level */
static inline uint32_t rest_of(uint32_t bits, const baseline_tables *tables) {
    uint32_t rest = 0;
    for (int k = 0; k < 5; k++) rest ^= tables->rests[k][bits >> 6 * k & 63];
    return rest;
}

/* the low point of the hard reading */
static inline int hard_low(const uint8_t *soft, const baseline_tables *tables) {
    int sum = 0, low = INT_MAX;
    for (int k = 0; k < BITS; k++) {
        sum += tables->values[soft[k] >> 2][soft[k]];
        low = sum < low ? sum : low;
    }
    return low;
}

/* One text for both kinds of path, and for the search with list of two and without. A first word that does not settle it has no extensions, so the next path is taken at once. */
#define INLINED static inline __attribute__((always_inline))
#define SEARCH(kind)                                                                                                                 \
    static inline void kind##_push(kind##_path *heap, int count, kind##_path p) {                                                    \
        int i = count;                                                                                                               \
        while (i) {                                                                                                                  \
            int parent = (i - 1) / 2;                                                                                                \
            if (kind##_before(heap[parent], p)) break;                                                                               \
            heap[i] = heap[parent];                                                                                                  \
            i = parent;                                                                                                              \
        }                                                                                                                            \
        heap[i] = p;                                                                                                                 \
    }                                                                                                                                \
    static inline void kind##_sink(kind##_path *heap, int count, kind##_path p) {                                                    \
        int i = 0;                                                                                                                   \
        for (int child; (child = 2 * i + 1) < count; i = child) {                                                                    \
            child += child + 1 < count && kind##_before(heap[child + 1], heap[child]);                                               \
            if (kind##_before(p, heap[child])) break;                                                                                \
            heap[i] = heap[child];                                                                                                   \
        }                                                                                                                            \
        heap[i] = p;                                                                                                                 \
    }                                                                                                                                \
    static inline kind##_path kind##_first(kind##_path *heap, int *count) {                                                          \
        kind##_path p = heap[0];                                                                                                     \
        --*count;                                                                                                                    \
        kind##_sink(heap, *count, heap[*count]);                                                                                     \
        return p;                                                                                                                    \
    }                                                                                                                                \
    INLINED baseline_outcome kind##_search(const uint8_t *soft, const baseline_tables *tables, int limit, int list, int threshold) { \
        static kind##_path heap[ROOM];                                                                                               \
        baseline_outcome first = {.spent = 1};                                                                                       \
        int count = 0, sum = 0, low = INT_MAX, first_sum = 0;                                                                        \
        unsigned length = 0;                                                                                                         \
        uint32_t bits = 0, hard = list ? hard_reading(soft) : 0;                                                                     \
        if (list && !rest_of(hard, tables)) return (baseline_outcome){hard, 0, hard_low(soft, tables), 0};                           \
        for (int taken = 1; taken <= limit; taken++) {                                                                               \
            kind##_path p;                                                                                                           \
            unsigned q = soft[length], u = 0, v = 0, bit = q >> 2;                                                                   \
            uint32_t l = tables->left[length], r = tables->right[length], zero = bits << 1;                                          \
            if (l | r) {                                                                                                             \
                u = (unsigned)__builtin_parity(zero & l);                                                                            \
                v = (unsigned)__builtin_parity(zero & r);                                                                            \
                bit = u | v;                                                                                                         \
            } else                                                                                                                   \
                kind##_push(heap, count++, kind##_of(sum + tables->values[!bit][q], length + 1, zero | !bit));                       \
            if (l && r && u != v) {                                                                                                  \
                if (!count) break;                                                                                                   \
                p = kind##_first(heap, &count);                                                                                      \
            } else {                                                                                                                 \
                p = kind##_of(sum + tables->values[bit][q], length + 1, zero | bit);                                                 \
                if (count && kind##_before(heap[0], p)) {                                                                            \
                    kind##_path before = heap[0];                                                                                    \
                    kind##_sink(heap, count, p);                                                                                     \
                    p = before;                                                                                                      \
                }                                                                                                                    \
            }                                                                                                                        \
        took:                                                                                                                        \
            sum = kind##_sum(p);                                                                                                     \
            low = sum < low ? sum : low;                                                                                             \
            length = kind##_length(p);                                                                                               \
            bits = kind##_bits(p);                                                                                                   \
            if (length != BITS) continue;                                                                                            \
            const baseline_outcome this = {bits, (uint32_t)taken, low, 0};                                                           \
            if (!list || (first.spent && sum >= threshold) || (!first.spent && sum > first_sum)) return this;                        \
            if (!first.spent) return (baseline_outcome){first.word, (uint32_t)taken, first.low, 0};                                  \
            first = this;                                                                                                            \
            first_sum = sum;                                                                                                         \
            if (++taken > limit) break;                                                                                              \
            p = kind##_first(heap, &count);                                                                                          \
            goto took;                                                                                                               \
        }                                                                                                                            \
        if (!first.spent) first.count = (uint32_t)limit;                                                                             \
        return first;                                                                                                                \
    }                                                                                                                                \
    baseline_outcome baseline_##kind(const uint8_t *soft, const baseline_tables *tables, int limit, int threshold) {                 \
        return kind##_search(soft, tables, limit, 0, threshold);                                                                     \
    }                                                                                                                                \
    baseline_outcome baseline_##kind##_list(const uint8_t *soft, const baseline_tables *tables, int limit, int threshold) {          \
        return kind##_search(soft, tables, limit, 1, threshold);                                                                     \
    }

SEARCH(plain)
SEARCH(packed)
