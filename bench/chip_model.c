/* Two C models of the chip's search. The taken path leaves its place, each of its extensions goes in at its place in the order, and a 65th path pushes out the
   one placed last. Both keep a path as a struct and compare field by field; the low point is the lowest sum of the paths taken, as in the store.
   `plain` is the model as one writes it at once: the stack in the order, the first at 0, room made by memmove. `careful` goes the store's way: the first stands
   at the end, so that taking moves nothing; the path in hand is kept in locals, with 63 places beside it; the one extension that a check leaves is found by its
   parity; and the better of two extensions, which is never the one pushed out, is compared with the first before it is put in. Three arrays in the place of the
   structs were slower in C, and so was a binary search for the place. */
#include "chip_model.h"
#include <limits.h>
#include <string.h>

enum { PLACES = 64, BITS = 30, SPENT = 9, EMPTY = 13 };

typedef struct { int16_t sum; uint8_t length; uint32_t bits; } path;

static inline path path_of(int sum, unsigned length, uint32_t bits) { return (path){(int16_t)sum, (uint8_t)length, bits}; }

static inline int before(path p, path q) {
    if (p.sum != q.sum) return p.sum > q.sum;
    if (p.length != q.length) return p.length > q.length;
    return p.bits < q.bits;
}

typedef struct { path at[PLACES]; int count, pushed; } stack;

static void put_in(stack *s, path p) {
    int i = 0;
    while (i < s->count && before(s->at[i], p)) i++;
    if (s->count == PLACES) s->pushed = 1;
    else s->count++;
    if (i == PLACES) return;                                     /* the new path is the one pushed out */
    memmove(s->at + i + 1, s->at + i, (size_t)(s->count - 1 - i) * sizeof *s->at);
    s->at[i] = p;
}

static void extend(stack *s, path p, const uint8_t *soft, const baseline_tables *tables) {
    const unsigned q = soft[p.length];
    for (uint32_t bit = 0; bit < 2; bit++) {
        const uint32_t bits = p.bits << 1 | bit;
        if (__builtin_parity(bits & tables->left[p.length]) || __builtin_parity(bits & tables->right[p.length])) continue;
        put_in(s, path_of(p.sum + tables->values[bit][q], p.length + 1u, bits));
    }
}

chip_outcome chip_plain(const uint8_t *soft, const baseline_tables *tables, int limit) {
    static stack s;
    int low = INT_MAX;
    s.count = s.pushed = 0;
    extend(&s, path_of(0, 0, 0), soft, tables);
    for (int taken = 1; taken <= limit; taken++) {
        if (!s.count) return (chip_outcome){0, (uint32_t)taken - 1, 0, EMPTY, (uint8_t)s.pushed};
        const path p = s.at[0];
        memmove(s.at, s.at + 1, (size_t)--s.count * sizeof *s.at);
        if (p.sum < low) low = p.sum;
        if (p.length == BITS) return (chip_outcome){p.bits, (uint32_t)taken, (int16_t)low, 0, (uint8_t)s.pushed};
        extend(&s, p, soft, tables);
    }
    return (chip_outcome){0, (uint32_t)limit, 0, SPENT, (uint8_t)s.pushed};
}

/* Among others that are not full, from the first's end. */
static inline void put_among(path *others, int count, path p) {
    int i = count;
    for (; i && before(others[i - 1], p); i--) others[i] = others[i - 1];
    others[i] = p;
}

/* Among full others, from the last's end: the last goes, or p does. */
static inline void push_out(path *others, path p) {
    int i = 0;
    if (before(others[0], p)) return;
    for (; i < PLACES - 2 && before(p, others[i + 1]); i++) others[i] = others[i + 1];
    others[i] = p;
}

chip_outcome chip_careful(const uint8_t *soft, const baseline_tables *tables, int limit) {
    static path others[PLACES];
    int count = 0, sum = 0, low = INT_MAX;
    unsigned length = 0;
    uint32_t bits = 0;
    uint8_t pushed = 0;
    for (int taken = 1; taken <= limit; taken++) {
        path p;
        unsigned q = soft[length], u = 0, v = 0, bit = q >> 2;
        const uint32_t l = tables->left[length], r = tables->right[length], zero = bits << 1;
        if (l | r) {
            u = (unsigned)__builtin_parity(zero & l);
            v = (unsigned)__builtin_parity(zero & r);
            bit = u | v;
        } else {
            const path worse = path_of(sum + tables->values[!bit][q], length + 1, zero | !bit);
            if (count == PLACES - 1) {
                pushed = 1;
                push_out(others, worse);
            } else
                put_among(others, count++, worse);
        }
        if (l && r && u != v) {
            if (!count) return (chip_outcome){0, (uint32_t)taken - 1, 0, EMPTY, pushed};
            p = others[--count];
        } else {
            p = path_of(sum + tables->values[bit][q], length + 1, zero | bit);
            if (count && before(others[count - 1], p)) {
                const path first = others[count - 1];
                put_among(others, count - 1, p);
                p = first;
            }
        }
        sum = p.sum;
        low = sum < low ? sum : low;
        length = p.length;
        bits = p.bits;
        if (length == BITS) return (chip_outcome){bits, (uint32_t)taken, (int16_t)low, 0, pushed};
    }
    if (count == PLACES - 1 && !(tables->left[length] | tables->right[length])) pushed = 1;   /* the last path taken has two extensions, of which 64 places hold one */
    return (chip_outcome){0, (uint32_t)limit, 0, SPENT, pushed};
}
