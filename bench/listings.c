/* Listings by the tests' plain model of the searches. */
#include "listings.h"
#include "../tests/model.h"

size_t listing_of(int in_supercodes, const uint8_t *soft, uint64_t level, uint64_t *lengths, uint64_t *bits) {
    static listing l;
    list_paths(in_supercodes ? SUPERCODE : WHOLE, soft, level, &l);
    memcpy(lengths, l.lengths, l.count * sizeof lengths[0]);
    memcpy(bits, l.bits, l.count * sizeof bits[0]);
    return l.ends ? l.count : 0;
}
