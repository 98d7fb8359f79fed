/* The checker of listings as a C program calls it: what the stored vectors do not say. The true listing of a column comes from a plain model of its search: it is accepted; with a line changed, doubled,
   left out, added or cut off it is wrong at the first line that differs, and so is the listing of another search. A line that is no path is a wrong line wherever it stands. The questions in their
   order. What is lent begins or ends beside memory that no one may read. What has to occur is counted, and not to meet it fails too.
   Prints `checker: N checked, M differ`; fails if one differs. */
#define _DEFAULT_SOURCE
#include "model.h"
#include <stdlib.h>
#include <sys/mman.h>
#include <unistd.h>

enum { LENGTH = 1, LEVEL = 3, VALUE = 5, LINES = 15 };

/* --- the call --- */

/* Bytes between two pages that no one may read. The archive's own code has no sanitizer, so these are what finds a read beside a slice. */
enum { SPAN = 1 << 16 };

static uint8_t *fenced(void) {
    const size_t page = (size_t)sysconf(_SC_PAGESIZE);
    uint8_t *const at = mmap(NULL, SPAN + 2 * page, PROT_NONE, MAP_PRIVATE | MAP_ANONYMOUS, -1, 0);
    if (at != MAP_FAILED && !mprotect(at + page, SPAN, PROT_READ | PROT_WRITE)) return at + page;
    perror("tests/checker.c: memory between two pages that no one may read");
    exit(1);
}

/* So many bytes, copied to the one end of the span or to the other. */
static const void *lent(uint8_t *span, int last, const void *bytes, size_t n) { return memcpy(last ? span + SPAN - n : span, bytes, n); }

static listing_told asked(int search, const uint8_t *soft, size_t values, uint64_t level, const listing *l, size_t lengths, size_t bits) {
    static uint8_t *spans[3];
    static int last;
    for (int k = 0; k < 3 && !spans[k]; k++) spans[k] = fenced();
    last = !last;
    const uint8_t *const column = lent(spans[0], last, soft, values);
    const uint64_t *const all_lengths = lent(spans[1], last, l->lengths, lengths * sizeof l->lengths[0]), *const all_bits = lent(spans[2], last, l->bits, bits * sizeof l->bits[0]);
    const listing_told t = entry_check_listing(column, values, level, search == SUPERCODE, all_lengths, lengths, all_bits, bits);
    check(!memcmp(column, soft, values) && !memcmp(all_lengths, l->lengths, lengths * sizeof l->lengths[0]) && !memcmp(all_bits, l->bits, bits * sizeof l->bits[0]), "what is lent stays as it was");
    return t;
}

static int same(listing_told a, listing_told b) { return a.number == b.number && a.place == b.place && a.line == b.line; }

/* --- the column in hand --- */

/* A column with its level and the search, its true listing, and the path that would be taken after the last line. */
static struct { uint8_t soft[BITS]; uint64_t level; int search; listing lines; path next; } hand;

/* Columns whose search ends within 2,000 steps, and those whose search does not. By the whole search all of level 3 end: 64 words have 1,662 prefixes. */
static unsigned long ended[SEARCHES][LEVELS], spent[SEARCHES][LEVELS];

static void take_in_hand(int search, const uint8_t *soft, uint64_t level) {
    memcpy(hand.soft, soft, BITS);
    hand.level = level;
    hand.search = search;
    list_paths(search, soft, level, &hand.lines);
    hand.next = left.at[0];
    const listing *const l = &hand.lines;
    const found f = search == WHOLE ? entry_search_whole(level, soft, BITS, LARGEST) : entry_search_supercode(level, soft, BITS, LARGEST);
    check(l->ends ? !f.number && f.count == l->count && f.word == l->bits[l->count - 1] : f.number == SPENT && l->count == LARGEST, "the model's search is the store's");
    (l->ends ? ended : spent)[search][level]++;
}

/* The first line at which a listing is not the true one; 0: it is. */
static uint64_t first_wrong(const listing *l) {
    const listing *const due = &hand.lines;
    size_t k = 0;
    while (k < l->count && k < due->count && l->lengths[k] == due->lengths[k] && l->bits[k] == due->bits[k]) k++;
    return k == l->count && k == due->count && due->ends ? 0 : k + 1;
}

/* The checker says of a listing of the column in hand that it is wrong at this line; 0: that it is accepted. */
static void names_line(const char *what, const listing *l, uint64_t line) {
    check(same(asked(hand.search, hand.soft, BITS, hand.level, l, l->count, l->count), (listing_told){.line = line}), what);
}

/* And it is. */
static void judged(const char *what, const listing *l, uint64_t line) {
    check(first_wrong(l) == line, what);
    names_line(what, l, line);
}

/* --- listings that are not the true one --- */

/* The true listing, for changes. */
static listing *copied(void) {
    static listing copy;
    copy = hand.lines;
    return &copy;
}

static listing *with_line(size_t k, uint64_t length, uint64_t bits) {
    listing *const l = copied();
    l->lengths[k] = length;
    l->bits[k] = bits;
    return l;
}

static listing *exchanged(size_t j, size_t k) {
    listing *const l = with_line(j, hand.lines.lengths[k], hand.lines.bits[k]);
    l->lengths[k] = hand.lines.lengths[j];
    l->bits[k] = hand.lines.bits[j];
    return l;
}

static listing *left_out(size_t k) {
    listing *const l = copied();
    l->count--;
    memmove(l->lengths + k, l->lengths + k + 1, (l->count - k) * sizeof l->lengths[0]);
    memmove(l->bits + k, l->bits + k + 1, (l->count - k) * sizeof l->bits[0]);
    return l;
}

/* With a line more at place k; the last of 2,000 falls out. */
static listing *with_more(size_t k, uint64_t length, uint64_t bits) {
    listing *const l = copied();
    memmove(l->lengths + k + 1, l->lengths + k, (l->count - k) * sizeof l->lengths[0]);
    memmove(l->bits + k + 1, l->bits + k, (l->count - k) * sizeof l->bits[0]);
    l->lengths[k] = length;
    l->bits[k] = bits;
    if (l->count < LARGEST) l->count++;
    return l;
}

static listing *cut(size_t count) {
    listing *const l = copied();
    l->count = count;
    return l;
}

/* A line that is no path, made of one that is: of no bits or too many, with bits above its length, or with numbers of which a part is right. */
enum { MALFORMED = 16 };

static void malform(int how, uint64_t *length, uint64_t *bits) {
    const uint64_t one = 1;
    switch (how) {
    case 0: *length = *bits = 0; return;
    case 1: *length = 0; return;
    case 2: *length = 0; *bits = UINT64_MAX; return;
    case 3: *length = BITS + 1; return;
    case 4: *length = BITS + 1; *bits <<= 1; return;
    case 5: *length = 64; return;
    case 6: *length = UINT64_MAX; return;
    case 7: *length = *bits = UINT64_MAX; return;
    case 8: *length += 256; return;
    case 9: *length += one << 32; return;
    case 10: *length += one << 63; return;
    case 11: *bits |= one << *length; return;
    case 12: *bits |= one << BITS; return;
    case 13: *bits += one << 32; return;
    case 14: *bits += one << 63; return;
    default: *bits = UINT64_MAX; return;
    }
}

/* One line that is another path, or stands at another place. */
static void other_lines(size_t k) {
    const uint64_t length = hand.lines.lengths[k], bits = hand.lines.bits[k], one = 1;
    const size_t count = hand.lines.count, j = below((unsigned)count);
    judged("a line one longer", with_line(k, length + 1, bits), k + 1);
    judged("a line one shorter", with_line(k, length - 1, bits), k + 1);
    judged("a line with one bit more", with_line(k, length + 1, bits << 1), k + 1);
    judged("a line with one bit less", with_line(k, length - 1, bits >> 1), k + 1);
    judged("a line with its last bit changed", with_line(k, length, bits ^ 1), k + 1);
    judged("a line with one bit changed", with_line(k, length, bits ^ one << below((unsigned)length)), k + 1);
    if (j != k) judged("two lines exchanged", exchanged(j, k), (j < k ? j : k) + 1);
    if (k + 1 < count) judged("a line exchanged with the next", exchanged(k, k + 1), k + 1);
    if (k + 1 < LARGEST) judged("a line doubled", with_more(k + 1, length, bits), k + 2);
    judged("a line left out", left_out(k), k + 1);
}

static void malformed_lines(size_t k) {
    for (int how = 0; how < MALFORMED; how++) {
        uint64_t length = hand.lines.lengths[k], bits = hand.lines.bits[k];
        malform(how, &length, &bits);
        judged("a line that is no path", with_line(k, length, bits), k + 1);
        judged("one line more that is no path", with_more(k, length, bits), k + 1);
    }
}

/* After the answer: it once more, the path that would be taken next, lines that are no path, and the listing from its first line on. */
static void lines_after(void) {
    const size_t count = hand.lines.count;
    const uint64_t answer = hand.lines.bits[count - 1];
    if (!hand.lines.ends || count == LARGEST) return;
    judged("the answer once more", with_more(count, BITS, answer), count + 1);
    judged("the next path after the answer", with_more(count, (uint64_t)hand.next.length, hand.next.bits), count + 1);
    for (int how = 0; how < MALFORMED; how++) {
        uint64_t length = BITS, bits = answer;
        malform(how, &length, &bits);
        judged("no path after the answer", with_more(count, length, bits), count + 1);
    }
    listing *const l = copied();
    for (; l->count < LARGEST; l->count++) {
        l->lengths[l->count] = l->lengths[l->count - count];
        l->bits[l->count] = l->bits[l->count - count];
    }
    judged("the listing again after the answer", l, count + 1);
}

/* At each level: listings of the other search that are this one's too, and those that are not. */
static unsigned long alike[LEVELS], apart[LEVELS];

/* The listings of the other search, and of the next level. */
static void other_listings(void) {
    static listing other;
    list_paths(hand.search == WHOLE ? SUPERCODE : WHOLE, hand.soft, hand.level, &other);
    const uint64_t line = first_wrong(&other);
    names_line("the other search's listing", &other, line);
    (line ? apart : alike)[hand.level] += hand.lines.ends;
    list_paths(hand.search, hand.soft, (hand.level + 1) % LEVELS, &other);
    names_line("the next level's listing", &other, first_wrong(&other));
}

/* All of this on one column, at its first line, its last and one between. */
static void all_listings(void) {
    const size_t count = hand.lines.count, places[] = {0, below((unsigned)count), count - 1};
    judged("the true listing", &hand.lines, hand.lines.ends ? 0 : LARGEST + 1);
    for (size_t p = 0; p < sizeof places / sizeof places[0]; p++) {
        other_lines(places[p]);
        malformed_lines(places[p]);
        if (places[p]) judged("an early stop", cut(places[p]), places[p] + 1);
    }
    lines_after();
    other_listings();
}

static void columns(void) {
    enum { COLUMNS = 5 };
    for (uint64_t level = 0; level < LEVELS; level++)
        for (int n = 0; n < COLUMNS * KINDS; n++) {
            uint8_t soft[BITS];
            fill_column(soft, level, n % KINDS);
            for (int search = 0; search < SEARCHES; search++) {
                take_in_hand(search, soft, level);
                all_listings();
            }
        }
    for (uint64_t level = 0; level < LEVELS; level++) {
        for (int search = 0; search < SEARCHES; search++) check(ended[search][level] && !spent[search][level] == (search == WHOLE && level == 3), "columns, what occurred");
        check(alike[level] && !apart[level] == !level, "listings of the other search, what occurred");
    }
}

/* Columns that take 2,000 steps: the largest listings that are accepted. With one line more they are refused. */
static void largest_listings(void) {
    static const char *const columns_of[SEARCHES][LEVELS] = {
        {"355743243323413513720560231302", "452615136674111026656255507440", "407755144710501632115433060673", "217203265043274576320737542464"},
        {"040261054644401052332141614540", "311036633716053462512173136104", "235355425433245554225454532435", NULL},
    };
    for (int search = 0; search < SEARCHES; search++)
        for (uint64_t level = 0; level < LEVELS; level++) {
            uint8_t soft[BITS];
            if (!columns_of[search][level]) continue;
            for (int k = 0; k < BITS; k++) soft[k] = (uint8_t)(columns_of[search][level][k] - '0');
            take_in_hand(search, soft, level);
            check(hand.lines.count == LARGEST && hand.lines.ends, "a column that takes 2,000 steps");
            all_listings();
            listing *const l = copied();
            l->lengths[LARGEST] = BITS;
            l->bits[LARGEST] = l->bits[LARGEST - 1];
            check(same(asked(search, soft, BITS, level, l, ROOM, ROOM), (listing_told){.number = LINES}), "2,001 lines");
        }
}

/* --- the questions --- */

static listing_told due(const uint8_t *soft, size_t values, uint64_t level, size_t lengths, size_t bits) {
    size_t bad = 0;
    if (values != BITS || lengths != bits) return (listing_told){.number = LENGTH};
    if (lengths < 1 || lengths > LARGEST) return (listing_told){.number = LINES};
    if (level >= LEVELS) return (listing_told){.number = LEVEL};
    while (bad < BITS && soft[bad] < 8) bad++;
    return bad < BITS ? (listing_told){.number = VALUE, .place = bad} : (listing_told){.number = 0};
}

/* All that can be wrong, together and alone. Lines are those of the column in hand, or no paths: a question that is answered no tells, whatever they are. */
static void questions(void) {
    static const size_t values[] = {BITS, BITS - 1, BITS + 1, 0}, bad[] = {BITS, 0, 11, BITS - 1};
    static const uint64_t levels[] = {0, 3, LEVELS, 256, (uint64_t)1 << 32, ((uint64_t)1 << 32) + 1, UINT64_MAX};
    static const struct { size_t lengths, bits; } lines[] = {{1, 1}, {40, 40}, {LARGEST, LARGEST}, {0, 0}, {ROOM, ROOM}, {0, 1}, {1, 0}, {0, LARGEST}, {40, 39}, {39, 40}, {LARGEST, ROOM}, {ROOM, LARGEST}, {0, ROOM}, {ROOM, 0}};
    static listing l;
    unsigned long refused[LINES + 1] = {0};
    for (size_t i = 0; i < sizeof levels / sizeof levels[0]; i++)
        for (int search = 0; search < SEARCHES; search++) {
            uint8_t all[BITS + 1], soft[BITS + 1];
            for (int v = 0; v <= BITS; v++) all[v] = drawn() % 8;
            take_in_hand(search, all, levels[i] % LEVELS);
            l = hand.lines;
            for (size_t at = l.count; at < ROOM; at++) l.lengths[at] = l.bits[at] = below(64);
            for (size_t n = 0; n < sizeof values / sizeof values[0]; n++)
                for (size_t b = 0; b < sizeof bad / sizeof bad[0]; b++)
                    for (size_t k = 0; k < sizeof lines / sizeof lines[0]; k++) {
                        memcpy(soft, all, sizeof soft);
                        if (bad[b] < BITS) soft[BITS - 1] = 255;
                        if (bad[b] < BITS) soft[bad[b]] = bad[b] % 2 ? 8 : 128;
                        listing_told t = due(soft, values[n], levels[i], lines[k].lengths, lines[k].bits);
                        refused[t.number]++;
                        l.count = lines[k].lengths;
                        if (!t.number) t.line = first_wrong(&l);
                        check(same(asked(search, soft, values[n], levels[i], &l, lines[k].lengths, lines[k].bits), t), "the questions");
                    }
        }
    check(refused[0] && refused[LENGTH] && refused[LINES] && refused[LEVEL] && refused[VALUE], "the questions, what occurred");
}

/* A bad value at each place, alone and with another behind it. */
static void bad_values(void) {
    static const uint8_t values[] = {8, 9, 128, 255};
    for (size_t at = 0; at < BITS; at++)
        for (size_t k = 0; k < sizeof values; k++) {
            uint8_t soft[BITS];
            fill_column(soft, 1, 0);
            take_in_hand(SUPERCODE, soft, 1);
            soft[at] = values[k];
            for (int more = 0; more < 2; more++) {
                if (more) soft[at + below((unsigned)(BITS - at))] = 255;
                check(same(asked(SUPERCODE, soft, BITS, 1, &hand.lines, hand.lines.count, hand.lines.count), (listing_told){.number = VALUE, .place = at}), "a bad value at each place");
                check(same(asked(WHOLE, soft, BITS, LEVELS, &hand.lines, hand.lines.count, hand.lines.count), (listing_told){.number = LEVEL}), "a bad value after a bad level");
            }
        }
}

int main(void) {
    check_products();
    columns();
    largest_listings();
    questions();
    bad_values();
    printf("checker: %lu checked, %lu differ\n", checked, differ);
    return differ || !checked;
}
