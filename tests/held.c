/* Held searches as a C program calls them: what the stored vectors do not say. Stories of many calls from the empty store, most of which take up a held search; after each the answer is that of one
   search with the summed limit, by a plain model and by the archive's own supercode search, and the store is what point 13 of document 02 says, entry by entry. The questions in their order; four
   names in turns; sums at the border; one step at a time; several ways to one sum; and stores that no call made. What has to occur is counted, and not to meet it fails too.
   Prints `held: N checked, M differ`; fails if one differs. */
#include "model.h"
#include <stdlib.h>

enum { NAMES = 4, PLACES = 2002, LENGTH = 1, LEVEL = 3, LIMIT = 4, VALUE = 5, NAME = 16, NOTHING = 17, SUM = 18, NUMBERS };

_Static_assert(sizeof(found) == 40 && offsetof(held_search, sum) == 32 && offsetof(held_search, len) == 36 && offsetof(held_search, column) == 37 && offsetof(held_search, lens) == 67, "a held search's first fields");
_Static_assert(offsetof(held_search, sums) == 2070 && offsetof(held_search, bits) == 6076 && sizeof(held_search) == 14088, "a held search's arrays");
_Static_assert(sizeof(held_store) == 4 * 14088 && offsetof(held_found, store) == 40 && sizeof(held_found) == 40 + 4 * 14088, "a store and what a call tells");

/* --- what is expected --- */

/* What a name holds: a column, its level and its summed limit; 0: nothing. */
typedef struct { uint64_t level, limit; uint8_t column[BITS]; } kept;

/* The store, what its names are to hold, and what the last call told. */
static held_store store;
static kept names[NAMES];
static held_found reply;

/* All calls; those that take up a name with a search; how often each number was told. */
static unsigned long calls, taken_up, by_hold[NUMBERS], by_take[NUMBERS];

static const held_search nothing;

static int same_found(found a, found b) { return a.number == b.number && a.place == b.place && a.word == b.word && a.count == b.count && a.low == b.low; }

static int same_entry(const held_search *a, const held_search *b) {
    return a->limit == b->limit && a->level == b->level && a->paths == b->paths && a->last == b->last && a->sum == b->sum && a->low == b->low && a->len == b->len
           && !memcmp(a->column, b->column, sizeof a->column) && !memcmp(a->lens, b->lens, sizeof a->lens) && !memcmp(a->sums, b->sums, sizeof a->sums) && !memcmp(a->bits, b->bits, sizeof a->bits);
}

static int holds(const held_search *h, const kept *k) {
    if (!k->limit) return same_entry(h, &nothing);
    return h->limit == k->limit && h->level == k->level && !memcmp(h->column, k->column, BITS);
}

static found refusal(uint64_t number, uint64_t place) { return (found){.number = number, .place = place}; }

/* One supercode search from the start, by the model. */
static found one_search(const uint8_t *soft, uint64_t level, uint64_t limit) {
    const chip_found f = model(SUPERCODE, UNBOUNDED, soft, level, limit).told;
    return f.number ? refusal(f.number, 0) : (found){.word = f.word, .count = f.count, .low = f.low};
}

static found due_to_hold(uint64_t name, const uint8_t *soft, size_t n, uint64_t level, uint64_t limit) {
    size_t bad = 0;
    if (n != BITS) return refusal(LENGTH, 0);
    if (level >= LEVELS) return refusal(LEVEL, 0);
    if (name >= NAMES) return refusal(NAME, 0);
    if (limit - 1 >= LARGEST) return refusal(LIMIT, 0);
    while (bad < BITS && soft[bad] < 8) bad++;
    return bad < BITS ? refusal(VALUE, bad) : one_search(soft, level, limit);
}

/* The question of taking up that is answered no, of a name with this summed limit; 0: none. */
static uint64_t refused_more(uint64_t name, uint64_t summed, uint64_t limit) { return name >= NAMES ? NAME : !summed ? NOTHING : limit - 1 >= LARGEST ? LIMIT : summed > LARGEST - limit ? SUM : 0; }

static found due_to_take(uint64_t name, uint64_t limit) {
    const kept *k = &names[name % NAMES];
    const uint64_t number = refused_more(name, k->limit, limit);
    return number ? refusal(number, 0) : one_search(k->column, k->level, k->limit + limit);
}

static path path_at(const held_search *h, uint64_t j) { return (path){h->sums[j], h->lens[j], h->bits[j]}; }

static int in_order(const void *a, const void *b) { return goes_before(*(const path *)b, *(const path *)a) - goes_before(*(const path *)a, *(const path *)b); }

/* The paths of an entry in the order. */
static stack *paths_of(const held_search *h) {
    static stack s;
    s.places = UNBOUNDED;
    for (s.count = 0; (uint64_t)s.count < h->paths && s.count < PLACES; s.count++) s.at[s.count] = path_at(h, (uint64_t)s.count);
    qsort(s.at, (size_t)s.count, sizeof(path), in_order);
    return &s;
}

static int same_paths(const stack *a, const stack *b) { return a->count == b->count && !memcmp(a->at, b->at, (size_t)a->count * sizeof(path)); }

/* An entry is where the model's last search stopped: its paths with the extensions of the one taken last are the model's stack. */
static int stopped_there(const held_search *h) {
    if (h->paths > h->limit || !h->len || h->len >= BITS || h->level >= LEVELS) return 0;
    stack *s = paths_of(h);
    extend(s, (path){h->sum, h->len, (uint32_t)h->last}, SUPERCODE, h->column, h->level);
    return same_paths(s, &left);
}

/* --- the calls --- */

/* No entry but that of the changed name is another; NAMES: none at all. */
static void others_stay(const char *what, uint64_t changed) {
    for (uint64_t k = 0; k < NAMES; k++) if (k != changed) check(same_entry(&reply.store.names[k], &store.names[k]), what);
}

static void count_call(unsigned long *numbers, uint64_t held) {
    calls++;
    taken_up += held != 0;
    numbers[reply.found.number < NUMBERS ? reply.found.number : 0]++;
}

/* A first call, on any store: the answer, the entry that a 9 leaves, and all others. */
static void begin(const char *what, uint64_t name, const uint8_t *soft, size_t n, uint64_t level, uint64_t limit) {
    const found due = due_to_hold(name, soft, n, level, limit);
    const uint64_t changed = due.number == SPENT ? name : NAMES;
    reply = entry_hold_search(store, name, soft, n, level, limit);
    count_call(by_hold, 0);
    check(same_found(reply.found, due), what);
    others_stay(what, changed);
    if (changed < NAMES) {
        names[name] = (kept){.level = level, .limit = limit};
        memcpy(names[name].column, soft, BITS);
        check(holds(&reply.store.names[name], &names[name]) && stopped_there(&reply.store.names[name]), what);
    }
    if (!due.number || due.number == SPENT) check(same_found(reply.found, entry_search_supercode(level, soft, n, limit)), what);
    store = reply.store;
}

static void names_right(const char *what) { for (int k = 0; k < NAMES; k++) check(holds(&store.names[k], &names[k]), what); }

/* The calls on stores that they made from the empty one. */
static void start(void) {
    store = entry_empty_store();
    memset(names, 0, sizeof names);
    names_right("the empty store");
}

static found hold(const char *what, uint64_t name, const uint8_t *soft, size_t n, uint64_t level, uint64_t limit) {
    begin(what, name, soft, n, level, limit);
    names_right(what);
    return reply.found;
}

static found take(const char *what, uint64_t name, uint64_t limit) {
    const found due = due_to_take(name, limit);
    const int searched = !due.number || due.number == SPENT;
    kept *const k = &names[name % NAMES];
    reply = entry_take_up(store, name, limit);
    count_call(by_take, name < NAMES ? k->limit : 0);
    check(same_found(reply.found, due), what);
    others_stay(what, searched ? name : NAMES);
    if (searched) check(same_found(reply.found, entry_search_supercode(k->level, k->column, BITS, k->limit + limit)), what);
    if (due.number == SPENT) {
        k->limit += limit;
        check(stopped_there(&reply.store.names[name]), what);
    }
    if (!due.number) *k = (kept){.limit = 0};
    store = reply.store;
    names_right(what);
    return reply.found;
}

/* --- stories --- */

enum { STORIES = 150, STORY = 40, WEAKEST = 5, TRIES = 4000 };

/* A column of a kind that often lasts: random values, 3s and 4s, a word with some bits misread weakly. */
static void fill_lasting(uint8_t *soft, uint64_t level) {
    static const int lasting[] = {RANDOM, WEAKEST, RANDOM, WEAKEST, 2, 7};
    fill_column(soft, level, lasting[below(6)]);
}

static void any_hold(void) {
    uint8_t soft[2 * BITS];
    const unsigned odd = below(64);
    const uint64_t level = odd == 0 ? LEVELS + below(300) : below(LEVELS), limit = odd == 1 ? 0 : odd == 2 ? LARGEST + 1 + below(9) : odd < 12 ? 1 + below(LARGEST) : 1 + below(60);
    if (below(4)) fill_lasting(soft, level % LEVELS);
    else fill_column(soft, level % LEVELS, (int)below(KINDS));
    if (odd == 12 || odd == 2) soft[below(BITS)] = (uint8_t)(8 + below(248));
    hold("stories, a first call", odd == 13 || odd == 1 ? NAMES + below(252) : below(NAMES), soft, odd == 14 || odd == 0 ? below(2 * BITS) : BITS, level, limit);
}

/* Whether a name has a search that may take more steps. */
static int goes_on(uint64_t name) { return names[name].limit && names[name].limit < LARGEST; }

static void any_take(void) {
    uint64_t name = below(NAMES);
    const unsigned odd = below(64);
    for (int k = 0; k < NAMES && !goes_on(name) && odd > 7; k++) name = (name + 1) % NAMES;
    if (odd == 0) name = NAMES + below(252);
    const uint64_t rest = name < NAMES ? LARGEST - names[name].limit : 100;
    const uint64_t limits[] = {0, LARGEST + 1, rest, rest + 1, 1 + below(LARGEST), 1, 1 + below(20), 1 + below(20), 1 + below(200), 1 + below(200), 1 + below(200), 1 + below(600)};
    take("stories, taking up", name, limits[odd < 4 ? odd : 2 + below(10)]);
}

static void stories(void) {
    for (int n = 0; n < STORIES; n++) {
        start();
        for (int c = 0; c < STORY; c++) {
            const int still = NAMES - goes_on(0) - goes_on(1) - goes_on(2) - goes_on(3);
            if (drawn() < (still == NAMES ? 230 : 20 + 20 * still)) any_hold();
            else any_take();
        }
    }
}

/* A column that is spent at so many steps. */
static void fill_spent(uint8_t *soft, uint64_t level, uint64_t at) {
    int spent = 0;
    for (int n = 0; n < TRIES && !spent; n++) {
        fill_lasting(soft, level);
        spent = entry_search_supercode(level, soft, BITS, at).number == SPENT;
    }
    check(spent, "a column that is spent");
}

/* A column that ends in a word after so many steps at least and at most, and the steps. */
static uint64_t fill_ending(uint8_t *soft, uint64_t level, uint64_t least, uint64_t most) {
    found f = {.number = SPENT};
    for (int n = 0; n < TRIES && (f.number || f.count < least); n++) {
        fill_lasting(soft, level);
        f = entry_search_supercode(level, soft, BITS, most);
    }
    check(!f.number && f.count >= least, "a column that ends late");
    return f.count;
}

/* One step at a time from the first on: up to the word; or, of a column that is spent at 2,000, up to 600, and from 1,990 up to 2,000 and the refusal of one more. */
static void single_steps(uint64_t level, int spent) {
    enum { MANY = 600, NEARLY = 1990 };
    uint8_t soft[BITS];
    uint64_t steps = LARGEST + 1;
    if (spent) fill_spent(soft, level, LARGEST);
    else steps = fill_ending(soft, level, 300, MANY);
    start();
    check(hold("one step at a time", level, soft, BITS, level, 1).number == SPENT, "one step at a time");
    for (int n = 0; n < LARGEST && names[level].limit < steps - 1; n++) check(take("one step at a time", level, names[level].limit == MANY ? NEARLY - MANY : 1).number == SPENT, "one step at a time");
    const found end = take("one step at a time, the end", level, 1);
    check(spent ? end.number == SUM : !end.number && end.count == steps, "one step at a time, the end");
}

/* The step that takes the word: with a sum of one less the search is spent, and then a limit of 1 ends it, as does every larger one up to the sum of 2,000. */
static void last_steps(uint64_t level) {
    uint8_t soft[BITS];
    const uint64_t steps = fill_ending(soft, level, 40, LARGEST), more[] = {1, 2, LARGEST - steps + 1};
    for (size_t k = 0; k < 3; k++) {
        start();
        hold("the last step", 2, soft, BITS, level, steps / 2);
        check(take("the last step", 2, steps - 1 - steps / 2).number == SPENT, "the last step");
        const found end = take("the last step", 2, more[k]);
        check(!end.number && end.count == steps && !names[2].limit, "the last step");
        check(take("the last step, a freed name", 2, 1).number == NOTHING, "the last step, a freed name");
    }
}

/* Sums of exactly 2,000 and of one more. */
static void borders_of_the_sum(uint64_t level) {
    static const uint64_t firsts[] = {1, 2, 100, 1000, LARGEST - 1, LARGEST};
    uint8_t soft[BITS];
    fill_spent(soft, level, LARGEST);
    for (size_t f = 0; f < sizeof firsts / sizeof firsts[0]; f++) {
        const uint64_t first = firsts[f], rest = LARGEST - first;
        start();
        check(hold("sums", 3, soft, BITS, level, first).number == SPENT, "sums");
        if (rest) check(take("sums, 2,001", 3, rest + 1).number == SUM && take("sums, 2,000", 3, LARGEST).number == SUM, "sums above 2,000");
        if (rest) check(take("sums, 2,000 in all", 3, rest).number == SPENT, "sums, 2,000 in all");
        check(names[3].limit == LARGEST && take("sums, one more", 3, 1).number == SUM && take("sums, none", 3, 0).number == LIMIT && take("sums, too many", 3, LARGEST + 1).number == LIMIT, "sums, after 2,000");
    }
}

/* Four names in turns on columns and levels of their own, with steps of their own, until each has ended or stands at 2,000. */
static void interleaved(void) {
    for (int n = 0; n < 9; n++) {
        uint64_t step[NAMES];
        start();
        for (uint64_t k = 0; k < NAMES; k++) {
            uint8_t soft[BITS];
            const uint64_t level = (k + (uint64_t)n) % LEVELS;
            fill_ending(soft, level, 100, LARGEST);
            if (n % 3 == 1) fill_spent(soft, level, LARGEST);
            step[k] = 1 + below(n % 2 ? 90 : 400);
            check(hold("four names in turns, a first call", k, soft, BITS, level, 1 + below(90)).number == SPENT, "four names in turns");
        }
        for (int open = NAMES; open;) {
            open = 0;
            for (uint64_t k = 0; k < NAMES; k++) {
                if (!names[k].limit || names[k].limit == LARGEST) continue;
                const uint64_t rest = LARGEST - names[k].limit;
                if (rest < step[k]) check(take("four names in turns, too many steps", k, step[k]).number == SUM, "four names in turns");
                take("four names in turns", k, rest < step[k] ? rest : step[k]);
                open++;
            }
        }
    }
}

/* A search that is held under a used name takes its place, be it the same column with fewer steps; one that ends in its first call, or is refused, leaves the name as it was. */
static void used_names(uint64_t level) {
    uint8_t one[BITS], other[BITS], sure[BITS], bad[BITS];
    fill_spent(one, level, LARGEST);
    fill_spent(other, (level + 1) % LEVELS, LARGEST);
    fill_column(sure, level, 0);
    memcpy(bad, other, BITS);
    bad[BITS - 1] = 8;
    for (uint64_t name = 0; name < NAMES; name++) {
        start();
        hold("used names", (name + 1) % NAMES, other, BITS, (level + 1) % LEVELS, 50);
        hold("used names", name, one, BITS, level, 700);
        check(take("used names", name, 300).number == SPENT && names[name].limit == 1000, "used names");
        check(!hold("used names, a word", name, sure, BITS, level, 200).number && names[name].limit == 1000, "used names, a word");
        check(hold("used names, a bad value", name, bad, BITS, level, 200).number == VALUE && names[name].limit == 1000, "used names, a bad value");
        check(take("used names, goes on", name, 10).number == SPENT && names[name].limit == 1010, "used names, goes on");
        check(hold("used names, the same column", name, one, BITS, level, 20).number == SPENT && names[name].limit == 20, "used names, the same column");
        check(hold("used names, another column", name, other, BITS, (level + 1) % LEVELS, 30).number == SPENT && names[name].limit == 30, "used names, another column");
        check(take("used names, another column", name, 1970).number == SPENT && take("used names, the neighbour", (name + 1) % NAMES, 1950).number == SPENT, "used names, another column");
    }
}

/* Several ways to one sum leave the same search: its fields, its paths, though perhaps at other places, and its answers from there on. */
static void ways_to_a_sum(uint64_t level, int spent) {
    enum { WAYS = 6, PARTS = 10, AT = 600 };
    static const uint64_t ways[WAYS][PARTS] = {{600}, {300, 300}, {1, 599}, {599, 1}, {60, 60, 60, 60, 60, 60, 60, 60, 60, 60}, {7, 93, 250, 50, 199, 1}};
    static held_search first;
    static stack first_paths;
    uint8_t soft[BITS];
    found end = {.number = 0};
    if (spent) fill_spent(soft, level, LARGEST);
    else fill_ending(soft, level, AT + 1, LARGEST);
    for (int w = 0; w < WAYS; w++) {
        start();
        hold("ways to a sum", 1, soft, BITS, level, ways[w][0]);
        for (int p = 1; p < PARTS && ways[w][p]; p++) take("ways to a sum", 1, ways[w][p]);
        const held_search *h = &store.names[1];
        check(h->limit == AT, "ways to a sum");
        if (!w) {
            first = *h;
            first_paths = *paths_of(h);
        }
        check(h->paths == first.paths && h->last == first.last && h->sum == first.sum && h->low == first.low && h->len == first.len && same_paths(paths_of(h), &first_paths), "ways to a sum, where they stand");
        take("ways to a sum, going on", 1, 100 + below(200));
        const found f = names[1].limit ? take("ways to a sum, the rest", 1, LARGEST - names[1].limit) : reply.found;
        if (!w) end = f;
        check(same_found(f, end) && f.number == (spent ? SPENT : 0), "ways to a sum, the end");
    }
}

/* --- the questions --- */

/* Of a first call: all that can be wrong, together and alone, on a store that holds two searches and gets more. */
static void questions_of_hold(void) {
    static const size_t lengths[] = {BITS, BITS - 1, BITS + 1, 0};
    static const uint64_t levels[] = {1, 3, LEVELS, ((uint64_t)1 << 32) + 1, UINT64_MAX}, limits[] = {1, 40, 0, LARGEST + 1, ((uint64_t)1 << 32) + 5}, called[] = {0, 3, NAMES, 255, (uint64_t)1 << 32, UINT64_MAX};
    static const size_t bad[] = {BITS, 0, 11, BITS - 1};
    uint8_t spent[BITS];
    start();
    for (uint64_t k = 1; k < 3; k++) {
        fill_spent(spent, k, LARGEST);
        hold("the questions of a first call", k, spent, BITS, k, 50 * k);
    }
    for (size_t n = 0; n < sizeof lengths / sizeof lengths[0]; n++)
        for (size_t i = 0; i < sizeof levels / sizeof levels[0]; i++)
            for (size_t k = 0; k < sizeof called / sizeof called[0]; k++)
                for (size_t l = 0; l < sizeof limits / sizeof limits[0]; l++)
                    for (size_t b = 0; b < sizeof bad / sizeof bad[0]; b++) {
                        uint8_t soft[BITS + 1];
                        for (int v = 0; v <= BITS; v++) soft[v] = drawn() % 8;
                        if (bad[b] < BITS) soft[BITS - 1] = 255;
                        if (bad[b] < BITS) soft[bad[b]] = (uint8_t)(bad[b] % 2 ? 8 : 128);
                        hold("the questions of a first call", called[k], soft, lengths[n], levels[i], limits[l]);
                    }
}

/* Of taking up: names with a search, at a small sum and at 2,000, free names and none. Each call is made of the same store. */
static void questions_of_take(void) {
    static const uint64_t called[] = {0, 1, 2, 3, NAMES, 255, (uint64_t)1 << 32, ((uint64_t)1 << 32) + 1, UINT64_MAX};
    static const uint64_t limits[] = {0, 1, 100, 1899, 1900, 1901, 1999, LARGEST, LARGEST + 1, (uint64_t)1 << 32, ((uint64_t)1 << 32) + 1, (uint64_t)1 << 63, UINT64_MAX - 99, UINT64_MAX};
    static held_store made;
    kept as_made[NAMES];
    uint8_t soft[BITS];
    start();
    fill_spent(soft, 3, LARGEST);
    hold("the questions of taking up", 1, soft, BITS, 3, 100);
    fill_spent(soft, 1, LARGEST);
    hold("the questions of taking up", 3, soft, BITS, 1, LARGEST);
    made = store;
    memcpy(as_made, names, sizeof names);
    for (size_t k = 0; k < sizeof called / sizeof called[0]; k++)
        for (size_t l = 0; l < sizeof limits / sizeof limits[0]; l++) {
            take("the questions of taking up", called[k], limits[l]);
            store = made;
            memcpy(names, as_made, sizeof names);
        }
}

/* --- stores that no call made --- */

static int is_path(int sum, int length, uint64_t bits) { return length <= BITS && !(bits >> length) && sum <= 60 * length && sum >= -60 * length; }

/* Whether a search can go on from an entry with a limit up to 2,000: a level, values 0..7, no more paths than steps, each of 1..30 bits and none before the one above it. */
static int stands(const held_search *h) {
    if (h->level >= LEVELS || h->paths > h->limit || !is_path(h->sum, h->len, h->last)) return 0;
    for (int k = 0; k < BITS; k++) if (h->column[k] > 7) return 0;
    for (uint64_t j = 0; j < h->paths; j++) if (!h->lens[j] || !is_path(h->sums[j], h->lens[j], h->bits[j]) || (j && goes_before(path_at(h, j), path_at(h, (j - 1) / 4)))) return 0;
    return 1;
}

static unsigned long stood, fell;

/* Taking up from any store: it ends, by a question that is answered no, by 17 where the search cannot go on, and else by a word or a 9; no other name changes, and after a 9 the search can go on. */
static void take_any(const char *what, uint64_t name, uint64_t limit) {
    const held_search *h = &store.names[name % NAMES], *now = &reply.store.names[name % NAMES];
    const uint64_t asked = refused_more(name, h->limit, limit), number = asked ? asked : stands(h) ? 0 : NOTHING;
    reply = entry_take_up(store, name, limit);
    count_call(by_take, name < NAMES ? h->limit : 0);
    others_stay(what, number ? NAMES : name);
    stood += !number;
    fell += !asked && number;
    if (number) {
        check(same_found(reply.found, refusal(number, 0)), what);
        return;
    }
    const uint64_t summed = h->limit + limit;
    if (reply.found.number) check(same_found(reply.found, refusal(SPENT, 0)) && now->limit == summed && now->level == h->level && !memcmp(now->column, h->column, BITS) && stands(now), what);
    else check(!reply.found.place && !(reply.found.word >> BITS) && reply.found.count > h->limit && reply.found.count <= summed && same_entry(now, &nothing), what);
    store = reply.store;
}

/* Every byte of some entries is drawn; then perhaps their limit, level, column and number of paths are what they could be, so that the test of the state has to look further. */
static void random_bytes(void) {
    static held_store made;
    for (int n = 0; n < 400; n++) {
        uint8_t soft[BITS], *bytes = (uint8_t *)&made;
        for (size_t k = 0; k < sizeof made; k++) bytes[k] = drawn();
        for (int k = 0; k < NAMES; k++) {
            held_search *h = &made.names[k];
            const int care = n % 6;
            if (care > 0) h->limit = 1 + below(LARGEST);
            if (care > 1) h->level = below(LEVELS);
            for (int v = 0; v < BITS && care > 2; v++) h->column[v] &= 7;
            if (care > 3) h->paths = below(care == 4 ? 3 : (unsigned)h->limit + 1);
            if (care > 3) h->len = (uint8_t)below(BITS + 1);
            if (care > 3) h->last &= ((uint64_t)1 << h->len) - 1;
            if (care > 3) h->sum = (int16_t)(h->sum % (60 * h->len + 1));
            for (int j = 0; j < PLACES && care > 4; j++) {
                h->lens[j] = (uint8_t)(1 + below(BITS));
                h->bits[j] &= ((uint32_t)1 << h->lens[j]) - 1;
                h->sums[j] = (int16_t)(h->sums[j] % (60 * h->lens[j] + 1));
            }
        }
        store = made;
        for (int c = 0; c < 5; c++) take_any("random bytes", c < 4 ? (uint64_t)c : below(6), c % 2 ? 1 + below(50) : below(LARGEST + 2));
        fill_lasting(soft, (uint64_t)n % LEVELS);
        begin("random bytes, a first call", below(NAMES), soft, BITS, (uint64_t)n % LEVELS, 1 + below(100));
    }
}

/* Random paths in the order, on a random column: a search can go on from them, though none was ever there. */
static void random_paths(void) {
    for (int n = 0; n < 150; n++) {
        static stack s;
        held_search *h = &store.names[n % NAMES];
        start();
        h->limit = 1 + below(n % 3 ? 300 : LARGEST - 1);
        h->level = below(LEVELS);
        h->paths = n % 5 ? below((unsigned)h->limit + 1) : h->limit;
        for (int k = 0; k < BITS; k++) h->column[k] = drawn() % 8;
        s.count = 0;
        s.places = UNBOUNDED;
        for (uint64_t j = 0; j <= h->paths; j++) {
            const int length = 1 + (int)below(BITS), most = 60 * length, sum = n % 2 ? (int)below(2 * (unsigned)most + 1) - most : drawn() & 1 ? most : -most;
            put_in(&s, (path){sum, length, (uint32_t)below(1 << 24) & (((uint32_t)1 << length) - 1)});
        }
        for (uint64_t j = 0; j < h->paths; j++) {
            h->sums[j] = (int16_t)s.at[j].sum;
            h->lens[j] = (uint8_t)s.at[j].length;
            h->bits[j] = s.at[j].bits;
        }
        const path last = s.at[h->paths];
        h->sum = (int16_t)last.sum;
        h->len = (uint8_t)last.length;
        h->last = last.bits;
        h->low = (int16_t)(drawn() << 8 | drawn());
        check(stands(h), "random paths");
        for (uint64_t k = 0; k < 4 && h->limit && h->limit < LARGEST; k++) take_any("random paths", (uint64_t)(n % NAMES), 1 + below((unsigned)(LARGEST - h->limit)) / (k < 2 ? 8 : 1));
    }
}

/* What one altered field makes of a search: it cannot go on (FALLS), it can (STANDS), it is as it was (SAME), or a question is answered no before (ASKED). */
enum { FALLS, STANDS, SAME, ASKED, ALTERED = 34 };

static int alter(held_search *h, int how) {
    const uint64_t j = below((unsigned)h->paths);
    const uint32_t above = (uint32_t)1 << h->lens[j];
    const int16_t most = (int16_t)(60 * h->len), most_there = (int16_t)(60 * h->lens[j]);
    switch (how) {
    case 0: h->paths = 2003; return FALLS;
    case 1: h->paths = UINT64_MAX; return FALLS;
    case 2: h->paths = h->limit + 1; return FALLS;
    case 3: h->paths = (uint64_t)1 << 63; return FALLS;
    case 4: h->level = LEVELS; return FALLS;
    case 5: h->level |= (uint64_t)1 << 32; return FALLS;
    case 6: h->level = UINT64_MAX; return FALLS;
    case 7: h->column[0] = 8; return FALLS;
    case 8: h->column[BITS - 1] = 8; return FALLS;
    case 9: h->column[below(BITS)] = 255; return FALLS;
    case 10: h->len = BITS + 1; return FALLS;
    case 11: h->len = 255; return FALLS;
    case 12: h->last |= (uint64_t)1 << h->len; return FALLS;
    case 13: h->last |= (uint64_t)1 << 63; return FALLS;
    case 14: h->sum = (int16_t)(most + 1); return FALLS;
    case 15: h->sum = (int16_t)(-most - 1); return FALLS;
    case 16: h->sum = INT16_MIN; return FALLS;
    case 17: h->lens[j] = 0; return FALLS;
    case 18: h->lens[j] = BITS + 1; return FALLS;
    case 19: h->lens[j] = 255; return FALLS;
    case 20: h->bits[j] |= above; return FALLS;
    case 21: h->bits[j] |= (uint32_t)1 << 31; return FALLS;
    case 22: h->sums[j] = (int16_t)(most_there + 1); return FALLS;
    case 23: h->sums[j] = INT16_MIN; return FALLS;
    case 24: /* the first path at the last place */
        h->sums[h->paths - 1] = (int16_t)(h->sums[0] + 1);
        h->lens[h->paths - 1] = h->lens[0];
        h->bits[h->paths - 1] = h->bits[0];
        return FALLS;
    case 25: h->len = 0; h->last = 1; h->sum = 0; return FALLS;
    case 26: h->limit = UINT64_MAX; return ASKED;
    case 27: h->limit = LARGEST + 1; return ASKED;
    case 28: h->limit = 0; return ASKED;
    case 29: h->len = 0; h->last = 0; h->sum = 0; return STANDS;
    case 30: h->paths = 0; return STANDS;
    case 31: h->len = BITS; return STANDS;
    case 32: h->low = (int16_t)(drawn() << 8 | drawn()); return STANDS;
    default:
        for (uint64_t k = h->paths; k < PLACES; k++) {
            h->lens[k] = drawn();
            h->sums[k] = (int16_t)(drawn() << 8 | drawn());
            h->bits[k] = (uint32_t)drawn() << 24 | drawn();
        }
        return SAME;
    }
}

/* A store of four searches, with one field of one of them altered. The same with one step, with many, and with too many. */
static void altered(void) {
    static held_store made, with_one;
    static kept as_made[NAMES];
    start();
    for (uint64_t k = 0; k < NAMES; k++) {
        uint8_t soft[BITS];
        fill_spent(soft, k, 300);
        hold("altered stores", k, soft, BITS, k, 40 + below(100));
        take("altered stores", k, 1 + below(100));
    }
    made = store;
    memcpy(as_made, names, sizeof names);
    for (uint64_t name = 0; name < NAMES; name++)
        for (int how = 0; how < ALTERED; how++) {
            store = made;
            memcpy(names, as_made, sizeof names);
            held_search *h = &store.names[name];
            const int then = alter(h, how);
            if (then != ASKED) check(stands(h) == (then != FALLS), "altered stores, what stands");
            with_one = store;
            const uint64_t limits[] = {1, 60, LARGEST - as_made[name].limit, LARGEST - as_made[name].limit + 1, 0, LARGEST, UINT64_MAX};
            for (size_t l = 0; l < sizeof limits / sizeof limits[0]; l++) {
                store = with_one;
                take_any("altered stores", name, limits[l]);
                store = with_one;
                take_any("altered stores, another name", (name + 1) % NAMES, limits[l]);
                store = with_one;
                take_any("altered stores, no name", NAMES, limits[l]);
                if (then != SAME) continue;
                store = with_one;
                take("altered stores, where no path is", name, limits[l]);
                memcpy(names, as_made, sizeof names);
            }
            for (uint64_t k = 0; k < NAMES; k++) {
                store = with_one;
                begin("altered stores, a first call", k, as_made[k].column, BITS, k, 30 + below(30));
            }
        }
}

int main(void) {
    check_products();
    start();
    check(take("the empty store", 0, 1).number == NOTHING, "the empty store");
    stories();
    interleaved();
    for (uint64_t level = 0; level < LEVELS; level++) {
        single_steps(level, 0);
        single_steps(level, 1);
        last_steps(level);
        used_names(level);
        borders_of_the_sum(level);
        ways_to_a_sum(level, 0);
        ways_to_a_sum(level, 1);
    }
    questions_of_hold();
    questions_of_take();
    random_bytes();
    random_paths();
    altered();
    for (int n = 0; n < NUMBERS; n++) {
        const int asked_first = n == 0 || n == LENGTH || n == LEVEL || n == LIMIT || n == VALUE || n == SPENT || n == NAME, asked_then = n == 0 || n == LIMIT || n == SPENT || n == NAME || n == NOTHING || n == SUM;
        check(!by_hold[n] == !asked_first && !by_take[n] == !asked_then, "the numbers that occurred");
    }
    check(stood > 100 && fell > 100, "stores that no call made, what occurred");
    check(2 * taken_up >= calls, "the share of calls that take up a held search");
    printf("held: %lu checked, %lu differ\n", checked, differ);
    return differ || !checked;
}
