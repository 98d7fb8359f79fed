/* What the comparisons share: 01's factors and checks as numbers, 02's branch values, random inputs, the clock. */
#ifndef INPUTS_H
#define INPUTS_H
#include <math.h>
#include <stdint.h>
#include <time.h>

enum { BITS = 30, LEVELS = 4, KINDS = 5 };

/* random values, or the noise that gives this share of raw bit errors */
static const struct { const char *name; double sigma; } kinds[KINDS] = {
    {"random", -1}, {"clean", 0}, {"0.5 %", 1 / 2.576}, {"2 %", 1 / 2.054}, {"4 %", 1 / 1.751},
};

static const uint32_t factors[4] = {67, 87, 103, 73};

static uint64_t state = 88172645463325252u;

static inline uint64_t draw(void) {
    state ^= state << 13;
    state ^= state >> 7;
    state ^= state << 17;
    return state;
}

static inline double uniform(void) { return ((double)(draw() >> 11) + 0.5) / 9007199254740992.0; }

static inline double normal(void) { return sqrt(-2 * log(uniform())) * cos(6.283185307179586 * uniform()); }

static inline uint32_t product(uint32_t a, uint32_t b) {
    uint32_t r = 0;
    for (; b; b >>= 1, a <<= 1) if (b & 1) r ^= a;
    return r;
}

static inline int degree(uint32_t g) { return 31 - __builtin_clz(g); }

static inline uint32_t remainder_of(uint32_t w, uint32_t g) {
    for (int i = 31; i >= degree(g); i--) if (w >> i & 1) w ^= g << (i - degree(g));
    return w;
}

/* entry t: which of the t + 1 bits of a path the check at its last bit adds up */
static inline void masks_of(uint32_t g, uint32_t *masks) {
    for (int t = 1; t <= BITS; t++) {
        int rest = BITS - t;
        masks[t - 1] = 0;
        for (int k = 0; k < t; k++) masks[t - 1] |= (remainder_of((uint32_t)1 << (k + rest), g) >> rest & 1) << k;
    }
}

static inline uint32_t generator(int level) {
    uint32_t g = 1;
    for (int i = 0; i <= level; i++) g = product(g, factors[i]);
    return g;
}

/* the checks of the two supercodes; level 0 has only its code, and no check to the right */
static inline void supercode_masks(int level, uint32_t *left, uint32_t *right) {
    const uint32_t added[LEVELS] = {1, factors[1], factors[2], product(factors[2], factors[3])};
    masks_of(level < 2 ? factors[0] : product(factors[0], factors[1]), left);
    if (level) masks_of(added[level], right);
    else for (int t = 0; t < BITS; t++) right[t] = 0;
}

/* entry [k][v]: the remainder of the six bits v at x^(6k) */
static inline void rests_of(uint32_t g, uint32_t rests[5][64]) {
    for (int k = 0; k < 5; k++)
        for (uint32_t v = 0; v < 64; v++) rests[k][v] = remainder_of(v << 6 * k, g);
}

/* the level's branch values, entry [b][q] for bit b and soft value q */
static inline void branch_values(int level, int8_t values[2][8]) {
    static const int8_t of_zero[8] = {2, 1, -1, -5, -11, -20, -35, -60};
    for (int q = 0; q < 8; q++) values[0][q] = values[1][7 - q] = (int8_t)(of_zero[q] + 2 * level);
}

/* A bit read with Gaussian noise of the given strength; 0: a surest value; below 0: a random value. */
static inline uint8_t soft_of(int bit, double sigma) {
    double x = ((bit ? 1 : -1) + sigma * normal() + 1) / 2 * 7;
    int q = sigma < 0 ? (int)(draw() >> 61) : (int)lrint(x);
    return (uint8_t)(q < 0 ? 0 : q > 7 ? 7 : q);
}

static inline double seconds(void) {
    struct timespec t;
    clock_gettime(CLOCK_PROCESS_CPUTIME_ID, &t);
    return (double)t.tv_sec + (double)t.tv_nsec * 1e-9;
}

#endif
