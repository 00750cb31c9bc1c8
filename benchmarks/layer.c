/*
 * A layer scored by hand in C: the same signature, meaning and refusals as highvane_score_layer, written for gcc -O3 at baseline
 * x86-64. Nothing is multiplied. Rows go in blocks of 16, and the frame in strips of 64 numbers: what a number of a strip comes to, its
 * sign, its size and its logarithm, is worked out once for the rows of a block, and then each row takes the strip, so that its weights
 * stand in line. Each design has its own loops.
 *
 * Products shift and add, as the chip does. Two choices are open, and layers.py measures all three:
 *   BRANCHING     signs by a branch, which is predicted wrongly where they vary; otherwise by masks
 *   PATTERNS      products by binary32 patterns, which are logarithms, as the library has them, and of which gcc takes four at a time;
 *                 they do not shift and add
 */
#include <stdlib.h>

#include "by_hand.h"

#ifndef SCORE_LAYER
#define SCORE_LAYER c_score_layer
#endif

enum { ROWS = 16, STRIP = 64, STAGES = 16 };

static inline uint32_t refusal_of(uint32_t design, uint32_t setting, size_t store_len, size_t columns, size_t frame_len,
                                  size_t scores_len) {
    if (design - 1 > 4) return HIGHVANE_UNKNOWN_DESIGN;
    uint32_t most = design == HIGHVANE_STAGED ? 16 : 15;
    if (design < HIGHVANE_STAGED ? setting != 0 : setting - 1 >= most) return HIGHVANE_SETTING_OUT_OF_RANGE;
    if (columns == 0 || columns > HIGHVANE_PAIRS_MAX) return HIGHVANE_COLUMNS_OUT_OF_RANGE;
    if (store_len % columns) return HIGHVANE_UNEVEN_STORE;
    if (frame_len != columns) return HIGHVANE_LENGTHS_DIFFER;
    if (scores_len < store_len / columns) return HIGHVANE_SCORES_TOO_SHORT;
    return HIGHVANE_ACCEPTED;
}

#ifdef PATTERNS

/* What the numbers of a strip come to. A mask is 0 where its code stands for the number 0, and all ones elsewhere. */
typedef struct {
    uint32_t codes[STRIP], masks[STRIP];    /* the number's logarithm; of design 2 that of its nearest power */
    uint32_t offsets[STRIP], others[STRIP]; /* design 2: what the power leaves, and its mask */
    uint32_t lows[STRIP], highs[STRIP];     /* design 5: what the first stage leaves where the fractions do not carry, and do */
    int32_t signs[STRIP];                   /* designs 3 and 5, whose products are those of sizes */
    uint32_t powers[STAGES][STRIP], rests[STAGES][STRIP], live[STAGES + 1][STRIP]; /* design 3, stage by stage */
    uint32_t stages;                        /* as many as a number of the strip takes, and one at least */
} strip;

static inline uint32_t mask_of(int32_t x) {
    return -(uint32_t)(x != 0);
}

/* For every design but the third. */
static inline __attribute__((always_inline)) void work_out_logs(uint32_t design, uint32_t setting, const int16_t *frame, size_t n,
                                                                strip *of) {
    const uint32_t one = pattern_of(1);
    uint32_t carry = 1u << (23 - setting), kept = -carry;
    for (size_t i = 0; i < n; i++) {
        int32_t x = frame[i];
        uint32_t p = pattern_of(x);
        of->masks[i] = mask_of(x);
        if (design == HIGHVANE_MITCHELL) {
            of->codes[i] = p - one;
        } else if (design == HIGHVANE_NEAREST_POWER) {
            uint32_t power = (p + (1 << 22)) & ~((1u << 23) - 1);
            float offset = (float)x - value_of(power);
            of->codes[i] = power - one;
            of->offsets[i] = pattern_of(offset) - one;
            of->others[i] = mask_of((int32_t)offset);
        } else if (design == HIGHVANE_TRUNCATED) {
            of->codes[i] = (p & (kept | TOP)) + (carry - one);
        } else if (design == HIGHVANE_TWICE_TRUNCATED) {
            float size = (float)abs(x);
            of->codes[i] = (pattern_of(size) & kept) + (carry - one);
            of->lows[i] = left_by_patterns(size, 0) + (SECOND_CARRY - one);
            of->highs[i] = left_by_patterns(size, -1u) + (SECOND_CARRY - one);
            of->signs[i] = x >> 31;
        }
    }
}

/* What is left of a size's pattern without its power of two. */
static inline uint32_t without_power(uint32_t p) {
    return pattern_of(value_of(p) - value_of(p & POWER));
}

/* For design 3, with the stages outside, so that gcc takes four numbers at a time. */
static inline void work_out_stages(uint32_t setting, const int16_t *frame, size_t n, strip *of) {
    uint32_t left[STRIP], any = 1;
    for (size_t i = 0; i < n; i++) {
        left[i] = pattern_of((float)abs(frame[i]));
        of->signs[i] = frame[i] >> 15;
        of->live[0][i] = mask_of((int32_t)left[i]);
    }
    for (of->stages = 0; of->stages < setting && any; of->stages++) {
        uint32_t stage = of->stages;
        any = 0;
        for (size_t i = 0; i < n; i++) {
            uint32_t rest = without_power(left[i]);
            of->powers[stage][i] = (left[i] & POWER) - pattern_of(1);
            of->rests[stage][i] = rest - pattern_of(1);
            of->live[stage + 1][i] = mask_of((int32_t)rest);
            any |= left[i] = rest;
        }
    }
}

/* The product of a weight with number i of the strip, by every design but the third. Of a weight 0 the pattern is 0, and its sum with a
   code that of a number below 1. */
static inline __attribute__((always_inline)) int32_t product_of(uint32_t design, uint32_t setting, int32_t w, const strip *of, size_t i) {
    uint32_t carry = 1u << (23 - setting), kept = -carry, p = pattern_of(w);
    if (design == HIGHVANE_MITCHELL) return (int32_t)value_of((p + of->codes[i]) & of->masks[i]);
    if (design == HIGHVANE_TRUNCATED) return (int32_t)value_of(((p & (kept | TOP)) + of->codes[i]) & of->masks[i]);
    if (design == HIGHVANE_NEAREST_POWER) {
        uint32_t power = (p + (1 << 22)) & ~((1u << 23) - 1);
        return (int32_t)value_of((p + of->codes[i]) & of->masks[i]) + (int32_t)value_of((power + of->offsets[i]) & of->others[i]);
    }
    float size = (float)abs(w);
    uint32_t a = pattern_of(size), sum = (a & kept) + of->codes[i];
    /* The carry is above 0, so the kept fractions and it come to 1 or more where the sum's fraction is not above the weight's own. */
    uint32_t fraction = (1u << 23) - 1, carried = -(uint32_t)((int32_t)(sum & fraction) <= (int32_t)(a & kept & fraction));
    uint32_t number = of->lows[i] ^ ((of->lows[i] ^ of->highs[i]) & carried);
    float second = value_of(left_by_patterns(size, carried) + number);
    int32_t product = (int32_t)value_of(sum) + (int32_t)(second > 0 ? second : 0), sign = (w >> 31) ^ of->signs[i];
    return ((product ^ sign) - sign) & (int32_t)(of->masks[i] & mask_of(w));
}

/* Sums are kept in two numbers of 32 bits, so that gcc takes four pairs at a time. */
static inline int64_t joined(int32_t high, int32_t low) {
    return (int64_t)high * 65536 + low;
}

/* What a stage adds to the product of a size, by its pattern, with number i of the strip. */
static inline int32_t stage_of(uint32_t stage, uint32_t p, const strip *of, size_t i) {
    return (int32_t)value_of((p + of->powers[stage][i]) & of->live[stage][i])
           + (int32_t)value_of(((p & POWER) + of->rests[stage][i]) & of->live[stage + 1][i]);
}

static inline int64_t staged_sum(const int16_t *weights, size_t n, const strip *of) {
    uint32_t left[STRIP];
    int32_t sums[STRIP], high = 0, low = 0;
    for (size_t i = 0; i < n; i++) {
        uint32_t p = pattern_of((float)abs(weights[i]));
        sums[i] = stage_of(0, p, of, i);
        left[i] = without_power(p);
    }
    for (uint32_t stage = 1; stage < of->stages; stage++)
        for (size_t i = 0; i < n; i++) {
            sums[i] += stage_of(stage, left[i], of, i);
            left[i] = without_power(left[i]);
        }
    for (size_t i = 0; i < n; i++) {
        int32_t sign = (weights[i] >> 15) ^ of->signs[i], product = (sums[i] ^ sign) - sign;
        high += product >> 16;
        low += product & 65535;
    }
    return joined(high, low);
}

static inline __attribute__((always_inline)) void work_out(uint32_t design, uint32_t setting, const int16_t *frame, size_t n, strip *of) {
    if (design == HIGHVANE_STAGED)
        work_out_stages(setting, frame, n, of);
    else
        work_out_logs(design, setting, frame, n, of);
}

static inline __attribute__((always_inline)) int64_t sum_of(uint32_t design, uint32_t setting, const int16_t *weights, size_t n,
                                                            const strip *of) {
    if (design == HIGHVANE_STAGED) return staged_sum(weights, n, of);
    int32_t high = 0, low = 0;
    for (size_t i = 0; i < n; i++) {
        int32_t product = product_of(design, setting, weights[i], of, i);
        high += product >> 16;
        low += product & 65535;
    }
    return joined(high, low);
}

#else

/* What stands for the leading zeros of the number 0, less 31: with those of any weight it shifts 32 bits out of 64. */
static const uint32_t NONE = 20;

typedef struct {
    uint32_t fraction, zeros; /* below the leading one at bit 31, with what a design keeps of it; leading zeros, less 31 */
} logarithm;

/* What the numbers of a strip come to. */
typedef struct {
    logarithm logs[STRIP];
    logarithm lows[STRIP], highs[STRIP]; /* design 5: what the first stage leaves where the fractions do not carry, and do */
    uint32_t powers[STAGES][STRIP], rests[STAGES][STRIP]; /* design 2, the first of each, and design 3, stage by stage */
    uint32_t stages[STRIP];
    int32_t signs[STRIP];
} strip;

static inline logarithm log_of(uint32_t size, uint32_t kept, uint32_t carry) {
    if (size == 0) return (logarithm){0, NONE};
    uint32_t zeros = leading_zeros(size);
    return (logarithm){((size << zeros) & kept) + carry, zeros - 31};
}

static inline __attribute__((always_inline)) void work_out(uint32_t design, uint32_t setting, const int16_t *frame, size_t n, strip *of) {
    uint32_t carry = TOP >> setting, kept = -carry, second = TOP >> 2;
    for (size_t i = 0; i < n; i++) {
        uint32_t size = (uint32_t)abs(frame[i]);
        of->signs[i] = frame[i] >> 15;
        if (design == HIGHVANE_MITCHELL) {
            of->logs[i] = log_of(size, -1u, 0);
        } else if (design == HIGHVANE_NEAREST_POWER) {
            /* a weight that is shifted so far leaves nothing in 32 bits */
            of->powers[0][i] = size ? near_power(size) : 32;
            of->rests[0][i] = size ? size - (1u << of->powers[0][i]) : 0;
        } else if (design == HIGHVANE_STAGED) {
            uint32_t stage = 0;
            for (; stage < setting && size; stage++) {
                uint32_t power = log2_floor(size);
                size -= 1u << power;
                of->powers[stage][i] = power;
                of->rests[stage][i] = size;
            }
            of->stages[i] = stage;
        } else {
            of->logs[i] = log_of(size, kept, carry);
            if (design == HIGHVANE_TWICE_TRUNCATED) {
                uint32_t power = size ? 1u << log2_floor(size) : 0, fraction = size - power;
                of->lows[i] = log_of(fraction, -second, second);
                of->highs[i] = log_of(size ? power - 1 - fraction : 0, -second, second);
            }
        }
    }
}

/* The product of a weight, by its shifted size and its leading zeros, with a number by its logarithm. */
static inline uint32_t powered(uint32_t fraction, uint32_t zeros, logarithm of) {
    uint32_t sum = fraction + of.fraction, shift = zeros + of.zeros;
    if (sum >> 31) shift--; /* the fractions carry into the exponent */
    return (uint32_t)((uint64_t)(sum | TOP) >> shift);
}

/* The product of a weight's size, which is not 0, with the size of number i of the strip. */
static inline __attribute__((always_inline)) uint32_t product_of(uint32_t design, uint32_t setting, uint32_t a, const strip *of, size_t i) {
    uint32_t carry = TOP >> setting, kept = -carry, second = TOP >> 2;
    if (design == HIGHVANE_NEAREST_POWER) {
        uint32_t k = near_power(a);
        return (uint32_t)((uint64_t)a << of->powers[0][i]) + (of->rests[0][i] << k);
    }
    if (design == HIGHVANE_STAGED) {
        uint32_t sum = 0;
        for (uint32_t stage = 0; stage < of->stages[i] && a; stage++) {
            uint32_t k = log2_floor(a);
            sum += (a << of->powers[stage][i]) + (of->rests[stage][i] << k);
            a -= 1u << k;
        }
        return sum;
    }
    uint32_t zeros = leading_zeros(a), shifted = a << zeros;
    if (design == HIGHVANE_MITCHELL) return powered(shifted, zeros, of->logs[i]);
    if (design == HIGHVANE_TRUNCATED) return powered(shifted & kept, zeros, of->logs[i]);
    uint32_t first = powered(shifted & kept, zeros, of->logs[i]), sum = (shifted & kept) + of->logs[i].fraction;
    uint32_t carried = (uint32_t)((int32_t)sum >> 31), left = (shifted ^ (carried | TOP)) >> zeros;
    if (left == 0) return first;
    uint32_t left_zeros = leading_zeros(left);
    return first + powered((left << left_zeros) & -second, left_zeros, (carried ? of->highs : of->lows)[i]);
}

static inline __attribute__((always_inline)) int64_t sum_of(uint32_t design, uint32_t setting, const int16_t *weights, size_t n,
                                                            const strip *of) {
    int64_t sum = 0;
    for (size_t i = 0; i < n; i++) {
        int32_t w = weights[i];
        if (w == 0) continue;
        uint32_t product = product_of(design, setting, (uint32_t)abs(w), of, i);
        int64_t sign = (w >> 31) ^ of->signs[i];
#ifdef BRANCHING
        if (sign)
            sum -= product;
        else
            sum += product;
#else
        sum += (product ^ sign) - sign;
#endif
    }
    return sum;
}

#endif

/* Always inlined, so that a constant design leaves one product in the loops. */
static inline __attribute__((always_inline)) void score(uint32_t design, uint32_t setting, const int16_t *store, size_t rows,
                                                        const int16_t *frame, size_t columns, int64_t *scores) {
    strip of;
    for (size_t first = 0, start = 0; first < rows; first += ROWS, start += ROWS * columns) {
        size_t last = rows - first < ROWS ? rows : first + ROWS;
        for (size_t from = 0; from < columns; from += STRIP) {
            size_t n = columns - from < STRIP ? columns - from : STRIP;
            const int16_t *weights = store + start + from;
            work_out(design, setting, frame + from, n, &of);
            for (size_t row = first; row < last; row++, weights += columns) {
                int64_t sum = sum_of(design, setting, weights, n, &of);
                scores[row] = from ? scores[row] + sum : sum;
            }
        }
    }
}

highvane_layer SCORE_LAYER(uint32_t design, uint32_t setting, const int16_t *store, size_t store_len, size_t columns,
                           const int16_t *frame, size_t frame_len, int64_t *scores, size_t scores_len) {
    uint32_t refusal = refusal_of(design, setting, store_len, columns, frame_len, scores_len);
    if (refusal) return (highvane_layer){0, refusal};
    size_t rows = store_len / columns;
    switch (design) {
    case HIGHVANE_MITCHELL: score(HIGHVANE_MITCHELL, 0, store, rows, frame, columns, scores); break;
    case HIGHVANE_NEAREST_POWER: score(HIGHVANE_NEAREST_POWER, 0, store, rows, frame, columns, scores); break;
    case HIGHVANE_STAGED: score(HIGHVANE_STAGED, setting, store, rows, frame, columns, scores); break;
    case HIGHVANE_TRUNCATED: score(HIGHVANE_TRUNCATED, setting, store, rows, frame, columns, scores); break;
    default: score(HIGHVANE_TWICE_TRUNCATED, setting, store, rows, frame, columns, scores);
    }
    return (highvane_layer){rows, HIGHVANE_ACCEPTED};
}
