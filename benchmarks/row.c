/*
 * A row scored by hand in C: the same signature, meaning and refusals as highvane_score_row, written for gcc -O3 at baseline
 * x86-64. The design products shift and add, as the chip does; only the true product multiplies. At width 16 every product is
 * below 2^31, so the products need 32 bits and the sums 64.
 *
 * Two choices are open, and run.py measures all four, so that none of them is picked for the comparison:
 *   ONE_LOOP      one loop that asks for the design at each pair; otherwise a loop for each design, faster and larger
 *   MASKED_SIGNS  signs by masks; otherwise by a branch, which is fewer instructions and is predicted wrongly where signs vary
 * And some can be had by other means, as a measure of what is possible:
 *   PATTERNS      designs 1 and 5 by binary32 patterns, which are logarithms, as the library has design 1; they do not shift and add
 *   PLACE_AFTER   the largest residue and its place by a loop of their own after that of the pairs; where gcc takes several pairs at
 *                 a time, as with every instruction of a machine of today, the place in the loop would keep it from that
 *
 * The rest is what gave the fewest instructions at gcc -O3. These were measured and gave more, for a pair where each design has
 * its loop: Mitchell with its leading ones cleared and its sum compared (1 to 11 more); the nearest power by a bit or a condition
 * (2 to 8); the stages with their leading ones cleared by `&` or `^` (2 to 3 a stage); the truncated product scaled down by 2^t
 * and up again (7 to 8); the twice truncated one so scaled (14 to 15), with what is left by a mask that is shifted down (4) or by
 * differences under masks (10 to 11), with the carry into the exponent by a condition (1 to 2), and with parts that are 0 by
 * masks (6 to 12); counting the pairs without a 0 and not those with one (1 to 2); summing the error and the true products below
 * 0, as the library does, and not the score and the sizes (1 with a branch on signs; with masks from 1 less to 1 more). A branch
 * on the carry of the fractions gave 1 less, or up to 2 in design 5, and at every other pair one more branch that is predicted
 * wrongly, so that design 5 took 1.4 to 1.5 times the time; so it did with what is left by a condition, of which gcc makes a
 * branch. None of the other forms of design 5 was faster, and none took above 1.11 times the time. The largest residue and its
 * place by a loop of their own took 1.04 to 1.15 times the time of rows of 4,096 pairs.
 */
#include <stdlib.h>

#include "by_hand.h"

#ifndef SCORE_ROW
#define SCORE_ROW c_score_row
#endif

static inline uint32_t mitchell(uint32_t a, uint32_t b) {
    uint32_t k = leading_zeros(a), m = leading_zeros(b);
    /* both leading ones stand at bit 31 and cancel modulo 2^32 */
    return power_of((a << k) + (b << m), k + m);
}

static inline uint32_t nearest(uint32_t a, uint32_t b) {
    uint32_t k = near_power(a), m = near_power(b);
    return (a << m) + (b << k) - (1u << (k + m));
}

static inline uint32_t staged(uint32_t stages, uint32_t a, uint32_t b) {
    uint32_t sum = 0;
    do {
        uint32_t k = log2_floor(a), m = log2_floor(b);
        sum += a << m;
        b -= 1u << m;
        sum += b << k;
        a -= 1u << k;
    } while (--stages && a && b);
    return sum;
}

/* Always inlined, since two designs have it: as a call, at gcc -Os, it takes more instructions and more bytes. */
static inline __attribute__((always_inline)) uint32_t truncated(uint32_t kept_bits, uint32_t a, uint32_t b) {
    uint32_t k = leading_zeros(a), m = leading_zeros(b);
    return power_of(kept_sum(kept_bits, a << k, b << m), k + m);
}

static inline uint32_t twice_truncated(uint32_t kept_bits, uint32_t a, uint32_t b) {
    uint32_t k = leading_zeros(a), m = leading_zeros(b);
    a <<= k, b <<= m;
    uint32_t sum = kept_sum(kept_bits, a, b), carried = (uint32_t)((int32_t)sum >> 31);
    uint32_t first = (sum | TOP) >> (k + m + carried - 31);
    /* what is left is the fraction, or where the fractions carry its bits inverted, and never the leading one */
    uint32_t inverted = carried | TOP;
    a = (a ^ inverted) >> k, b = (b ^ inverted) >> m;
    return a && b ? first + truncated(2, a, b) : first;
}

static inline uint32_t product_of(uint32_t design, uint32_t setting, uint32_t a, uint32_t b) {
    switch (design) {
    case HIGHVANE_MITCHELL: return mitchell(a, b);
    case HIGHVANE_NEAREST_POWER: return nearest(a, b);
    case HIGHVANE_STAGED: return staged(setting, a, b);
    case HIGHVANE_TRUNCATED: return truncated(setting, a, b);
    default: return twice_truncated(setting, a, b);
    }
}

static inline uint32_t size_of(int32_t x) {
#ifdef ONE_LOOP
    return (uint32_t)abs(x);
#else
    /* up to 1 fewer than abs here; in the one loop abs is up to 4 fewer */
    int32_t sign = x >> 31;
    return (uint32_t)((x ^ sign) - sign);
#endif
}

/* Always inlined, so that a constant design leaves one kernel in the loop. */
static inline __attribute__((always_inline)) highvane_report accumulate(uint32_t design, uint32_t setting, const int16_t *weights,
                                                                        const int16_t *frame, size_t pairs, int64_t *residues) {
    int64_t score = 0, true_sum = 0;
    uint64_t magnitude_sum = 0, zero_pairs = 0, largest = 0, place = 0;
    for (size_t i = 0; i < pairs; i++) {
        int32_t w = weights[i], x = frame[i], truth = w * x;
        if (truth == 0) {
            residues[i] = 0;
            zero_pairs++;
            continue;
        }
        uint32_t product = product_of(design, setting, size_of(w), size_of(x));
#ifdef MASKED_SIGNS
        int64_t sign = truth >> 31, signed_product = (product ^ sign) - sign;
        score += signed_product;
        magnitude_sum += (uint64_t)((truth ^ sign) - sign);
        residues[i] = truth - signed_product;
        true_sum += truth;
#else
        true_sum += truth;
        if (truth < 0) {
            score -= product;
            magnitude_sum -= (uint64_t)truth;
            residues[i] = (int64_t)truth + product;
        } else {
            score += product;
            magnitude_sum += (uint64_t)truth;
            residues[i] = (int64_t)truth - product;
        }
#endif
#ifndef PLACE_AFTER
        uint64_t size = (uint64_t)llabs(residues[i]);
        if (size > largest) largest = size, place = i;
#endif
    }
#ifdef PLACE_AFTER
    for (size_t i = 0; i < pairs; i++) {
        uint64_t size = (uint64_t)llabs(residues[i]);
        if (size > largest) largest = size, place = i;
    }
#endif
    return (highvane_report){score,   true_sum, true_sum - score, magnitude_sum, pairs - zero_pairs,
                             largest, place,    HIGHVANE_ACCEPTED};
}

#ifdef PATTERNS
/* The patterns of two numbers, added, less that of 1, are the pattern of design 1's product, with its sign. */
static inline int32_t mitchell_by_patterns(int32_t w, int32_t x, int32_t truth) {
    uint32_t sum = pattern_of(w) + pattern_of(x) - pattern_of(1);
    return (int32_t)value_of(truth == 0 ? 0 : sum);
}

/* So are those of design 5, of sizes, by what is kept of the patterns and the carry. Where one of the parts left is 0, and so its
   pattern, the second sum is the pattern of a number below 1, and where both are that of one below 0. No step has a condition that
   gcc would make a branch of, so it takes four pairs at a time. */
static inline int32_t twice_by_patterns(uint32_t kept_bits, int32_t w, int32_t x, int32_t truth) {
    float a = (float)abs(w), b = (float)abs(x);
    uint32_t carry = 1u << (23 - kept_bits), kept = -carry;
    uint32_t sum = (pattern_of(a) & kept) + (pattern_of(b) & kept) + (carry - pattern_of(1));
    /* the last bit of the exponent tells whether the fractions carry into it, and that of the pattern of 1 is set */
    uint32_t carried = ~(uint32_t)((int32_t)((sum ^ pattern_of(a) ^ pattern_of(b)) << 8) >> 31);
    float second = value_of(left_by_patterns(a, carried) + left_by_patterns(b, carried) + (SECOND_CARRY - pattern_of(1)));
    int32_t size = (int32_t)value_of(sum) + (int32_t)(second > 0 ? second : 0), sign = truth >> 31;
    return ((size ^ sign) - sign) & -(truth != 0);
}

static inline __attribute__((always_inline)) highvane_report accumulate_patterns(uint32_t design, uint32_t setting,
                                                                                 const int16_t *weights, const int16_t *frame,
                                                                                 size_t pairs, int64_t *residues) {
    int64_t true_sum = 0, error = 0;
    uint64_t magnitude_sum = 0, nonzero_pairs = 0, place = 0;
    int32_t largest = 0;
    for (size_t i = 0; i < pairs; i++) {
        int32_t w = weights[i], x = frame[i], truth = w * x;
        int32_t product = design == HIGHVANE_MITCHELL ? mitchell_by_patterns(w, x, truth)
                                                      : twice_by_patterns(setting, w, x, truth);
        int32_t residue = truth - product;
        true_sum += truth;
        error += residue;
        magnitude_sum += (uint32_t)abs(truth);
        nonzero_pairs += truth != 0;
        residues[i] = residue;
        /* with a place in the loop gcc takes no pairs of design 5 together, and those of design 1 it takes one by one in any case */
        if (abs(residue) > largest) largest = abs(residue), place = design == HIGHVANE_MITCHELL ? i : 0;
    }
    if (design != HIGHVANE_MITCHELL)
        while (place < pairs && llabs(residues[place]) != largest) place++;
    return (highvane_report){true_sum - error,  true_sum, error, magnitude_sum, nonzero_pairs,
                             (uint64_t)largest, place,    HIGHVANE_ACCEPTED};
}
#endif

static inline uint32_t refusal_of(uint32_t design, uint32_t setting, size_t weights_len, size_t frame_len, size_t residues_len) {
    if (design - 1 > 4) return HIGHVANE_UNKNOWN_DESIGN;
    uint32_t most = design == HIGHVANE_STAGED ? 16 : 15;
    if (design < HIGHVANE_STAGED ? setting != 0 : setting - 1 >= most) return HIGHVANE_SETTING_OUT_OF_RANGE;
    if (weights_len != frame_len) return HIGHVANE_LENGTHS_DIFFER;
    if (weights_len > HIGHVANE_PAIRS_MAX) return HIGHVANE_TOO_MANY_PAIRS;
    if (residues_len < weights_len) return HIGHVANE_RESIDUES_TOO_SHORT;
    return HIGHVANE_ACCEPTED;
}

highvane_report SCORE_ROW(uint32_t design, uint32_t setting, const int16_t *weights, size_t weights_len, const int16_t *frame,
                          size_t frame_len, int64_t *residues, size_t residues_len) {
    uint32_t refusal = refusal_of(design, setting, weights_len, frame_len, residues_len);
    if (refusal) return (highvane_report){.refusal = refusal};
#ifdef PATTERNS
    if (design == HIGHVANE_MITCHELL) return accumulate_patterns(HIGHVANE_MITCHELL, 0, weights, frame, weights_len, residues);
    if (design == HIGHVANE_TWICE_TRUNCATED)
        return accumulate_patterns(HIGHVANE_TWICE_TRUNCATED, setting, weights, frame, weights_len, residues);
#endif
#ifdef ONE_LOOP
    return accumulate(design, setting, weights, frame, weights_len, residues);
#else
    switch (design) {
    case HIGHVANE_MITCHELL: return accumulate(HIGHVANE_MITCHELL, 0, weights, frame, weights_len, residues);
    case HIGHVANE_NEAREST_POWER: return accumulate(HIGHVANE_NEAREST_POWER, 0, weights, frame, weights_len, residues);
    case HIGHVANE_STAGED: return accumulate(HIGHVANE_STAGED, setting, weights, frame, weights_len, residues);
    case HIGHVANE_TRUNCATED: return accumulate(HIGHVANE_TRUNCATED, setting, weights, frame, weights_len, residues);
    default: return accumulate(HIGHVANE_TWICE_TRUNCATED, setting, weights, frame, weights_len, residues);
    }
#endif
}
