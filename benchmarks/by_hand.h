/* What the rows and the layers written by hand share: parts of products that shift and add, and of those by binary32 patterns. */
#ifndef BY_HAND_H
#define BY_HAND_H

#include <string.h>

#include "highvane.h"

static const uint32_t TOP = 0x80000000;

static inline uint32_t leading_zeros(uint32_t x) {
    return (uint32_t)__builtin_clz(x);
}

/* The product of two numbers with `zeros` leading zeros together, whose fractions, below bit 31, have the sum `sum`. */
static inline uint32_t power_of(uint32_t sum, uint32_t zeros) {
    if (sum >> 31) zeros--; /* the fractions carry into the exponent; gcc makes no branch of this */
    return (sum | TOP) >> (zeros - 31);
}

/* gcc makes one bsr of this, and not of 31 - clz */
static inline uint32_t log2_floor(uint32_t x) {
    return 31 ^ leading_zeros(x);
}

static inline uint32_t near_power(uint32_t x) {
    uint32_t k = log2_floor(x);
    /* the leading two bits of 2x, 2 or 3 */
    return k + (2 * x >> k) - 2;
}

/* The sum of the kept bits of two fractions and of the carry, below bit 31; the numbers' leading ones stand there and cancel. */
static inline uint32_t kept_sum(uint32_t kept_bits, uint32_t a, uint32_t b) {
    uint32_t carry = TOP >> kept_bits, kept = -carry;
    return (a & kept) + (b & kept) + carry;
}

static inline uint32_t pattern_of(float value) {
    uint32_t pattern;
    memcpy(&pattern, &value, sizeof pattern);
    return pattern;
}

static inline float value_of(uint32_t pattern) {
    float value;
    memcpy(&value, &pattern, sizeof value);
    return value;
}

static const uint32_t POWER = 0x7F800000, TWO_KEPT = 0x7FE00000, SECOND_CARRY = 1 << 21;

/* What is left of a size is its distance from the power of two below it, or where the fractions carry from the next one less 1. */
static inline uint32_t left_by_patterns(float size, uint32_t carried) {
    float power = value_of(pattern_of(size) & POWER);
    return pattern_of(size - power - value_of(pattern_of(power - 1) & carried)) & TWO_KEPT;
}

#endif
