/* Numbers that look random and are the same in every run (splitmix64), the rows made of them, and the numbers where designs change
   their ways. */
#ifndef SEEDED_H
#define SEEDED_H

#include <stddef.h>
#include <stdint.h>
#include <string.h>

static uint64_t seeded_state;

static inline uint64_t seeded(void) {
    uint64_t z = seeded_state += 0x9E3779B97F4A7C15;
    z = (z ^ (z >> 30)) * 0xBF58476D1CE4E5B9;
    z = (z ^ (z >> 27)) * 0x94D049BB133111EB;
    return z ^ (z >> 31);
}

/* Sound and weights are small: the number of bits is uniform from 0 to 15, so sizes are spread evenly over their logarithms. */
static inline int16_t seeded_small(void) {
    uint64_t bits = seeded() % 16;
    int32_t size = (int32_t)(seeded() & ((1u << bits) - 1));
    return (int16_t)(seeded() & 1 ? -size : size);
}

/* Fills a row by the name of its data; gives 0 where there are no data of that name. */
static inline int seeded_row(const char *data, int16_t *weights, int16_t *frame, size_t pairs) {
    seeded_state = 1;
    for (size_t i = 0; i < pairs; i++) {
        if (!strcmp(data, "uniform")) {
            weights[i] = (int16_t)seeded();
            frame[i] = (int16_t)seeded();
        } else if (!strcmp(data, "small")) {
            weights[i] = seeded_small();
            frame[i] = seeded_small();
        } else if (!strcmp(data, "ones")) {
            /* fifteen ones each: of all pairs the one with the most stages */
            weights[i] = INT16_MAX;
            frame[i] = -INT16_MAX;
        } else {
            return 0;
        }
    }
    return 1;
}

enum { BOUNDARIES = 128 };

/* Powers of two, the numbers beside them and half way between them, with either sign; 0 and the lowest. Gives how many they are. */
static inline size_t boundary_numbers(int16_t numbers[BOUNDARIES]) {
    size_t count = 0;
    numbers[count++] = INT16_MIN;
    numbers[count++] = 0;
    for (int k = 0; k < 15; k++)
        for (int sign = -1; sign <= 1; sign += 2) {
            numbers[count++] = (int16_t)(sign * (1 << k));
            numbers[count++] = (int16_t)(sign * ((1 << k) + 1));
            numbers[count++] = (int16_t)(sign * ((2 << k) - 1));
            numbers[count++] = (int16_t)(sign * ((3 << k) / 2));
        }
    return count;
}

#endif
