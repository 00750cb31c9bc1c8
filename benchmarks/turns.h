/*
 * What the programs share that have implementations take turns: the list of them, what a turn takes, the median of all, and lines that are
 * answered. IMPLEMENTATIONS, which the command line gives, names functions of the type `implementation`, which the program defines first.
 */
#ifndef TURNS_H
#define TURNS_H

#include <stdio.h>
#include <stdlib.h>
#include <string.h>
#include <time.h>

#define X(name) extern implementation name;
IMPLEMENTATIONS
#undef X

static const struct {
    const char *name;
    implementation *call;
} implementations[] = {
#define X(name) {#name, name},
    IMPLEMENTATIONS
#undef X
};

enum { COUNT = sizeof implementations / sizeof *implementations };

static inline double nanoseconds(void) {
    struct timespec at;
    clock_gettime(CLOCK_MONOTONIC, &at);
    return 1e9 * (double)at.tv_sec + (double)at.tv_nsec;
}

static inline int by_size(const void *a, const void *b) {
    double x = *(const double *)a, y = *(const double *)b;
    return (x > y) - (x < y);
}

static inline double median(double *taken, size_t count) {
    qsort(taken, count, sizeof *taken, by_size);
    return taken[count / 2];
}

/* Answers each line of standard input. */
static inline void answer_lines(void (*answer)(const char *line)) {
    char line[256];
    while (fgets(line, sizeof line, stdin)) {
        line[strcspn(line, "\n")] = 0;
        answer(line);
    }
}

#endif
