/*
 * Scores rows with the library and with the rows written by hand. IMPLEMENTATIONS, which run.py gives, is the list of them.
 *
 *   rows check   compares all implementations on seeded rows, on boundary numbers and on refusals, and prints how many calls and
 *                pairs it compared, and how many of 4,096 pairs of small numbers hold a 0; `rows check 4` leaves out the designs
 *                after design 4
 *   rows time    reads lines "design setting pairs", and for each prints what a call of each implementation takes, in nanoseconds
 *   rows         reads lines "implementation data design setting weights frame places" (the last three are lengths), and for each
 *                makes one call and has callgrind write the instructions of that call under the line as its name; the row of a
 *                design by itself is an implementation too
 *
 * Where SHORTER, the second implementation is of before version 2.4, whose report ended with the refusal after nonzero_pairs.
 */
#include <valgrind/callgrind.h>

#include "highvane.h"
#include "seeded.h"

typedef highvane_report implementation(uint32_t design, uint32_t setting, const int16_t *weights, size_t weights_len,
                                       const int16_t *frame, size_t frame_len, int64_t *residues, size_t residues_len);

#include "turns.h"

/* each is called with the setting alone */
static const struct {
    const char *name;
    highvane_report (*call)(uint32_t setting, const int16_t *weights, size_t weights_len, const int16_t *frame, size_t frame_len,
                            int64_t *residues, size_t residues_len);
} by_itself[] = {
    {"highvane_score_row_mitchell", highvane_score_row_mitchell},
    {"highvane_score_row_nearest", highvane_score_row_nearest},
    {"highvane_score_row_staged", highvane_score_row_staged},
    {"highvane_score_row_truncated", highvane_score_row_truncated},
    {"highvane_score_row_twice_truncated", highvane_score_row_twice_truncated},
};

enum { PAIRS = HIGHVANE_PAIRS_MAX, ROUNDS = 301 };

/* one pair more than a row may have, so that the refusal can be asked for */
static int16_t weights[PAIRS + 1], frame[PAIRS + 1];
static int64_t residues[COUNT][PAIRS + 1];
static unsigned long calls, pairs_compared;
static uint32_t designs = HIGHVANE_TWICE_TRUNCATED;

static void fill(const char *data) {
    if (seeded_row(data, weights, frame, PAIRS + 1)) return;
    fprintf(stderr, "rows: there are no data called %s\n", data);
    exit(1);
}

/* Calls all implementations and stops the program where one gives another report, or other residues, than the first. */
static void compare(uint32_t design, uint32_t setting, size_t weights_len, size_t frame_len, size_t places) {
    highvane_report reports[COUNT];
    for (int i = 0; i < COUNT; i++) {
        memset(residues[i], 0x5A, sizeof residues[i]);
        reports[i] = implementations[i].call(design, setting, weights, weights_len, frame, frame_len, residues[i], places);
#ifdef SHORTER
        if (i == 1) {
            reports[i].refusal = (uint32_t)reports[i].largest_residue;
            reports[i].largest_residue = reports[0].largest_residue;
            reports[i].largest_place = reports[0].largest_place;
        }
#endif
        /* a struct is not compared by its bytes, since those between its fields are free */
        const highvane_report *r = &reports[i], *first = &reports[0];
        if (r->score != first->score || r->true_sum != first->true_sum || r->error != first->error
            || r->magnitude_sum != first->magnitude_sum || r->nonzero_pairs != first->nonzero_pairs
            || r->largest_residue != first->largest_residue || r->largest_place != first->largest_place
            || r->refusal != first->refusal || memcmp(residues[i], residues[0], sizeof residues[0])) {
            fprintf(stderr, "rows: %s and %s differ at design %u, setting %u, lengths %zu, %zu, %zu\n", implementations[i].name,
                    implementations[0].name, design, setting, weights_len, frame_len, places);
            exit(1);
        }
    }
    calls++;
    pairs_compared += reports[0].refusal ? 0 : weights_len;
}

/* Every design with every setting that it takes, and with one setting more at each end; and two numbers that are no designs. */
static void compare_settings(size_t pairs) {
    for (uint32_t setting = 0; setting <= 17; setting++) {
        for (uint32_t design = 0; design <= designs; design++)
            compare(design, setting, pairs, pairs, pairs);
        compare(HIGHVANE_TWICE_TRUNCATED + 1, setting, pairs, pairs, pairs);
    }
}

static void compare_boundaries(void) {
    int16_t numbers[BOUNDARIES];
    size_t count = boundary_numbers(numbers), pairs = 0;
    for (size_t i = 0; i < count; i++)
        for (size_t j = 0; j < count; j++) {
            weights[pairs] = numbers[i];
            frame[pairs++] = numbers[j];
            if (pairs == PAIRS || (i == count - 1 && j == count - 1)) {
                compare_settings(pairs);
                pairs = 0;
            }
        }
}

static void check(void) {
    static const char *const data[] = {"uniform", "small", "ones"};
    static const size_t lengths[] = {0, 1, 2, 3, 4, 5, 33, 63, 64, PAIRS};
    for (size_t d = 0; d < sizeof data / sizeof *data; d++)
        for (size_t i = 0; i < sizeof lengths / sizeof *lengths; i++) {
            fill(data[d]);
            compare_settings(lengths[i]);
        }
    compare_boundaries();
    for (uint32_t design = 1; design <= designs; design++)
        for (size_t w = PAIRS - 1; w <= PAIRS + 1; w++)
            for (size_t f = PAIRS - 1; f <= PAIRS + 1; f++)
                for (size_t p = PAIRS - 1; p <= PAIRS + 1; p++)
                    compare(design, design < 3 ? 0 : 15, w, f, p);
    fill("small");
    unsigned long nonzero = implementations[0].call(1, 0, weights, PAIRS, frame, PAIRS, residues[0], PAIRS).nonzero_pairs;
    printf("%lu %lu %lu\n", calls, pairs_compared, PAIRS - nonzero);
}

static void measure(const char *line) {
    char name[64], data[64];
    uint32_t design, setting;
    size_t weights_len, frame_len, places;
    if (sscanf(line, "%63s %63s %u %u %zu %zu %zu", name, data, &design, &setting, &weights_len, &frame_len, &places) != 7
        || weights_len > PAIRS + 1 || frame_len > PAIRS + 1 || places > PAIRS + 1) {
        fprintf(stderr, "rows: not a line that can be measured: %s\n", line);
        exit(1);
    }
    fill(data);
    for (int i = 0; i < COUNT; i++)
        if (!strcmp(implementations[i].name, name)) {
            CALLGRIND_ZERO_STATS;
            implementations[i].call(design, setting, weights, weights_len, frame, frame_len, residues[i], places);
            CALLGRIND_DUMP_STATS_AT(line);
            return;
        }
    for (size_t i = 0; i < sizeof by_itself / sizeof *by_itself; i++)
        if (!strcmp(by_itself[i].name, name)) {
            CALLGRIND_ZERO_STATS;
            by_itself[i].call(setting, weights, weights_len, frame, frame_len, residues[0], places);
            CALLGRIND_DUMP_STATS_AT(line);
            return;
        }
    fprintf(stderr, "rows: no implementation is called %s\n", name);
    exit(1);
}

/* The median of ROUNDS, in each of which all implementations take their turn. Each turn has uniform numbers that were never seen before,
   since a branch predictor learns a row that comes again; short rows are many calls on parts of them. */
static void take_times(const char *line) {
    static double taken[COUNT][ROUNDS];
    uint32_t design, setting;
    size_t pairs;
    if (sscanf(line, "%u %u %zu", &design, &setting, &pairs) != 3 || pairs < 1 || pairs > PAIRS) {
        fprintf(stderr, "rows: not a line that can be timed: %s\n", line);
        exit(1);
    }
    size_t calls_each = PAIRS / pairs;
    for (int round = 0; round < ROUNDS; round++)
        for (int turn = 0; turn < COUNT; turn++) {
            int i = (turn + round) % COUNT;
            for (size_t k = 0; k < PAIRS; k++) {
                weights[k] = (int16_t)seeded();
                frame[k] = (int16_t)seeded();
            }
            double start = nanoseconds();
            for (size_t at = 0; at + pairs <= PAIRS; at += pairs)
                implementations[i].call(design, setting, weights + at, pairs, frame + at, pairs, residues[i] + at, pairs);
            taken[i][round] = (nanoseconds() - start) / (double)calls_each;
        }
    for (int i = 0; i < COUNT; i++)
        printf("%s\t%s\t%f\n", line, implementations[i].name, median(taken[i], ROUNDS));
}

int main(int argc, char **argv) {
    if ((argc == 2 || argc == 3) && !strcmp(argv[1], "check")) {
        if (argc == 3) designs = (uint32_t)atoi(argv[2]);
        check();
        return 0;
    }
    answer_lines(argc == 2 && !strcmp(argv[1], "time") ? take_times : measure);
    return 0;
}
