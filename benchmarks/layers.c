/*
 * Scores layers with the library, row by row with the library's rows, and with the layers written by hand. IMPLEMENTATIONS, which
 * layers.py gives, is the list of them.
 *
 *   layers check   compares all implementations on seeded layers, on boundary numbers and on refusals, and prints how many calls and
 *                  pairs it compared
 *   layers time    reads lines "design setting rows columns", and for each prints what a call of each implementation takes, in
 *                  nanoseconds
 *   layers         reads lines "implementation data design setting rows columns", and for each makes one call and has callgrind
 *                  write the instructions of that call under the line as its name
 */
#include <valgrind/callgrind.h>

#include "highvane.h"
#include "seeded.h"

typedef highvane_layer implementation(uint32_t design, uint32_t setting, const int16_t *store, size_t store_len, size_t columns,
                                      const int16_t *frame, size_t frame_len, int64_t *scores, size_t scores_len);

#include "turns.h"

enum { ROWS = 64, PAIRS = HIGHVANE_PAIRS_MAX, ROUNDS = 151 };

/* the largest store and one number more; more places than rows. Seeded data have as many numbers of both kinds. */
enum { STORE = ROWS * PAIRS + 1, PLACES = BOUNDARIES + 2 };

static int16_t store[STORE], frame[STORE];
static int64_t scores[COUNT][PLACES], residues[PAIRS];
static unsigned long calls, pairs_compared;

/* An accepted layer, each row as a caller without layers scores it. */
highvane_layer row_by_row(uint32_t design, uint32_t setting, const int16_t *store, size_t store_len, size_t columns,
                          const int16_t *frame, size_t frame_len, int64_t *scores, size_t scores_len) {
    highvane_layer layer = {store_len / columns, HIGHVANE_ACCEPTED};
    for (size_t row = 0; row < layer.rows && row < scores_len; row++, store += columns)
        scores[row] = highvane_score_row(design, setting, store, columns, frame, frame_len, residues, PAIRS).score;
    return layer;
}

static void fill(const char *data) {
    if (seeded_row(data, store, frame, STORE)) return;
    fprintf(stderr, "layers: there are no data called %s\n", data);
    exit(1);
}

/* Calls all implementations and stops the program where one gives another answer, or other scores, than the first. Rows alone have no
   refusals of a layer, so that they are called where it is accepted. */
static void compare(uint32_t design, uint32_t setting, size_t store_len, size_t columns, size_t frame_len, size_t places) {
    highvane_layer layers[COUNT];
    for (int i = 0; i < COUNT; i++) {
        if (implementations[i].call == row_by_row && layers[0].refusal) continue;
        for (size_t place = 0; place < PLACES; place++)
            scores[i][place] = (int64_t)(1000000 + place);
        layers[i] = implementations[i].call(design, setting, store, store_len, columns, frame, frame_len, scores[i], places);
        if (layers[i].rows != layers[0].rows || layers[i].refusal != layers[0].refusal
            || memcmp(scores[i], scores[0], sizeof scores[0])) {
            fprintf(stderr, "layers: %s and %s differ at design %u, setting %u, %zu columns, lengths %zu, %zu, %zu\n",
                    implementations[i].name, implementations[0].name, design, setting, columns, store_len, frame_len, places);
            exit(1);
        }
    }
    calls++;
    pairs_compared += layers[0].refusal ? 0 : store_len;
}

/* Every design with every setting that it takes, and with one setting more at each end; and two numbers that are no designs. */
static void compare_settings(size_t rows, size_t columns) {
    for (uint32_t setting = 0; setting <= 17; setting++)
        for (uint32_t design = 0; design <= HIGHVANE_TWICE_TRUNCATED + 1; design++)
            compare(design, setting, rows * columns, columns, columns, rows + rows % 3);
}

/* Every number with every other: each pair a row by itself, and then in rows that begin at another number each. */
static void compare_boundaries(void) {
    int16_t numbers[BOUNDARIES];
    size_t count = boundary_numbers(numbers);
    memcpy(store, numbers, sizeof numbers);
    for (size_t i = 0; i < count; i++) {
        frame[0] = numbers[i];
        compare_settings(count, 1);
    }
    memcpy(frame, numbers, sizeof numbers);
    for (size_t row = 0; row < count; row++)
        for (size_t i = 0; i < count; i++)
            store[row * count + i] = numbers[(i + row) % count];
    compare_settings(count, count);
}

/* Each fault of a shape alone and with the others: the columns, the length of the store, that of the frame, and the places. */
static void compare_faults(uint32_t design, uint32_t setting) {
    for (int faults = 0; faults < 16; faults++) {
        size_t columns = faults & 1 ? PAIRS + 1 : 3, rows = 17;
        compare(design, setting, rows * columns + (faults >> 1 & 1), columns, columns + (faults >> 2 & 1), rows - (faults >> 3 & 1));
        compare(design, setting, 6, faults & 1 ? 0 : 3, faults & 4 ? 4 : 3, faults & 8 ? 1 : 2);
    }
}

static void check(void) {
    static const char *const data[] = {"uniform", "small", "ones"};
    static const size_t rows[] = {0, 1, 15, 16, 17, 33}, columns[] = {1, 2, 3, 4, 5, 63, 64, 65, 130};
    for (size_t d = 0; d < sizeof data / sizeof *data; d++) {
        fill(data[d]);
        for (size_t r = 0; r < sizeof rows / sizeof *rows; r++)
            for (size_t c = 0; c < sizeof columns / sizeof *columns; c++)
                compare_settings(rows[r], columns[c]);
        compare_settings(ROWS, 1024);
        compare_settings(7, PAIRS);
    }
    compare_boundaries();
    for (uint32_t setting = 0; setting <= 17; setting++)
        for (uint32_t design = 0; design <= HIGHVANE_TWICE_TRUNCATED + 1; design++)
            compare_faults(design, setting);
    printf("%lu %lu\n", calls, pairs_compared);
}

static void measure(const char *line) {
    char name[64], data[64];
    uint32_t design, setting;
    size_t rows, columns;
    if (sscanf(line, "%63s %63s %u %u %zu %zu", name, data, &design, &setting, &rows, &columns) != 6 || rows > ROWS || columns > PAIRS) {
        fprintf(stderr, "layers: not a line that can be measured: %s\n", line);
        exit(1);
    }
    fill(data);
    for (int i = 0; i < COUNT; i++)
        if (!strcmp(implementations[i].name, name)) {
            CALLGRIND_ZERO_STATS;
            implementations[i].call(design, setting, store, rows * columns, columns, frame, columns, scores[i], rows);
            CALLGRIND_DUMP_STATS_AT(line);
            return;
        }
    fprintf(stderr, "layers: no implementation is called %s\n", name);
    exit(1);
}

/* The median of ROUNDS, in each of which all implementations take their turn, each on uniform numbers that were never seen before. */
static void take_times(const char *line) {
    static double taken[COUNT][ROUNDS];
    uint32_t design, setting;
    size_t rows, columns;
    if (sscanf(line, "%u %u %zu %zu", &design, &setting, &rows, &columns) != 4 || rows > ROWS || columns > PAIRS) {
        fprintf(stderr, "layers: not a line that can be timed: %s\n", line);
        exit(1);
    }
    for (int round = 0; round < ROUNDS; round++)
        for (int turn = 0; turn < COUNT; turn++) {
            int i = (turn + round) % COUNT;
            for (size_t k = 0; k < rows * columns; k++)
                store[k] = (int16_t)seeded();
            for (size_t k = 0; k < columns; k++)
                frame[k] = (int16_t)seeded();
            double start = nanoseconds();
            implementations[i].call(design, setting, store, rows * columns, columns, frame, columns, scores[i], rows);
            taken[i][round] = nanoseconds() - start;
        }
    for (int i = 0; i < COUNT; i++)
        printf("%s\t%s\t%f\n", line, implementations[i].name, median(taken[i], ROUNDS));
}

int main(int argc, char **argv) {
    if (argc == 2 && !strcmp(argv[1], "check")) {
        check();
        return 0;
    }
    answer_lines(argc == 2 && !strcmp(argv[1], "time") ? take_times : measure);
    return 0;
}
