/*
 * Calls the operations other than scoring a row. Each line of standard input names a measurement; its calls are made on seeded
 * operands, callgrind writes the instructions of all of them under the line as its name, and the program prints the line and the
 * number of units (calls, or bytes of records) that they are to be divided by.
 *
 *   unsigned DESIGN WIDTH SETTING      operands uniform over the width, all accepted; so too: signed
 *   single normal|zero|infinite        accepted numbers; the first one 0; the first one infinite, which is refused
 *   table                              all pairs of bytes
 *   scale accepted|refused             every shift from 0 to 40; 41
 *   row_refusal accepted|refused       a row of the store; columns above 4,096
 *   transcript 1|2|3|long              as many records of one kind as an input can hold; one byte too many
 */
#include <stdio.h>
#include <stdlib.h>
#include <valgrind/callgrind.h>

#include "highvane.h"
#include "seeded.h"

enum { CALLS = 4096, ROWS = 16 };

static int16_t store[ROWS * HIGHVANE_PAIRS_MAX];
static uint8_t input[HIGHVANE_INPUT_MAX + 1], output[HIGHVANE_TRANSCRIPT_MAX];

/* The measured calls must be accepted, or refused, as their line says. */
static void expect(int holds, const char *line) {
    if (holds) return;
    fprintf(stderr, "operations: a call did not end as its line says: %s\n", line);
    exit(1);
}

static unsigned long unsigned_products(uint32_t design, uint32_t width, uint32_t setting, const char *line) {
    for (int i = 0; i < CALLS; i++) {
        uint64_t a = seeded() >> (64 - width), b = seeded() >> (64 - width);
        expect(!highvane_product_unsigned(design, width, setting, a, b).refusal, line);
    }
    return CALLS;
}

static unsigned long signed_products(uint32_t design, uint32_t width, uint32_t setting, const char *line) {
    for (int i = 0; i < CALLS; i++) {
        int64_t a = (int64_t)seeded() >> (64 - width), b = (int64_t)seeded() >> (64 - width);
        expect(!highvane_product_signed(design, width, setting, a, b).refusal, line);
    }
    return CALLS;
}

/* The pattern of a normal number with an exponent field from 64 to 190, so that a product of two is one too. */
static uint32_t normal_pattern(void) {
    uint32_t exponent = (uint32_t)(64 + seeded() % 127);
    return (uint32_t)(seeded() & 0x807FFFFF) | exponent << 23;
}

static unsigned long singles(const char *first, const char *line) {
    int zero = !strcmp(first, "zero"), infinite = !strcmp(first, "infinite");
    for (int i = 0; i < CALLS; i++) {
        uint32_t a = zero ? 0 : infinite ? 0x7F800000 : normal_pattern();
        expect(highvane_single_product(a, normal_pattern()).refusal == (infinite ? HIGHVANE_NOT_FINITE : 0), line);
    }
    return CALLS;
}

static unsigned long table_products(void) {
    for (int a = 0; a < 256; a++)
        for (int b = 0; b < 256; b++)
            highvane_table_product((uint8_t)a, (uint8_t)b);
    return 256 * 256;
}

static unsigned long scales(int refused, const char *line) {
    for (int i = 0; i < CALLS; i++) {
        uint32_t shift = refused ? HIGHVANE_SHIFT_MAX + 1 : (uint32_t)(i % (HIGHVANE_SHIFT_MAX + 1));
        int64_t score = (int64_t)seeded() >> 11;
        uint64_t magnitude_sum = seeded() >> 11;
        expect(highvane_scale(score, magnitude_sum, shift).refusal == (refused ? HIGHVANE_SHIFT_TOO_LARGE : 0), line);
    }
    return CALLS;
}

static unsigned long row_refusals(int refused, const char *line) {
    for (int i = 0; i < CALLS; i++) {
        size_t columns = refused ? HIGHVANE_PAIRS_MAX + 1 : 1 + seeded() % HIGHVANE_PAIRS_MAX;
        size_t length = refused ? columns : ROWS * columns;
        expect(highvane_row_refusal(store, length, columns, seeded() % ROWS) == (refused ? HIGHVANE_COLUMNS_OUT_OF_RANGE : 0), line);
    }
    return CALLS;
}

static size_t put_record(uint8_t *at, int kind) {
    static const size_t bodies[] = {0, 6, 8, 2};
    uint32_t a = kind == 2 ? normal_pattern() : (uint32_t)seeded(), b = kind == 2 ? normal_pattern() : (uint32_t)seeded();
    uint8_t design = (uint8_t)(1 + seeded() % 5), body[8] = {0};
    if (kind == 1) {
        body[0] = design;
        body[1] = design < 3 ? 0 : 6;
        memcpy(body + 2, &a, 2);
        memcpy(body + 4, &b, 2);
    } else {
        memcpy(body, &a, bodies[kind] / 2);
        memcpy(body + bodies[kind] / 2, &b, bodies[kind] / 2);
    }
    at[0] = (uint8_t)kind;
    memcpy(at + 1, body, bodies[kind]);
    return 1 + bodies[kind];
}

static unsigned long transcript(const char *kind, const char *line) {
    size_t length = HIGHVANE_INPUT_MAX + 1;
    if (strcmp(kind, "long")) {
        size_t record = put_record(input, atoi(kind));
        for (length = 0; length + record <= HIGHVANE_INPUT_MAX; length += record)
            put_record(input + length, atoi(kind));
    }
    size_t written = highvane_transcript(input, length, output);
    /* every text ends in the number of refused records: none, or the one of an input that is too long */
    expect(written > 2 && output[written - 2] == (strcmp(kind, "long") ? '0' : '1'), line);
    return length;
}

static unsigned long run(const char *line) {
    char operation[32], variant[32] = "";
    unsigned numbers[3] = {0};
    if (sscanf(line, "%31s %u %u %u", operation, &numbers[0], &numbers[1], &numbers[2]) == 4) {
        if (!strcmp(operation, "unsigned")) return unsigned_products(numbers[0], numbers[1], numbers[2], line);
        if (!strcmp(operation, "signed")) return signed_products(numbers[0], numbers[1], numbers[2], line);
    }
    sscanf(line, "%31s %31s", operation, variant);
    if (!strcmp(operation, "single")) return singles(variant, line);
    if (!strcmp(operation, "table")) return table_products();
    if (!strcmp(operation, "scale")) return scales(!strcmp(variant, "refused"), line);
    if (!strcmp(operation, "row_refusal")) return row_refusals(!strcmp(variant, "refused"), line);
    if (!strcmp(operation, "transcript")) return transcript(variant, line);
    expect(0, line);
    return 0;
}

int main(void) {
    char line[256];
    while (fgets(line, sizeof line, stdin)) {
        line[strcspn(line, "\n")] = 0;
        seeded_state = 1;
        CALLGRIND_ZERO_STATS;
        unsigned long units = run(line);
        CALLGRIND_DUMP_STATS_AT(line);
        printf("%s\t%lu\n", line, units);
    }
    return 0;
}
