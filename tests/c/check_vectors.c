/* The stored vectors: each field of each answer, and the lent slices of those that lend some. */
#include <stdlib.h>
#include <string.h>

#include "lent.h"
#include "vector_line.h"

static void unsigned_vector(vector *v) {
    uint32_t design = next_number(v, UINT32_MAX), width = next_number(v, UINT32_MAX), setting = next_number(v, UINT32_MAX);
    uint64_t a = next_number(v, UINT64_MAX), b = next_number(v, UINT64_MAX);
    highvane_unsigned given = highvane_product_unsigned(design, width, setting, a, b);
    due(v, "refusal", given.refusal);
    due(v, "product", given.product);
}

static void signed_vector(vector *v) {
    uint32_t design = next_number(v, UINT32_MAX), width = next_number(v, UINT32_MAX), setting = next_number(v, UINT32_MAX);
    int64_t a = next_signed(v, INT64_MIN, INT64_MAX), b = next_signed(v, INT64_MIN, INT64_MAX);
    highvane_signed given = highvane_product_signed(design, width, setting, a, b);
    due(v, "refusal", given.refusal);
    due_signed(v, "product", given.product);
}

/* A row that is there lies where the header says. Of a store every number is its own place. */
static void store_vector(vector *v) {
    enum { LONGEST = 8192 };
    static int16_t numbers[LONGEST];
    static lent memory;
    if (memory.pages == NULL) {
        memory = lent_pages(sizeof numbers);
        for (int i = 0; i < LONGEST; i++)
            numbers[i] = (int16_t)i;
    }
    size_t length = next_number(v, LONGEST), columns = next_number(v, SIZE_MAX), row = next_number(v, SIZE_MAX);
    vector answer = *v;
    for (enum place place = AT_START; place < PLACES; place++) {
        *v = answer;
        uint32_t refusal = highvane_row_refusal(lend(&memory, numbers, length * sizeof *numbers, place), length, columns, row);
        due(v, "refusal", refusal);
        due(v, "start of the row", refusal == HIGHVANE_ACCEPTED ? row * columns : 0);
        due(v, "length of the row", refusal == HIGHVANE_ACCEPTED ? columns : 0);
        compare_lent(&memory, numbers, "highvane_row_refusal, store");
    }
}

/* Floats are compared by their patterns, so that the sign of a zero counts too. */

static void score_vector(vector *v) {
    int64_t score = next_signed(v, INT64_MIN, INT64_MAX);
    uint64_t magnitude_sum = next_number(v, UINT64_MAX), patterns[2];
    uint32_t shift = next_number(v, UINT32_MAX);
    highvane_scaled given = highvane_scale(score, magnitude_sum, shift);
    memcpy(&patterns[0], &given.score, sizeof given.score);
    memcpy(&patterns[1], &given.magnitude_sum, sizeof given.magnitude_sum);
    due(v, "refusal", given.refusal);
    due(v, "pattern of the score", patterns[0]);
    due(v, "pattern of T", patterns[1]);
}

static void single_vector(vector *v) {
    uint32_t a = next_number(v, UINT32_MAX), b = next_number(v, UINT32_MAX), pattern;
    highvane_single given = highvane_single_product(a, b);
    memcpy(&pattern, &given.value, sizeof given.value);
    due(v, "refusal", given.refusal);
    due(v, "pattern", pattern);
}

static const struct { char letter; void (*check)(vector *v); const char *what; } kinds[] = {
    {'u', unsigned_vector, "unsigned products"},
    {'s', signed_vector, "signed products"},
    {'r', row_vector, "rows, with every place of their slices and what lies around them"},
    {'t', store_vector, "rows of stores, with the whole store and what lies around it"},
    {'l', layer_vector, "layers, with every place of their slices and what lies around them"},
    {'h', score_vector, "scores handed out"},
    {'f', single_vector, "single products"},
};

static int is_kind(char letter) {
    for (size_t kind = 0; kind < COUNT(kinds); kind++)
        if (kinds[kind].letter == letter)
            return 1;
    return 0;
}

/* The lines from `text` to `end` are texts, one after another. */
static void check_kind(const char *text, const char *end, size_t kind) {
    int lines = 0;
    for (const char *line = text; line < end; line += strlen(line) + 1)
        if (*line == kinds[kind].letter) {
            vector v = {line, line + 1, 1};
            kinds[kind].check(&v);
            compare(v.is_read && *v.next == 0, "this is no line of its kind: %.200s", line);
            lines++;
        }
    compare(lines > 0, "no vector of kind %c", kinds[kind].letter);
    part(kinds[kind].what);
}

/* The table has no vectors: all its products are those of design 1, of which there are some. */
static void table(void) {
    for (int a = 0; a < 256; a++)
        for (int b = 0; b < 256; b++) {
            uint16_t given = highvane_table_product((uint8_t)a, (uint8_t)b);
            uint64_t meant = highvane_product_unsigned(HIGHVANE_MITCHELL, 8, 0, (uint64_t)a, (uint64_t)b).product;
            compare(given == meant, "the table's product of %d and %d is %" PRIu16 ", and design 1's is %" PRIu64, a, b, given, meant);
        }
    part("products of the table, against design 1");
}

void check_vectors(const char *vectors) {
    size_t length;
    char *text = text_of(vectors, &length), *end = text + length;
    compare(strlen(text) == length && length > 0 && end[-1] == '\n', "%s is no text of whole lines", vectors);
    for (char *feed = text; (feed = strchr(feed, '\n')) != NULL; feed++)
        *feed = 0;
    for (const char *line = text; line < end; line += strlen(line) + 1)
        compare(is_kind(*line), "a line of no kind: %.200s", line);
    part("lines of the vectors");
    for (size_t kind = 0; kind < COUNT(kinds); kind++)
        check_kind(text, end, kind);
    free(text);
    table();
}
