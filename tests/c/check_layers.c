/* A vector of a layer: its number of rows, every place of its slices, and what lies around them. */
#include <string.h>

#include "lent.h"
#include "vector_line.h"

/* The most numbers that a store of the vectors has, and more than any other slice of theirs has. */
enum { MOST_WEIGHTS = 3 * HIGHVANE_PAIRS_MAX, MOST = HIGHVANE_PAIRS_MAX + 16 };

static int16_t store[MOST_WEIGHTS], frame[MOST];
static int64_t scores[MOST];
static lent store_memory, frame_memory, scores_memory;

/* Slices that are only read may overlap: where the frame is the first row of the store, or the last, the answer is that of a copy. */
static void overlapping(uint32_t design, uint32_t setting, size_t store_len, size_t columns, enum place place) {
    static int64_t scores_of_copy[MOST];
    if (columns == 0 || columns > store_len || columns > MOST || store_len / columns > MOST)
        return;
    size_t rows = store_len / columns, apart = place == AT_START ? 0 : store_len - columns;
    const int16_t *lent_store = lend(&store_memory, store, store_len * sizeof *store, place);
    const int16_t *copy = lend(&frame_memory, store + apart, columns * sizeof *store, place);
    int64_t *written = lend_places(&scores_memory, scores, rows, place);
    highvane_layer of_copy = highvane_score_layer(design, setting, lent_store, store_len, columns, copy, columns, written, rows);
    memcpy(scores_of_copy, written, rows * sizeof *written);
    written = lend_places(&scores_memory, scores, rows, place);
    highvane_layer given =
        highvane_score_layer(design, setting, lent_store, store_len, columns, lent_store + apart, columns, written, rows);
    compare(given.rows == of_copy.rows && given.refusal == of_copy.refusal,
            "design %" PRIu32 ", setting %" PRIu32 ": refusal %" PRIu32 " where the frame begins %zu into %zu weights, and %" PRIu32
            " with a copy of it", design, setting, given.refusal, apart, store_len, of_copy.refusal);
    compare_lent(&scores_memory, scores_of_copy, "overlapping store and frame, scores");
    compare_lent(&store_memory, store, "overlapping store and frame");
}

void layer_vector(vector *v) {
    if (store_memory.pages == NULL) {
        store_memory = lent_pages(sizeof store);
        frame_memory = lent_pages(sizeof frame);
        scores_memory = lent_pages(sizeof scores);
    }
    uint32_t design = next_number(v, UINT32_MAX), setting = next_number(v, UINT32_MAX);
    size_t columns = next_number(v, SIZE_MAX), store_len = next_repeated(v, store, MOST_WEIGHTS);
    size_t frame_len = next_repeated(v, frame, MOST), places = next_number(v, MOST);
    vector answer = *v;
    for (enum place place = AT_START; place < PLACES; place++) {
        *v = answer;
        int64_t *written = lend_places(&scores_memory, scores, places, place);
        highvane_layer given = highvane_score_layer(
            design, setting, lend(&store_memory, store, store_len * sizeof *store, place), store_len, columns,
            lend(&frame_memory, frame, frame_len * sizeof *frame, place), frame_len, written, places);
        due(v, "refusal", given.refusal);
        due(v, "number of rows", given.rows);
        for (size_t i = 0; i < given.rows && i < places; i++)
            scores[i] = next_signed(v, INT64_MIN, INT64_MAX);
        compare_lent(&scores_memory, scores, "highvane_score_layer, scores");
        compare_lent(&store_memory, store, "highvane_score_layer, store");
        compare_lent(&frame_memory, frame, "highvane_score_layer, frame");
        overlapping(design, setting, store_len, columns, place);
    }
}
