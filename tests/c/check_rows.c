/* A vector of a row: its report, every place of its slices, and what lies around them. */
#include <string.h>

#include "lent.h"
#include "vector_line.h"

/* More numbers than a slice of the vectors has. */
enum { MOST = HIGHVANE_PAIRS_MAX + 16 };

static int16_t weights[MOST], frame[MOST];
static int64_t residues[MOST];
static lent weights_memory, frame_memory, residues_memory;

static void due_report(vector *v, const highvane_report *given) {
    due(v, "refusal", given->refusal);
    due_signed(v, "score", given->score);
    due_signed(v, "true sum", given->true_sum);
    due_signed(v, "error", given->error);
    due(v, "T", given->magnitude_sum);
    due(v, "n", given->nonzero_pairs);
    due(v, "largest residue", given->largest_residue);
    due(v, "place of the largest residue", given->largest_place);
}

static int same_report(const highvane_report *a, const highvane_report *b) {
    return a->score == b->score && a->true_sum == b->true_sum && a->error == b->error && a->magnitude_sum == b->magnitude_sum
           && a->nonzero_pairs == b->nonzero_pairs && a->largest_residue == b->largest_residue && a->largest_place == b->largest_place
           && a->refusal == b->refusal;
}

/* The row of a design by itself: the report and every place are those of the row with that design. */
static void by_itself(uint32_t design, uint32_t setting, size_t weights_len, size_t frame_len, size_t places, enum place place,
                      const highvane_report *due) {
    static highvane_report (*const rows[])(uint32_t, const int16_t *, size_t, const int16_t *, size_t, int64_t *, size_t) = {
        highvane_score_row_mitchell, highvane_score_row_nearest, highvane_score_row_staged, highvane_score_row_truncated,
        highvane_score_row_twice_truncated};
    if (design < 1 || design > COUNT(rows)) return;
    static int64_t residues_due[MOST];
    memcpy(residues_due, residues, sizeof residues);
    int64_t *written = lend_places(&residues_memory, residues, places, place);
    highvane_report given = rows[design - 1](setting, lend(&weights_memory, weights, weights_len * sizeof *weights, place), weights_len,
                                             lend(&frame_memory, frame, frame_len * sizeof *frame, place), frame_len, written, places);
    compare(same_report(&given, due), "design %" PRIu32 ", setting %" PRIu32 " by itself: refusal %" PRIu32 ", score %" PRId64
            ", and with the design refusal %" PRIu32 ", score %" PRId64, design, setting, given.refusal, given.score, due->refusal, due->score);
    compare_lent(&residues_memory, residues_due, "a row by itself, residues");
    compare_lent(&weights_memory, weights, "a row by itself, weights");
    compare_lent(&frame_memory, frame, "a row by itself, frame");
}

/* Slices that are only read may overlap: with a frame that begins `apart` places into the weights, the answer is that of a copy. */
static void overlapping(uint32_t design, uint32_t setting, size_t length, size_t apart, enum place place) {
    static int64_t residues_of_copy[MOST];
    size_t pairs = length - apart;
    const int16_t *lent_weights = lend(&weights_memory, weights, length * sizeof *weights, place);
    const int16_t *copy = lend(&frame_memory, weights + apart, pairs * sizeof *weights, place);
    int64_t *written = lend_places(&residues_memory, residues, pairs, place);
    highvane_report of_copy = highvane_score_row(design, setting, lent_weights, pairs, copy, pairs, written, pairs);
    if (pairs > 0)
        memcpy(residues_of_copy, written, pairs * sizeof *written);
    written = lend_places(&residues_memory, residues, pairs, place);
    highvane_report given = highvane_score_row(design, setting, lent_weights, pairs, lent_weights + apart, pairs, written, pairs);
    compare(same_report(&given, &of_copy), "design %" PRIu32 ", setting %" PRIu32 ": score %" PRId64 " where the frame begins %zu into %zu "
            "weights, and %" PRId64 " with a copy of it", design, setting, given.score, apart, length, of_copy.score);
    compare_lent(&residues_memory, residues_of_copy, "overlapping weights and frame, residues");
    compare_lent(&weights_memory, weights, "overlapping weights and frame");
}

void row_vector(vector *v) {
    if (weights_memory.pages == NULL) {
        weights_memory = lent_pages(sizeof weights);
        frame_memory = lent_pages(sizeof frame);
        residues_memory = lent_pages(sizeof residues);
    }
    uint32_t design = next_number(v, UINT32_MAX), setting = next_number(v, UINT32_MAX);
    size_t weights_len = next_list(v, weights, MOST), frame_len = next_list(v, frame, MOST), places = next_number(v, MOST);
    vector answer = *v;
    for (enum place place = AT_START; place < PLACES; place++) {
        *v = answer;
        int64_t *written = lend_places(&residues_memory, residues, places, place);
        highvane_report given = highvane_score_row(
            design, setting, lend(&weights_memory, weights, weights_len * sizeof *weights, place), weights_len,
            lend(&frame_memory, frame, frame_len * sizeof *frame, place), frame_len, written, places);
        due_report(v, &given);
        size_t count = given.refusal == HIGHVANE_ACCEPTED ? weights_len : 0;
        due(v, "number of residues", count);
        for (size_t i = 0; i < count; i++)
            residues[i] = next_signed(v, INT64_MIN, INT64_MAX);
        compare_lent(&residues_memory, residues, "highvane_score_row, residues");
        compare_lent(&weights_memory, weights, "highvane_score_row, weights");
        compare_lent(&frame_memory, frame, "highvane_score_row, frame");
        by_itself(design, setting, weights_len, frame_len, places, place, &given);
        overlapping(design, setting, weights_len, weights_len > 0 && place == AT_END, place);
    }
}
