/* Scores a frame of sound with one row of a weight store, hands the score out, and scores the frame with all rows at once. */
#include <inttypes.h>
#include <stdio.h>
#include "highvane.h"

enum { ROWS = 2, COLUMNS = 3, STORE = ROWS * COLUMNS, SHIFT = 3 };

static const int16_t store[STORE] = {
    12, -7, 96,
    3, -5, 0,
};

static int refused(const char *what, uint32_t refusal) {
    if (refusal != HIGHVANE_ACCEPTED)
        printf("%s: refusal %" PRIu32 ", %s\n", what, refusal, highvane_refusal_text(refusal));
    return refusal != HIGHVANE_ACCEPTED;
}

int main(void) {
    const int16_t frame[COLUMNS] = {3, 6, 7};
    int64_t residues[COLUMNS], scores[ROWS];
    const size_t row = 1;

    /* An accepted row is the part of the store that begins at row * columns. */
    if (refused("find the row", highvane_row_refusal(store, STORE, COLUMNS, row)))
        return 1;
    const int16_t *weights = store + row * COLUMNS;

    highvane_report report = highvane_score_row(HIGHVANE_MITCHELL, 0, weights, COLUMNS, frame, COLUMNS, residues, COLUMNS);
    if (refused("score the row", report.refusal))
        return 1;
    printf("score %" PRId64 ", error %" PRId64 ", T %" PRIu64 "\n", report.score, report.error, report.magnitude_sum);
    for (size_t i = 0; i < COLUMNS; i++)
        printf("pair %zu: residue %" PRId64 "\n", i, residues[i]);
    printf("largest residue: %" PRIu64 ", of pair %" PRIu64 "\n", report.largest_residue, report.largest_place);

    /* Exact quotients: the score and T divided by 2^SHIFT. */
    highvane_scaled scaled = highvane_scale(report.score, report.magnitude_sum, SHIFT);
    if (refused("hand out the score", scaled.refusal))
        return 1;
    printf("handed out: score %g, T %g\n", scaled.score, scaled.magnitude_sum);

    /* Rows are numbered from 0, so this store has no row 2. */
    if (!refused("find row 2", highvane_row_refusal(store, STORE, COLUMNS, 2)))
        return 1;

    /* The score of each row alone, in one call. */
    highvane_layer layer = highvane_score_layer(HIGHVANE_MITCHELL, 0, store, STORE, COLUMNS, frame, COLUMNS, scores, ROWS);
    if (refused("score all rows", layer.refusal))
        return 1;
    printf("%" PRIu64 " rows at once: scores %" PRId64 ", %" PRId64 "\n", layer.rows, scores[0], scores[1]);
    return 0;
}
