/* Lengths that no 32 bits hold. The slices are address space that traps, so it is also seen that nobody looks at them. */
#include <string.h>
#include <sys/mman.h>
#include <unistd.h>

#include "lent.h"

static const size_t four_billion = (size_t)1 << 32;

static void stores(void) {
    const size_t length = 2 * four_billion + 2 * HIGHVANE_PAIRS_MAX;
    const struct { size_t columns, row; uint32_t refusal; } rows[] = {
        {1, 0, HIGHVANE_ACCEPTED},
        {1, four_billion, HIGHVANE_ACCEPTED},
        {1, length - 1, HIGHVANE_ACCEPTED},
        {1, length, HIGHVANE_NO_SUCH_ROW},
        {HIGHVANE_PAIRS_MAX, length / HIGHVANE_PAIRS_MAX - 1, HIGHVANE_ACCEPTED},
        {HIGHVANE_PAIRS_MAX, length / HIGHVANE_PAIRS_MAX, HIGHVANE_NO_SUCH_ROW},
        {HIGHVANE_PAIRS_MAX, four_billion, HIGHVANE_NO_SUCH_ROW},
        {2, SIZE_MAX, HIGHVANE_NO_SUCH_ROW},
        {HIGHVANE_PAIRS_MAX - 1, 0, HIGHVANE_UNEVEN_STORE},
        {four_billion + 1, 0, HIGHVANE_COLUMNS_OUT_OF_RANGE},
        {length, 0, HIGHVANE_COLUMNS_OUT_OF_RANGE},
        {SIZE_MAX, 0, HIGHVANE_COLUMNS_OUT_OF_RANGE},
    };
    int16_t *store = untouchable(length * sizeof *store);
    for (size_t i = 0; i < COUNT(rows); i++) {
        uint32_t given = highvane_row_refusal(store, length, rows[i].columns, rows[i].row);
        compare(given == rows[i].refusal, "row %zu of columns %zu of %zu numbers: refusal %" PRIu32 ", not %" PRIu32,
                rows[i].row, rows[i].columns, length, given, rows[i].refusal);
    }
    part("rows of stores of more than 2^33 numbers");
}

static void compare_refused(const highvane_report *given, uint32_t refusal, const char *what) {
    compare(given->refusal == refusal && given->score == 0 && given->true_sum == 0 && given->error == 0 && given->magnitude_sum == 0
                && given->nonzero_pairs == 0 && given->largest_residue == 0 && given->largest_place == 0,
            "%s: refusal %" PRIu32 ", score %" PRId64 ", not refusal %" PRIu32 " and zeros", what, given->refusal, given->score, refusal);
}

static void rows(void) {
    static const int16_t three[] = {3, 3, 3};
    const size_t many = four_billion + 3;
    int16_t *numbers = untouchable(many * sizeof *numbers);
    int64_t *residues = untouchable(many * sizeof *residues);
    highvane_report given = highvane_score_row(HIGHVANE_MITCHELL, 0, numbers, many, numbers, many, residues, many);
    compare_refused(&given, HIGHVANE_TOO_MANY_PAIRS, "2^32 + 3 pairs");
    given = highvane_score_row(HIGHVANE_MITCHELL, 0, numbers, many, three, 3, residues, many);
    compare_refused(&given, HIGHVANE_LENGTHS_DIFFER, "2^32 + 3 weights and a frame of 3");
    given = highvane_score_row(HIGHVANE_MITCHELL, 0, three, 3, numbers, many, residues, many);
    compare_refused(&given, HIGHVANE_LENGTHS_DIFFER, "3 weights and a frame of 2^32 + 3");

    /* Room for 2^32 residues is room for three, although its lower 32 bits are 0. Only its first page can be written. */
    had(mprotect(residues, (size_t)sysconf(_SC_PAGESIZE), PROT_READ | PROT_WRITE) == 0 ? residues : NULL, "a page of residues");
    given = highvane_score_row(HIGHVANE_MITCHELL, 0, three, 3, three, 3, residues, four_billion);
    compare(given.refusal == 0 && given.error == 3 && residues[0] == 1 && residues[2] == 1 && residues[3] == 0,
            "2^32 places for 3 pairs: refusal %" PRIu32 ", error %" PRId64, given.refusal, given.error);
    part("rows with slices of 2^32 numbers and more");
}

static void layers(void) {
    static const int16_t three[] = {3, 3, 3};
    const size_t many = four_billion + 3;
    /* By the lower 32 bits of their lengths all of these would be accepted. */
    const struct { size_t store_len, columns, frame_len, scores_len; uint32_t refusal; } refused[] = {
        {3, many, 3, many, HIGHVANE_COLUMNS_OUT_OF_RANGE},
        {many, 3, 3, many, HIGHVANE_UNEVEN_STORE},
        {3, 3, many, many, HIGHVANE_LENGTHS_DIFFER},
        {many, 1, 1, 3, HIGHVANE_SCORES_TOO_SHORT},
        {four_billion, 1, 1, four_billion - 1, HIGHVANE_SCORES_TOO_SHORT},
        {four_billion, 1, 1, 0, HIGHVANE_SCORES_TOO_SHORT},
    };
    int16_t *numbers = untouchable(many * sizeof *numbers);
    int64_t *scores = untouchable(many * sizeof *scores);
    for (size_t i = 0; i < COUNT(refused); i++) {
        highvane_layer given = highvane_score_layer(HIGHVANE_MITCHELL, 0, numbers, refused[i].store_len, refused[i].columns, numbers,
                                                    refused[i].frame_len, scores, refused[i].scores_len);
        compare(given.refusal == refused[i].refusal && given.rows == 0,
                "%zu weights of %zu columns, a frame of %zu, %zu places: refusal %" PRIu32 ", %" PRIu64 " rows, not refusal %" PRIu32,
                refused[i].store_len, refused[i].columns, refused[i].frame_len, refused[i].scores_len, given.refusal, given.rows,
                refused[i].refusal);
    }

    /* Room for 2^32 scores is room for three, as that for residues is. */
    had(mprotect(scores, (size_t)sysconf(_SC_PAGESIZE), PROT_READ | PROT_WRITE) == 0 ? scores : NULL, "a page of scores");
    highvane_layer given = highvane_score_layer(HIGHVANE_MITCHELL, 0, three, 3, 1, three, 1, scores, four_billion);
    compare(given.refusal == 0 && given.rows == 3 && scores[0] == 8 && scores[2] == 8 && scores[3] == 0,
            "2^32 places for 3 rows: refusal %" PRIu32 ", %" PRIu64 " rows", given.refusal, given.rows);
    part("layers with slices of 2^32 numbers and more");
}

static void records(void) {
    static uint8_t out[HIGHVANE_TRANSCRIPT_MAX];
    static const char text[] = "0 no 19\ntotal 0 1\n";
    /* As many as 3 by the lower 32 bits. */
    const size_t length = four_billion + 3;
    uint8_t *input = untouchable(length);
    size_t given = highvane_transcript(input, length, out);
    compare(given == strlen(text) && memcmp(out, text, given) == 0, "the text of 2^32 + 3 bytes of records: %.*s", (int)given, (char *)out);
    part("a transcript of more than 2^32 bytes");
}

void check_lengths(void) {
    stores();
    rows();
    layers();
    records();
}
