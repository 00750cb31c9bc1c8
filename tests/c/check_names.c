/*
 * The header's names: each refusal's, against a call that is refused for what the name says; the limits, which are accepted; and the
 * refusals' texts.
 */
#include "checks.h"

#include <stdio.h>
#include <string.h>

static int16_t numbers[HIGHVANE_PAIRS_MAX + 1];
static int64_t residues[HIGHVANE_PAIRS_MAX + 1], scores[2];
static uint8_t input[HIGHVANE_INPUT_MAX + 1], out[HIGHVANE_TRANSCRIPT_MAX];

static void named(uint32_t name, uint32_t given, const char *call) {
    compare(name == given, "%s gives refusal %" PRIu32 ", and the name stands for %" PRIu32, call, given, name);
}
#define NAMED(name, call) named(name, call, #call " (" #name ")")

static uint32_t score(size_t weights_len, size_t frame_len, size_t residues_len) {
    return highvane_score_row(HIGHVANE_TRUNCATED, 15, numbers, weights_len, numbers, frame_len, residues, residues_len).refusal;
}

/* A layer of as many columns as the frame has numbers. */
static uint32_t score_layer(size_t store_len, size_t columns, size_t scores_len) {
    return highvane_score_layer(HIGHVANE_STAGED, 16, numbers, store_len, columns, numbers, columns, scores, scores_len).refusal;
}

/* The refusal that stands in the first line of a transcript, or 0. */
static uint32_t in_text(uint8_t kind, size_t input_len) {
    unsigned refusal = 0;
    input[0] = kind;
    out[highvane_transcript(input, input_len, out)] = 0;
    return sscanf((char *)out, "%*u no %u", &refusal) == 1 ? refusal : 0;
}

/* Each refusal has a text of its own, and so have no refusal and a number that is none. */
static void texts(void) {
    const uint32_t none = HIGHVANE_SCORES_TOO_SHORT + 1;
    for (uint32_t refusal = HIGHVANE_ACCEPTED; refusal <= none; refusal++)
        for (uint32_t other = HIGHVANE_ACCEPTED; other < refusal; other++)
            compare(strcmp(highvane_refusal_text(refusal), highvane_refusal_text(other)) != 0,
                    "refusals %" PRIu32 " and %" PRIu32 " have one text", refusal, other);
    compare(strcmp(highvane_refusal_text(UINT32_MAX), highvane_refusal_text(none)) == 0,
            "two numbers of no refusal have two texts");
    part("texts of the refusals");
}

void check_names(void) {
    NAMED(HIGHVANE_UNKNOWN_DESIGN, highvane_product_unsigned(HIGHVANE_MITCHELL - 1, 8, 0, 1, 1).refusal);
    NAMED(HIGHVANE_UNKNOWN_DESIGN, highvane_product_unsigned(HIGHVANE_TWICE_TRUNCATED + 1, 8, 0, 1, 1).refusal);
    NAMED(HIGHVANE_UNKNOWN_WIDTH, highvane_product_signed(HIGHVANE_MITCHELL, 7, 0, 1, 1).refusal);
    NAMED(HIGHVANE_SETTING_OUT_OF_RANGE, highvane_product_signed(HIGHVANE_NEAREST_POWER, 8, 1, 1, 1).refusal);
    NAMED(HIGHVANE_SETTING_OUT_OF_RANGE, highvane_product_signed(HIGHVANE_STAGED, 8, 9, 1, 1).refusal);
    NAMED(HIGHVANE_ACCEPTED, highvane_product_signed(HIGHVANE_STAGED, 8, 8, 1, 1).refusal);
    NAMED(HIGHVANE_SETTING_OUT_OF_RANGE, highvane_product_signed(HIGHVANE_TRUNCATED, 8, 8, 1, 1).refusal);
    NAMED(HIGHVANE_SETTING_OUT_OF_RANGE, highvane_product_signed(HIGHVANE_TWICE_TRUNCATED, 8, 8, 1, 1).refusal);
    NAMED(HIGHVANE_ACCEPTED, highvane_product_signed(HIGHVANE_TWICE_TRUNCATED, 8, 7, 1, 1).refusal);
    NAMED(HIGHVANE_FIRST_OPERAND_OUTSIDE_WIDTH, highvane_product_unsigned(HIGHVANE_MITCHELL, 8, 0, 256, 256).refusal);
    NAMED(HIGHVANE_SECOND_OPERAND_OUTSIDE_WIDTH, highvane_product_unsigned(HIGHVANE_MITCHELL, 8, 0, 255, 256).refusal);
    NAMED(HIGHVANE_LENGTHS_DIFFER, score(2, 3, 3));
    NAMED(HIGHVANE_TOO_MANY_PAIRS, score(HIGHVANE_PAIRS_MAX + 1, HIGHVANE_PAIRS_MAX + 1, HIGHVANE_PAIRS_MAX + 1));
    NAMED(HIGHVANE_ACCEPTED, score(HIGHVANE_PAIRS_MAX, HIGHVANE_PAIRS_MAX, HIGHVANE_PAIRS_MAX));
    NAMED(HIGHVANE_RESIDUES_TOO_SHORT, score(3, 3, 2));
    NAMED(HIGHVANE_NOT_FINITE, highvane_single_product(0x7F800000, 0).refusal);
    NAMED(HIGHVANE_SUBNORMAL, highvane_single_product(1, 0).refusal);
    NAMED(HIGHVANE_EXPONENT_TOO_LARGE, highvane_single_product(0x7F000000, 0x7F000000).refusal);
    NAMED(HIGHVANE_EXPONENT_TOO_SMALL, highvane_single_product(0x00800000, 0x00800000).refusal);
    NAMED(HIGHVANE_COLUMNS_OUT_OF_RANGE, highvane_row_refusal(numbers, 6, HIGHVANE_PAIRS_MAX + 1, 0));
    NAMED(HIGHVANE_ACCEPTED, highvane_row_refusal(numbers, HIGHVANE_PAIRS_MAX, HIGHVANE_PAIRS_MAX, 0));
    NAMED(HIGHVANE_UNEVEN_STORE, highvane_row_refusal(numbers, 6, 4, 0));
    NAMED(HIGHVANE_NO_SUCH_ROW, highvane_row_refusal(numbers, 6, 3, 2));
    NAMED(HIGHVANE_COLUMNS_OUT_OF_RANGE, score_layer(0, HIGHVANE_PAIRS_MAX + 1, 2));
    NAMED(HIGHVANE_ACCEPTED, score_layer(HIGHVANE_PAIRS_MAX, HIGHVANE_PAIRS_MAX, 1));
    NAMED(HIGHVANE_SCORES_TOO_SHORT, score_layer(6, 2, 2));
    NAMED(HIGHVANE_SHIFT_TOO_LARGE, highvane_scale(0, 0, HIGHVANE_SHIFT_MAX + 1).refusal);
    NAMED(HIGHVANE_ACCEPTED, highvane_scale(0, 0, HIGHVANE_SHIFT_MAX).refusal);
    NAMED(HIGHVANE_SIZE_TOO_LARGE, highvane_scale(INT64_MIN, 0, 0).refusal);
    NAMED(HIGHVANE_UNKNOWN_KIND, in_text(255, 1));
    NAMED(HIGHVANE_CUT_SHORT, in_text(3, 2));
    NAMED(HIGHVANE_INPUT_TOO_LONG, in_text(3, HIGHVANE_INPUT_MAX + 1));
    NAMED(HIGHVANE_ACCEPTED, in_text(3, HIGHVANE_INPUT_MAX));
    part("names and limits of the header");
    texts();
}
