/*
 * Highvane: the arithmetic of a chip that multiplies by adding rough logarithms, in five designs. Every operation takes any
 * numbers and gives its result, or the number of the first refusal that applies. The source of the archive is proved to do so,
 * for all inputs.
 *
 * In an answer, `refusal` is 0 where the call was accepted. Where it is not 0, it is the refusal's number, every other field is
 * 0, and no buffer was changed. The refusals of an operation are listed in the order in which they are tried.
 *
 * What no proof covers, and the caller owes:
 * - A pointer is aligned for its type and points at as many elements as the length beside it says; `out` points at
 *   HIGHVANE_TRANSCRIPT_MAX bytes. Where a length is 0, its pointer is not followed and may be anything, NULL too.
 * - The buffer that is written (residues, scores, out) overlaps no other argument. Buffers that are only read may overlap or be
 *   the same.
 * - The code is for x86-64 and its System V ABI. It keeps numbers in the 128 bytes below the stack pointer (the red zone) and in
 *   the SSE registers. Programs of an operating system need not care. In a kernel or on the bare machine an interrupt handler that
 *   runs on the stack it interrupts would write over those bytes: call with interrupts off there, or on a stack that no handler
 *   uses. A handler that itself calls saves the SSE registers first and, as for any C, aligns the stack to 16 bytes.
 *
 * Nothing is kept from one call to the next and nothing is allocated, so threads may call at the same time, each with its own
 * buffer to write to. This file works as C99 or later and as C++98 or later, and as C90 where the compiler is GNU's or like it.
 */
#ifndef HIGHVANE_H
#define HIGHVANE_H

#include <stddef.h>
#include <stdint.h>

#ifdef __cplusplus
extern "C" {
#endif

/* The version. Code that works with one version works, compiled again, with every later one of the same first number. */
#define HIGHVANE_VERSION_MAJOR 2
#define HIGHVANE_VERSION_MINOR 5
#define HIGHVANE_VERSION_PATCH 0

/* The designs, each with the settings that it takes at width w; rows and layers have width 16. */
enum highvane_design {
    HIGHVANE_MITCHELL = 1,       /* setting 0 */
    HIGHVANE_NEAREST_POWER = 2,  /* setting 0 */
    HIGHVANE_STAGED = 3,         /* setting 1 to w: the stages */
    HIGHVANE_TRUNCATED = 4,      /* setting 1 to w - 1: the bits kept of each fraction */
    HIGHVANE_TWICE_TRUNCATED = 5 /* setting 1 to w - 1: the bits that its first stage keeps; the second keeps two */
};

/* The refusals; highvane_refusal_text says what each means. 17 to 19 stand only in the text of highvane_transcript. */
enum highvane_refusal {
    HIGHVANE_ACCEPTED = 0,
    HIGHVANE_UNKNOWN_DESIGN = 1,
    HIGHVANE_UNKNOWN_WIDTH = 2,
    HIGHVANE_SETTING_OUT_OF_RANGE = 3,
    HIGHVANE_FIRST_OPERAND_OUTSIDE_WIDTH = 4,
    HIGHVANE_LENGTHS_DIFFER = 5,
    HIGHVANE_TOO_MANY_PAIRS = 6,
    HIGHVANE_RESIDUES_TOO_SHORT = 7,
    HIGHVANE_NOT_FINITE = 8,
    HIGHVANE_SUBNORMAL = 9,
    HIGHVANE_EXPONENT_TOO_LARGE = 10,
    HIGHVANE_EXPONENT_TOO_SMALL = 11,
    HIGHVANE_COLUMNS_OUT_OF_RANGE = 12,
    HIGHVANE_UNEVEN_STORE = 13,
    HIGHVANE_NO_SUCH_ROW = 14,
    HIGHVANE_SHIFT_TOO_LARGE = 15,
    HIGHVANE_SIZE_TOO_LARGE = 16,
    HIGHVANE_UNKNOWN_KIND = 17,
    HIGHVANE_CUT_SHORT = 18,
    HIGHVANE_INPUT_TOO_LONG = 19,
    HIGHVANE_SECOND_OPERAND_OUTSIDE_WIDTH = 20,
    HIGHVANE_SCORES_TOO_SHORT = 21
};

/* What a refusal means, as a sentence without a full stop; also for 0, and for a number that is no refusal. */
#ifdef __GNUC__
static __inline__
#else
static inline
#endif
const char *highvane_refusal_text(uint32_t refusal) {
    switch (refusal) {
    case HIGHVANE_ACCEPTED: return "accepted";
    case HIGHVANE_UNKNOWN_DESIGN: return "the design is not 1 to 5";
    case HIGHVANE_UNKNOWN_WIDTH: return "the width is not 8, 12, 16 or 32";
    case HIGHVANE_SETTING_OUT_OF_RANGE: return "the setting is not one that the design takes at this width";
    case HIGHVANE_FIRST_OPERAND_OUTSIDE_WIDTH: return "the first operand is outside the width";
    case HIGHVANE_LENGTHS_DIFFER: return "the weights and the frame differ in length";
    case HIGHVANE_TOO_MANY_PAIRS: return "the row has more than 4,096 pairs";
    case HIGHVANE_RESIDUES_TOO_SHORT: return "there are fewer places for the residues than pairs";
    case HIGHVANE_NOT_FINITE: return "an operand is infinite or NaN";
    case HIGHVANE_SUBNORMAL: return "an operand is subnormal";
    case HIGHVANE_EXPONENT_TOO_LARGE: return "the result's exponent field would pass 254";
    case HIGHVANE_EXPONENT_TOO_SMALL: return "the result's exponent field would be below 1";
    case HIGHVANE_COLUMNS_OUT_OF_RANGE: return "the columns are 0 or more than 4,096";
    case HIGHVANE_UNEVEN_STORE: return "the columns do not divide the store's length";
    case HIGHVANE_NO_SUCH_ROW: return "the store has no row of that number";
    case HIGHVANE_SHIFT_TOO_LARGE: return "the shift is above 40";
    case HIGHVANE_SIZE_TOO_LARGE: return "the size of the score or of T is above 2^53";
    case HIGHVANE_UNKNOWN_KIND: return "the record's kind is unknown";
    case HIGHVANE_CUT_SHORT: return "the record's body is cut short";
    case HIGHVANE_INPUT_TOO_LONG: return "the input is longer than 65,536 bytes";
    case HIGHVANE_SECOND_OPERAND_OUTSIDE_WIDTH: return "only the second operand is outside the width";
    case HIGHVANE_SCORES_TOO_SHORT: return "there are fewer places for the scores than rows";
    default: return "no refusal has this number";
    }
}

#define HIGHVANE_PAIRS_MAX 4096        /* pairs of a row, and columns of a weight store */
#define HIGHVANE_SHIFT_MAX 40          /* shift of a score that is handed out */
#define HIGHVANE_INPUT_MAX 65536       /* bytes of records that are read */
#define HIGHVANE_TRANSCRIPT_MAX 245760 /* bytes lent for a transcript; proved to suffice for every input */

typedef struct { uint64_t product; uint32_t refusal; } highvane_unsigned;
typedef struct { int64_t product; uint32_t refusal; } highvane_signed;
typedef struct {
    int64_t score, true_sum, error;
    uint64_t magnitude_sum, nonzero_pairs, largest_residue, largest_place;
    uint32_t refusal;
} highvane_report;
typedef struct { uint64_t rows; uint32_t refusal; } highvane_layer;
typedef struct { double score, magnitude_sum; uint32_t refusal; } highvane_scaled;
typedef struct { float value; uint32_t refusal; } highvane_single;

/*
 * The design's product of two operands of `width` bits, w: 8, 12, 16 or 32. Operands are 0 to 2^w - 1.
 * Refusals: 1, 2, 3, 4, 20.
 */
highvane_unsigned highvane_product_unsigned(uint32_t design, uint32_t width, uint32_t setting, uint64_t a, uint64_t b);

/*
 * The same for signed operands, -2^(w-1) to 2^(w-1) - 1: the design's product of their sizes, with a minus sign where their signs
 * differ.
 * Refusals: 1, 2, 3, 4, 20.
 */
highvane_signed highvane_product_signed(uint32_t design, uint32_t width, uint32_t setting, int64_t a, int64_t b);

/*
 * Scores a row: pair i is weights[i] and frame[i], and the design works at width 16. An empty row is accepted. residues[i] becomes
 * the true product of pair i less its design product, for each pair of the row; later places keep what they held. The report:
 *   score            the sum of the pairs' design products
 *   true_sum         the sum of their true products
 *   error            true_sum - score
 *   magnitude_sum    T, the sum of the sizes of the true products
 *   nonzero_pairs    n, how many pairs hold no 0
 *   largest_residue  the largest size of a residue
 *   largest_place    the first i that has it: the pair with the largest error; of an empty row 0
 *
 * Every sum is below 2^43 in size, and the error by designs 1 to 4 is bounded by T (not by the size of true_sum, where products
 * cancel):
 *   designs 1, 2   9 * |error| <= T; for a single pair without a 0, equal exactly when both sizes are 3 * 2^j
 *   design 3       4^s * |error| <= T, where s is the setting
 *   design 4       9 * 2^t * |error| <= (2^t + 18) * T + 9 * 2^t * n, where t is the setting
 * No such bound is promised for design 5. By every design |error| <= n * largest_residue.
 *
 * Refusals: 1, 3, 5, 6, 7.
 */
highvane_report highvane_score_row(uint32_t design, uint32_t setting, const int16_t *weights, size_t weights_len,
                                   const int16_t *frame, size_t frame_len, int64_t *residues, size_t residues_len);

/*
 * The row by one design: what highvane_score_row gives and writes with that design, bit for bit. The first two take the setting too,
 * and refuse all but 0. A program that calls one of these, and is linked with --gc-sections, holds that design's row alone.
 * Refusals: 3, 5, 6, 7.
 */
highvane_report highvane_score_row_mitchell(uint32_t setting, const int16_t *weights, size_t weights_len, const int16_t *frame,
                                            size_t frame_len, int64_t *residues, size_t residues_len);
highvane_report highvane_score_row_nearest(uint32_t setting, const int16_t *weights, size_t weights_len, const int16_t *frame,
                                           size_t frame_len, int64_t *residues, size_t residues_len);
highvane_report highvane_score_row_staged(uint32_t setting, const int16_t *weights, size_t weights_len, const int16_t *frame,
                                          size_t frame_len, int64_t *residues, size_t residues_len);
highvane_report highvane_score_row_truncated(uint32_t setting, const int16_t *weights, size_t weights_len, const int16_t *frame,
                                             size_t frame_len, int64_t *residues, size_t residues_len);
highvane_report highvane_score_row_twice_truncated(uint32_t setting, const int16_t *weights, size_t weights_len,
                                                   const int16_t *frame, size_t frame_len, int64_t *residues,
                                                   size_t residues_len);

/*
 * Judges a row of a weight store, in which rows of `columns` weights lie one after another, the first numbered 0. Gives 0 where
 * the row is there, `columns` weights from store + row * columns on, and otherwise the refusal's number. The answer depends on
 * the three numbers alone.
 * Refusals: 12, 13, 14.
 */
uint32_t highvane_row_refusal(const int16_t *store, size_t store_len, size_t columns, size_t row);

/*
 * Scores a layer: each row of a weight store, laid out as for highvane_row_refusal, against the one frame. scores[r] becomes the
 * score of row r, which is that of highvane_score_row for its weights and the frame; later places keep what they held. `rows` is
 * how many rows there are, store_len / columns. A store without rows is accepted, and nothing is written.
 *
 * There are no reports here, but what is said of a row's error above holds of each place that is written: of the true sum of that
 * row less its score, with T and n of that row.
 *
 * Refusals: 1, 3, 12, 13, 5, 21. Here 5 says that frame_len is not `columns`.
 */
highvane_layer highvane_score_layer(uint32_t design, uint32_t setting, const int16_t *store, size_t store_len, size_t columns,
                                    const int16_t *frame, size_t frame_len, int64_t *scores, size_t scores_len);

/*
 * Hands out a score and its T, each divided by 2^shift as an exact double: nothing is rounded, and 0 comes out as +0.
 * Refusals: 15, 16.
 */
highvane_scaled highvane_scale(int64_t score, uint64_t magnitude_sum, uint32_t shift);

/*
 * Mitchell's product of two binary32 numbers, which come as their 32-bit patterns. A zero operand gives zero. The result, also a
 * zero, has a minus sign where the operands' signs differ. Nothing is rounded. A subnormal operand, whose exponent field is 0 and
 * whose fraction is not, is refused.
 * Refusals: 8, 9; then, unless an operand is zero, 10, 11.
 */
highvane_single highvane_single_product(uint32_t a, uint32_t b);

/*
 * The product of two bytes by a table of logarithms. It equals design 1 at width 8.
 * Refusals: none.
 */
uint16_t highvane_table_product(uint8_t a, uint8_t b);

/*
 * Reads records and writes a line for each and then the total, as ASCII text with no 0 at its end. Gives the number of bytes
 * written; later places of `out` keep what they held. A record is one byte of kind and a body, low bytes first:
 *   kind 1, 6 bytes  a byte for the design, one for the setting, two signed operands of 16 bits: the signed product at width 16
 *   kind 2, 8 bytes  two 32-bit patterns: the single product, printed as a pattern
 *   kind 3, 2 bytes  two bytes: the table product
 * A line is "KIND ok RESULT" or "KIND no REFUSAL", in decimal; the last is "total ACCEPTED REFUSED". A line feed ends each line.
 *
 * Refusals stand in the text: 19, whose text is "0 no 19" and "total 0 1" alone; otherwise, for each record, 17 and 18, which end
 * the reading, and then those of its operation.
 */
size_t highvane_transcript(const uint8_t *input, size_t input_len, uint8_t out[HIGHVANE_TRANSCRIPT_MAX]);

/* The archive was compiled for this layout; where a compiler lays the answers out in another way, it stops here. */
#if defined(__cplusplus) && __cplusplus >= 201103L
#define HIGHVANE_ASSERT(name, holds) static_assert(holds, #name)
#elif !defined(__cplusplus) && defined(__STDC_VERSION__) && __STDC_VERSION__ >= 201112L
#define HIGHVANE_ASSERT(name, holds) _Static_assert(holds, #name)
#else
#define HIGHVANE_ASSERT(name, holds) typedef char name[(holds) ? 1 : -1]
#endif

HIGHVANE_ASSERT(highvane_lengths_have_64_bits, sizeof(size_t) == 8);
HIGHVANE_ASSERT(highvane_unsigned_layout, sizeof(highvane_unsigned) == 16 && offsetof(highvane_unsigned, refusal) == 8);
HIGHVANE_ASSERT(highvane_signed_layout, sizeof(highvane_signed) == 16 && offsetof(highvane_signed, refusal) == 8);
HIGHVANE_ASSERT(highvane_report_layout, sizeof(highvane_report) == 64 && offsetof(highvane_report, magnitude_sum) == 24
                                            && offsetof(highvane_report, largest_place) == 48
                                            && offsetof(highvane_report, refusal) == 56);
HIGHVANE_ASSERT(highvane_layer_layout, sizeof(highvane_layer) == 16 && offsetof(highvane_layer, refusal) == 8);
HIGHVANE_ASSERT(highvane_scaled_layout, sizeof(highvane_scaled) == 24 && offsetof(highvane_scaled, refusal) == 16);
HIGHVANE_ASSERT(highvane_single_layout, sizeof(highvane_single) == 8 && offsetof(highvane_single, refusal) == 4);

#undef HIGHVANE_ASSERT

#ifdef __cplusplus
}
#endif

#endif
