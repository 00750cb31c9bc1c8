"""The refusals by name, what each means, and the order in which each operation tries its own.

The order stands apart from the functions that judge an input, and the self-checks hold those to it.
"""

ACCEPTED = 0

UNKNOWN_DESIGN = 1
UNKNOWN_WIDTH = 2
SETTING_OUT_OF_RANGE = 3
FIRST_OPERAND_OUTSIDE_WIDTH = 4
LENGTHS_DIFFER = 5
TOO_MANY_PAIRS = 6
RESIDUES_TOO_SHORT = 7
NOT_FINITE = 8
SUBNORMAL = 9
EXPONENT_TOO_LARGE = 10
EXPONENT_TOO_SMALL = 11
COLUMNS_OUT_OF_RANGE = 12
UNEVEN_STORE = 13
NO_SUCH_ROW = 14
SHIFT_TOO_LARGE = 15
SIZE_TOO_LARGE = 16
UNKNOWN_KIND = 17
CUT_SHORT = 18
INPUT_TOO_LONG = 19
SECOND_OPERAND_OUTSIDE_WIDTH = 20
SCORES_TOO_SHORT = 21

TEXTS = {
    ACCEPTED: "accepted",
    UNKNOWN_DESIGN: "the design is not 1 to 5",
    UNKNOWN_WIDTH: "the width is not 8, 12, 16 or 32",
    SETTING_OUT_OF_RANGE: "the setting is not one that the design takes at this width",
    FIRST_OPERAND_OUTSIDE_WIDTH: "the first operand is outside the width",
    LENGTHS_DIFFER: "the weights and the frame differ in length",
    TOO_MANY_PAIRS: "the row has more than 4,096 pairs",
    RESIDUES_TOO_SHORT: "there are fewer places for the residues than pairs",
    NOT_FINITE: "an operand is infinite or NaN",
    SUBNORMAL: "an operand is subnormal",
    EXPONENT_TOO_LARGE: "the result's exponent field would pass 254",
    EXPONENT_TOO_SMALL: "the result's exponent field would be below 1",
    COLUMNS_OUT_OF_RANGE: "the columns are 0 or more than 4,096",
    UNEVEN_STORE: "the columns do not divide the store's length",
    NO_SUCH_ROW: "the store has no row of that number",
    SHIFT_TOO_LARGE: "the shift is above 40",
    SIZE_TOO_LARGE: "the size of the score or of T is above 2^53",
    UNKNOWN_KIND: "the record's kind is unknown",
    CUT_SHORT: "the record's body is cut short",
    INPUT_TOO_LONG: "the input is longer than 65,536 bytes",
    SECOND_OPERAND_OUTSIDE_WIDTH: "only the second operand is outside the width",
    SCORES_TOO_SHORT: "there are fewer places for the scores than rows",
}

OF_PRODUCT = (
    UNKNOWN_DESIGN,
    UNKNOWN_WIDTH,
    SETTING_OUT_OF_RANGE,
    FIRST_OPERAND_OUTSIDE_WIDTH,
    SECOND_OPERAND_OUTSIDE_WIDTH,
)
OF_ROW = (UNKNOWN_DESIGN, SETTING_OUT_OF_RANGE, LENGTHS_DIFFER, TOO_MANY_PAIRS, RESIDUES_TOO_SHORT)
OF_STORE = (COLUMNS_OUT_OF_RANGE, UNEVEN_STORE, NO_SUCH_ROW)
OF_LAYER = (
    UNKNOWN_DESIGN,
    SETTING_OUT_OF_RANGE,
    COLUMNS_OUT_OF_RANGE,
    UNEVEN_STORE,
    LENGTHS_DIFFER,
    SCORES_TOO_SHORT,
)
OF_SCALING = (SHIFT_TOO_LARGE, SIZE_TOO_LARGE)

# A zero operand is accepted after two of the refusals were tried and before the other two are.
ZERO_RULE = ACCEPTED
OF_SINGLE = (NOT_FINITE, SUBNORMAL, ZERO_RULE, EXPONENT_TOO_LARGE, EXPONENT_TOO_SMALL)


def said(refusal):
    """The number and its text, for a message."""
    return f"{refusal} ({TEXTS[refusal]})"


def first_of(order, applying):
    """Of all that apply to an input, the one that is tried first; none is an acceptance."""
    return min(applying, key=order.index, default=ACCEPTED)
