"""The refusals, each with its number and its text, and the exception that carries one."""
import enum


class Refusal(enum.IntEnum):
    """Why an operation refused its input. 17 to 19 stand only in the lines of a transcript.

    >>> Refusal(14)
    <Refusal.NO_SUCH_ROW: 14>
    >>> Refusal.NO_SUCH_ROW.text
    'the store has no row of that number'
    """

    def __new__(cls, number, text):
        refusal = int.__new__(cls, number)
        refusal._value_ = number
        refusal.text = text
        return refusal

    # names, numbers and texts are those of include/highvane.h
    UNKNOWN_DESIGN = 1, 'the design is not 1 to 5'
    UNKNOWN_WIDTH = 2, 'the width is not 8, 12, 16 or 32'
    SETTING_OUT_OF_RANGE = 3, 'the setting is not one that the design takes at this width'
    FIRST_OPERAND_OUTSIDE_WIDTH = 4, 'the first operand is outside the width'
    LENGTHS_DIFFER = 5, 'the weights and the frame differ in length'
    TOO_MANY_PAIRS = 6, 'the row has more than 4,096 pairs'
    RESIDUES_TOO_SHORT = 7, 'there are fewer places for the residues than pairs'
    NOT_FINITE = 8, 'an operand is infinite or NaN'
    SUBNORMAL = 9, 'an operand is subnormal'
    EXPONENT_TOO_LARGE = 10, "the result's exponent field would pass 254"
    EXPONENT_TOO_SMALL = 11, "the result's exponent field would be below 1"
    COLUMNS_OUT_OF_RANGE = 12, 'the columns are 0 or more than 4,096'
    UNEVEN_STORE = 13, "the columns do not divide the store's length"
    NO_SUCH_ROW = 14, 'the store has no row of that number'
    SHIFT_TOO_LARGE = 15, 'the shift is above 40'
    SIZE_TOO_LARGE = 16, 'the size of the score or of T is above 2^53'
    UNKNOWN_KIND = 17, "the record's kind is unknown"
    CUT_SHORT = 18, "the record's body is cut short"
    INPUT_TOO_LONG = 19, 'the input is longer than 65,536 bytes'
    SECOND_OPERAND_OUTSIDE_WIDTH = 20, 'only the second operand is outside the width'
    SCORES_TOO_SHORT = 21, 'there are fewer places for the scores than rows'


class Refused(Exception):
    """An operation refused its input.

    >>> from highvane import scale
    >>> try:
    ...     scale(-20, 39, 41)
    ... except Refused as refused:
    ...     print(refused.refusal.name, refused.number, refused.text)
    SHIFT_TOO_LARGE 15 the shift is above 40
    """

    def __init__(self, refusal):
        super().__init__(refusal)
        self.refusal = Refusal(refusal)

    @property
    def number(self):
        """The number under which the refusal is known to every caller of the library."""
        return int(self.refusal)

    @property
    def text(self):
        """What the refusal means, as a sentence without a full stop."""
        return self.refusal.text

    def __str__(self):
        return f'refusal {self.number}: {self.text}'


def judged(number):
    """Raises what the field `refusal` of an answer says; 0 is accepted."""
    if number != 0:
        raise Refused(number)
