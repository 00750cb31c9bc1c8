"""The designs."""
import enum


class Design(enum.IntEnum):
    """The designs by their numbers. At width w, which is 16 for a row, MITCHELL and NEAREST_POWER take setting 0, STAGED takes the stages,
    1 to w, and TRUNCATED the bits that it keeps of each fraction, 1 to w - 1; so does TWICE_TRUNCATED, whose second stage keeps two. The
    library refuses every other number.

    >>> from highvane import unsigned_product
    >>> unsigned_product(Design.STAGED, 8, 2, 7, 7) == unsigned_product(3, 8, 2, 7, 7) == 48
    True
    """
    MITCHELL = 1
    NEAREST_POWER = 2
    STAGED = 3
    TRUNCATED = 4
    TWICE_TRUNCATED = 5
