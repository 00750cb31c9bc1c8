"""Products of two whole numbers, and of two bytes by the table."""
from . import raw
from ._whole import i64, u8, u32, u64
from .refusals import judged


def unsigned_product(design, width, setting, a, b):
    """The design's product of two numbers of `width` bits, 8, 12, 16 or 32. It refuses, in this order: 1, 2, 3, 4, 20.

    >>> from highvane import Design
    >>> unsigned_product(Design.MITCHELL, 8, 0, 5, 6)
    28
    >>> unsigned_product(Design.MITCHELL, 8, 0, 256, 6)
    Traceback (most recent call last):
    highvane.refusals.Refused: refusal 4: the first operand is outside the width
    """
    answer = raw.highvane_product_unsigned(u32('design', design), u32('width', width), u32('setting', setting), u64('a', a), u64('b', b))
    judged(answer.refusal)
    return answer.product


def signed_product(design, width, setting, a, b):
    """The design's product of two signed numbers of `width` bits: that of their sizes, with a minus sign where their signs differ. It
    refuses, in this order: 1, 2, 3, 4, 20.

    >>> from highvane import Design
    >>> signed_product(Design.NEAREST_POWER, 8, 0, -5, 6)
    -32
    >>> signed_product(Design.NEAREST_POWER, 12, 0, -5, 128)
    -640
    >>> signed_product(Design.NEAREST_POWER, 8, 0, -5, 128)
    Traceback (most recent call last):
    highvane.refusals.Refused: refusal 20: only the second operand is outside the width
    """
    answer = raw.highvane_product_signed(u32('design', design), u32('width', width), u32('setting', setting), i64('a', a), i64('b', b))
    judged(answer.refusal)
    return answer.product


def table_product(a, b):
    """The product of two bytes by the table of 256 logarithm codes, which is design 1 at width 8. No two bytes are refused.

    >>> table_product(255, 255)
    65024
    """
    return raw.highvane_table_product(u8('a', a), u8('b', b))
