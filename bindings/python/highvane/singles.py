"""The single-precision product."""
import numbers
import struct

from . import raw
from ._whole import u32
from .refusals import judged


def _pattern(name, number):
    """The pattern of a number, which must be one of binary32: nothing is rounded."""
    if isinstance(number, bool) or not isinstance(number, numbers.Real):
        raise TypeError(f'{name} must be a float, not {type(number).__name__}')
    packed = struct.pack('<f', float(number))
    if number == number and struct.unpack('<f', packed)[0] != number:
        raise ValueError(f'{name} is no binary32 number')
    return int.from_bytes(packed, 'little')


def single_product(a, b):
    """Mitchell's product of two binary32 numbers, each a float with such a value: one between two of them raises ValueError, and one beyond
    the largest OverflowError. It refuses, in this order: 8, 9, then 10 and 11 unless an operand is zero.

    >>> single_product(1.5, 1.5)
    2.0
    >>> single_product(-0.0, 7.0)
    -0.0
    >>> single_product(0.1, 1.0)
    Traceback (most recent call last):
    ValueError: a is no binary32 number
    """
    return single_product_of_bits(_pattern('a', a), _pattern('b', b))


def single_product_of_bits(a, b):
    """single_product of two binary32 numbers that are given by their patterns, 32-bit whole numbers.

    >>> single_product_of_bits(0x3FA00000, 0x3FA00000)
    1.5
    """
    answer = raw.highvane_single_product(u32('a', a), u32('b', b))
    judged(answer.refusal)
    return answer.value
