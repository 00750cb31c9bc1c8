"""Products of two bytes by codes (docs/SCOPE.md, "The byte table")."""

from .designs import split


def code(byte):
    """The logarithm code of a nonzero byte."""
    k, a = split(byte)
    return 128 * k + a * 2 ** (7 - k)


def table_product(a, b):
    # The code of 0 is that of no size, so a sum of codes must not be formed with it.
    if a == 0 or b == 0:
        return 0
    quotient, rest = divmod(code(a) + code(b), 128)
    return (128 + rest) * 2**quotient // 128
