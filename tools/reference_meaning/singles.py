"""Products of binary32 patterns (docs/SCOPE.md, "Single-precision products"; source 000, equation 3.1)."""

import collections

from . import refusals

BIAS = 127
FRACTION_LIMIT = 2**23
HIGHEST_EXPONENT = 254

# A and B are patterns.
SingleInput = collections.namedtuple("SingleInput", "a b")
Fields = collections.namedtuple("Fields", "sign exponent fraction")


def fields_of(pattern):
    return Fields(pattern // 2**31, pattern // 2**23 % 2**8, pattern % 2**23)


def pattern_of(sign, exponent, fraction):
    return sign * 2**31 + exponent * 2**23 + fraction


def is_infinite_or_nan(fields):
    return fields.exponent > HIGHEST_EXPONENT


def is_subnormal(fields):
    return fields.exponent == 0 and fields.fraction != 0


def is_zero(fields):
    return fields.exponent == 0 and fields.fraction == 0


def result_fields(a, b):
    """The result's fields for two normal operands; its exponent may be outside the field."""
    sign = 1 if a.sign != b.sign else 0
    total = a.fraction + b.fraction
    if total < FRACTION_LIMIT:
        return Fields(sign, a.exponent + b.exponent - BIAS, total)
    return Fields(sign, a.exponent + b.exponent - BIAS + 1, total - FRACTION_LIMIT)


def single_outcome(case):
    """The refusal number and the result's pattern."""
    a, b = fields_of(case.a), fields_of(case.b)
    if is_infinite_or_nan(a) or is_infinite_or_nan(b):
        return refusals.NOT_FINITE, 0
    if is_subnormal(a) or is_subnormal(b):
        return refusals.SUBNORMAL, 0
    result = result_fields(a, b)
    if is_zero(a) or is_zero(b):
        return refusals.ACCEPTED, pattern_of(result.sign, 0, 0)
    if result.exponent > HIGHEST_EXPONENT:
        return refusals.EXPONENT_TOO_LARGE, 0
    if result.exponent < 1:
        return refusals.EXPONENT_TOO_SMALL, 0
    return refusals.ACCEPTED, pattern_of(*result)


def single_refusal(case):
    return single_outcome(case)[0]
