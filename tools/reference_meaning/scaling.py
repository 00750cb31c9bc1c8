"""Scores that are handed out (docs/SCOPE.md, "Handing out a score")."""

import collections

from . import refusals
from .designs import split

MAX_SHIFT = 40
MAX_SIZE = 2**53

ScalingInput = collections.namedtuple("ScalingInput", "score t shift")


def scaling_refusal(case):
    if case.shift > MAX_SHIFT:
        return refusals.SHIFT_TOO_LARGE
    if abs(case.score) > MAX_SIZE or case.t > MAX_SIZE:
        return refusals.SIZE_TOO_LARGE
    return refusals.ACCEPTED


def binary64(number, shift):
    """The pattern of number / 2^shift, whose size is 2^(k - shift) * (1 + rest / 2^k).  The
    fraction is whole: k is at most 52, or the number's size is 2^53 and nothing is left."""
    if number == 0:
        return 0
    k, rest = split(abs(number))
    sign = 1 if number < 0 else 0
    exponent = 1023 + k - shift
    fraction = rest * 2**52 // 2**k
    return sign * 2**63 + exponent * 2**52 + fraction


def scaling_outcome(case):
    """The refusal number and the two patterns."""
    refusal = scaling_refusal(case)
    if refusal:
        return refusal, 0, 0
    return 0, binary64(case.score, case.shift), binary64(case.t, case.shift)
