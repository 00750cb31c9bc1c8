"""Handing out a score and T as floats."""
import dataclasses

from . import raw
from ._whole import i64, u32, u64
from .refusals import judged

# the largest shift of a score that is handed out
SHIFT_MAX = 40


@dataclasses.dataclass(frozen=True)
class Scaled:
    """A score and T, each divided by 2^shift."""
    score: float
    magnitude_sum: float


def scale(score, magnitude_sum, shift):
    """A score and T, each exactly the quotient by 2^shift; that of 0 is +0. It refuses, in this order: 15, 16.

    >>> scale(-20, 39, 3)
    Scaled(score=-2.5, magnitude_sum=4.875)
    """
    answer = raw.highvane_scale(i64('score', score), u64('magnitude_sum', magnitude_sum), u32('shift', shift))
    judged(answer.refusal)
    return Scaled(answer.score, answer.magnitude_sum)
