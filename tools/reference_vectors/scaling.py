"""Vectors of scores that are handed out."""

import itertools

from reference_meaning import figures
from reference_meaning.refusals import SHIFT_TOO_LARGE, SIZE_TOO_LARGE
from reference_meaning.scaling import MAX_SHIFT, ScalingInput, scaling_outcome

from .choice import (
    MAX_I64,
    MAX_U32,
    MAX_U64,
    MIN_I64,
    Chosen,
    generator,
    line_of,
    random_size,
    rotation_step,
    without_repetition,
)

# The letter that the vectors begin with.
HANDED_OUT = "h"

EDGE_SCORES = (
    *(0, 1, -1, 2**53 - 1, 1 - 2**53, 2**53, -(2**53)),
    *(2**53 + 1, -(2**53) - 1, MAX_I64, MIN_I64),
)

# The last two would be small if they were taken as signed numbers or cut to 32 bits.
EDGE_TS = (0, 1, 2**53 - 1, 2**53, 2**53 + 1, MAX_U64, 2**63)

# The last two would be accepted if they were cut to a byte or to 16 bits.
EDGE_SHIFTS = (0, 1, 3, 39, 40, 41, MAX_U32, 256, 2**16)

# So many that are accepted, and so many that mostly are not.
RANDOM_INSIDE = 250
RANDOM_OUTSIDE = 50


def powers():
    """Powers of two and their neighbours, with both signs, up to the largest size handed
    out, and all shifts, in rotation."""
    sizes = [2**k + step for k in range(54) for step in (-1, 0, 1)]
    step = rotation_step(len(sizes))
    for index, size in enumerate(sizes):
        score = -size if index % 2 else size
        yield ScalingInput(score, sizes[index * step % len(sizes)], index % (MAX_SHIFT + 1))


def random_inputs(rng, count, score_bits, t_bits):
    for _ in range(count):
        size = random_size(rng, score_bits, drawn=64)
        score = -size if rng.getrandbits(1) else size
        t = random_size(rng, t_bits, drawn=64)
        yield ScalingInput(score, t, rng.getrandbits(16) % (MAX_SHIFT + 1))


# The refusals that apply, at first none, and an input to which they apply.
ORDERED = (
    ((), ScalingInput(2**53, 2**53, 40)),
    ((), ScalingInput(-(2**53), 2**53, 0)),
    ((SHIFT_TOO_LARGE,), ScalingInput(0, 0, 41)),
    ((SHIFT_TOO_LARGE,), ScalingInput(2**53, 2**53, MAX_U32)),
    ((SIZE_TOO_LARGE,), ScalingInput(2**53 + 1, 0, 0)),
    ((SIZE_TOO_LARGE,), ScalingInput(MIN_I64, 0, 40)),
    ((SIZE_TOO_LARGE,), ScalingInput(0, 2**53 + 1, 40)),
    ((SIZE_TOO_LARGE,), ScalingInput(0, MAX_U64, 0)),
    ((SIZE_TOO_LARGE,), ScalingInput(-(2**53) - 1, 2**53 + 1, 0)),
    ((SHIFT_TOO_LARGE, SIZE_TOO_LARGE), ScalingInput(2**53 + 1, 0, 41)),
    ((SHIFT_TOO_LARGE, SIZE_TOO_LARGE), ScalingInput(0, 2**53 + 1, 41)),
    ((SHIFT_TOO_LARGE, SIZE_TOO_LARGE), ScalingInput(MIN_I64, MAX_U64, MAX_U32)),
)


def chosen():
    rng = generator()
    cases = [figures.SCALING]
    cases += [case for _, case in ORDERED]
    cases += itertools.starmap(ScalingInput, itertools.product(EDGE_SCORES, EDGE_TS, EDGE_SHIFTS))
    cases += powers()
    cases += random_inputs(rng, RANDOM_INSIDE, 53, 53)
    cases += random_inputs(rng, RANDOM_OUTSIDE, 63, 64)
    return Chosen(without_repetition(cases), ORDERED)


def line(case):
    return line_of(HANDED_OUT, *case, *scaling_outcome(case))
