"""Vectors of single products."""

import itertools

from reference_meaning import figures
from reference_meaning.refusals import EXPONENT_TOO_LARGE, EXPONENT_TOO_SMALL, NOT_FINITE, SUBNORMAL, ZERO_RULE
from reference_meaning.singles import FRACTION_LIMIT, HIGHEST_EXPONENT, SingleInput, pattern_of, single_outcome

from .choice import Chosen, generator, line_of, without_repetition

# The letter that the vectors begin with.
SINGLE = "f"

EDGE_EXPONENTS = (0, 1, 2, 63, 64, 126, 127, 128, 190, 191, 253, 254, 255)
EDGE_FRACTIONS = (0, 1, 0x3FFFFF, 0x400000, 0x400001, 0x7FFFFF)
BOTH_SIGNS = ((0, 0), (0, 1), (1, 0), (1, 1))

# So many pairs of fractions meet each pair of exponents.
FRACTIONS_AN_EXPONENT_PAIR = 14

# One of each class at least, without sign: zero, subnormal, normal, infinite, NaN.
POSITIVE_ZERO = 0
SUBNORMALS = (1, 0x400000, 0x7FFFFF)
ONE = 0x3F800000
NORMALS = (0x00800000, ONE, 0x3FC00000, 0x7F7FFFFF)
INFINITE = 0x7F800000
NANS = (0x7F800001, 0x7FC00000, 0x7FFFFFFF)
SIGN_BIT = 2**31

# Sums of exponents at which a result is the last or the first one that is accepted, with and
# without the carry from the fractions.
LOW_SUMS = (126, 127, 128, 129)
HIGH_SUMS = (379, 380, 381, 382)

RANDOM_PATTERNS = 250
RANDOM_NORMALS = 150


def edge_singles():
    """Edge exponents, all pairs, with edge fractions and signs in rotation."""
    fraction_pairs = list(itertools.product(EDGE_FRACTIONS, repeat=2))
    rotation = itertools.cycle(fraction_pairs)
    for index, exponents in enumerate(itertools.product(EDGE_EXPONENTS, repeat=2)):
        for step in range(FRACTIONS_AN_EXPONENT_PAIR):
            fields = zip(BOTH_SIGNS[(index + step) % 4], exponents, next(rotation))
            yield SingleInput(*(pattern_of(*operand) for operand in fields))


def zero_singles():
    """Zeros of both signs, on either side, with every class of both signs."""
    classes = (POSITIVE_ZERO, *SUBNORMALS, *NORMALS, INFINITE, *NANS)
    for other, sign_a, sign_b in itertools.product(classes, (0, SIGN_BIT), (0, SIGN_BIT)):
        yield SingleInput(POSITIVE_ZERO + sign_a, other + sign_b)
        yield SingleInput(other + sign_b, POSITIVE_ZERO + sign_a)


def exponents_of_sum(total):
    """Pairs of exponents of normal numbers that have this sum."""
    low = max(1, total - HIGHEST_EXPONENT)
    high = total - low
    middle = total // 2
    return [(low, high), (high, low), (low + 1, high - 1), (middle, total - middle)]


def fractions_near_carry(rng):
    """Pairs of fractions whose sum is just below 2^23, just that, and just above, and the
    least and the largest sums."""
    drawn = 2 + rng.getrandbits(23) % (FRACTION_LIMIT - 2)
    pairs = [(0, 0), (FRACTION_LIMIT - 1, FRACTION_LIMIT - 1)]
    for first in (drawn, FRACTION_LIMIT // 2):
        for total in (FRACTION_LIMIT - 1, FRACTION_LIMIT, FRACTION_LIMIT + 1):
            pairs.append((first, total - first))
    return pairs


def carry_singles(rng):
    """Fractions near the carry where the result's exponent is at an end of the range, and far
    from both ends."""
    signs = itertools.cycle(BOTH_SIGNS)
    for total in (*LOW_SUMS, 254, *HIGH_SUMS):
        for exponents in exponents_of_sum(total):
            for fraction_pair in fractions_near_carry(rng):
                fields = zip(next(signs), exponents, fraction_pair)
                yield SingleInput(*(pattern_of(*operand) for operand in fields))


def random_singles(rng):
    for _ in range(RANDOM_PATTERNS):
        yield SingleInput(rng.getrandbits(32), rng.getrandbits(32))


def random_normal(rng):
    """A pattern with an exponent from 64 to 191: such exponents give a result in the middle."""
    return pattern_of(rng.getrandbits(1), 64 + rng.getrandbits(7), rng.getrandbits(23))


def random_normal_singles(rng):
    for _ in range(RANDOM_NORMALS):
        yield SingleInput(random_normal(rng), random_normal(rng))


# The refusals that apply, the zero rule among them, and an input to which they apply.
ORDERED = (
    ((NOT_FINITE, SUBNORMAL), SingleInput(INFINITE, SUBNORMALS[0])),
    ((NOT_FINITE, SUBNORMAL), SingleInput(SUBNORMALS[-1], INFINITE)),
    ((NOT_FINITE, SUBNORMAL), SingleInput(NANS[0], SUBNORMALS[0])),
    ((NOT_FINITE, SUBNORMAL), SingleInput(SUBNORMALS[0], NANS[-1])),
    ((NOT_FINITE, ZERO_RULE), SingleInput(INFINITE, POSITIVE_ZERO)),
    ((NOT_FINITE, ZERO_RULE), SingleInput(POSITIVE_ZERO, NANS[1])),
    ((NOT_FINITE, EXPONENT_TOO_LARGE), SingleInput(INFINITE, NORMALS[-1])),
    ((NOT_FINITE, EXPONENT_TOO_LARGE), SingleInput(NORMALS[-1], NANS[1])),
    ((SUBNORMAL, ZERO_RULE), SingleInput(SUBNORMALS[0], POSITIVE_ZERO)),
    ((SUBNORMAL, ZERO_RULE), SingleInput(POSITIVE_ZERO, SUBNORMALS[-1])),
    ((SUBNORMAL, EXPONENT_TOO_SMALL), SingleInput(SUBNORMALS[-1], NORMALS[0])),
    ((SUBNORMAL, EXPONENT_TOO_SMALL), SingleInput(NORMALS[0], SUBNORMALS[0])),
    ((ZERO_RULE, EXPONENT_TOO_SMALL), SingleInput(POSITIVE_ZERO, NORMALS[0])),
    ((ZERO_RULE, EXPONENT_TOO_SMALL), SingleInput(NORMALS[0], POSITIVE_ZERO)),
)


def chosen():
    rng = generator()
    cases = [case for case, _, _ in figures.SINGLES]
    cases += [case for _, case in ORDERED]
    cases += zero_singles()
    cases += edge_singles()
    cases += carry_singles(rng)
    cases += random_singles(rng)
    cases += random_normal_singles(rng)
    return Chosen(without_repetition(cases), ORDERED)


def line(case):
    return line_of(SINGLE, *case, *single_outcome(case))
