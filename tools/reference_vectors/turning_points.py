"""Pairs of operands at which a design passes from one case of its rule to another."""

import itertools

from reference_meaning.designs import MITCHELL, NEAREST, STAGED, TRUNCATED, TWICE_TRUNCATED, split
from reference_meaning.products import UNSIGNED, fits, highest_operand


def tie_pairs(_kind, width, _setting):
    """Sizes at and beside 3 * 2^j, in pairs: where design 1 passes from its first case to
    its second, and where design 2 passes from one power to the next."""
    steps = (-1, 0, 1)
    large = 3 * 2 ** (width - 3)
    small = 3 * 2
    return [
        (large + step_a, other + step_b)
        for other in (large, small)
        for step_a in steps
        for step_b in steps
    ]


def stage_pairs(_kind, _width, stages):
    """Sizes with as many ones as there are stages, and with one more or one fewer: after
    the last stage nothing is left, or just 1."""
    enough, more, fewer = 2**stages - 1, 2 ** (stages + 1) - 1, 2 ** (stages - 1) - 1
    return [(enough, enough), (more, more), (enough, more), (fewer, more)]


def cut_pairs(kind, width, t):
    """Sizes whose kept fractions and carry make just less than 1, or just 1 (design 4),
    without and with ones in the bits that are cut off."""
    k = split(highest_operand(kind, width))[0]
    if t > k:
        return []
    unit = 2 ** (k - t)
    below = 2**k + (2**t - 2) * unit
    at = 2**k + (2**t - 1) * unit
    cut_off = unit - 1
    return [
        (below, 2**k),
        (at, 2**k),
        (below + cut_off, 2**k + cut_off),
        (at + cut_off, 2**k + cut_off),
    ]


def twice_cut_pairs(kind, width, t):
    """The pairs of design 4, of which each case leaves nothing of a size once (design 5); and
    sizes of which so much is left that the second stage comes just to its second case, or
    just not: what the first case leaves for even settings, and the second for odd ones."""
    k = split(highest_operand(kind, width))[0]
    first = t % 3
    parts = [(4 + first, 4 + second) for second in (2 - first, 3 - first)]
    if t % 2 == 0:
        left = [(2**k + a, 2**k + b) for a, b in parts]
    else:
        left = [(2 ** (k + 1) - 1 - a, 2 ** (k + 1) - 1 - b) for a, b in parts]
    return cut_pairs(kind, width, t) + left


# Pairs of sizes by design, from the kind of product, the width and the setting.
TURNING_SIZES = {
    MITCHELL: tie_pairs,
    NEAREST: tie_pairs,
    STAGED: stage_pairs,
    TRUNCATED: cut_pairs,
    TWICE_TRUNCATED: twice_cut_pairs,
}


def turning_pairs(kind, design, width, setting):
    """Turning points, for a signed product with the four pairs of signs in rotation."""
    pairs = [
        (a, b)
        for a, b in TURNING_SIZES[design](kind, width, setting)
        if fits(kind, width, a) and fits(kind, width, b)
    ]
    if kind == UNSIGNED:
        return pairs
    signs = itertools.cycle(((1, -1), (1, 1), (-1, 1), (-1, -1)))
    return [(a * sign_a, b * sign_b) for (a, b), (sign_a, sign_b) in zip(pairs, signs)]
