"""Product vectors: inputs that are accepted; refused_products.py has the others."""

import itertools

from reference_meaning import figures
from reference_meaning.designs import DESIGNS, WIDTHS, settings_accepted
from reference_meaning.products import (
    PRODUCT_KINDS,
    UNSIGNED,
    ProductInput,
    highest_operand,
    lowest_operand,
    product_outcome,
)

from .choice import Chosen, boundary_operands, boundary_pairs, generator, line_of, random_pairs, without_repetition
from .refused_products import order_cases, refused_cases
from .turning_points import turning_pairs

# At least this many pairs of boundary operands go to each setting; more where a
# design has too few settings to bring every boundary operand into play.
BOUNDARY_PAIRS_A_SETTING = 6

# Random pairs for each kind, design and width are shared out over the settings, but
# each setting gets at least the smaller number.
RANDOM_PAIRS_A_WIDTH = 20
RANDOM_PAIRS_A_SETTING = 3


def end_pairs(kind, width):
    """The ends of the width against each other and against 0."""
    low, high = lowest_operand(kind, width), highest_operand(kind, width)
    if kind == UNSIGNED:
        return [(high, high), (0, high)]
    return [(high, high), (low, low), (high, low), (low, 0)]


def accepted_cases(rng, kind, design, width):
    """Accepted inputs over all settings of a design at a width."""
    settings = settings_accepted(design, width)
    operands = boundary_operands(kind, width)
    rotation = boundary_pairs(operands)
    # Rounded up, so that the settings together go round the operands once at least.
    rotated = max(BOUNDARY_PAIRS_A_SETTING, -(-len(operands) // len(settings)))
    drawn = max(RANDOM_PAIRS_A_SETTING, RANDOM_PAIRS_A_WIDTH // len(settings))
    for setting in settings:
        pairs = end_pairs(kind, width)
        pairs += turning_pairs(kind, design, width, setting)
        pairs += itertools.islice(rotation, rotated)
        pairs += random_pairs(rng, kind, width, drawn)
        for a, b in pairs:
            yield ProductInput(kind, design, width, setting, a, b)


def all_accepted_cases():
    rng = generator()
    for kind, design, width in itertools.product(PRODUCT_KINDS, DESIGNS, WIDTHS):
        yield from accepted_cases(rng, kind, design, width)


def chosen():
    ordered = list(order_cases())
    cases = [case for case, _, _ in figures.PRODUCTS]
    cases += [case for case, _ in figures.JUDGED_PRODUCTS]
    cases += all_accepted_cases()
    cases += refused_cases()
    cases += [case for _, case in ordered]
    return Chosen(without_repetition(cases), ordered)


def line(case):
    return line_of(*case, *product_outcome(case))
