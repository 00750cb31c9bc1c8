"""Product vectors: inputs to which one refusal applies, and inputs to which several do."""

import itertools

from reference_meaning import refusals
from reference_meaning.designs import DESIGNS, WIDTHS
from reference_meaning.products import PRODUCT_KINDS, UNSIGNED, ProductInput, highest_operand, lowest_operand

from .choice import MAX_I64, MAX_U64, MIN_I64
from .wrong_numbers import (
    UNKNOWN_DESIGNS,
    UNKNOWN_WIDTHS,
    end_settings,
    nonempty_sets,
    order_designs,
    order_settings,
    order_widths,
    unlisted_settings,
)


def plain_pairs(kind):
    """Operands that every width takes."""
    return [(5, 6), (0, 1)] if kind == UNSIGNED else [(-5, 6), (0, -1)]


def outside_operands(kind, width):
    """Operands just outside the width on either side, and far outside."""
    if kind == UNSIGNED:
        return [2**width, 2**width + 1, MAX_I64, MAX_U64]
    high, low = highest_operand(kind, width), lowest_operand(kind, width)
    return [high + 1, low - 1, 2**width - 1, MAX_I64, MIN_I64]


def unknown_design_cases(kind):
    for design, width, setting in itertools.product(UNKNOWN_DESIGNS, WIDTHS, (0, 1)):
        for a, b in plain_pairs(kind):
            yield ProductInput(kind, design, width, setting, a, b)


def unknown_width_cases(kind):
    for design, width in itertools.product(DESIGNS, UNKNOWN_WIDTHS):
        # Only settings that the design takes at every width that there is.
        for setting in end_settings(design, WIDTHS[0]):
            for a, b in plain_pairs(kind):
                yield ProductInput(kind, design, width, setting, a, b)


def unlisted_setting_cases(kind):
    for design, width in itertools.product(DESIGNS, WIDTHS):
        for setting in unlisted_settings(design, width):
            for a, b in plain_pairs(kind):
                yield ProductInput(kind, design, width, setting, a, b)


def outside_pairs(kind, width):
    """An operand outside the width in first place, in second place, and in both.  A partner
    of 0 is among them: the rule for a zero operand does not make the other one accepted."""
    outside = outside_operands(kind, width)
    low, high = lowest_operand(kind, width), highest_operand(kind, width)
    partners = itertools.cycle((0, 1, high, low, 3))
    for index, operand in enumerate(outside):
        yield operand, next(partners)
        yield next(partners), operand
        yield operand, outside[(index + 1) % len(outside)]


def outside_operand_cases(kind):
    for design, width in itertools.product(DESIGNS, WIDTHS):
        for setting in end_settings(design, width):
            for a, b in outside_pairs(kind, width):
                yield ProductInput(kind, design, width, setting, a, b)


def refused_cases():
    for kind in PRODUCT_KINDS:
        yield from unknown_design_cases(kind)
        yield from unknown_width_cases(kind)
        yield from unlisted_setting_cases(kind)
        yield from outside_operand_cases(kind)


def order_pairs(kind, first_outside, second_outside):
    """Operands of which each is inside every width or, by little or by much, outside all."""
    inside = plain_pairs(kind)[0]
    if kind == UNSIGNED:
        outside = [(2**32, MAX_U64), (MAX_U64, 2**32)]
    else:
        outside = [(MIN_I64, 2**31), (-(2**31) - 1, MAX_I64)]
    pairs = [(a if first_outside else inside[0], b if second_outside else inside[1]) for a, b in outside]
    return pairs if first_outside or second_outside else pairs[:1]


def order_cases():
    """Pairs of the refusals that apply and an input to which they apply."""
    for kind, applying in itertools.product(PRODUCT_KINDS, nonempty_sets(refusals.OF_PRODUCT)):
        pairs = order_pairs(
            kind,
            refusals.FIRST_OPERAND_OUTSIDE_WIDTH in applying,
            refusals.SECOND_OPERAND_OUTSIDE_WIDTH in applying,
        )
        for design in order_designs(refusals.UNKNOWN_DESIGN in applying):
            for width, setting, (a, b) in itertools.product(
                order_widths(refusals.UNKNOWN_WIDTH in applying),
                order_settings(design, refusals.SETTING_OUT_OF_RANGE in applying),
                pairs,
            ):
                yield applying, ProductInput(kind, design, width, setting, a, b)
