"""Products that are judged first (docs/SCOPE.md, "Product, unsigned or signed")."""

import collections

from . import refusals
from .designs import DESIGNS, WIDTHS, settings_accepted, signed_product, unsigned_product

# The letters that their vectors begin with.
UNSIGNED = "u"
SIGNED = "s"
PRODUCT_KINDS = (UNSIGNED, SIGNED)

ProductInput = collections.namedtuple("ProductInput", "kind design width setting a b")


def lowest_operand(kind, width):
    return 0 if kind == UNSIGNED else -(2 ** (width - 1))


def highest_operand(kind, width):
    return 2**width - 1 if kind == UNSIGNED else 2 ** (width - 1) - 1


def fits(kind, width, operand):
    return lowest_operand(kind, width) <= operand <= highest_operand(kind, width)


def product_refusal(case):
    if case.design not in DESIGNS:
        return refusals.UNKNOWN_DESIGN
    if case.width not in WIDTHS:
        return refusals.UNKNOWN_WIDTH
    if case.setting not in settings_accepted(case.design, case.width):
        return refusals.SETTING_OUT_OF_RANGE
    if not fits(case.kind, case.width, case.a):
        return refusals.FIRST_OPERAND_OUTSIDE_WIDTH
    if not fits(case.kind, case.width, case.b):
        return refusals.SECOND_OPERAND_OUTSIDE_WIDTH
    return refusals.ACCEPTED


def product_outcome(case):
    """The refusal number and the product, one of them 0 at least."""
    refusal = product_refusal(case)
    if refusal:
        return refusal, 0
    multiply = unsigned_product if case.kind == UNSIGNED else signed_product
    return 0, multiply(case.design, case.setting, case.a, case.b)
