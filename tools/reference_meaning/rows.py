"""Rows of weights (docs/SCOPE.md, "Rows of weights" and "Scoring a row")."""

import collections

from . import refusals
from .designs import DESIGNS, settings_accepted, signed_product

ROW_WIDTH = 16
MAX_PAIRS = 4096

# Weights and frame are tuples; `places` is the length of the lent residue slice.
RowInput = collections.namedtuple("RowInput", "design setting weights frame places")
RowReport = collections.namedtuple("RowReport", "score true_sum error t n largest place residues")

NO_REPORT = RowReport(score=0, true_sum=0, error=0, t=0, n=0, largest=0, place=0, residues=())


def row_refusal(case):
    if case.design not in DESIGNS:
        return refusals.UNKNOWN_DESIGN
    return refusal_by_itself(case)


def refusal_by_itself(case):
    """The refusal of a design's own row, which judges no design; its report and its residues are those of row_report."""
    if case.setting not in settings_accepted(case.design, ROW_WIDTH):
        return refusals.SETTING_OUT_OF_RANGE
    if len(case.weights) != len(case.frame):
        return refusals.LENGTHS_DIFFER
    if len(case.weights) > MAX_PAIRS:
        return refusals.TOO_MANY_PAIRS
    if case.places < len(case.weights):
        return refusals.RESIDUES_TOO_SHORT
    return refusals.ACCEPTED


def without_zero(pair):
    """Neither of the pair's numbers is 0."""
    weight, number = pair
    return weight != 0 and number != 0


def largest_and_place(residues):
    """The largest size of the residues, and the first place that has it; 0 and 0 where there are none."""
    sizes = [abs(residue) for residue in residues]
    largest = max(sizes, default=0)
    return (largest, sizes.index(largest)) if sizes else (0, 0)


def row_report(design, setting, pairs):
    """The report on the pairs of an accepted row."""
    products = [signed_product(design, setting, weight, number) for weight, number in pairs]
    true_products = [weight * number for weight, number in pairs]
    score, true_sum = sum(products), sum(true_products)
    residues = tuple(true_product - product for true_product, product in zip(true_products, products))
    largest, place = largest_and_place(residues)
    return RowReport(
        score=score,
        true_sum=true_sum,
        error=true_sum - score,
        t=sum(abs(true_product) for true_product in true_products),
        n=sum(1 for pair in pairs if without_zero(pair)),
        largest=largest,
        place=place,
        residues=residues,
    )


def row_pairs(case):
    return list(zip(case.weights, case.frame))


def row_outcome(case):
    """The refusal number and the report, one of them without content."""
    refusal = row_refusal(case)
    if refusal:
        return refusal, NO_REPORT
    return 0, row_report(case.design, case.setting, row_pairs(case))
