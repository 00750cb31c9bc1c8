"""Self-checks of the singles."""

import fractions
import itertools
import struct

from reference_meaning import figures, refusals
from reference_meaning.designs import mitchell
from reference_meaning.singles import BIAS, FRACTION_LIMIT, SingleInput, fields_of, single_outcome, single_refusal
from reference_vectors.singles import BOTH_SIGNS, EDGE_EXPONENTS, EDGE_FRACTIONS, NORMALS, ONE, SIGN_BIT

from .expect import check_refusals, expect


def check_figures():
    for case, refusal, result in figures.SINGLES:
        found = single_outcome(case)
        expect(found == (refusal, result), f"single {case}: {found}, not {(refusal, result)}")


def check_by_one():
    """A product with 1 is the other operand, from the least normal one to the largest."""
    for normal in NORMALS:
        for case in (SingleInput(normal, ONE), SingleInput(ONE, normal)):
            found = single_outcome(case)
            expect(found == (0, normal), f"single {case}: {found}")


def single_value(pattern):
    """The number that a finite pattern stands for, by Python's own reading of it."""
    return fractions.Fraction(struct.unpack(">f", struct.pack(">I", pattern))[0])


def check_shortfall(case, result):
    """The result has the true product's sign and falls short of it by a ninth at most."""
    true_product = single_value(case.a) * single_value(case.b)
    quotient = single_value(result) / true_product
    expect(fractions.Fraction(8, 9) <= quotient <= 1, f"single {case}: {quotient} of the product")


def check_by_integers(case, result):
    """The result is design 1's product of the two significands, 2^23 + e and 2^23 + f; each
    of them counts units of 2^(exponent field - 150)."""
    a, b = fields_of(case.a), fields_of(case.b)
    product = mitchell(FRACTION_LIMIT + a.fraction, FRACTION_LIMIT + b.fraction)
    unit = fractions.Fraction(2) ** (a.exponent + b.exponent - 2 * (BIAS + 23))
    found = abs(single_value(result))
    expect(found == product * unit, f"single {case}: {found}, not {product * unit}")


def check_zero(case, result):
    """A zero, minus exactly if one operand is."""
    minus = (case.a >= SIGN_BIT) != (case.b >= SIGN_BIT)
    expect(result == (SIGN_BIT if minus else 0), f"single {case}: {result}")


def check_results(cases):
    for case in cases:
        refusal, result = single_outcome(case)
        if refusal:
            continue
        if single_value(case.a) == 0 or single_value(case.b) == 0:
            check_zero(case, result)
        else:
            check_shortfall(case, result)
            check_by_integers(case, result)


def check_coverage(cases):
    """Every pair of edge exponents with all four pairs of signs, and so every pair of edge
    fractions of normal operands whose result is accepted."""
    pairs = [(fields_of(case.a), fields_of(case.b)) for case in cases]
    exponents = {(a.exponent, b.exponent, a.sign, b.sign) for a, b in pairs}
    multiplied = [
        (fields_of(case.a), fields_of(case.b))
        for case in cases
        if single_outcome(case)[1] % SIGN_BIT != 0
    ]
    edges = {(a.fraction, b.fraction, a.sign, b.sign) for a, b in multiplied}
    for sign_a, sign_b in BOTH_SIGNS:
        for exponent_a, exponent_b in itertools.product(EDGE_EXPONENTS, repeat=2):
            group = (exponent_a, exponent_b, sign_a, sign_b)
            expect(group in exponents, f"no single of exponents, signs {group}")
        for fraction_a, fraction_b in itertools.product(EDGE_FRACTIONS, repeat=2):
            group = (fraction_a, fraction_b, sign_a, sign_b)
            expect(group in edges, f"no accepted single of fractions, signs {group}")


def check(chosen):
    check_figures()
    check_by_one()
    check_refusals("single", refusals.OF_SINGLE, chosen, single_refusal)
    check_results(chosen.cases)
    check_coverage(chosen.cases)
