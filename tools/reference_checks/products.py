"""Self-checks of the products."""

import itertools

from reference_meaning import figures, refusals
from reference_meaning.designs import (
    DESIGNS,
    STAGED,
    TWICE_TRUNCATED,
    WIDTHS,
    kept_sum,
    left_over,
    mitchell,
    nearest,
    settings_accepted,
    staged,
    truncated,
    twice_truncated,
    unsigned_product,
)
from reference_meaning.products import PRODUCT_KINDS, product_outcome, product_refusal
from reference_vectors.choice import boundary_operands

from .expect import check_refusals, expect


def check_figures():
    for case, product, residue in figures.PRODUCTS:
        refusal, found = product_outcome(case)
        expect(refusal == 0, f"figure {case}: refused with {refusal}")
        expect(found == product, f"figure {case}: product {found}, not {product}")
        found_residue = case.a * case.b - found
        expect(found_residue == residue, f"figure {case}: residue {found_residue}, not {residue}")
    for case, refusal in figures.JUDGED_PRODUCTS:
        found = product_refusal(case)
        expect(found == refusal, f"example {case}: refusal {refusals.said(found)}, not {refusals.said(refusal)}")


# The residues are worked out from the sizes by searching, and the truncated products from
# binary digits, not through the functions that the designs use, so that an error in one of
# those is not checked against itself.

SMALL_SIZES = range(64)
POWERS = [2**k for k in range(8)]


def largest_power_within(size):
    return max(power for power in POWERS if power <= size)


def closest_power(size):
    """The closest power of two, the larger one of two that are equally close."""
    return min(POWERS, key=lambda power: (abs(size - power), -power))


def left_after(size, stages):
    """The size without as many of its leading ones as there are stages."""
    ones = [power for power in reversed(POWERS) if size // power % 2 == 1]
    return size - sum(ones[:stages])


def check_mitchell_residue(size_a, size_b):
    """What is above the two powers, multiplied, or what is missing to the next two."""
    power_a, power_b = largest_power_within(size_a), largest_power_within(size_b)
    a, b = size_a - power_a, size_b - power_b
    if a * power_b + b * power_a < power_a * power_b:
        residue = a * b
    else:
        residue = (power_a - a) * (power_b - b)
    found = size_a * size_b - mitchell(size_a, size_b)
    expect(found == residue, f"design 1, {size_a}, {size_b}: residue {found}, not {residue}")


def check_nearest_residue(size_a, size_b):
    """The two distances from the closest powers, multiplied."""
    residue = (size_a - closest_power(size_a)) * (size_b - closest_power(size_b))
    found = size_a * size_b - nearest(size_a, size_b)
    expect(found == residue, f"design 2, {size_a}, {size_b}: residue {found}, not {residue}")


def check_staged_residue(size_a, size_b):
    """The product of what is left after the last stage; it holds for zero operands too."""
    for stages in settings_accepted(STAGED, 8):
        residue = left_after(size_a, stages) * left_after(size_b, stages)
        found = size_a * size_b - staged(size_a, size_b, stages)
        expect(
            found == residue,
            f"design 3, {stages} stages, {size_a}, {size_b}: residue {found}, not {residue}",
        )


def digits_of(size):
    """The binary digits of a nonzero size behind its leading one."""
    return f"{size:b}"[1:]


def cut(digits, count):
    """So many of the digits, with zeros behind the last."""
    return digits.ljust(count, "0")[:count]


def stage_of_digits(digits_a, digits_b, kept):
    """What a truncated stage gives, and whether its adder carries out."""
    total = int("0" + cut(digits_a, kept), 2) + int("0" + cut(digits_b, kept), 2) + 1
    carry, *fraction = f"{total:0{kept + 1}b}"
    places = len(digits_a) + len(digits_b) + int(carry)
    return int("1" + cut("".join(fraction), places), 2), carry == "1"


OTHER_DIGIT = str.maketrans("01", "10")


def left_of_digits(digits, carried):
    """The digits that the second stage gets, from the leading one on; where the first stage
    carried, each is the other one."""
    return (digits.translate(OTHER_DIGIT) if carried else digits).lstrip("0")


def check_truncated_products(size_a, size_b):
    """Designs 4 and 5, as an adder of digits with a carry that comes in."""
    operands = digits_of(size_a), digits_of(size_b)
    for kept in settings_accepted(TWICE_TRUNCATED, 8):
        first, carried = stage_of_digits(*operands, kept)
        left = [left_of_digits(digits, carried) for digits in operands]
        second = stage_of_digits(*(digits[1:] for digits in left), 2)[0] if all(left) else 0
        for design, found, due in (
            (4, truncated(size_a, size_b, kept), first),
            (5, twice_truncated(size_a, size_b, kept), first + second),
        ):
            expect(found == due, f"design {design}, {kept} kept bits, {size_a}, {size_b}: {found}, not {due}")


def check_small_sizes():
    for size_a, size_b in itertools.product(SMALL_SIZES, repeat=2):
        check_staged_residue(size_a, size_b)
        if size_a != 0 and size_b != 0:
            check_mitchell_residue(size_a, size_b)
            check_nearest_residue(size_a, size_b)
            check_truncated_products(size_a, size_b)


def check_zero_operands():
    """No design makes anything of a zero operand."""
    for design, size in itertools.product(DESIGNS, SMALL_SIZES):
        for setting in settings_accepted(design, 8):
            for a, b in ((0, size), (size, 0)):
                found = unsigned_product(design, setting, a, b)
                expect(found == 0, f"design {design}, setting {setting}, {a}, {b}: {found}, not 0")


def check_product_bound(cases):
    """A product has at most twice the bits of its width; a signed size is no larger."""
    for case in cases:
        refusal, product = product_outcome(case)
        if refusal == 0:
            expect(abs(product) < 2 ** (2 * case.width), f"{case}: {product} passes the width")


def check_coverage(cases):
    """Every setting accepted, and every boundary operand in either place for every design."""
    accepted = [case for case in cases if product_refusal(case) == 0]
    settings = {(c.kind, c.design, c.width, c.setting) for c in accepted}
    first = {(c.kind, c.design, c.width, c.a) for c in accepted}
    second = {(c.kind, c.design, c.width, c.b) for c in accepted}
    for group in itertools.product(PRODUCT_KINDS, DESIGNS, WIDTHS):
        kind, design, width = group
        for setting in settings_accepted(design, width):
            expect((*group, setting) in settings, f"no vector for {group}, setting {setting}")
        for operand in boundary_operands(kind, width):
            expect((*group, operand) in first, f"no vector for {group}, first {operand}")
            expect((*group, operand) in second, f"no vector for {group}, second {operand}")


def check_left_over(cases):
    """By design 5, on either side of S = 2^t: something and nothing left of either operand."""
    met = set()
    for case in cases:
        sizes = abs(case.a), abs(case.b)
        if case.design == TWICE_TRUNCATED and product_refusal(case) == 0 and all(sizes):
            is_low = kept_sum(*sizes, case.setting) < 2**case.setting
            left_a, left_b = left_over(*sizes, case.setting)
            met.add((case.kind, case.width, is_low, left_a == 0, left_b == 0))
    for group in itertools.product(PRODUCT_KINDS, WIDTHS, *[(True, False)] * 3):
        expect(group in met, f"no vector of design 5 for kind, width, S < 2^t, nothing left {group}")


def check(chosen):
    check_figures()
    check_refusals("product", refusals.OF_PRODUCT, chosen, product_refusal)
    check_small_sizes()
    check_zero_operands()
    check_product_bound(chosen.cases)
    check_coverage(chosen.cases)
    check_left_over(chosen.cases)
