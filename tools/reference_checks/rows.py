"""Self-checks of the rows."""

import itertools

from reference_meaning import figures, refusals
from reference_meaning.designs import DESIGNS, MITCHELL, NEAREST, STAGED, TRUNCATED
from reference_meaning.products import SIGNED
from reference_meaning.rows import MAX_PAIRS, ROW_WIDTH, row_outcome, row_pairs, row_refusal, row_report, without_zero
from reference_vectors.choice import boundary_operands
from reference_vectors.rows import (
    BLOCK_PAIRS,
    DESIGNS_WITH_TIES,
    LONG_ROWS,
    LOWEST_ELEMENT,
    ROW_LENGTHS,
    SIGN_PAIRS,
    SPARE_PLACES,
    design_settings,
    row_of,
)

from .expect import check_refusals, expect


def check_figures():
    found = row_outcome(row_of(MITCHELL, 0, figures.ROW_PAIRS, 0))
    expect(found == (0, figures.ROW_REPORT), f"the row with a star: {found}")
    for pairs, largest, place, residues in figures.WORST_PAIRS:
        found = row_report(MITCHELL, 0, pairs)
        expect(found[-3:] == (largest, place, residues), f"the row of {pairs}: {found}")
    for length, refusal in figures.ROW_LENGTHS:
        found = row_refusal(row_of(MITCHELL, 0, [(1, 1)] * length, 0))
        expect(found == refusal, f"row of {length} pairs: refusal {refusals.said(found)}, not {refusals.said(refusal)}")


def tie_bound(_setting, size, report):
    return 9 * size, report.t


def staged_bound(setting, size, report):
    return 4**setting * size, report.t


def truncated_bound(setting, size, report):
    unit = 2**setting
    return 9 * unit * size, (unit + 18) * report.t + 9 * unit * report.n


# The bound on the error by design, from the setting, the error's size and the report: two
# sides, of which the first does not pass the second.  Design 5 has none: its error is exact,
# as that of every design, and no more is said of it.
BOUNDS = {
    MITCHELL: tie_bound,
    NEAREST: tie_bound,
    STAGED: staged_bound,
    TRUNCATED: truncated_bound,
}


def is_tie_size(size):
    """Three times a power of two, by searching."""
    return any(size == 3 * 2**j for j in range(ROW_WIDTH))


def meets_bound(pairs):
    """For a design with ties: the pairs without a zero have sizes 3 * 2^j, and true products
    of one sign, because the residue of such a pair has its sign."""
    counted = [pair for pair in pairs if without_zero(pair)]
    signs = {weight * number > 0 for weight, number in counted}
    return len(signs) <= 1 and all(
        is_tie_size(abs(weight)) and is_tie_size(abs(number)) for weight, number in counted
    )


def check_report(design, setting, pairs):
    """What holds of every report; it gives the report."""
    report = row_report(design, setting, pairs)
    what = f"row of design {design}, setting {setting}, {len(pairs)} pairs from {pairs[:7]}"
    expect(report.error == report.true_sum - report.score, f"{what}: error")
    expect(report.error == sum(report.residues), f"{what}: residues")
    expect(len(report.residues) == len(pairs), f"{what}: number of residues")
    expect(abs(report.true_sum) <= report.t, f"{what}: T")
    expect(0 <= report.n <= len(pairs), f"{what}: n")
    check_worst(what, report)
    expect(all(abs(total) < 2**43 for total in report[:-1]), f"{what}: a sum is too large")
    if design in BOUNDS:
        error_side, bound_side = BOUNDS[design](setting, abs(report.error), report)
        expect(error_side <= bound_side, f"{what}: bound {error_side}, {bound_side}")
    if design in DESIGNS_WITH_TIES:
        met = error_side == bound_side
        expect(met == meets_bound(pairs), f"{what}: bound met is {met}")
    return report


def check_worst(what, report):
    """The largest residue and its place by another way than the definition's, by sorting; and what they say of the error."""
    ordered = sorted((-abs(residue), place) for place, residue in enumerate(report.residues))
    size, place = ordered[0] if ordered else (0, 0)
    expect((report.largest, report.place) == (-size, place), f"{what}: largest residue")
    expect(abs(report.error) <= report.n * report.largest, f"{what}: error beside the largest residue")


def check_reports(cases):
    for case in cases:
        if row_refusal(case) == 0:
            check_report(case.design, case.setting, row_pairs(case))


def check_single_pairs():
    """By a design with ties a single pair meets the bound exactly if both sizes are 3 * 2^j."""
    signs = itertools.cycle(SIGN_PAIRS)
    for size_a, size_b in itertools.product(range(1, 97), repeat=2):
        sign_a, sign_b = next(signs)
        pair = (sign_a * size_a, sign_b * size_b)
        both = is_tie_size(size_a) and is_tie_size(size_b)
        for design in DESIGNS_WITH_TIES:
            check_report(design, 0, [pair])
            report = row_report(design, 0, [pair])
            met = 9 * abs(report.error) == report.t
            expect(met == both, f"design {design}, {pair}: bound met is {met}")


def check_largest_sums():
    """The longest row of the largest sizes; it would be too long to print for each design."""
    pairs = [(LOWEST_ELEMENT, LOWEST_ELEMENT)] * MAX_PAIRS
    for design, setting in design_settings():
        check_report(design, setting, pairs)


def check_lengths(accepted):
    """Every length for every setting, every number of spare places for every design, and
    the longest rows."""
    lengths = {(case.design, case.setting, len(case.weights)) for case in accepted}
    spares = {(case.design, case.places - len(case.weights)) for case in accepted}
    for design, setting in design_settings():
        for length in (0, *ROW_LENGTHS):
            found = (design, setting, length)
            expect(found in lengths, f"no row of design, setting, length {found}")
    for group in itertools.product(DESIGNS, SPARE_PLACES):
        expect(group in spares, f"no row of design, spare places {group}")
    for design, setting, length, _ in LONG_ROWS:
        found = (design, setting, length)
        expect(found in lengths, f"no row of design, setting, length {found}")


def mistaken_for_worst(case, report):
    """By which wrong ways of finding the largest residue or its place a row gives something else."""
    residues, pairs = report.residues, row_pairs(case)
    largest, place = report.largest, report.place
    sizes = [abs(residue) for residue in residues]
    ways = {
        "the last place": len(sizes) - 1 - sizes[::-1].index(largest),
        "the place of the largest number with its sign": residues.index(max(residues)),
        "the place of the lowest number with its sign": residues.index(min(residues)),
        "the place of the largest true product": max(range(len(pairs)), key=lambda i: abs(pairs[i][0] * pairs[i][1])),
        "the first place": 0,
        "the place in its block": place % BLOCK_PAIRS,
        "the place in the block before": max(place - BLOCK_PAIRS, 0),
    }
    return {way for way, found in ways.items() if found != place}


def check_worst_places(accepted):
    """For every design, each wrong way of finding the place is wrong of some row."""
    for design in DESIGNS:
        found = set()
        for case in accepted:
            if case.design == design and case.weights:
                found |= mistaken_for_worst(case, row_report(design, case.setting, row_pairs(case)))
        expect(len(found) == 7, f"rows of design {design} tell the worst place only from {sorted(found)}")


def check_elements(accepted):
    """Every boundary operand in either place for every design."""
    weights = {(case.design, weight) for case in accepted for weight in case.weights}
    frames = {(case.design, number) for case in accepted for number in case.frame}
    operands = boundary_operands(SIGNED, ROW_WIDTH)
    for group in itertools.product(DESIGNS, operands):
        expect(group in weights, f"no row of design, weight {group}")
        expect(group in frames, f"no row of design, frame number {group}")


def check(chosen):
    check_figures()
    check_refusals("row", refusals.OF_ROW, chosen, row_refusal)
    check_reports(chosen.cases)
    check_single_pairs()
    check_largest_sums()
    accepted = [case for case in chosen.cases if row_refusal(case) == 0]
    check_lengths(accepted)
    check_worst_places(accepted)
    check_elements(accepted)
