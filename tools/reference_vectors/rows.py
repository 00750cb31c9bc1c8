"""Row vectors: rows that are accepted; refused_rows.py has the others."""

import itertools

from reference_meaning import figures
from reference_meaning.designs import DESIGNS, MITCHELL, NEAREST, STAGED, TRUNCATED, TWICE_TRUNCATED, settings_accepted
from reference_meaning.products import SIGNED, fits, highest_operand, lowest_operand
from reference_meaning.rows import MAX_PAIRS, ROW_WIDTH, RowInput, row_outcome, row_report

from .choice import (
    Chosen,
    boundary_operands,
    boundary_pairs,
    generator,
    line_of,
    random_pairs,
    rotation_step,
    without_repetition,
)
from .refused_rows import order_rows, refused_rows
from .turning_points import turning_pairs
from .wrong_numbers import end_settings

# The letter that the vectors begin with.
ROW = "r"

LOWEST_ELEMENT = lowest_operand(SIGNED, ROW_WIDTH)
HIGHEST_ELEMENT = highest_operand(SIGNED, ROW_WIDTH)

# Lengths of the rows that every setting gets, beside the empty row.
ROW_LENGTHS = (1, 2, 3, 7)

# So much longer than the row is the residue slice, in rotation.
SPARE_PLACES = (0, 1, 5)

# Lengths of some longer rows for each design.
MIDDLE_LENGTHS = (8, 15, 16, 17, 33, 64)

# The designs whose bound on the error is met by pairs of certain sizes, and those sizes.
DESIGNS_WITH_TIES = (MITCHELL, NEAREST)
TIE_SIZES = [3 * 2**j for j in range(ROW_WIDTH) if fits(SIGNED, ROW_WIDTH, 3 * 2**j)]

SIGN_PAIRS = ((1, 1), (1, -1), (-1, 1), (-1, -1))


def row_of(design, setting, pairs, spare):
    """An input with as many places as there are pairs, and `spare` more."""
    weights = tuple(weight for weight, _ in pairs)
    frame = tuple(number for _, number in pairs)
    return RowInput(design, setting, weights, frame, len(pairs) + spare)


def design_settings():
    """Every design with every setting that it takes at the width of rows."""
    for design in DESIGNS:
        for setting in settings_accepted(design, ROW_WIDTH):
            yield design, setting


def empty_rows():
    for design, setting in design_settings():
        for spare in SPARE_PLACES if setting in end_settings(design, ROW_WIDTH) else (0,):
            yield row_of(design, setting, (), spare)


def boundary_rows(design):
    """Rows of all lengths for each setting, made of boundary operands in rotation; over all
    settings every boundary operand comes as a weight and as a frame number."""
    settings = settings_accepted(design, ROW_WIDTH)
    operands = boundary_operands(SIGNED, ROW_WIDTH)
    rotation = boundary_pairs(operands)
    spares = itertools.cycle(SPARE_PLACES)
    rounds = max(2, -(-len(operands) // (sum(ROW_LENGTHS) * len(settings))))
    for setting, _, length in itertools.product(settings, range(rounds), ROW_LENGTHS):
        pairs = list(itertools.islice(rotation, length))
        yield row_of(design, setting, pairs, next(spares))


def extreme_rows():
    """The ends of the width, with sums that grow and with sums that cancel."""
    low, high = LOWEST_ELEMENT, HIGHEST_ELEMENT
    for design, setting in design_settings():
        yield row_of(design, setting, [(low, low)], 0)
        yield row_of(design, setting, [(low, low), (high, high), (low, low)], 1)
        yield row_of(design, setting, [(low, high), (low, low), (high, high), (high, low)], 0)


def zero_rows():
    """Zeros in first place, in second place and in both; in some rows nothing else."""
    low, high = LOWEST_ELEMENT, HIGHEST_ELEMENT
    mixed = [(0, 7), (7, 7), (0, 0), (low, 0), (-7, 11), (0, high), (5, 0)]
    for design, setting in design_settings():
        yield row_of(design, setting, mixed, 5)
    for design in DESIGNS:
        setting = settings_accepted(design, ROW_WIDTH)[0]
        yield row_of(design, setting, [(0, 0)], 0)
        yield row_of(design, setting, [(0, low), (high, 0)], 1)
        yield row_of(design, setting, [(0, 0), (0, -1), (1, 0)], 0)


def turning_rows():
    """Rows of up to seven pairs at the turning points of the designs."""
    spares = itertools.cycle(SPARE_PLACES)
    for design, setting in design_settings():
        pairs = turning_pairs(SIGNED, design, ROW_WIDTH, setting)
        for start in range(0, len(pairs), 7):
            yield row_of(design, setting, pairs[start : start + 7], next(spares))


def tie_partners():
    """Every size 3 * 2^j with itself, and with another one in rotation."""
    step = rotation_step(len(TIE_SIZES))
    for index, size in enumerate(TIE_SIZES):
        yield size, size
        yield size, TIE_SIZES[(index + step) % len(TIE_SIZES)]


def tie_singles(design):
    """Rows of one pair that meet the bound, and of pairs beside them that do not."""
    signs = itertools.cycle(SIGN_PAIRS)
    for size_a, size_b in tie_partners():
        for step in (0, 1, -1):
            sign_a, sign_b = next(signs)
            yield row_of(design, 0, [(sign_a * (size_a + step), sign_b * size_b)], 0)


def tie_rows(design):
    """Rows of several pairs of sizes 3 * 2^j: they meet the bound if all true products have
    one sign, also with zeros among them, and miss it if the signs differ or a pair is of
    another kind."""
    sizes = list(tie_partners())
    for length in (2, 3, 7):
        pairs = sizes[length : 2 * length]
        above = [(-a, -b) if index % 2 else (a, b) for index, (a, b) in enumerate(pairs)]
        below = [(-a, b) if index % 2 else (a, -b) for index, (a, b) in enumerate(pairs)]
        yield row_of(design, 0, above, 0)
        yield row_of(design, 0, below, 1)
        yield row_of(design, 0, above + [(0, 3), (6, 0)], 0)
        yield row_of(design, 0, [(0, -3)] + below, 5)
        yield row_of(design, 0, above[:-1] + below[-1:], 0)
        yield row_of(design, 0, below[:-1] + [(5, -3)], 0)


# So many pairs are thought to be taken at a time: the largest residue is put at either side of such a border.
BLOCK_PAIRS = 64
WORST_LENGTHS = (1, 2, 7, 8, 9, BLOCK_PAIRS, BLOCK_PAIRS + 1, 2 * BLOCK_PAIRS + 3)


def worst_pair(design, setting):
    """A short pair with a large residue, by searching."""
    return max(itertools.product(range(1, 64, 2), repeat=2), key=lambda pair: largest_of(design, setting, [pair]))


def largest_of(design, setting, pairs):
    return row_report(design, setting, pairs).largest


def worst_places(length):
    """Where the largest residue is put: at one place, or at two, of which the first counts."""
    ends = sorted({0, length // 2, length - 1, *(place for place in (BLOCK_PAIRS - 1, BLOCK_PAIRS) if place < length)})
    yield from ((place,) for place in ends)
    yield from zip(ends, ends[1:])
    if len(ends) > 1:
        yield ends[0], ends[-1]


def worst_rows(design):
    """Rows of pairs that leave little, with the largest residue once or twice among them, of either sign."""
    settings = itertools.cycle(sorted({*settings_accepted(design, ROW_WIDTH)[:2]}))
    signs, spares = itertools.cycle(SIGN_PAIRS), itertools.cycle(SPARE_PLACES)
    for length in WORST_LENGTHS:
        for places in worst_places(length):
            setting = next(settings)
            weight, number = worst_pair(design, setting)
            pairs = [(1, 2)] * length
            for place in places:
                sign_a, sign_b = next(signs)
                pairs[place] = (sign_a * weight, sign_b * number)
            yield row_of(design, setting, pairs, next(spares))


def random_short_rows(rng):
    for design, setting in design_settings():
        for _ in range(2):
            pairs = random_pairs(rng, SIGNED, ROW_WIDTH, 1 + rng.getrandbits(16) % 7)
            yield row_of(design, setting, pairs, rng.getrandbits(2))


def random_middle_rows(rng):
    for design, length in itertools.product(DESIGNS, MIDDLE_LENGTHS):
        settings = settings_accepted(design, ROW_WIDTH)
        setting = settings[rng.getrandbits(16) % len(settings)]
        pairs = random_pairs(rng, SIGNED, ROW_WIDTH, length)
        yield row_of(design, setting, pairs, rng.getrandbits(2))


# The elements of the longest rows, 32 of them: most print short, so that the vectors stay
# small, but the extremes are there.
LONG_ROW_ELEMENTS = (
    *range(-9, 10),
    *(3, 3, 6, 7, 7, -3, -5, -7, 0, 12, 15),
    *(LOWEST_ELEMENT, HIGHEST_ELEMENT),
)

# Design, setting, length and spare places of the longest rows.
LONG_ROWS = (
    (STAGED, 1, MAX_PAIRS - 1, 0),
    (MITCHELL, 0, MAX_PAIRS, 0),
    (NEAREST, 0, MAX_PAIRS, 1),
    (STAGED, 2, MAX_PAIRS, 5),
    (TRUNCATED, 6, MAX_PAIRS, 0),
    (TWICE_TRUNCATED, 6, MAX_PAIRS, 1),
)


def long_row_element(rng):
    return LONG_ROW_ELEMENTS[rng.getrandbits(5)]


def long_rows(rng):
    for design, setting, length, spare in LONG_ROWS:
        pairs = [(long_row_element(rng), long_row_element(rng)) for _ in range(length)]
        yield row_of(design, setting, pairs, spare)


def accepted_rows(rng):
    for spare in SPARE_PLACES:
        yield row_of(MITCHELL, 0, figures.ROW_PAIRS, spare)
    for pairs, *_ in figures.WORST_PAIRS:
        yield row_of(MITCHELL, 0, pairs, 0)
    yield from empty_rows()
    for design in DESIGNS:
        yield from boundary_rows(design)
    yield from extreme_rows()
    yield from zero_rows()
    yield from turning_rows()
    for design in DESIGNS_WITH_TIES:
        yield from tie_singles(design)
        yield from tie_rows(design)
    for design in DESIGNS:
        yield from worst_rows(design)
    yield from random_short_rows(rng)
    yield from random_middle_rows(rng)
    yield from long_rows(rng)


def chosen():
    rng = generator()
    cases = list(accepted_rows(rng))
    cases += refused_rows(rng)
    ordered = list(order_rows(rng))
    cases += [case for _, case in ordered]
    return Chosen(without_repetition(cases), ordered)


def list_fields(elements):
    return [len(elements), *elements]


def line(case):
    refusal, report = row_outcome(case)
    lent = [*list_fields(case.weights), *list_fields(case.frame), case.places]
    numbers, residues = report[:-1], list_fields(report.residues)
    return line_of(ROW, case.design, case.setting, *lent, refusal, *numbers, *residues)
