"""Row vectors: rows to which one refusal applies, and rows to which several do."""

import itertools

from reference_meaning import figures, refusals
from reference_meaning.designs import DESIGNS, NEAREST
from reference_meaning.rows import MAX_PAIRS, ROW_WIDTH, RowInput

from .choice import repeated
from .wrong_numbers import end_settings, nonempty_sets, order_designs, order_settings, refused_numbers

# Lengths of weights and frame that differ.
UNEQUAL_LENGTHS = (
    *((0, 1), (1, 0), (1, 2), (2, 1), (6, 7)),
    *((7, 6), (3, 7), (7, 3), (0, 7), (7, 0)),
)

# Lengths of a row and of a residue slice that is too short for it.
SHORT_PLACES = ((1, 0), (2, 1), (2, 0), (3, 2), (3, 0), (7, 6), (7, 1), (7, 0))


def plain_elements(length):
    """Small elements of both signs, a zero among them."""
    return repeated((3, -5, 0, 6, 7), length)


def bit_elements(rng, length):
    """Elements 0 and 1, which print short."""
    return tuple(rng.getrandbits(1) for _ in range(length))


def plain_rows(design, setting):
    """The empty row and a short one, with as many places as they have pairs."""
    weights, frame = zip(*figures.ROW_PAIRS)
    yield RowInput(design, setting, (), (), 0)
    yield RowInput(design, setting, weights, frame, len(weights))


def unequal_rows():
    for design in DESIGNS:
        for setting in end_settings(design, ROW_WIDTH):
            for long_a, long_b in UNEQUAL_LENGTHS:
                weights, frame = plain_elements(long_a), plain_elements(long_b)
                yield RowInput(design, setting, weights, frame, max(long_a, long_b))


def short_place_rows():
    for design in DESIGNS:
        for setting in end_settings(design, ROW_WIDTH):
            for length, places in SHORT_PLACES:
                elements = plain_elements(length)
                yield RowInput(design, setting, elements, elements[::-1], places)


def longest_short_place_row(rng):
    """The longest row that there may be, and a residue slice one shorter."""
    weights, frame = bit_elements(rng, MAX_PAIRS), bit_elements(rng, MAX_PAIRS)
    return RowInput(NEAREST, 0, weights, frame, MAX_PAIRS - 1)


def refused_rows(rng):
    for design, setting in refused_numbers(ROW_WIDTH):
        yield from plain_rows(design, setting)
    yield from unequal_rows()
    yield from short_place_rows()
    yield longest_short_place_row(rng)


def refusal_sets():
    """Every nonempty set of the refusals of a row without that of too many pairs, then that
    one alone and with each of the others: such a row is long, so there are few of them."""
    long = refusals.TOO_MANY_PAIRS
    others = [number for number in refusals.OF_ROW if number != long]
    yield from nonempty_sets(others)
    yield (long,)
    for number in others:
        yield number, long


def order_lengths(applying):
    """Lengths of weights and frame; if too many pairs apply too, both are too long."""
    is_long = refusals.TOO_MANY_PAIRS in applying
    length = MAX_PAIRS + 1 if is_long else 3
    if refusals.LENGTHS_DIFFER not in applying:
        return [(length, length)]
    if is_long:
        return [(length, length + 1)]
    return [(length, length + 1), (length + 1, length)]


def order_places(applying, lengths):
    """A residue slice that is too short is shorter than weights and frame alike."""
    if refusals.RESIDUES_TOO_SHORT in applying:
        return min(lengths) - 1
    return max(lengths)


def order_row_designs(applying):
    """Pairs of design and setting; just one for a long row."""
    pairs = [
        (design, setting)
        for design in order_designs(refusals.UNKNOWN_DESIGN in applying)
        for setting in order_settings(design, refusals.SETTING_OUT_OF_RANGE in applying)
    ]
    return pairs[:1] if refusals.TOO_MANY_PAIRS in applying else pairs


def order_rows(rng):
    """Pairs of the refusals that apply and an input to which they apply."""
    for applying in refusal_sets():
        for (design, setting), lengths in itertools.product(
            order_row_designs(applying), order_lengths(applying)
        ):
            weights, frame = (bit_elements(rng, length) for length in lengths)
            places = order_places(applying, lengths)
            yield applying, RowInput(design, setting, weights, frame, places)
