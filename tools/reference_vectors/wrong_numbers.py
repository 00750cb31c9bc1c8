"""Designs, widths and settings that are refused; and for inputs to which several refusals apply, sets of refusals, and choices of
designs, widths and settings, right or wrong.

A choice that is wrong is wrong whatever the other numbers are, and one that is right is right whatever they are, so that the set
of refusals that apply leaves no doubt.
"""

import itertools

from reference_meaning.designs import DESIGNS, WIDTHS, settings_accepted

from .choice import MAX_U32

# The last but one of the designs and of the widths would be accepted if it were cut to a byte.
UNKNOWN_DESIGNS = [n for n in (0, 6, 7, 8, 255, 257, MAX_U32) if n not in DESIGNS]
UNKNOWN_WIDTHS = [
    n for n in (0, 1, 7, 9, 10, 11, 13, 15, 17, 31, 33, 64, 264, MAX_U32) if n not in WIDTHS
]


def end_settings(design, width):
    """The lowest and the highest setting accepted, once if they are the same."""
    settings = settings_accepted(design, width)
    return sorted({settings[0], settings[-1]})


def unlisted_settings(design, width):
    """Settings just outside those accepted, some that would be accepted if cut to a byte or to
    16 bits, and the largest."""
    settings = settings_accepted(design, width)
    low, high = settings[0], settings[-1]
    near = [low - 1, *range(high + 1, width + 2)] if low > 0 else [high + 1]
    return near + [low + 2**8, low + 2**16, MAX_U32]


def refused_numbers(width):
    """Pairs of a design and a setting: of an unknown design and of one that does not take the setting."""
    yield from itertools.product(UNKNOWN_DESIGNS, (0, 1))
    for design in DESIGNS:
        for setting in unlisted_settings(design, width):
            yield design, setting


def nonempty_sets(refusals):
    """Every set of the refusals that has one at least."""
    for size in range(1, len(refusals) + 1):
        yield from itertools.combinations(refusals, size)


def order_designs(wrong):
    return UNKNOWN_DESIGNS[:2] if wrong else DESIGNS


def order_widths(wrong):
    return (7, 17) if wrong else WIDTHS


def order_settings(design, wrong):
    if design not in DESIGNS:
        # The wrong ones are accepted by no design at any width.
        return (33, MAX_U32) if wrong else (0,)
    low = settings_accepted(design, WIDTHS[0])[0]
    return (1 - low, MAX_U32) if wrong else (low,)
