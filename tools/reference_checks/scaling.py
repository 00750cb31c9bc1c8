"""Self-checks of the scores that are handed out."""

import fractions
import struct

from reference_meaning import figures, refusals
from reference_meaning.scaling import MAX_SHIFT, binary64, scaling_outcome, scaling_refusal

from .expect import check_refusals, expect


def float_of_binary64(pattern):
    return struct.unpack(">d", struct.pack(">Q", pattern))[0]


def check_binary64(number, shift):
    """Against Python's own division: the same pattern, and nothing was rounded."""
    found = binary64(number, shift)
    quotient = number / 2**shift
    pattern = struct.unpack(">Q", struct.pack(">d", quotient))[0]
    expect(found == pattern, f"{number} / 2^{shift}: pattern {found}, not {pattern}")
    value = fractions.Fraction(float_of_binary64(found))
    expect(value == fractions.Fraction(number, 2**shift), f"{number} / 2^{shift}: rounded")


def check_figure():
    refusal, score_bits, _ = scaling_outcome(figures.SCALING)
    expect(refusal == 0, f"{figures.SCALING}: refused with {refusal}")
    found = float_of_binary64(score_bits)
    expect(found == figures.SCALING_SCORE, f"{figures.SCALING}: {found}")


def check(chosen):
    check_figure()
    check_refusals("score", refusals.OF_SCALING, chosen, scaling_refusal)
    accepted = [case for case in chosen.cases if scaling_refusal(case) == 0]
    for case in accepted:
        check_binary64(case.score, case.shift)
        check_binary64(case.t, case.shift)
    shifts = {case.shift for case in accepted}
    expect(shifts == set(range(MAX_SHIFT + 1)), f"handed out: shifts {sorted(shifts)}")
