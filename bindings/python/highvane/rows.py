"""Scoring a row of weights."""
import dataclasses

from . import raw
from ._lent import I16, I64, lent
from ._whole import u32
from .refusals import judged

# pairs of a row, and columns of a weight store
PAIRS_MAX = 4096


@dataclasses.dataclass(frozen=True)
class Report:
    """What scoring a row gives: the score, which is the sum of the design's products; the sum of the true products; the error, which is the
    true sum less the score; T, the sum of the sizes of the true products; n, how many pairs are without a zero; and the largest size of a
    residue, with the first place that has it. The error's size is at most n times the largest residue."""
    score: int
    true_sum: int
    error: int
    magnitude_sum: int
    nonzero_pairs: int
    largest_residue: int
    largest_place: int


def score_row(design, setting, weights, frame, residues):
    """Scores a frame by a row of weights, both of signed 16-bit numbers, at width 16, and gives a Report. Place i of the residues, signed
    64-bit numbers, gets the residue of pair i, its true product less the design's; the places after the row's are left as they were, and so
    are all on a refusal. It refuses, in this order: 1, 3, 5, 6, 7.

    >>> from array import array
    >>> from highvane import Design
    >>> residues = array('q', [99, 99, 99, 99])
    >>> score_row(Design.MITCHELL, 0, array('h', [3, -5, 0]), array('h', [3, 6, 7]), residues)
    Report(score=-20, true_sum=-21, error=-1, magnitude_sum=39, nonzero_pairs=2, largest_residue=2, largest_place=1)
    >>> residues.tolist()
    [1, -2, 0, 99]
    """
    return _scored(raw.highvane_score_row, [u32('design', design), u32('setting', setting)], weights, frame, residues)


def score_row_mitchell(setting, weights, frame, residues):
    """score_row by design 1, Mitchell's; it takes the setting 0. It refuses, in this order: 3, 5, 6, 7.

    >>> from array import array
    >>> score_row_mitchell(0, array('h', [3, -5, 0]), array('h', [3, 6, 7]), array('q', [0, 0, 0])).score
    -20
    """
    return _scored(raw.highvane_score_row_mitchell, [u32('setting', setting)], weights, frame, residues)


def score_row_nearest(setting, weights, frame, residues):
    """score_row by design 2, the nearest power; it takes the setting 0. It refuses, in this order: 3, 5, 6, 7.

    >>> from array import array
    >>> score_row_nearest(0, array('h', [3, -5, 0]), array('h', [3, 6, 7]), array('q', [0, 0, 0])).score
    -24
    """
    return _scored(raw.highvane_score_row_nearest, [u32('setting', setting)], weights, frame, residues)


def score_row_staged(setting, weights, frame, residues):
    """score_row by design 3; the setting is the number of stages, 1 to 16. It refuses, in this order: 3, 5, 6, 7.

    >>> from array import array
    >>> score_row_staged(2, array('h', [3, -5, 0]), array('h', [3, 6, 7]), array('q', [0, 0, 0])).score
    -21
    """
    return _scored(raw.highvane_score_row_staged, [u32('setting', setting)], weights, frame, residues)


def score_row_truncated(setting, weights, frame, residues):
    """score_row by design 4; the setting is the number of kept bits, 1 to 15. It refuses, in this order: 3, 5, 6, 7.

    >>> from array import array
    >>> score_row_truncated(6, array('h', [3, -5, 0]), array('h', [3, 6, 7]), array('q', [0, 0, 0])).score
    -20
    """
    return _scored(raw.highvane_score_row_truncated, [u32('setting', setting)], weights, frame, residues)


def score_row_twice_truncated(setting, weights, frame, residues):
    """score_row by design 5; the setting is the number of bits that its first stage keeps, 1 to 15. It refuses, in this order: 3, 5, 6, 7.

    >>> from array import array
    >>> score_row_twice_truncated(6, array('h', [3, -5, 0]), array('h', [3, 6, 7]), array('q', [0, 0, 0])).score
    -22
    """
    return _scored(raw.highvane_score_row_twice_truncated, [u32('setting', setting)], weights, frame, residues)


def _scored(row, numbers, weights, frame, residues):
    with lent('weights', weights, I16) as w, lent('frame', frame, I16) as f, lent('residues', residues, I64, is_written=True) as r:
        r.refuse_overlap(w)
        r.refuse_overlap(f)
        answer = row(*numbers, w.start, w.length, f.start, f.length, r.start, r.length)
    judged(answer.refusal)
    return Report(*(getattr(answer, field.name) for field in dataclasses.fields(Report)))
