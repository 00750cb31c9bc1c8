"""All rows of a weight store against one frame (docs/SCOPE.md, "Scoring a layer")."""

import collections

from . import refusals
from .designs import DESIGNS, settings_accepted
from .rows import ROW_WIDTH, row_report
from .stores import columns_refusal

# Store and frame are tuples; `places` is the length of the lent score slice.
LayerInput = collections.namedtuple("LayerInput", "design setting columns store frame places")


def layer_refusal(case):
    if case.design not in DESIGNS:
        return refusals.UNKNOWN_DESIGN
    if case.setting not in settings_accepted(case.design, ROW_WIDTH):
        return refusals.SETTING_OUT_OF_RANGE
    by_columns = columns_refusal(len(case.store), case.columns)
    if by_columns:
        return by_columns
    if len(case.frame) != case.columns:
        return refusals.LENGTHS_DIFFER
    # The division leaves no rest.
    if case.places < len(case.store) // case.columns:
        return refusals.SCORES_TOO_SHORT
    return refusals.ACCEPTED


def layer_rows(case):
    """The rows of an accepted layer, as the pairs of each."""
    for start in range(0, len(case.store), case.columns):
        yield list(zip(case.store[start : start + case.columns], case.frame))


def layer_outcome(case):
    """The refusal number and the scores, one of each row; none where it is refused."""
    refusal = layer_refusal(case)
    if refusal:
        return refusal, ()
    return 0, tuple(row_report(case.design, case.setting, pairs).score for pairs in layer_rows(case))
