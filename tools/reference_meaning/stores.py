"""Rows of a weight store (docs/SCOPE.md, "Finding a row in a weight store")."""

import collections

from . import refusals

MAX_COLUMNS = 4096

# `length` is the store's.
StoreInput = collections.namedtuple("StoreInput", "length columns row")


def columns_refusal(length, columns):
    """The refusal of a store by its columns, whichever row is asked for."""
    if columns == 0 or columns > MAX_COLUMNS:
        return refusals.COLUMNS_OUT_OF_RANGE
    if length % columns != 0:
        return refusals.UNEVEN_STORE
    return refusals.ACCEPTED


def store_refusal(case):
    by_columns = columns_refusal(case.length, case.columns)
    if by_columns:
        return by_columns
    # The division leaves no rest.
    if case.row >= case.length // case.columns:
        return refusals.NO_SUCH_ROW
    return refusals.ACCEPTED


def store_outcome(case):
    """The refusal number, and where the row starts and how many elements it has."""
    refusal = store_refusal(case)
    if refusal:
        return refusal, 0, 0
    return 0, case.row * case.columns, case.columns
