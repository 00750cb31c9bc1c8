"""Finding a row in a weight store."""
from . import raw
from ._lent import I16, lent
from ._whole import u64
from .refusals import Refusal, Refused


def row_refusal(store, columns, row):
    """Why a store has no such row, or None where it has: a store is its rows in order, numbered from 0, `columns` signed 16-bit numbers
    each. The refusals, in this order: 12, 13, 14.

    >>> from array import array
    >>> row_refusal(array('h', [1, 2, 3, 4, 5, 6]), 4, 0)
    <Refusal.UNEVEN_STORE: 13>
    """
    columns, row = u64('columns', columns), u64('row', row)
    with lent('store', store, I16) as s:
        refusal = raw.highvane_row_refusal(s.start, s.length, columns, row)
    return Refusal(refusal) if refusal else None


def row_of(store, columns, row):
    """The row of that number as a memoryview of the part of the store where it lies. It refuses as row_refusal says.

    >>> from array import array
    >>> row_of(array('h', [1, 2, 3, 4, 5, 6]), 3, 1).tolist()
    [4, 5, 6]
    """
    columns, row = u64('columns', columns), u64('row', row)
    refusal = row_refusal(store, columns, row)
    if refusal is not None:
        raise Refused(refusal)
    return memoryview(store)[row * columns:(row + 1) * columns]
