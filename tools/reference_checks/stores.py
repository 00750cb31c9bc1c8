"""Self-checks of the stores."""

import itertools

from reference_meaning import refusals
from reference_meaning.refusals import NO_SUCH_ROW
from reference_meaning.stores import MAX_COLUMNS, StoreInput, store_outcome, store_refusal

from .expect import check_refusals, expect


def check_rows_fill_store():
    """The rows of a small store, one after another, are the store."""
    for columns, rows in itertools.product(range(1, 9), range(9)):
        store = list(range(columns * rows))
        joined = []
        for row in range(rows):
            refusal, start, count = store_outcome(StoreInput(len(store), columns, row))
            expect(refusal == 0, f"store of {rows} rows of {columns}, row {row}: {refusal}")
            joined += store[start : start + count]
        expect(joined == store, f"store of {rows} rows of {columns}: rows give {joined}")
        found = store_refusal(StoreInput(len(store), columns, rows))
        expect(found == NO_SUCH_ROW, f"store of {rows} rows of {columns}, row {rows}: {found}")


def check_empty_store():
    """An empty store has no row, not even the first, whatever the columns are."""
    for columns in range(1, MAX_COLUMNS + 1):
        found = store_refusal(StoreInput(0, columns, 0))
        expect(found == NO_SUCH_ROW, f"empty store, {columns} columns: {found}")


def check_found_rows(cases):
    """A row that is found is not empty and lies within the store."""
    for case in cases:
        refusal, start, count = store_outcome(case)
        if refusal == 0:
            expect(count >= 1, f"{case}: empty row")
            expect(0 <= start and start + count <= case.length, f"{case}: row outside")


def check(chosen):
    check_refusals("store", refusals.OF_STORE, chosen, store_refusal)
    check_rows_fill_store()
    check_empty_store()
    check_found_rows(chosen.cases)
