"""Store vectors."""

import itertools

from reference_meaning.refusals import COLUMNS_OUT_OF_RANGE, NO_SUCH_ROW, UNEVEN_STORE
from reference_meaning.stores import StoreInput, store_outcome

from .choice import MAX_U64, Chosen, generator, line_of, random_size, without_repetition

# The letter that the vectors begin with.
STORE = "t"

# The largest store that is chosen.
MAX_STORE = 8192

# Three times the last one is one more than the length of the largest store.
TAKEN_COLUMNS = (1, 2, 3, 7, 16, 1000, 4095, 4096, 2731)

# Some would be accepted if they were cut to 16 or to 32 bits.
REFUSED_COLUMNS = (
    *(0, 4097, 4098, 8192, 2**16, 2**16 + 1, 2**32, 2**32 + 1),
    *(2**63, 2**63 + 1, MAX_U64),
)

RANDOM_STORES = 300


def store_lengths(columns):
    """None, one, multiples of the columns, their neighbours, and the largest store."""
    largest = MAX_STORE // columns * columns
    centres = (0, columns, 2 * columns, 3 * columns, largest)
    near = {centre + step for centre in centres for step in (-1, 0, 1)}
    lengths = near | {1, MAX_STORE}
    return sorted(length for length in lengths if 0 <= length <= MAX_STORE)


def store_rows(length, columns):
    """The first rows, the last one and those past it, rows that would be there if they were
    cut to 32 bits or if their start were cut to 64 bits, and the largest."""
    rows = length // columns
    wrapping = -(-(2**64) // columns)
    near = {0, 1, rows - 1, rows, rows + 1}
    far = {2**32, 2**63, wrapping, MAX_U64}
    return sorted(row for row in near | far if 0 <= row <= MAX_U64)


def accepted_column_stores():
    for columns in TAKEN_COLUMNS:
        for length in store_lengths(columns):
            for row in store_rows(length, columns):
                yield StoreInput(length, columns, row)


def refused_column_stores():
    for columns in REFUSED_COLUMNS:
        for length, row in itertools.product((0, 1, 4097, MAX_STORE), (0, 1, MAX_U64)):
            yield StoreInput(length, columns, row)


def random_stores(rng):
    """Three in four of the lengths are multiples of the columns."""
    for _ in range(RANDOM_STORES):
        columns = 1 + random_size(rng, 12)
        length = rng.getrandbits(16) % (MAX_STORE + 1)
        if rng.getrandbits(2):
            length -= length % columns
        yield StoreInput(length, columns, rng.getrandbits(16) % (length // columns + 2))


# The refusals that apply and a store to which they apply.  Columns of 0 are not
# among them: nothing is a number of rows then.  A row here is past the length divided by
# the columns, whether or not that is rounded.
ORDERED = (
    ((COLUMNS_OUT_OF_RANGE,), StoreInput(8192, 8192, 0)),
    ((COLUMNS_OUT_OF_RANGE,), StoreInput(4097, 4097, 0)),
    ((UNEVEN_STORE,), StoreInput(10, 3, 0)),
    ((UNEVEN_STORE,), StoreInput(8191, 4096, 0)),
    ((NO_SUCH_ROW,), StoreInput(9, 3, 3)),
    ((NO_SUCH_ROW,), StoreInput(4096, 4096, 1)),
    ((NO_SUCH_ROW,), StoreInput(0, 1, 0)),
    ((COLUMNS_OUT_OF_RANGE, UNEVEN_STORE), StoreInput(8192, 4097, 0)),
    ((COLUMNS_OUT_OF_RANGE, NO_SUCH_ROW), StoreInput(8192, 8192, 1)),
    ((COLUMNS_OUT_OF_RANGE, NO_SUCH_ROW), StoreInput(0, 4097, 0)),
    ((COLUMNS_OUT_OF_RANGE, NO_SUCH_ROW), StoreInput(0, MAX_U64, 0)),
    ((UNEVEN_STORE, NO_SUCH_ROW), StoreInput(10, 3, 4)),
    ((UNEVEN_STORE, NO_SUCH_ROW), StoreInput(4095, 4096, 1)),
    ((COLUMNS_OUT_OF_RANGE, UNEVEN_STORE, NO_SUCH_ROW), StoreInput(8192, 4097, 2)),
    ((COLUMNS_OUT_OF_RANGE, UNEVEN_STORE, NO_SUCH_ROW), StoreInput(1, MAX_U64, MAX_U64)),
)


def chosen():
    cases = [case for _, case in ORDERED]
    cases += accepted_column_stores()
    cases += refused_column_stores()
    cases += random_stores(generator())
    return Chosen(without_repetition(cases), ORDERED)


def line(case):
    return line_of(STORE, *case, *store_outcome(case))
