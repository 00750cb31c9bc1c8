"""Layer vectors: layers to which one refusal applies, and layers to which several do."""

import itertools

from reference_meaning import figures, refusals
from reference_meaning.designs import DESIGNS, MITCHELL
from reference_meaning.layers import LayerInput
from reference_meaning.rows import ROW_WIDTH
from reference_meaning.stores import MAX_COLUMNS

from .choice import MAX_U64
from .refused_rows import plain_elements
from .wrong_numbers import end_settings, nonempty_sets, order_designs, order_settings, refused_numbers

# Some would be accepted if they were cut to 16 or to 32 bits.
REFUSED_COLUMNS = (0, MAX_COLUMNS + 1, 2**16, 2**16 + 3, 2**32, 2**32 + 3, 2**63, MAX_U64)

# Columns, and lengths of a store that they do not divide; the longest is one short of three rows.
UNEVEN_STORES = ((2, 1), (3, 1), (3, 10), (3, 11), (64, 63), (64, 65), (MAX_COLUMNS, 1), (MAX_COLUMNS, 3 * MAX_COLUMNS - 1))

# Rows, columns and the length of a frame that differs: by one, by all, and as long as the store or as there are rows.
UNEQUAL_FRAMES = (
    *((1, 1, 0), (1, 1, 2), (2, 3, 2), (2, 3, 4), (2, 3, 0), (2, 3, 6)),
    *((17, 3, 17), (17, 64, 63), (17, 64, 65), (1, MAX_COLUMNS, MAX_COLUMNS - 1), (1, MAX_COLUMNS, MAX_COLUMNS + 1)),
    *((0, 1, 0), (0, 3, 2), (0, MAX_COLUMNS, 0)),
)

# Rows, and places that are too few for their scores: by one, by more than a block, and by all.
SHORT_PLACES = ((1, 0), (2, 1), (2, 0), (15, 14), (16, 15), (17, 16), (17, 1), (17, 0), (32, 31), (33, 32), (33, 16), (33, 0))


def plain_layer(design, setting, length, columns, frame, places):
    """A layer of small numbers; `length` and `frame` are those of its store and of its frame."""
    return LayerInput(design, setting, columns, plain_elements(length), plain_elements(frame)[::-1], places)


def short_layers(design, setting):
    """The layer of the figures, and a store without rows."""
    yield figures.LAYER._replace(design=design, setting=setting)
    yield plain_layer(design, setting, 0, 3, 3, 0)


def refused_column_layers():
    """The frame is as long as there are columns where it can be; stores without rows are among them."""
    for columns, length in itertools.product(REFUSED_COLUMNS, (0, 6, 2 * (MAX_COLUMNS + 1))):
        frame = columns if columns <= MAX_COLUMNS + 1 else 3
        yield plain_layer(MITCHELL, 0, length, columns, frame, 3)


def refused_shape_layers():
    """What is refused of an accepted design: by the length of the store, of the frame and of the slice for the scores."""
    for design in DESIGNS:
        for setting in end_settings(design, ROW_WIDTH):
            for columns, length in UNEVEN_STORES:
                yield plain_layer(design, setting, length, columns, columns, length // columns + 1)
            for rows, columns, frame in UNEQUAL_FRAMES:
                yield plain_layer(design, setting, rows * columns, columns, frame, rows)
            for (rows, places), columns in itertools.product(SHORT_PLACES, (1, 3)):
                yield plain_layer(design, setting, rows * columns, columns, columns, places)


def refused_layers():
    for design, setting in refused_numbers(ROW_WIDTH):
        yield from short_layers(design, setting)
    yield from refused_column_layers()
    yield from refused_shape_layers()


def order_shapes(applying):
    """The columns, and the lengths of the store, of the frame and of the slice for the scores.  Columns of 0 are not among them:
    nothing is a number of rows then.  A slice that is too short is so whether or not the number of rows is rounded up."""
    columns, rows = (MAX_COLUMNS + 1, 2) if refusals.COLUMNS_OUT_OF_RANGE in applying else (3, 3)
    length = rows * columns + (refusals.UNEVEN_STORE in applying)
    frames = (columns - 1, columns + 1) if refusals.LENGTHS_DIFFER in applying else (columns,)
    places = rows - 1 if refusals.SCORES_TOO_SHORT in applying else rows + 1
    return [(length, columns, frame, places) for frame in frames]


def order_layers():
    """Pairs of the refusals that apply and an input to which they apply."""
    for applying in nonempty_sets(refusals.OF_LAYER):
        for design in order_designs(refusals.UNKNOWN_DESIGN in applying):
            settings = order_settings(design, refusals.SETTING_OUT_OF_RANGE in applying)
            for setting, shape in itertools.product(settings, order_shapes(applying)):
                yield applying, plain_layer(design, setting, *shape)
