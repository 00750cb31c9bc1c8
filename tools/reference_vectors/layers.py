"""Layer vectors: layers that are accepted; refused_layers.py has the others."""

import itertools

from reference_meaning import figures
from reference_meaning.designs import DESIGNS, MITCHELL, NEAREST, STAGED, TRUNCATED, TWICE_TRUNCATED, settings_accepted
from reference_meaning.layers import LayerInput, layer_outcome
from reference_meaning.products import SIGNED
from reference_meaning.rows import ROW_WIDTH
from reference_meaning.stores import MAX_COLUMNS

from .choice import (
    Chosen,
    boundary_operands,
    generator,
    line_of,
    random_operand,
    repeated,
    rotation_step,
    without_repetition,
)
from .refused_layers import order_layers, refused_layers
from .rows import (
    BLOCK_PAIRS,
    HIGHEST_ELEMENT,
    LOWEST_ELEMENT,
    SPARE_PLACES,
    design_settings,
    list_fields,
    long_row_element,
)
from .turning_points import turning_pairs
from .wrong_numbers import end_settings

# The letter that the vectors begin with.
LAYER = "l"

# The largest store that is chosen.
MAX_LAYER_STORE = 3 * MAX_COLUMNS

# The rows are taken in blocks of so many.
BLOCK_ROWS = 16

# Rows and columns that every design gets with its lowest and its highest setting: none, one, and those at the borders of blocks.
ROW_COUNTS = (0, 1, BLOCK_ROWS - 1, BLOCK_ROWS, BLOCK_ROWS + 1, 2 * BLOCK_ROWS, 2 * BLOCK_ROWS + 1)
COLUMN_COUNTS = (1, BLOCK_PAIRS - 1, BLOCK_PAIRS, BLOCK_PAIRS + 1)

# So many numbers a store repeats, and so many a frame.  Both are primes, and the first divides no number of columns here, so that
# every row begins at another of them.
STORE_NUMBERS = 37
FRAME_NUMBERS = 29


def layer_of(design, setting, shape, numbers, spare=0):
    """An input of so many rows and columns that repeats the numbers of its store and those of its frame, with as many places as
    there are rows, and `spare` more."""
    rows, columns = shape
    weights, frame = numbers
    return LayerInput(design, setting, columns, repeated(weights, rows * columns), repeated(frame, columns), rows + spare)


def design_end_settings():
    """Every design with the lowest and the highest setting that it takes."""
    for design in DESIGNS:
        for setting in end_settings(design, ROW_WIDTH):
            yield design, setting


def rotated_operands():
    """Boundary operands without end, small and large ones of both signs in turn."""
    operands = boundary_operands(SIGNED, ROW_WIDTH)
    step = rotation_step(len(operands))
    for index in itertools.count():
        yield operands[index * step % len(operands)]


def boundary_layers(design):
    """All numbers of rows and columns; over all of them every boundary operand comes as a weight and as a number of the frame."""
    weights, numbers, spares = rotated_operands(), rotated_operands(), itertools.cycle(SPARE_PLACES)
    for setting, rows, columns in itertools.product(end_settings(design, ROW_WIDTH), ROW_COUNTS, COLUMN_COUNTS):
        store = list(itertools.islice(weights, min(STORE_NUMBERS, rows * columns)))
        frame = list(itertools.islice(numbers, min(FRAME_NUMBERS, columns)))
        yield layer_of(design, setting, (rows, columns), (store, frame), next(spares))


def single_product_layers():
    """Layers of which each row holds one weight that is not 0, each in a column of its own: a score is then one product, so that no
    two mistakes cancel.  The products are those at the turning points of the designs."""
    for design, setting in design_settings():
        pairs = turning_pairs(SIGNED, design, ROW_WIDTH, setting)
        store = []
        for row, (weight, _) in enumerate(pairs):
            store += [weight if column == row else 0 for column in range(len(pairs))]
        frame = [number for _, number in pairs]
        if pairs:
            yield layer_of(design, setting, (len(pairs), len(pairs)), (store, frame))


def zero_layers():
    """Zeros in the store, in the frame and in both; in some layers nothing else."""
    low, high = LOWEST_ELEMENT, HIGHEST_ELEMENT
    mixed = [0, 7, -5, 0, low, 0, 0, high, 1, -1, 0]
    for design, setting in design_end_settings():
        for numbers in (([0], mixed), (mixed, [0]), ([0], [0]), (mixed, mixed[::-1])):
            yield layer_of(design, setting, (BLOCK_ROWS + 1, 7), numbers, 1)


def power_layers():
    """Every power of two with either sign, in the store and in the frame."""
    powers = [sign * 2**k for k in range(ROW_WIDTH) for sign in (1, -1) if sign * 2**k <= HIGHEST_ELEMENT]
    for design, setting in design_end_settings():
        yield layer_of(design, setting, (BLOCK_ROWS + 1, len(powers) + 1), (powers, powers[::-1]))


def extreme_layers():
    """The ends of the width, with sums that grow and with sums that cancel; among them the largest sums of all."""
    low, high = LOWEST_ELEMENT, HIGHEST_ELEMENT
    for design, setting in design_end_settings():
        yield layer_of(design, setting, (BLOCK_ROWS + 1, 1), ([low], [low]))
        yield layer_of(design, setting, (2 * BLOCK_ROWS + 1, BLOCK_PAIRS + 1), ([low, high, high], [low, high]))
        yield layer_of(design, setting, (2, MAX_COLUMNS), ([low], [low]), 1)


# Design, setting, rows and columns of the layers with the most columns, and how many numbers their stores and frames repeat.
LONG_LAYERS = (
    (MITCHELL, 0, 3, MAX_COLUMNS),
    (NEAREST, 0, 2, MAX_COLUMNS),
    (STAGED, 2, 3, MAX_COLUMNS - 1),
    (TRUNCATED, 6, 2, MAX_COLUMNS),
    (TWICE_TRUNCATED, 6, 3, MAX_COLUMNS),
)
LONG_STORE_NUMBERS = 127
LONG_FRAME_NUMBERS = 113


def long_layers(rng):
    for design, setting, rows, columns in LONG_LAYERS:
        store = [long_row_element(rng) for _ in range(LONG_STORE_NUMBERS)]
        frame = [long_row_element(rng) for _ in range(LONG_FRAME_NUMBERS)]
        yield layer_of(design, setting, (rows, columns), (store, frame), 5)


def tall_layer(rng):
    """More rows than there may be columns: only the lent slice limits them."""
    store = [long_row_element(rng) for _ in range(LONG_STORE_NUMBERS)]
    return layer_of(NEAREST, 0, (MAX_COLUMNS + 1, 1), (store, [3]), 1)


def random_numbers(rng, count):
    return [random_operand(rng, SIGNED, ROW_WIDTH) for _ in range(count)]


def random_layers(rng):
    """Every number of rows up to two blocks and one more, with the settings in turn, and some of any rows and setting; no number of
    these is repeated by rule."""
    shapes = []
    for design in DESIGNS:
        settings = settings_accepted(design, ROW_WIDTH)
        rows_and_settings = [*zip(range(1, 2 * BLOCK_ROWS + 2), itertools.cycle(settings))]
        shapes += [(design, setting, rows, 1 + rng.getrandbits(16) % 3) for rows, setting in rows_and_settings]
        for _ in range(6):
            setting = settings[rng.getrandbits(16) % len(settings)]
            shapes.append((design, setting, 1 + rng.getrandbits(16) % 40, 1 + rng.getrandbits(16) % 12))
    for design, setting, rows, columns in shapes:
        numbers = random_numbers(rng, rows * columns), random_numbers(rng, columns)
        yield layer_of(design, setting, (rows, columns), numbers, rng.getrandbits(2))


def accepted_layers(rng):
    for spare in SPARE_PLACES:
        yield figures.LAYER._replace(places=figures.LAYER.places + spare)
    for design in DESIGNS:
        yield from boundary_layers(design)
    yield from single_product_layers()
    yield from zero_layers()
    yield from power_layers()
    yield from extreme_layers()
    yield layer_of(MITCHELL, 0, (0, MAX_COLUMNS), ([], [1]))
    yield from long_layers(rng)
    yield tall_layer(rng)
    yield from random_layers(rng)


def chosen():
    cases = list(accepted_layers(generator()))
    cases += refused_layers()
    ordered = list(order_layers())
    cases += [case for _, case in ordered]
    return Chosen(without_repetition(cases), ordered)


def shortest_list(numbers):
    """The shortest list that gives these numbers where it is repeated."""
    for length in range(1, len(numbers)):
        if numbers[length:] == numbers[:-length]:
            return numbers[:length]
    return numbers


def repeated_fields(numbers):
    return [len(numbers), *list_fields(shortest_list(numbers))]


def line(case):
    refusal, scores = layer_outcome(case)
    lent = [*repeated_fields(case.store), *repeated_fields(case.frame), case.places]
    return line_of(LAYER, case.design, case.setting, case.columns, *lent, refusal, *list_fields(scores))
