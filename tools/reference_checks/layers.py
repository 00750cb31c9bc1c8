"""Self-checks of the layers."""

import itertools

from reference_meaning import figures, refusals
from reference_meaning.designs import DESIGNS, signed_product, unsigned_product
from reference_meaning.layers import layer_outcome, layer_refusal
from reference_meaning.products import SIGNED
from reference_meaning.rows import ROW_WIDTH, RowInput, row_pairs, row_refusal
from reference_meaning.stores import StoreInput, store_outcome
from reference_vectors.choice import boundary_operands, repeated
from reference_vectors.layers import (
    BLOCK_ROWS,
    COLUMN_COUNTS,
    LONG_LAYERS,
    MAX_LAYER_STORE,
    ROW_COUNTS,
    design_end_settings,
    shortest_list,
)
from reference_vectors.rows import BLOCK_PAIRS, LOWEST_ELEMENT, SPARE_PLACES, design_settings

from .expect import check_refusals, expect
from .rows import check_report


def shown(case):
    return f"layer of design {case.design}, setting {case.setting}, {len(case.store)} weights, {case.columns} columns"


def rows_of(case):
    return len(case.store) // case.columns


def check_figure():
    found = layer_outcome(figures.LAYER)
    expect(found == (0, figures.LAYER_SCORES), f"the layer of the figures: {found}")


def scores_by_columns(case):
    """The scores by another way than the definition's: column by column, each number of the frame with all weights that it meets,
    and what is above 0 apart from what is below."""
    above, below = [0] * rows_of(case), [0] * rows_of(case)
    for column, number in enumerate(case.frame):
        for row, weight in enumerate(case.store[column :: case.columns]):
            sums = above if (weight < 0) == (number < 0) else below
            sums[row] += unsigned_product(case.design, case.setting, abs(weight), abs(number))
    return tuple(plus - minus for plus, minus in zip(above, below))


def check_rows(case, scores):
    """Each row of the store is found and scored alone, and what holds of every report holds of its own."""
    for row, score in enumerate(scores):
        refusal, start, count = store_outcome(StoreInput(len(case.store), case.columns, row))
        expect(refusal == 0, f"{shown(case)}: row {row} is refused with {refusal}")
        alone = RowInput(case.design, case.setting, case.store[start : start + count], case.frame, case.columns)
        expect(row_refusal(alone) == 0, f"{shown(case)}: row {row} alone is refused")
        found = check_report(case.design, case.setting, row_pairs(alone)).score
        expect(found == score, f"{shown(case)}: row {row} alone gives {found}, not {score}")
    refusal, *_ = store_outcome(StoreInput(len(case.store), case.columns, len(scores)))
    expect(refusal == refusals.NO_SUCH_ROW, f"{shown(case)}: there is a row {len(scores)}")


def with_pairs(pair_at):
    """The scores where another pair is taken for a row and a column."""

    def scores_of(case, _scores):
        return tuple(
            sum(signed_product(case.design, case.setting, *pair_at(case, row, column)) for column in range(case.columns))
            for row in range(rows_of(case))
        )

    return scores_of


def with_frame(number_at):
    """The scores where another number of the frame is taken for a row and a column."""
    return with_pairs(lambda case, row, column: (case.store[row * case.columns + column], number_at(case, row, column)))


def within(case, column, columns):
    """The frame's number, or 0 past so many columns."""
    return case.frame[column] if column < columns else 0


def true_sums(case, _scores):
    rows = [case.store[start : start + case.columns] for start in range(0, len(case.store), case.columns)]
    return tuple(sum(weight * number for weight, number in zip(row, case.frame)) for row in rows)


def each_place(score_at):
    """Other scores at the places of the right ones; None stands for a place that is not written."""
    return lambda _case, scores: tuple(score_at(scores, row) for row in range(len(scores)))


# Wrong ways to the scores, each a function of a layer and of its scores.
MISTAKES = {
    "the store by columns": with_pairs(lambda case, row, column: (case.store[column * rows_of(case) + row], case.frame[column])),
    "the frame from its end": with_frame(lambda case, row, column: case.frame[-1 - column]),
    "the frame from the row's number on": with_frame(lambda case, row, column: case.frame[(column + row) % case.columns]),
    "one number of the frame for all": with_frame(lambda case, row, column: case.frame[0]),
    "no last column": with_frame(lambda case, row, column: within(case, column, case.columns - 1)),
    "no columns behind the last block": with_frame(
        lambda case, row, column: within(case, column, case.columns - case.columns % BLOCK_PAIRS)
    ),
    "the frame without signs": with_frame(lambda case, row, column: abs(case.frame[column])),
    "the lowest number as its neighbour": with_frame(lambda case, row, column: max(case.frame[column], LOWEST_ELEMENT + 1)),
    "true sums": true_sums,
    "sums of 32 bits": each_place(lambda scores, row: (scores[row] + 2**31) % 2**32 - 2**31),
    "the first block for all": each_place(lambda scores, row: scores[row % BLOCK_ROWS]),
    "no last row": each_place(lambda scores, row: scores[row] if row < len(scores) - 1 else None),
    "no rows behind the last block": each_place(
        lambda scores, row: scores[row] if row < len(scores) - len(scores) % BLOCK_ROWS else None
    ),
    "the row before": each_place(lambda scores, row: scores[row - 1]),
    "the rows from the last on": each_place(lambda scores, row: scores[-1 - row]),
    "sums that go on from row to row": each_place(lambda scores, row: sum(scores[: row + 1])),
    "sums that go on from block to block": each_place(lambda scores, row: sum(scores[row % BLOCK_ROWS : row + 1 : BLOCK_ROWS])),
}


def check_mistakes(accepted):
    """For every design, each wrong way is wrong of some layer."""
    for design in DESIGNS:
        left = {*MISTAKES}
        for case, scores in accepted:
            if case.design == design:
                left = {way for way in left if MISTAKES[way](case, scores) == scores}
        expect(not left, f"no layer of design {design} tells the scores from {sorted(left)}")


def check_shapes(cases):
    """The rows and columns at the borders of blocks for the lowest and the highest setting, and the layers with the most columns;
    every number of rows up to two blocks and one more, and of spare places, for every design; every setting with more rows than a
    block has."""
    shapes = {(case.design, case.setting, rows_of(case), case.columns) for case in cases}
    of_rows = {(design, rows) for design, _, rows, _ in shapes}
    of_settings = {(design, setting) for design, setting, rows, _ in shapes if rows > BLOCK_ROWS}
    of_spares = {(case.design, case.places - rows_of(case)) for case in cases}
    at_borders = [(*numbers, *shape) for numbers, *shape in itertools.product(design_end_settings(), ROW_COUNTS, COLUMN_COUNTS)]
    for group in (*at_borders, *LONG_LAYERS):
        expect(group in shapes, f"no layer of design, setting, rows, columns {group}")
    for group in itertools.product(DESIGNS, range(2 * BLOCK_ROWS + 2)):
        expect(group in of_rows, f"no layer of design, rows {group}")
    for group in itertools.product(DESIGNS, SPARE_PLACES):
        expect(group in of_spares, f"no layer of design, spare places {group}")
    for group in design_settings():
        expect(group in of_settings, f"no layer of design, setting {group} with more than {BLOCK_ROWS} rows")


def check_elements(cases):
    """Every boundary operand in the store and in the frame for every design."""
    weights = {(case.design, weight) for case in cases for weight in case.store}
    frames = {(case.design, number) for case in cases if case.store for number in case.frame}
    for group in itertools.product(DESIGNS, boundary_operands(SIGNED, ROW_WIDTH)):
        expect(group in weights, f"no layer of design, weight {group}")
        expect(group in frames, f"no layer of design, frame number {group}")


def check_lines(cases):
    """No store is too long for those who read its line, and the list that stands there gives it back where it is repeated."""
    for case in cases:
        expect(len(case.store) <= MAX_LAYER_STORE, f"{shown(case)}: more than {MAX_LAYER_STORE}")
        for numbers in (case.store, case.frame):
            expect(repeated(shortest_list(numbers), len(numbers)) == numbers, f"{shown(case)}: a repeated list")


def check(chosen):
    check_figure()
    check_refusals("layer", refusals.OF_LAYER, chosen, layer_refusal)
    check_lines(chosen.cases)
    outcomes = [(case, *layer_outcome(case)) for case in chosen.cases]
    accepted = [(case, scores) for case, refusal, scores in outcomes if refusal == 0]
    for case, scores in accepted:
        expect(scores == scores_by_columns(case), f"{shown(case)}: scores by columns")
        check_rows(case, scores)
    check_mistakes(accepted)
    cases = [case for case, _ in accepted]
    check_shapes(cases)
    check_elements(cases)
