"""Scoring a layer, which is all rows of a weight store against one frame."""
from . import raw
from ._lent import I16, I64, lent
from ._whole import u32, u64
from .refusals import judged


def score_layer(design, setting, store, columns, frame, scores):
    """Scores a frame by every row of a store, both of signed 16-bit numbers, at width 16, and gives the number of rows. A store is its rows
    in order, `columns` weights each. Place r of the scores, signed 64-bit numbers, gets the score of row r, the one that score_row gives for
    that row alone; the places after the rows' are left as they were, and so are all on a refusal. A store without rows is accepted. It
    refuses, in this order: 1, 3, 12, 13, 5, 21; 5 where the frame is not as long as there are columns.

    >>> from array import array
    >>> from highvane import Design
    >>> scores = array('q', [99, 99, 99, 99])
    >>> score_layer(Design.MITCHELL, 0, array('h', [3, -5, 0, 7, 5, 6]), 2, array('h', [3, 6]), scores)
    3
    >>> scores.tolist()
    [-20, 40, 46, 99]
    """
    design, setting, columns = u32('design', design), u32('setting', setting), u64('columns', columns)
    with lent('store', store, I16) as st, lent('frame', frame, I16) as f, lent('scores', scores, I64, is_written=True) as sc:
        sc.refuse_overlap(st)
        sc.refuse_overlap(f)
        answer = raw.highvane_score_layer(design, setting, st.start, st.length, columns, f.start, f.length, sc.start, sc.length)
    judged(answer.refusal)
    return answer.rows
