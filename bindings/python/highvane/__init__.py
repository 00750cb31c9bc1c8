"""The arithmetic of a chip that multiplies by adding rough logarithms, in five published designs.

The operations are Highvane's, proved in Rattle and compiled into a shared object, which this package calls through ctypes. Each takes any
input. It gives its result, or raises Refused with the first refusal that applies, and then has changed nothing that was lent to it.

    unsigned_product, signed_product          a design's product at width 8, 12, 16 or 32
    table_product                             design 1's product of two bytes, by a table
    row_of, row_refusal                       a row, as a part of a weight store
    score_row                                 the score of a row, its exact error, and the residue of each pair
    score_row_mitchell, score_row_nearest,    the same by one design
    score_row_staged, score_row_truncated,
    score_row_twice_truncated
    score_layer                               the scores of all rows of a weight store against one frame
    scale                                     a score and T as floats, divided by a power of two
    single_product, single_product_of_bits    Mitchell's product of two binary32 numbers
    transcript                                what the bench prints for a run of records

>>> from array import array
>>> residues = array('q', [0, 0, 0])
>>> report = score_row(Design.MITCHELL, 0, array('h', [3, -5, 0]), array('h', [3, 6, 7]), residues)
>>> report.score, report.error, residues.tolist()
(-20, -1, [1, -2, 0])

What is no input at all raises an error of Python's own, before anything is called: TypeError for a thing of a wrong type (a bool and a
float are no whole numbers), OverflowError for a whole number that the parameter's C type cannot hold, ValueError for a buffer that cannot
be lent. Weights, frames, stores, residues, scores and records are lent as they lie, without a copy, from anything with the buffer
protocol: an array, a memoryview, bytes, a numpy array. Such a buffer has one dimension and no gaps and begins where its items may; the
residues and the scores can be written, and overlap nothing else that is lent with them.

`tools/archive --shared` makes the shared object, libhighvane.so, for Linux on x86-64. The package takes it from the repository's folder
target, or from the folder that the environment variable HIGHVANE_LIB names; a relative one starts from the current folder. The package and
the shared object are of one version.
"""
from .designs import Design
from .layers import score_layer
from .products import signed_product, table_product, unsigned_product
from .records import INPUT_MAX, TRANSCRIPT_MAX, transcript
from .refusals import Refusal, Refused
from .rows import (PAIRS_MAX, Report, score_row, score_row_mitchell, score_row_nearest, score_row_staged, score_row_truncated,
                   score_row_twice_truncated)
from .scores import SHIFT_MAX, Scaled, scale
from .singles import single_product, single_product_of_bits
from .stores import row_of, row_refusal

# that of include/highvane.h
__version__ = '2.5.0'

__all__ = [
    'Design', 'INPUT_MAX', 'PAIRS_MAX', 'Refusal', 'Refused', 'Report', 'SHIFT_MAX', 'Scaled', 'TRANSCRIPT_MAX', 'row_of', 'row_refusal',
    'scale', 'score_layer', 'score_row', 'score_row_mitchell', 'score_row_nearest', 'score_row_staged', 'score_row_truncated',
    'score_row_twice_truncated', 'signed_product', 'single_product', 'single_product_of_bits', 'table_product', 'transcript',
    'unsigned_product',
]
