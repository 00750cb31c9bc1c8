"""Scores a frame of sound with one row of a weight store, hands the score out, and scores the frame with all rows at once."""
from array import array

from highvane import Design, Refused, row_of, scale, score_layer, score_row

# Two rows of three columns, one after the other.
store = array('h', [12, -7, 96, 3, -5, 0])
frame = array('h', [3, 6, 7])
residues = array('q', [0, 0, 0])
scores = array('q', [0, 0])

# A row is a part of the store, not a copy.
weights = row_of(store, columns=3, row=1)
report = score_row(Design.MITCHELL, 0, weights, frame, residues)
print(f'score {report.score}, error {report.error}, T {report.magnitude_sum}')
for i, residue in enumerate(residues):
    print(f'pair {i}: residue {residue}')
print(f'largest residue: {report.largest_residue}, of pair {report.largest_place}')

# Exact quotients: the score and T divided by 2^3.
scaled = scale(report.score, report.magnitude_sum, 3)
print(f'handed out: score {scaled.score}, T {scaled.magnitude_sum}')

# Rows are numbered from 0, so this store has no row 2.
try:
    row_of(store, columns=3, row=2)
except Refused as refused:
    print(f'find row 2: refusal {refused.number}, {refused.text}')

# The score of each row alone, in one call.
rows = score_layer(Design.MITCHELL, 0, store, 3, frame, scores)
print(f'{rows} rows at once: scores {scores[0]}, {scores[1]}')
