"""What docs/SCOPE.md says of particular inputs: its tables and examples, number by number."""

from .layers import LayerInput
from .products import SIGNED, UNSIGNED, ProductInput
from .rows import RowReport
from .scaling import ScalingInput
from .singles import SingleInput

# "Figures to hold the designs to": the input, its product and its residue.
PRODUCTS = (
    (ProductInput(UNSIGNED, 1, 8, 0, 3, 3), 8, 1),
    (ProductInput(UNSIGNED, 1, 8, 0, 5, 6), 28, 2),
    (ProductInput(UNSIGNED, 1, 8, 0, 192, 192), 32768, 4096),
    (ProductInput(UNSIGNED, 1, 8, 0, 255, 255), 65024, 1),
    (ProductInput(UNSIGNED, 1, 12, 0, 4095, 4095), 16769024, 1),
    (ProductInput(SIGNED, 1, 12, 0, -2048, -2048), 4194304, 0),
    (ProductInput(UNSIGNED, 2, 8, 0, 5, 6), 32, -2),
    (ProductInput(UNSIGNED, 2, 8, 0, 191, 192), 40704, -4032),
    (ProductInput(SIGNED, 2, 8, 0, -5, 6), -32, 2),
    (ProductInput(UNSIGNED, 2, 32, 0, 4294967295, 4294967295), 18446744065119617024, 1),
    (ProductInput(UNSIGNED, 3, 8, 1, 7, 7), 40, 9),
    (ProductInput(UNSIGNED, 3, 8, 2, 7, 7), 48, 1),
    (ProductInput(UNSIGNED, 3, 8, 3, 7, 7), 49, 0),
    (ProductInput(UNSIGNED, 3, 12, 12, 4095, 4095), 16769025, 0),
    (ProductInput(UNSIGNED, 4, 8, 4, 3, 3), 8, 1),
    (ProductInput(UNSIGNED, 4, 8, 4, 16, 16), 272, -16),
    (ProductInput(UNSIGNED, 4, 8, 4, 255, 255), 63488, 1537),
    (ProductInput(UNSIGNED, 4, 8, 1, 1, 1), 1, 0),
    (ProductInput(UNSIGNED, 4, 12, 11, 3, 3), 8, 1),
    (ProductInput(UNSIGNED, 5, 8, 4, 3, 3), 8, 1),
    (ProductInput(UNSIGNED, 5, 8, 4, 5, 5), 26, -1),
    (ProductInput(UNSIGNED, 5, 8, 4, 7, 7), 50, -1),
    (ProductInput(UNSIGNED, 5, 8, 4, 4, 5), 21, -1),
    (ProductInput(UNSIGNED, 5, 8, 4, 5, 27), 138, -3),
)

# The sentences below that table on settings and operands: the input and its refusal.
JUDGED_PRODUCTS = (
    (ProductInput(UNSIGNED, 3, 8, 8, 7, 7), 0),
    (ProductInput(UNSIGNED, 3, 8, 0, 7, 7), 3),
    (ProductInput(UNSIGNED, 3, 8, 9, 7, 7), 3),
    (ProductInput(SIGNED, 3, 8, 8, 7, 7), 0),
    (ProductInput(SIGNED, 3, 8, 0, 7, 7), 3),
    (ProductInput(SIGNED, 3, 8, 9, 7, 7), 3),
    (ProductInput(UNSIGNED, 5, 8, 7, 7, 7), 0),
    (ProductInput(UNSIGNED, 5, 8, 0, 7, 7), 3),
    (ProductInput(UNSIGNED, 5, 8, 8, 7, 7), 3),
    (ProductInput(UNSIGNED, 6, 8, 4, 7, 7), 1),
    (ProductInput(SIGNED, 5, 8, 7, 7, 7), 0),
    (ProductInput(SIGNED, 5, 8, 0, 7, 7), 3),
    (ProductInput(SIGNED, 5, 8, 8, 7, 7), 3),
    (ProductInput(SIGNED, 6, 8, 4, 7, 7), 1),
    (ProductInput(SIGNED, 1, 8, 0, -128, 1), 0),
    (ProductInput(SIGNED, 1, 8, 0, 1, -128), 0),
    (ProductInput(SIGNED, 1, 8, 0, 128, 5), 4),
    (ProductInput(SIGNED, 1, 8, 0, 5, 128), 20),
    (ProductInput(SIGNED, 1, 8, 0, 128, 128), 4),
    (ProductInput(UNSIGNED, 1, 8, 0, 256, 5), 4),
    (ProductInput(UNSIGNED, 1, 8, 0, 5, 256), 20),
    (ProductInput(UNSIGNED, 1, 8, 0, 256, 256), 4),
    (ProductInput(SIGNED, 1, 8, 1, 128, 5), 3),
    (ProductInput(SIGNED, 1, 8, 1, 5, 128), 3),
    (ProductInput(SIGNED, 1, 8, 1, 128, 128), 3),
    (ProductInput(UNSIGNED, 1, 8, 1, 256, 5), 3),
    (ProductInput(UNSIGNED, 1, 8, 1, 5, 256), 3),
    (ProductInput(UNSIGNED, 1, 8, 1, 256, 256), 3),
    (ProductInput(UNSIGNED, 3, 12, 13, 7, 7), 3),
    (ProductInput(SIGNED, 3, 12, 13, 7, 7), 3),
    (ProductInput(UNSIGNED, 4, 12, 12, 7, 7), 3),
    (ProductInput(SIGNED, 4, 12, 12, 7, 7), 3),
    (ProductInput(UNSIGNED, 5, 12, 12, 7, 7), 3),
    (ProductInput(SIGNED, 5, 12, 12, 7, 7), 3),
    (ProductInput(UNSIGNED, 1, 12, 0, 4096, 5), 4),
    (ProductInput(UNSIGNED, 1, 12, 0, 5, 4096), 20),
    (ProductInput(SIGNED, 1, 12, 0, 2047, -2048), 0),
    (ProductInput(SIGNED, 1, 12, 0, 2048, 5), 4),
    (ProductInput(SIGNED, 1, 12, 0, 5, 2048), 20),
    (ProductInput(SIGNED, 1, 12, 0, -2049, 5), 4),
    (ProductInput(SIGNED, 1, 12, 0, 5, -2049), 20),
    (ProductInput(UNSIGNED, 1, 10, 0, 5, 6), 2),
    (ProductInput(UNSIGNED, 1, 11, 0, 5, 6), 2),
    (ProductInput(UNSIGNED, 1, 13, 0, 5, 6), 2),
)

# The row with a star, by design 1, and its report.
ROW_PAIRS = ((3, 3), (-5, 6), (0, 7))
ROW_REPORT = RowReport(score=-20, true_sum=-21, error=-1, t=39, n=2, largest=2, place=1, residues=(1, -2, 0))

# By design 1: the pairs, the largest residue and its place, and the residues.
WORST_PAIRS = (
    (((3, 3), (-5, 6), (5, 6), (3, 3)), 2, 1, (1, -2, 2, 1)),
    (((0, 7), (1, 4)), 0, 0, (0, 0)),
)

# The layer, and its scores.
LAYER = LayerInput(1, 0, 2, (3, -5, 0, 7, 5, 6), (3, 6), 3)
LAYER_SCORES = (-20, 40, 46)

# The lengths at the limit of a row, and what each is refused with.
ROW_LENGTHS = ((4096, 0), (4097, 6))

# The score that is handed out; its T is that of the row.
SCALING = ScalingInput(ROW_REPORT.score, ROW_REPORT.t, 3)
SCALING_SCORE = -2.5

# Four singles, then the one of the bench program: the input, its refusal and its result.
SINGLES = (
    (SingleInput(0x3FA00000, 0x3FA00000), 0, 0x3FC00000),
    (SingleInput(0x00C00000, 0x3F400000), 0, 0x00800000),
    (SingleInput(0x00800000, 0x3F000000), 11, 0),
    (SingleInput(0x7F000000, 0x40000000), 10, 0),
    (SingleInput(0x3FC00000, 0x3FC00000), 0, 1073741824),
)

# The bench program's sample, and all that it prints.
RECORDS = bytes.fromhex(
    "01 01 00 03 00 03 00" "03 FF FF" "02 00 00 C0 3F 00 00 C0 3F" "01 09 00 01 00 01 00" "07"
)
RECORDS_TEXT = "1 ok 8\n3 ok 65024\n2 ok 1073741824\n1 no 1\n7 no 17\ntotal 3 2\n"
