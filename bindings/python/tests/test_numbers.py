"""Whole numbers: each parameter takes all that its C type holds, and everything else is an error of Python's."""
import enum
import unittest
from array import array

import highvane

U8, U32, U64, I64 = (0, 2**8 - 1), (0, 2**32 - 1), (0, 2**64 - 1), (-2**63, 2**63 - 1)
STORE = array('h', [1, 2, 3, 4])


def scored(design, setting):
    return highvane.score_row(design, setting, STORE, STORE, array('q', [0] * 4))


def by_itself(row):
    return lambda setting: row(setting, STORE, STORE, array('q', [0] * 4))


def layered(design, setting, columns):
    return highvane.score_layer(design, setting, STORE, columns, STORE[:2], array('q', [0] * 4))


def found(call):
    return lambda columns, row: call(STORE, columns, row)


# of each function the parameters that are whole numbers, with the limits of their types, and arguments that are accepted
FUNCTIONS = [
    (highvane.unsigned_product, {'design': U32, 'width': U32, 'setting': U32, 'a': U64, 'b': U64}, (1, 8, 0, 3, 3)),
    (highvane.signed_product, {'design': U32, 'width': U32, 'setting': U32, 'a': I64, 'b': I64}, (1, 8, 0, 3, 3)),
    (highvane.table_product, {'a': U8, 'b': U8}, (3, 3)),
    (scored, {'design': U32, 'setting': U32}, (1, 0)),
    (by_itself(highvane.score_row_mitchell), {'setting': U32}, (0,)),
    (by_itself(highvane.score_row_nearest), {'setting': U32}, (0,)),
    (by_itself(highvane.score_row_staged), {'setting': U32}, (16,)),
    (by_itself(highvane.score_row_truncated), {'setting': U32}, (15,)),
    (by_itself(highvane.score_row_twice_truncated), {'setting': U32}, (15,)),
    (found(highvane.row_of), {'columns': U64, 'row': U64}, (2, 1)),
    (found(highvane.row_refusal), {'columns': U64, 'row': U64}, (2, 1)),
    (layered, {'design': U32, 'setting': U32, 'columns': U64}, (1, 0, 2)),
    (highvane.scale, {'score': I64, 'magnitude_sum': U64, 'shift': U32}, (3, 3, 1)),
    (highvane.single_product_of_bits, {'a': U32, 'b': U32}, (0x3FC00000, 0x3FC00000)),
]


def parameters():
    """Each parameter: its name, its limits, the function with all other arguments, and what is accepted there."""
    for function, limits, accepted in FUNCTIONS:
        for at, (name, ends) in enumerate(limits.items()):
            yield name, ends, lambda number: function(*accepted[:at], number, *accepted[at + 1:]), accepted[at]


class Index:
    """A whole number of another type, as those of numpy are."""

    def __init__(self, number):
        self.number = number

    def __index__(self):
        return self.number


class Numbers(unittest.TestCase):
    def test_no_whole_number(self):
        for name, _, call, _ in parameters():
            for wrong in (True, False, None, 1.0, float('nan'), 1j, '1', b'1', [1], (1,), array('h', [1]), object(), int):
                with self.assertRaisesRegex(TypeError, f'^{name} must be a whole number, not', msg=wrong):
                    call(wrong)

    def test_beyond_the_type(self):
        for name, (least, most), call, _ in parameters():
            for wrong in (least - 1, most + 1, -2**64, 2**64, -2**63 - 1, 2**64 + 1, 10**5000, -10**5000):
                with self.assertRaisesRegex(OverflowError, f'^{name} must be {least} to {most}$'):
                    call(wrong)

    def test_at_the_ends_of_the_type(self):
        for _, ends, call, _ in parameters():
            for end in ends:
                try:
                    call(end)
                except highvane.Refused as refused:
                    self.assertIn(refused.refusal, highvane.Refusal)

    def test_other_types_of_whole_numbers(self):
        for _, _, call, accepted in parameters():
            number = enum.IntEnum('Numbers', {'THE': accepted})
            self.assertEqual(call(Index(accepted)), call(accepted))
            self.assertEqual(call(number.THE), call(accepted))

    def test_number_of_arguments(self):
        for function, _, accepted in FUNCTIONS:
            for wrong in (accepted[1:], (*accepted, 0)):
                self.assertRaises(TypeError, function, *wrong)


class Floats(unittest.TestCase):
    def test_no_binary32(self):
        for wrong in (0.1, 1 + 2**-24, 1e-310, 2**24 + 1):
            self.assertRaisesRegex(ValueError, '^b is no binary32 number$', highvane.single_product, 1.0, wrong)
        for wrong in (2.0**128, -1e300, 10**400):
            self.assertRaises(OverflowError, highvane.single_product, wrong, 1.0)
        for wrong in (True, None, '1', 1j, b'1', [1.0]):
            self.assertRaisesRegex(TypeError, '^a must be a float, not', highvane.single_product, wrong, 1.0)

    def test_refused(self):
        for a, refusal in ((float('nan'), 8), (float('-inf'), 8), (2.0**-140, 9), (2.0**127, 10), (2.0**-126, 11)):
            with self.assertRaises(highvane.Refused) as raised:
                highvane.single_product(a, a)
            self.assertEqual(raised.exception.number, refusal)
