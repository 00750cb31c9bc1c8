"""Buffers: what can be lent is lent as it lies, and everything else is an error of Python's that changes nothing."""
import ctypes
import mmap
import random
import unittest
from array import array

import highvane
from highvane._lent import _Buffer

SHORTS, FRAME, LONGS = [3, -5, 0], array('h', [3, 6, 7]), [1, -2, 0]


def shorts():
    """Three numbers in each kind of buffer that can be read."""
    own = array('h', SHORTS)
    yield own
    yield memoryview(own)
    yield memoryview(own.tobytes()).cast('h')
    yield memoryview(array('h', [9, *SHORTS, 9]))[1:4]
    yield (ctypes.c_int16 * 3)(*SHORTS)
    yield memoryview(bytearray(own.tobytes())).cast('@h')
    with mmap.mmap(-1, 6) as pages:
        pages[:] = own.tobytes()
        with memoryview(pages) as view, view.cast('h') as cast:
            yield cast
    yield from numpy_arrays('int16', SHORTS)


def longs():
    """Three places in each kind of buffer that can be written."""
    own = array('q', [7, 7, 7])
    yield own
    yield memoryview(own)
    yield memoryview(bytearray(24)).cast('q')
    yield (ctypes.c_int64 * 3)()
    yield array('l', [7, 7, 7])
    yield from numpy_arrays('int64', [7, 7, 7])


def numpy_arrays(kind, numbers):
    try:
        import numpy
    except ImportError:
        return
    yield numpy.array(numbers, dtype=kind)
    yield numpy.array([numbers, numbers], dtype=kind)[1]


def view_of(memory, code, size):
    """A view of memory with a format that no cast of Python's own gives; it lives no longer than the memory."""
    start = ctypes.addressof(ctypes.c_char.from_buffer(memory))
    make = ctypes.PYFUNCTYPE(ctypes.py_object, ctypes.POINTER(_Buffer))(('PyMemoryView_FromBuffer', ctypes.pythonapi))
    return make(_Buffer(buf=start, len=len(memory), itemsize=size, ndim=1, format=code))


def wrong_shorts():
    """What is no buffer of signed 16-bit numbers that can be lent, by the error that it raises."""
    released = memoryview(array('h', SHORTS))
    released.release()
    return {
        TypeError: [
            None, 3, SHORTS, tuple(SHORTS), 'text', iter(SHORTS), object(), bytes(6), bytearray(6), (ctypes.c_int16.__ctype_be__ * 3)(),
            *(array(code, [1, 2, 3]) for code in 'bBHiIlLqQfd'), *(memoryview(bytes(16)).cast(code) for code in '?cbBH'),
        ],
        ValueError: [
            ctypes.c_int16(3), ((ctypes.c_int16 * 2) * 2)(), memoryview(array('h', range(6)))[::2], memoryview(array('h', SHORTS))[::-1],
            memoryview(bytearray(64))[1:7].cast('h'), memoryview(bytes(8)).cast('h', (2, 2)), released,
        ],
    }


def wrong_longs(room):
    """What is no buffer of signed 64-bit numbers that can be written, by the error that it raises. Some are views of the room."""
    return {
        TypeError: [
            None, [0, 0, 0], bytearray(24), (ctypes.c_int64.__ctype_be__ * 3)(), *(array(code, [0] * 3) for code in 'hiIQd'),
            memoryview(bytes(24)).cast('q'), memoryview(array('q', [0] * 3)).toreadonly(),
            view_of(room, b'<l', 4), view_of(room, b'>q', 8), view_of(room, b'qq', 8), view_of(room, b'', 8),
        ],
        ValueError: [
            ctypes.c_int64(0), memoryview(array('q', [0] * 6))[::2], memoryview(array('q', [0] * 3))[::-1],
            memoryview(bytearray(48)).cast('q', (2, 3)), memoryview(room)[4:28].cast('q'),
        ],
    }


WRONG_RECORDS = {
    TypeError: [None, '1 ok', [3, 255, 255], 3, array('h', [3]), array('b', [3])],
    ValueError: [memoryview(bytes(6))[::2], memoryview(bytes(6)).cast('B', (2, 3))],
}


def score(weights, frame, residues):
    """By way of both, which lend alike: what the second writes is what the first wrote."""
    highvane.score_row(1, 0, weights, frame, residues)
    return highvane.score_row_mitchell(0, weights, frame, residues)


def score_layer(store, frame, scores):
    """With three columns, as many as FRAME has numbers."""
    return highvane.score_layer(1, 0, store, 3, frame, scores)


class Lending(unittest.TestCase):
    def test_every_kind_of_buffer(self):
        for weights in shorts():
            for residues in longs():
                report = score(weights, FRAME, residues)
                self.assertEqual((report.score, list(residues)), (-20, LONGS))
            for scores in longs():
                self.assertEqual((highvane.score_layer(1, 0, weights, 1, FRAME[:1], scores), list(scores)), (3, [8, -14, 0]))
                self.assertEqual((score_layer(FRAME, weights, scores), list(scores)), (1, [-20, -14, 0]))
            self.assertEqual(highvane.row_of(weights, 1, 1).tobytes(), array('h', [-5]).tobytes())

    def test_nothing_is_copied(self):
        store = array('h', SHORTS)
        part = highvane.row_of(store, 1, 1)
        store[1] = 12
        self.assertEqual(part.tolist(), [12])
        part[0] = 13
        self.assertEqual(store[1], 13)

    def see(self, things, *calls):
        """Each call raises the error that is due for each thing."""
        for error, wrongs in things.items():
            for wrong in wrongs:
                for call in calls:
                    with self.subTest(wrong=wrong):
                        self.assertRaises(error, call, wrong)

    def test_wrong_weights_frames_and_stores(self):
        places = array('q', [7] * 8)
        self.see(wrong_shorts(), lambda wrong: score(wrong, FRAME, places), lambda wrong: score(FRAME, wrong, places),
                 lambda wrong: score_layer(wrong, FRAME, places), lambda wrong: score_layer(FRAME, wrong, places),
                 lambda wrong: highvane.row_of(wrong, 1, 0), lambda wrong: highvane.row_refusal(wrong, 1, 0))
        self.assertEqual(places.tolist(), [7] * 8)

    def test_wrong_residues_and_scores(self):
        room = bytearray(64)
        self.see(wrong_longs(room), lambda wrong: score(FRAME, FRAME, wrong), lambda wrong: score_layer(FRAME, FRAME, wrong))
        self.assertEqual(room, bytes(64))
        # a format of 'l' alone does not say how long its items are
        self.assertEqual(score(FRAME, FRAME, view_of(room, b'<l', 8)).error, 6)
        self.assertEqual(score_layer(FRAME, FRAME, view_of(room, b'<l', 8)), 1)

    def test_wrong_records(self):
        self.see(WRONG_RECORDS, highvane.transcript)

    def test_overlap(self):
        room = memoryview(bytearray(96))
        places = room[32:56].cast('q')
        for start in range(0, 90, 2):
            numbers = room[start:start + 6].cast('h')
            for call, written, read in ((score, 'residues', 'weights'), (score_layer, 'scores', 'store')):
                if start + 6 <= 32 or start >= 56:
                    call(numbers, FRAME, places)
                    call(FRAME, numbers, places)
                else:
                    self.assertRaisesRegex(ValueError, f'^{written} must not overlap {read}$', call, numbers, FRAME, places)
                    self.assertRaisesRegex(ValueError, f'^{written} must not overlap frame$', call, FRAME, numbers, places)
        # an empty slice overlaps nothing, and what is only read may overlap
        score(room[40:40].cast('h'), array('h'), places)
        score(FRAME, FRAME, places)
        self.assertEqual(score_layer(room[40:40].cast('h'), FRAME, places), 0)
        self.assertEqual(score_layer(FRAME, FRAME, places), 1)

    def test_lengths_are_the_librarys_to_judge(self):
        long = array('h', [1] * (highvane.PAIRS_MAX + 1))
        for weights, frame, places, refusal in [(FRAME, FRAME[:2], 3, 5), (long, long, len(long), 6), (FRAME, FRAME, 2, 7)]:
            residues = array('q', [7] * places)
            with self.assertRaises(highvane.Refused) as raised:
                score(weights, frame, residues)
            self.assertEqual((raised.exception.number, set(residues)), (refusal, {7}))
        self.assertEqual(score(array('h'), array('h'), array('q')).nonzero_pairs, 0)
        for store, columns, places, refusal in [(FRAME, 0, 3, 12), (FRAME, 2, 3, 13), (FRAME, 1, 3, 5), (FRAME * 2, 3, 1, 21)]:
            scores = array('q', [7] * places)
            with self.assertRaises(highvane.Refused) as raised:
                highvane.score_layer(1, 0, store, columns, FRAME, scores)
            self.assertEqual((raised.exception.number, set(scores)), (refusal, {7}))
        self.assertEqual(score_layer(array('h'), FRAME, array('q')), 0)

    def test_nothing_stays_lent(self):
        weights, residues, kept = array('h', SHORTS), array('q', [0] * 3), []
        for call, *arguments in [
            (score, weights, FRAME, residues), (score, weights, FRAME[:1], residues), (score, weights, None, residues),
            (score, weights, FRAME, weights), (score, residues, weights, residues), (highvane.row_of, weights, 2, 0),
            (score_layer, weights, FRAME, residues), (score_layer, weights, FRAME[:1], residues), (score_layer, weights, None, residues),
        ]:
            try:
                call(*arguments)
            except (highvane.Refused, TypeError) as error:
                kept.append(error)
            # an array that is lent cannot grow
            weights.append(0)
            weights.pop()
            residues.append(0)
            residues.pop()
        self.assertEqual(len(kept), 7)

    def test_any_arguments(self):
        """Anything at all in any place gives a result, a refusal, or one of the three errors."""
        room = memoryview(bytearray(64))
        things = [None, True, 0, 1, 3, -1, 2**31, 2**63, 2**64, 1.5, 'h', b'', b'\3\1\1', [1], {}, highvane.Design.STAGED, FRAME,
                  array('q', [0] * 4), room, room[1:9].cast('q'), room[:8].cast('h'), room[8:32].cast('q'), (ctypes.c_int16 * 4)(),
                  (ctypes.c_int64 * 4)()]
        calls = [(highvane.unsigned_product, 5), (highvane.signed_product, 5), (highvane.table_product, 2), (highvane.score_row, 5),
                 (highvane.score_row_mitchell, 4), (highvane.score_row_nearest, 4), (highvane.score_row_staged, 4),
                 (highvane.score_row_truncated, 4), (highvane.score_row_twice_truncated, 4), (highvane.row_of, 3),
                 (highvane.row_refusal, 3), (highvane.score_layer, 6), (highvane.scale, 3), (highvane.single_product, 2),
                 (highvane.single_product_of_bits, 2), (highvane.transcript, 1)]
        chosen = random.Random(1)
        for _ in range(20000):
            call, count = chosen.choice(calls)
            try:
                call(*(chosen.choice(things) for _ in range(count)))
            except (highvane.Refused, TypeError, ValueError, OverflowError):
                pass
