"""The stored vectors, every field of every answer; the top of tools/reference.py says what their lines mean. The table and the transcripts
have none: the one is compared with design 1, the other with what the bench prints."""
import collections
import dataclasses
import itertools
import pathlib
import struct
import unittest
from array import array

import highvane

CRATES = pathlib.Path(__file__).resolve().parents[3] / 'crates'
# of a store every number is its own place
STORE = memoryview(array('h', range(8192)))


def outcome(call, *arguments):
    """The refusal's number and None, or 0 and the result."""
    try:
        return 0, call(*arguments)
    except highvane.Refused as refused:
        return refused.number, None


def taken(numbers, count):
    return list(itertools.islice(numbers, count))


def repeated(numbers):
    length, count = taken(numbers, 2)
    return array('h', itertools.islice(itertools.cycle(taken(numbers, count)), length))


def pattern(kind, number):
    return int.from_bytes(struct.pack(f'<{kind}', number), 'little')


# A kind of line takes its input off the line's numbers, and gives the numbers that are due after it.

BY_ITSELF = {1: highvane.score_row_mitchell, 2: highvane.score_row_nearest, 3: highvane.score_row_staged, 4: highvane.score_row_truncated,
             5: highvane.score_row_twice_truncated}


def product(call, numbers):
    refusal, given = outcome(call, *taken(numbers, 5))
    return [refusal, given or 0]


def row(numbers):
    design, setting = taken(numbers, 2)
    weights = array('h', taken(numbers, next(numbers)))
    # lent read-only
    frame = memoryview(array('h', taken(numbers, next(numbers))).tobytes()).cast('h')
    before = array('q', range(1000000, 1000000 + next(numbers)))
    residues = array('q', before)
    refusal, report = outcome(highvane.score_row, design, setting, weights, frame, residues)
    if design in BY_ITSELF:
        again = array('q', before)
        assert outcome(BY_ITSELF[design], setting, weights, frame, again) == (refusal, report), 'the row of the design by itself is another'
        assert again == residues, 'the row of the design by itself leaves other residues'
    written = len(weights) if report else 0
    assert residues[written:] == before[written:], 'a later place of the residues is another'
    fields = dataclasses.astuple(report) if report else [0] * len(dataclasses.fields(highvane.Report))
    return [refusal, *fields, written, *residues[:written]]


def store(numbers):
    length, columns, row = taken(numbers, 3)
    refusal, part = outcome(highvane.row_of, STORE[:length], columns, row)
    assert highvane.row_refusal(STORE[:length], columns, row) == (refusal or None)
    return [refusal, part[0], len(part)] if part else [refusal, 0, 0]


def layer(numbers):
    design, setting, columns = taken(numbers, 3)
    store = repeated(numbers)
    # lent read-only
    frame = memoryview(repeated(numbers).tobytes()).cast('h')
    before = array('q', range(1000000, 1000000 + next(numbers)))
    scores = array('q', before)
    refusal, rows = outcome(highvane.score_layer, design, setting, store, columns, frame, scores)
    written = rows or 0
    assert scores[written:] == before[written:], 'a later place of the scores is another'
    return [refusal, written, *scores[:written]]


def score(numbers):
    refusal, scaled = outcome(highvane.scale, *taken(numbers, 3))
    return [refusal, pattern('d', scaled.score), pattern('d', scaled.magnitude_sum)] if scaled else [refusal, 0, 0]


def single(numbers):
    patterns = taken(numbers, 2)
    refusal, value = outcome(highvane.single_product_of_bits, *patterns)
    floats = (struct.unpack('<f', number.to_bytes(4, 'little'))[0] for number in patterns)
    again, by_floats = outcome(highvane.single_product, *floats)
    assert (again, repr(by_floats)) == (refusal, repr(value)), 'the product of floats is another'
    return [refusal, 0 if value is None else pattern('f', value)]


KINDS = {
    'u': lambda numbers: product(highvane.unsigned_product, numbers),
    's': lambda numbers: product(highvane.signed_product, numbers),
    'r': row, 't': store, 'l': layer, 'h': score, 'f': single,
}


class Vectors(unittest.TestCase):
    def test_stored_vectors(self):
        met = collections.Counter()
        for line in (CRATES / 'vectors/stdin').read_text().splitlines():
            kind, *words = line.split(' ')
            numbers = map(int, words)
            self.assertEqual(KINDS[kind](numbers), list(numbers), line[:200])
            met[kind] += 1
        self.assertEqual(met.keys(), KINDS.keys())

    def test_table(self):
        for a, b in itertools.product(range(0, 256, 5), range(256)):
            self.assertEqual(highvane.table_product(a, b), highvane.unsigned_product(1, 8, 0, a, b))

    def test_transcripts(self):
        records, text = (CRATES / 'bench/stdin').read_bytes(), (CRATES / 'bench/stdout').read_text()
        for lent in (records, bytearray(records), memoryview(records), array('B', records)):
            self.assertEqual(highvane.transcript(lent), text)
        self.assertEqual(highvane.transcript(b''), 'total 0 0\n')
        self.assertEqual(highvane.transcript(bytes(highvane.INPUT_MAX + 1)), '0 no 19\ntotal 0 1\n')
        longest = highvane.transcript(bytes([3, 255, 255]) * 21845 + b'\xff')
        self.assertEqual((len(longest), longest[-14:]), (240319, 'total 21845 1\n'))
