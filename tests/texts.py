#!/usr/bin/env python3
"""Texts of records, by tools/records.py: what is wrong with one is said, a long one takes seconds, and what the bench cannot read is
marked with its refusal.

    python3 tests/texts.py

Prints how much was tried; the first that differs is shown, and the exit status is then 1.
"""
import re
import sys
import time

sys.dont_write_bytecode = True

from trials import MAX_INPUT, RECORDS, TOO_LONG, expect, ran, run
import records
from reference_meaning.records import KINDS, record_at


def encoded(given):
    """The records of a text, or what is said of it."""
    try:
        return records.encode(records.text_of(given if isinstance(given, bytes) else given.encode(), 'text'), 'text')
    except records.Failure as failure:
        return failure.args


def try_errors(folder):
    two = bytes([3, 1, 2])
    missing = [f'{line}:8: the second byte is missing' for line in range(1, 11)]
    expect('a byte-order mark', encoded(b'\xef\xbb\xbftable 1 2'), two)
    expect('any ends of lines', encoded('table 1 2\r\ntable 1 2\rtable 1 2\n\n# a comment\f table\n'), two * 3)
    expect('leading zeros', encoded('table ' + '0' * 5000 + '1 0x' + '0' * 5000 + '2'), two)
    for what, given, said in (
        ('5,000 digits', 'table 1 ' + '9' * 5000, ["1:9: second byte: '99999999999999999999'.. of 5,000 characters is not from 0 to 255"]),
        ('no bytes', 'bytes\n bytes # 07', ['1:6: bytes: there are none', '2:7: bytes: there are none']),
        ('no text', b'table 1 2\n# \xc3\xa9\xff', ['2:4: this is no text in UTF-8']),
        ('60,000 wrong lines', 'table 1\n' * 60000, missing + [' 59,990 more lines are wrong']),
    ):
        expect(what, encoded(given), tuple(f'text:{line}' for line in said))


def try_many_lines(folder):
    # in seconds, since no line is copied with each that follows it
    lines = ''.join(f'table {i // 256 % 256} {i % 256}\n' for i in range(200000))
    start = time.monotonic()
    coded = encoded(lines)
    expect('200,000 lines in seconds', time.monotonic() - start < 15, True)
    expect('200,000 lines and back', records.decode(coded), lines)


def try_marks(folder):
    """Every record that the bench cannot read, after one of each kind: it has the refusal that the reference program gives it, and comes
    back whole."""
    whole = b''.join(bytes([kind]) * (1 + KINDS[kind].length) for kind in KINDS)
    ends = [bytes([kind]) * (1 + length) for kind in KINDS for length in range(KINDS[kind].length)]
    ends += [bytes([kind]) + b'more' for kind in range(256) if kind not in KINDS]
    for end in ends:
        text = records.decode(whole + end)
        expect(f'the mark of {end}', re.findall('^# refusal ([0-9]+): ', text, re.M), [str(record_at(end, 0)[0])])
        expect(f'{end} and back', encoded(text), whole + end)
    expect('a cut record', records.decode(bytes([3, 1, 2, 1, 1])),
           'table 1 2\n# refusal 18: a product has 7 bytes, and 2 are left\nbytes 01 01\n')
    expect('an unknown record', records.decode(bytes([7, 8])), '# refusal 17: there is no kind 7\nbytes 07 08\n')


def try_command(folder):
    seven, over = bytes([7]), MAX_INPUT + 1
    for words in ([], ['--help']):
        expect(f'records.py {words}', ran(RECORDS + words), (0, records.__doc__.encode(), ''))
    for words, given, found in (
        (['encode'], b'', (1, b'', 'usage: records.py encode TEXT | decode RECORDS   (- is standard input; --help says more)\n')),
        (['encode', '-'], b'table 1', (1, b'', 'standard input:1:8: the second byte is missing\n')),
        (['encode', '-'], b'bytes' + b' 07' * MAX_INPUT, (0, seven * MAX_INPUT, '')),
        (['encode', '-'], b'bytes' + b' 07' * over, (0, seven * over, f'records: standard input: 65,537 {TOO_LONG}\n')),
        (['decode', '-'], bytes([3, 1, 2]), (0, b'table 1 2\n', '')),
    ):
        expect(f'records.py {words}', ran(RECORDS + words, given=given), found)


if __name__ == '__main__':
    run('texts', try_errors, try_many_lines, try_marks, try_command)
