#!/usr/bin/env python3
"""Turn a readable text of bench records into their binary form, and back.

    python3 tools/records.py encode TEXT > RECORDS      (- is standard input)
    python3 tools/records.py decode RECORDS > TEXT

A line is one record; what follows a # is a comment, and an empty line is passed over:

    product DESIGN SETTING A B      kind 1: a signed product at width 16
    single A B                      kind 2: a product of two binary32 patterns
    table A B                       kind 3: a product of two bytes by the table
    bytes XX XX ..                  raw bytes in hexadecimal, for records that are no records

Numbers are decimal, or hexadecimal after 0x. A number that its field cannot hold is an error here; whether the library accepts it is
for the bench to say. An error names the place, FILE:LINE:COLUMN, and nothing is written. Records of more bytes than the bench takes
are written all the same, and standard error says so. Where decoding meets a record that the bench cannot read, a comment has its
refusal, and the rest follows as raw bytes.

The exit status is 0, or 1 where something failed or was wrong, and standard error then says what.
"""
import codecs
import re
import sys

# nothing is to appear beside the tools
sys.dont_write_bytecode = True

from reference_meaning.records import MAX_INPUT
from reference_meaning.refusals import CUT_SHORT, INPUT_TOO_LONG, UNKNOWN_KIND
from streams import TOOL, Failure, label, read, run, say, write

# a record: its kind, and for each field the lowest and the highest number and its bytes, low byte first
BYTE, SIGNED, PATTERN = (0, 255, 1), (-32768, 32767, 2), (0, 2**32 - 1, 4)
RECORDS = {
    'product': (1, (('design', BYTE), ('setting', BYTE), ('first operand', SIGNED), ('second operand', SIGNED))),
    'single': (2, (('first pattern', PATTERN), ('second pattern', PATTERN))),
    'table': (3, (('first byte', BYTE), ('second byte', BYTE))),
}
NAMES = {kind: name for name, (kind, _) in RECORDS.items()}
# no field holds a number of more digits, those after leading zeros
DIGITS = 10
WORD = re.compile(r'\S+')
NUMBER = re.compile(r'(-?)(?:0[xX]0*([0-9a-fA-F]+)|0*([0-9]+))')
# so many wrong lines are shown, and of the others only how many they are
SHOWN = 10


class BadText(Exception):
    """A column of a line, and what is wrong there."""


def shown(word):
    return repr(word) if len(word) <= 40 else f'{word[:20]!r}.. of {len(word):,} characters'


def number(column, word, low, high, what):
    match = NUMBER.fullmatch(word)
    if not match:
        raise BadText(column, f'{what}: {shown(word)} is no number')
    sign, hexadecimal, decimal = match.groups()
    digits = hexadecimal or decimal
    if len(digits) <= DIGITS:
        value = int(sign + digits, 16 if hexadecimal else 10)
        if low <= value <= high:
            return value
    raise BadText(column, f'{what}: {shown(word)} is not from {low} to {high}')


def raw_byte(column, word):
    if not re.fullmatch(r'[0-9a-fA-F]{2}', word):
        raise BadText(column, f'{shown(word)} is no byte of two hexadecimal digits')
    return int(word, 16)


def after(words):
    column, word = words[-1]
    return column + len(word)


def encode_line(words):
    """The bytes of a line's words, each a pair of its column and its text."""
    (column, name), *given = words
    if name == 'bytes':
        if not given:
            raise BadText(after(words), 'bytes: there are none')
        return bytes(raw_byte(*word) for word in given)
    if name not in RECORDS:
        raise BadText(column, f'{shown(name)} is no record: product, single, table or bytes')
    kind, fields = RECORDS[name]
    if len(given) < len(fields):
        raise BadText(after(words), f'the {fields[len(given)][0]} is missing')
    if len(given) > len(fields):
        column, word = given[len(fields)]
        raise BadText(column, f'{shown(word)} is one field too many')
    coded = bytes([kind])
    for (what, (low, high, size)), word in zip(fields, given):
        coded += (number(*word, low, high, what) % 256**size).to_bytes(size, 'little')
    return coded


def lines_of(text):
    return text.replace('\r\n', '\n').replace('\r', '\n').split('\n')


def encode(text, name):
    """The bytes of all records of a text."""
    coded, wrong = bytearray(), []
    for count, line in enumerate(lines_of(text), 1):
        words = [(m.start() + 1, m.group()) for m in WORD.finditer(line.split('#', 1)[0])]
        if not words:
            continue
        try:
            coded += encode_line(words)
        except BadText as problem:
            column, message = problem.args
            wrong.append(f'{name}:{count}:{column}: {message}')
    if len(wrong) > SHOWN:
        wrong[SHOWN:] = [f'{name}: {len(wrong) - SHOWN:,} more lines are wrong']
    if wrong:
        raise Failure(*wrong)
    return bytes(coded)


def text_of(given, name):
    """The text that bytes are, without a byte-order mark."""
    given = given.removeprefix(codecs.BOM_UTF8)
    try:
        return given.decode('utf-8')
    except UnicodeDecodeError as problem:
        before = lines_of(given[:problem.start].decode('utf-8'))
        raise Failure(f'{name}:{len(before)}:{len(before[-1]) + 1}: this is no text in UTF-8')


def encode_file(name):
    """The records of a text, and a word where the bench will not take them."""
    coded = encode(text_of(read(name), label(name)), label(name))
    say_length(coded, name)
    return coded


def say_length(coded, name):
    if len(coded) > MAX_INPUT:
        say(f'{TOOL}: {label(name)}: {len(coded):,} bytes of records; the bench refuses more than {MAX_INPUT:,} with {INPUT_TOO_LONG}')


def decode(coded):
    """A line for each record; from the first that the bench cannot read on, the bytes as they are, as it ends its reading there."""
    lines, at = [], 0
    while at < len(coded):
        name = NAMES.get(coded[at])
        fields = RECORDS[name][1] if name else ()
        end = at + 1 + sum(size for _, (_, _, size) in fields)
        if not name or end > len(coded):
            lines.append(f'# refusal {CUT_SHORT}: a {name} has {end - at} bytes, and {len(coded) - at} are left' if name else
                         f'# refusal {UNKNOWN_KIND}: there is no kind {coded[at]}')
            lines.append('bytes ' + coded[at:].hex(' ').upper())
            break
        words, at = [name], at + 1
        for _, (low, _, size) in fields:
            value = int.from_bytes(coded[at:at + size], 'little', signed=low < 0)
            words.append(f'0x{value:08X}' if size == 4 else str(value))
            at += size
        lines.append(' '.join(words))
    return ''.join(line + '\n' for line in lines)


def main(arguments):
    if not arguments or arguments in (['-h'], ['--help']):
        write(__doc__.encode())
        return
    if len(arguments) != 2 or arguments[0] not in ('encode', 'decode'):
        raise Failure('usage: records.py encode TEXT | decode RECORDS   (- is standard input; --help says more)')
    way, name = arguments
    if way == 'encode':
        write(encode_file(name))
    else:
        coded = read(name)
        say_length(coded, name)
        write(decode(coded).encode())


if __name__ == '__main__':
    run(main)
