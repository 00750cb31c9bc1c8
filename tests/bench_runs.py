#!/usr/bin/env python3
"""Run the bench program on inputs of every kind and compare what it prints, byte for byte.

    python3 tests/bench_runs.py PROGRAM

What it should print comes from the reference program (tools/reference_meaning), which was written from the scope alone and
shares nothing with the library. Prints the number of runs; the first that differs is shown, and the exit status is then 1.
"""
import pathlib
import random
import subprocess
import sys
import time

ROOT = pathlib.Path(__file__).resolve().parent.parent
sys.path.insert(0, str(ROOT / 'tools'))
sys.dont_write_bytecode = True

import records
from reference_meaning.records import KINDS, MAX_INPUT, transcript


def run(program, pieces):
    """What the program prints where its input comes in these pieces, with a pause between two."""
    if len(pieces) == 1:
        done = subprocess.run([program], input=pieces[0], stdout=subprocess.PIPE)
        return done.stdout, done.returncode
    process = subprocess.Popen([program], stdin=subprocess.PIPE, stdout=subprocess.PIPE, bufsize=0)
    for piece in pieces:
        process.stdin.write(piece)
        time.sleep(0.02)
    output = process.communicate()[0]
    return output, process.returncode


# one whole record of each kind
PRODUCT = bytes.fromhex('01 01 00 03 00 03 00')
SINGLE = bytes.fromhex('02 00 00 C0 3F 00 00 C0 3F')
TABLE = bytes.fromhex('03 FF FF')
WHOLE = PRODUCT + SINGLE + TABLE

# A record for each refusal of each operation, and the ends of what is accepted. Refusals 2 and 4 of the product cannot come from a
# record: its width is 16, and a field of 16 bits holds no other number.
EACH_REFUSAL = '''
product 0 0 3 3                 # 1
product 6 0 3 3                 # 1
product 255 255 3 3             # 1, before 3
product 1 1 3 3                 # 3
product 2 255 3 3               # 3
product 3 0 3 3                 # 3
product 3 16 -32768 32767
product 3 17 3 3                # 3
product 4 0 3 3                 # 3
product 4 15 -32768 -32768
product 4 16 3 3                # 3
product 5 0 3 3                 # 3
product 5 15 -32768 32767
product 5 16 3 3                # 3
product 1 0 -32768 32767
product 2 0 -1 0
single 0x7F800000 0x00000001    # 8, before 9
single 0x00000000 0xFFC00000    # 8
single 0x00000001 0x00000000    # 9, before the zero
single 0x3F800000 0x807FFFFF    # 9
single 0x80000000 0x3F800000    # -0
single 0x80000000 0x80000000    # +0
single 0x7F000000 0x40000000    # 10
single 0x00800000 0x3F000000    # 11
single 0x00C00000 0x3F400000    # the smallest normal number, by the carry
single 0xBFC00000 0x3FC00000
table 0 255
table 1 1
'''


def random_input(rng, length):
    """Records that mostly are whole and mostly are accepted."""
    data = bytearray()
    while len(data) < length:
        kind = rng.choice((1, 1, 2, 2, 3))
        body = bytearray(rng.randbytes(KINDS[kind].length))
        if kind == 1:
            kept = rng.randint(0, 16)
            body[0], body[1] = rng.choice(((1, 0), (2, 0), (3, rng.randint(0, 17)), (4, kept), (5, kept), (rng.randint(0, 7), 0)))
        data += bytes([kind]) + body
    return bytes(data[:length])


def inputs():
    yield 'the sample', [(ROOT / 'crates/bench/stdin').read_bytes()]
    yield 'the example', [records.encode((ROOT / 'examples/sample.txt').read_text(), 'sample')]
    yield 'empty input', [b'']
    yield 'each refusal', [records.encode(EACH_REFUSAL, 'refusals')]
    for kind, record in ((1, PRODUCT), (2, SINGLE), (3, TABLE)):
        for length in range(1, len(record)):
            yield f'kind {kind} cut to {length} bytes', [record[:length]]
            yield f'kind {kind} cut to {length} bytes, last', [WHOLE + record[:length]]
    for kind in range(256):
        if kind not in KINDS:
            yield f'kind {kind} first', [bytes([kind]) + WHOLE]
    for kind in (0, 4, 255):
        yield f'kind {kind} alone', [bytes([kind])]
        yield f'kind {kind} last', [WHOLE + bytes([kind])]
    # 21,845 records of three bytes, each with the most digits that a byte's product has, then one byte: the longest output
    longest = TABLE * (MAX_INPUT // 3)
    yield 'the longest output', [longest + bytes([255])]
    yield 'the longest output, cut', [longest + TABLE[:1]]
    yield '65,535 bytes', [longest]
    yield '65,537 bytes', [longest + TABLE[:2]]
    yield '65,538 bytes', [longest + TABLE]
    yield '200,000 bytes', [bytes(200000)]
    yield '65,536 bytes of kind 0', [bytes(MAX_INPUT)]
    pairs = b''.join(bytes([3, a, b]) for a in range(256) for b in range(256))
    for start in range(0, len(pairs), len(longest)):
        yield f'all pairs of the table, from byte {start}', [pairs[start:start + len(longest)]]
    rng = random.Random(20261115)
    for length in [rng.randint(1, 400) for _ in range(60)] + [MAX_INPUT - 1, MAX_INPUT, MAX_INPUT + 1]:
        yield f'{length} random bytes', [random_input(rng, length)]
    yield 'one byte at a time', [WHOLE[i:i + 1] for i in range(len(WHOLE))]
    data = random_input(rng, MAX_INPUT)
    yield '65,536 bytes in pieces', [data[:1], data[1:5000], data[5000:65535], data[65535:]]
    yield '65,537 bytes in pieces', [data[:40000], data[40000:], b'\x01']


def main():
    program, runs, longest = sys.argv[1], 0, 0
    for what, pieces in inputs():
        output, status = run(program, pieces)
        wanted = transcript(b''.join(pieces)).encode()
        if output != wanted or status != 0:
            print(f'{what}: exit status {status}, {len(output)} bytes printed, {len(wanted)} expected')
            for count, (given, line) in enumerate(zip(output.split(b'\n'), wanted.split(b'\n')), 1):
                if given != line:
                    print(f'line {count}: {given!r} printed, {line!r} expected')
                    break
            return 1
        runs += 1
        longest = max(longest, len(output))
    print(f'bench: {runs} runs, 0 wrong; the longest output has {longest} bytes')
    return 0


if __name__ == '__main__':
    sys.exit(main())
