#!/usr/bin/env python3
"""Print how far the designs are from the true products of pairs, on average.

    python3 tools/mean_errors.py

The pairs are 100,000 of two signed 16-bit numbers, uniform over all of them and the same in every run; those with a 0, whose product is
exact, are left out. The error of a pair is its residue as a part of its true product. `mean error` is the mean of its size. `mean error
with its sign` is above 0 where products come out too small in size; over a row of products of one sign this part does not cancel.

What a design gives is what the reference program says, which was written apart from the library (tools/reference_meaning). README.md
shows these figures, and the tests compare them.
"""
import math
import random
import sys

# nothing is to appear beside the tools
sys.dont_write_bytecode = True

from reference_meaning.designs import MITCHELL, NEAREST, STAGED, TRUNCATED, TWICE_TRUNCATED, signed_product
from reference_meaning.rows import without_zero
from streams import Failure, run, write

PAIRS = 100_000
SETTINGS = {
    '1': (MITCHELL, 0),
    '2': (NEAREST, 0),
    '3, s = 1': (STAGED, 1),
    '3, s = 2': (STAGED, 2),
    '3, s = 4': (STAGED, 4),
    '4, t = 6': (TRUNCATED, 6),
    '4, t = 15': (TRUNCATED, 15),
    '5, t = 6': (TWICE_TRUNCATED, 6),
    '5, t = 15': (TWICE_TRUNCATED, 15),
}


def uniform_pairs():
    chance = random.Random(1)
    number = lambda: chance.getrandbits(16) - 2**15
    return [pair for pair in ((number(), number()) for _ in range(PAIRS)) if without_zero(pair)]


def mean_percent(errors):
    return f'{100 * math.fsum(errors) / len(errors):.2f} %'


def table():
    pairs = uniform_pairs()
    yield '| design | mean error | mean error with its sign |\n|---|---|---|\n'
    for name, (design, setting) in SETTINGS.items():
        errors = [1 - signed_product(design, setting, *pair) / (pair[0] * pair[1]) for pair in pairs]
        yield f'| {name} | {mean_percent([abs(error) for error in errors])} | {mean_percent(errors)} |\n'


def main(arguments):
    if arguments in (['-h'], ['--help']):
        write(__doc__.encode())
    elif arguments:
        raise Failure('usage: python3 tools/mean_errors.py   (--help says more)')
    else:
        write(''.join(table()).encode())


if __name__ == '__main__':
    run(main)
