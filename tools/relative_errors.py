#!/usr/bin/env python3
"""Print how far design 5 is from true products, beside what its paper says, and check that both agree.

    python3 tools/relative_errors.py [WIDTH ...]

The paper is source 003, and its figures those of Table I with two bits kept in the second stage. WIDTH is 8, 16 or 32; without one it is
each of them. At width 8 the pairs are all 65,536 of two unsigned operands, and elsewhere a million, uniform and the same in every run.

The error of a pair is its true product less the design's, as a part of the true product, and 0 where an operand is 0. `mean` is the paper's
rerr_avg, and `mean size` its |rerr|_avg; `largest` and `smallest` are its rerr_max and rerr_min, at width 8 alone, since a million pairs do
not hold the worst. t is what the paper calls n_1. At width 8 it also has t = 8, which is no setting of the design there. Width 8 takes two
seconds, and all of them take a minute or two.

Figures agree where ours, rounded as the paper's are, is the paper's. `difference` is ours, not rounded, less the paper's, in points of a
percent. Those at width 8 have to agree but for one, the mean size with t = 6: the paper has 0.76, and all pairs give 0.7694, from which a
million random ones would hardly be 0.002 away, so that it seems to be a misprint. At the other widths the paper has other pairs than we,
and a difference may be as large as 0.01, a unit of the last decimal that is printed. Otherwise standard error says what differs, and the
exit status is 1.
"""
import math
import random
import sys

# nothing is to appear beside the tools
sys.dont_write_bytecode = True

from reference_meaning.designs import TWICE_TRUNCATED, unsigned_product
from streams import TOOL, Failure, run, write

PAIRS = 1_000_000
# in the order of the paper's figures below
FIGURES = {
    'mean': lambda errors: math.fsum(errors) / len(errors),
    'mean size': lambda errors: math.fsum(map(abs, errors)) / len(errors),
    'largest': max,
    'smallest': min,
}
PAPER = {
    8: {4: '-1.09 1.77 11.1 -6.25', 5: '-0.83 1.11 11.1 -3.33', 6: '-0.58 0.76 11.1 -2.50', 7: '-0.32 0.57 11.1 -2.08'},
    16: {4: '0.10 1.44', 5: '0.11 0.77', 6: '0.11 0.46', 7: '0.12 0.33', 8: '0.12 0.28'},
    32: {4: '0.11 1.44', 5: '0.12 0.77', 6: '0.12 0.46', 7: '0.13 0.33', 8: '0.13 0.28'},
}
MISPRINTED = 8, 6, 'mean size'
# how far a figure of a million pairs may be from the paper's
SAMPLED = 0.01


def pairs_of(width):
    if width == 8:
        return ((a, b) for a in range(2**width) for b in range(2**width))
    chance = random.Random(1)
    return ((chance.getrandbits(width), chance.getrandbits(width)) for _ in range(PAIRS))


def percent_errors(width, t):
    for a, b in pairs_of(width):
        true = a * b
        yield 100 * (true - unsigned_product(TWICE_TRUNCATED, t, a, b)) / true if true else 0


def compared(widths):
    """Of each figure its width, setting and name, ours, the paper's, and whether both agree."""
    for width in widths:
        for t, printed in PAPER[width].items():
            errors = list(percent_errors(width, t))
            for name, paper in zip(FIGURES, printed.split()):
                ours = FIGURES[name](errors)
                decimals = len(paper.partition('.')[2])
                yield (width, t, name), ours, paper, f'{ours:.{decimals}f}' == paper


def accepted(key, ours, paper, agree):
    if key[0] == 8:
        return agree != (key == MISPRINTED)
    return abs(ours - float(paper)) <= SAMPLED


def table(rows):
    yield '| width | t | figure | ours | paper | agree | difference |\n|---|---|---|---|---|---|---|\n'
    for (width, t, name), ours, paper, agree in rows:
        said = 'yes' if agree else 'no'
        yield f'| {width} | {t} | {name} | {ours:.2f} % | {paper} % | {said} | {ours - float(paper):+.4f} |\n'


def main(arguments):
    if arguments in (['-h'], ['--help']):
        write(__doc__.encode())
        return
    if not {*arguments} <= {*map(str, PAPER)}:
        raise Failure('usage: python3 tools/relative_errors.py [8] [16] [32]   (--help says more)')
    rows = list(compared(map(int, arguments or PAPER)))
    write(''.join(table(rows)).encode())
    wrong = [row for row in rows if not accepted(*row)]
    if wrong:
        raise Failure(*(f'{TOOL}: width {width}, t = {t}, {name}: {ours:.4f} % is not what is expected beside {paper} %'
                        for (width, t, name), ours, paper, _ in wrong))


if __name__ == '__main__':
    run(main)
