#!/usr/bin/env python3
"""Print the tables of docs/PERFORMANCE.md on layers, as Markdown: the whole layer in one call, the same store row by row, and C by hand.

Times are medians over stores and frames that no implementation has seen, in turns in one run. Instructions are callgrind's, which repeat
exactly. Every implementation is first compared with the library on the scores of many layers, so that nothing is measured that does not
do the same work.

Usage: python3 benchmarks/layers.py [ARCHIVE]     (the default is target/libhighvane.a, which tools/archive makes)
"""
import sys

sys.dont_write_bytecode = True  # nothing is to appear in the repository

from measure import ALL_LAYERS, C_LAYERS, LAYER, LAYERS, ROW_BY_ROW, Code, build_layers, built, counts, output, times  # noqa: E402
from row_tables import number, table  # noqa: E402

DESIGNS = {(1, 0): '1', (2, 0): '2', **{(3, s): f'3, s = {s}' for s in (1, 2, 3, 4, 5, 6, 7, 8, 12, 16)}, (4, 6): '4, t = 6', (5, 6): '5, t = 6'}
COLUMNS = {LAYER: 'layer', ROW_BY_ROW: 'row by row', 'c_masked': 'C', 'c_branching': 'C, branch', 'c_patterns': 'C, patterns'}
# rows and columns: the stores that a layer is measured by, ever more rows and ever more columns, and short ones
STORES = [(64, 1024), (7, 4096)]
BY_ROWS = [(rows, 1024) for rows in (16, 32, 64)]
BY_COLUMNS = [(16, columns) for columns in (256, 1024, 4096)]
SHORT = [*((rows, 1024) for rows in (1, 15, 16, 17)), (64, 8), (64, 1)]


def said(shape):
    rows, columns = shape
    return f'{number(rows)} × {number(columns)}'


def of(shape):
    """How many pairs a layer has."""
    rows, columns = shape
    return rows * columns


class Measured:
    """Nanoseconds and instructions of one call, by the design with its setting, the shape and the implementation."""

    def __init__(self, program):
        timed = [(*key, *shape) for shape in dict.fromkeys((*STORES, *SHORT)) for key in DESIGNS]
        shapes = dict.fromkeys((*STORES, *BY_ROWS, *BY_COLUMNS, *SHORT))
        asked = [(name, *key, *shape) for name in LAYERS for key in DESIGNS for shape in shapes]
        self.taken = times(program, timed)
        self.counted, _ = counts(program, LAYERS, [self.line(*call) for call in asked])

    @staticmethod
    def line(name, *call):
        return f'{name} uniform {" ".join(map(str, call))}'

    def time(self, key, shape, name):
        return self.taken[(*key, *shape, name)]

    def count(self, key, shape, name):
        return self.counted[self.line(name, *key, *shape)][0]


def time_table(measured, shape):
    head = ['design', 'layer', 'row by row', 'layer / rows', 'C', 'layer / C', 'C, patterns', 'layer / patterns', 'C, native',
            'patterns, native']
    body = []
    for key, label in DESIGNS.items():
        taken = {name: measured.time(key, shape, name) / of(shape) for name in ALL_LAYERS}
        layer, shifting = taken[LAYER], min(taken['c_masked'], taken['c_branching'])
        body.append([label, f'{layer:.2f}', f'{taken[ROW_BY_ROW]:.2f}', f'{layer / taken[ROW_BY_ROW]:.2f}', f'{shifting:.2f}',
                     f'{layer / shifting:.2f}', f'{taken["c_patterns"]:.2f}', f'{layer / taken["c_patterns"]:.2f}',
                     f'{taken["c_masked_native"]:.2f}', f'{taken["c_patterns_native"]:.2f}'])
    return head, body


def pair_table(measured, shape):
    body = []
    for key, label in DESIGNS.items():
        figures = {name: measured.count(key, shape, name) / of(shape) for name in COLUMNS}
        ratios = (figures[LAYER] / figures[name] for name in (ROW_BY_ROW, 'c_masked', 'c_patterns'))
        body.append([label, *(number(figure) for figure in figures.values()), *(f'{ratio:.2f}' for ratio in ratios)])
    return ['design', *COLUMNS.values(), 'layer / rows', 'layer / C', 'layer / patterns'], body


def growth_table(measured, shapes):
    """Instructions of a whole call, and what each pair more takes from one shape to the next."""
    body = []
    for key, label in DESIGNS.items():
        found = [measured.count(key, shape, LAYER) for shape in shapes]
        more = [(found[i + 1] - found[i]) / (of(shapes[i + 1]) - of(shapes[i])) for i in range(len(shapes) - 1)]
        body.append([label, *map(number, found), *(f'{each:.2f}' for each in more)])
    steps = [f'a pair, {said(shapes[i])} to {said(shapes[i + 1])}' for i in range(len(shapes) - 1)]
    return ['design', *map(said, shapes), *steps], body


def short_table(measured, figure):
    body = []
    for key, label in DESIGNS.items():
        cells = [label]
        for shape in SHORT:
            layer, rows = (figure(key, shape, name) for name in (LAYER, ROW_BY_ROW))
            cells += [f'{layer / of(shape):.2f}', f'{layer / rows:.2f}']
        body.append(cells)
    return ['design', *(cell for shape in SHORT for cell in (said(shape), 'layer / rows'))], body


def code_table(program):
    code, body = Code(program), []
    for name in (LAYER, *C_LAYERS):
        sizes = code.sizes(name)
        body.append([COLUMNS[name], number(sum(size for _, size, _ in sizes)), str(sum(reads for *_, reads in sizes))])
    return ['layer', 'bytes', 'reads of constants'], body


def print_tables(program, agreed):
    measured = Measured(program)
    calls, pairs = (number(int(word)) for word in agreed.split())
    versions = [output([tool, '--version']).splitlines()[0] for tool in ('gcc', 'valgrind')]
    print(f'Measured with {", ".join(versions)}.')
    print(f'All {len(ALL_LAYERS)} implementations of a layer gave the same scores on {calls} calls with {pairs} pairs.\n')
    print('### Scoring a layer: nanoseconds a pair, uniform numbers\n')
    print('`row by row`: each row by `highvane_score_row`; `C`: the faster of the two layers in C that shift and add, at gcc -O3 for')
    print('baseline x86-64; `patterns`: in C by binary32 patterns at gcc -O3; `native`: with -march=native, signs by masks.\n')
    for shape in STORES:
        print(f'{said(shape)}:\n')
        table(*time_table(measured, shape))
    print('### Scoring a layer: instructions a pair, uniform numbers\n')
    print('`C`: signs by masks; `branch`: by a branch.\n')
    for shape in STORES:
        print(f'{said(shape)}:\n')
        table(*pair_table(measured, shape))
    print('### How a layer grows: instructions of a whole call, uniform numbers\n')
    for shapes in (BY_ROWS, BY_COLUMNS):
        table(*growth_table(measured, shapes))
    print('Short layers, nanoseconds a pair:\n')
    table(*short_table(measured, measured.time))
    print('Short layers, instructions a pair:\n')
    table(*short_table(measured, measured.count))
    print('### Scoring a layer: code bytes, with all that is called\n')
    table(*code_table(program))


def main():
    with built(build_layers, __doc__) as folder:
        print_tables(folder / 'layers', output([folder / 'layers', 'check']))


main()
