#!/usr/bin/env python3
"""Print the tables of docs/PERFORMANCE.md that are measured on the compiled archive, as Markdown, but for those of layers (layers.py).

Times of rows are medians over rows that no implementation has seen, in turns in one run. Instructions are callgrind's, which repeat
exactly. Every implementation is first compared with the library on the reports and the residues of many rows, so that nothing is
measured that does not do the same work.

Usage: python3 benchmarks/run.py [ARCHIVE]     (the default is target/libhighvane.a, which tools/archive makes)
"""
import sys

sys.dont_write_bytecode = True  # nothing is to appear in the repository

from measure import ALL_ROWS, BY_ITSELF, ROWS, build, built, counts, output  # noqa: E402
from row_tables import (DESIGNS, Rows, code_table, design_code_table, growth_tables, number, own_code_table,  # noqa: E402
                        own_table, pair_tables, refusal_table, stage_table, table, time_tables, wrong_table)

OPERATIONS = {'unsigned': 'product_unsigned', 'signed': 'product_signed', 'single': 'single_product', 'table': 'table_product',
              'scale': 'scale', 'row_refusal': 'row_refusal', 'transcript': 'transcript'}


def titled(tables):
    for title, head, body in tables:
        print(f'{title}:\n')
        table(head, body)


def operation_tables(program):
    settings = {1: 0, 2: 0, 3: 2, 4: 6, 5: 6}
    widths = 8, 12, 16, 32
    products = [(sign, design, width) for sign in ('unsigned', 'signed') for design in settings for width in widths]
    others = {'single normal': 'single_product, accepted', 'single zero': 'single_product, a zero operand',
              'single infinite': 'single_product, refused (8)', 'table': 'table_product, all 65,536 pairs',
              'scale accepted': 'scale, shifts 0 to 40', 'scale refused': 'scale, refused (15)',
              'row_refusal accepted': 'row_refusal, accepted', 'row_refusal refused': 'row_refusal, refused (12)'}
    kinds = {'transcript 1': ('kind 1, products', 7), 'transcript 2': ('kind 2, singles', 9),
             'transcript 3': ('kind 3, table', 3)}
    lines = [f'{sign} {design} {width} {settings[design]}' for sign, design, width in products]
    lines += [*others, *kinds, 'transcript long']
    found, each = {}, {}
    # one run for each operation, since callgrind would stop counting where one operation called another
    for word, operation in OPERATIONS.items():
        part, printed = counts(program, [f'highvane_{operation}'], [line for line in lines if line.split()[0] == word])
        for line in printed.splitlines():
            name, units = line.split('\t')
            found[name] = part[name][0]
            each[name] = found[name] / int(units)
    body = []
    for sign in ('unsigned', 'signed'):
        for design, setting in settings.items():
            figures = (number(each[f'{sign} {design} {width} {setting}']) for width in widths)
            body.append([f'product_{sign}, design {DESIGNS[design, setting]}', *figures])
    product_table = ['operation', *(f'width {width}' for width in widths)], body
    other_table = ['operation', 'instructions a call'], [[title, number(each[line])] for line, title in others.items()]
    long = number(found['transcript long'])
    transcript_table = ['transcript', 'a byte', 'a record'], [
        *([title, number(each[line]), number(each[line] * size)] for line, (title, size) in kinds.items()),
        ['refused (19), the whole call', '', long]]
    return product_table, other_table, transcript_table


def print_tables(rows, folder, agreed):
    versions = [output([tool, '--version']).splitlines()[0] for tool in ('gcc', 'rustc', 'valgrind')]
    calls, pairs, zeros = (number(int(word)) for word in agreed.split())
    print(f'Measured with {", ".join(versions)}.')
    print(f'All {len(ALL_ROWS)} implementations of a row gave the same reports and residues on {calls} calls with {pairs} pairs.\n')
    long, short = time_tables(folder / 'rows')
    print('### Scoring a row: nanoseconds a pair, rows of 4,096 uniform pairs, and nanoseconds a call for short rows\n')
    print('`best C`: the fastest of the C rows that shift and add, at gcc -O3 and -Os for baseline x86-64; `native`: at gcc -O3 with')
    print('-march=native; `patterns`: designs 1 and 5 by binary32 patterns in C at gcc -O3; `branch`: the fastest C with a branch on')
    print('signs.\n')
    table(*long)
    table(*short)
    print('### Scoring a row: instructions a pair, rows of 4,096\n')
    print('`each`: gcc -O3, a loop for each design; `one`: one loop for all; `masked`: signs by masks and not by a branch;')
    print('`Os`: gcc -Os; `Rust`: rustc -O. `ours / masked` is to the fewest at gcc -O3 without a branch on signs, and')
    print(f'`ours / fewest` to the fewest of all four at gcc -O3. Of the 4,096 pairs of small numbers {zeros} hold a 0.\n')
    titled(pair_tables(rows))
    print('Branches predicted wrongly, a pair, by the processor that callgrind simulates, on the uniform numbers:\n')
    table(*wrong_table(rows))
    print('### Scoring a row: code bytes, with all that is called\n')
    table(*code_table(folder / 'rows'))
    print('A program that calls one of these alone, and is linked with --gc-sections, holds of the rows no more than its bytes:\n')
    table(*own_code_table(folder / 'rows'))
    print('The bytes of `ours` that rows of a design run, one of 4,095 pairs and one of three:\n')
    table(*design_code_table(folder / 'rows'))
    print('### How a row grows: instructions of a whole call\n')
    titled(growth_tables(rows))
    print('The row of a design by itself on the same pair throughout, and what a pair takes by way of `highvane_score_row`:\n')
    table(*own_table(rows))
    print('A refused row, by its length:\n')
    table(*refusal_table(rows))
    print('Stages: instructions a pair, and how many more than with one stage less. The most stages that a pair can need are')
    print('fifteen: 32,767 has fifteen ones.\n')
    table(*stage_table(rows))
    print('### Stack bytes of an operation, the return address and all that it calls included\n')
    lines = [line.split('\t') for line in output([folder / 'stack']).splitlines()]
    table(['operation', 'bytes'], [[operation, number(int(depth))] for operation, depth in lines])
    print('### The other operations: instructions a call\n')
    for head, body in operation_tables(folder / 'operations'):
        table(head, body)


def main():
    with built(build, __doc__) as folder:
        agreed = output([folder / 'rows', 'check'])
        rows = Rows()
        for ask in (pair_tables, wrong_table, growth_tables, own_table, refusal_table, stage_table):
            ask(rows)
        rows.found, _ = counts(folder / 'rows', [*ROWS, *BY_ITSELF.values()], list(dict.fromkeys(rows.asked)))
        print_tables(rows, folder, agreed)


main()
