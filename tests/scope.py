#!/usr/bin/env python3
"""docs/SCOPE.md is what the repository cites. One line for each place that is wrong, and status 1; otherwise silence and 0.

- Its sections are counted from 1, and the headings of docs/TRACE.md are their names, in the same order.
- Every section that any text cites, by its name in quotation marks, exists, and no text cites the scope by another name.
- Its figures and its sample are those of the reference program.
"""
import os
import re
import sys

# nothing is to appear beside the tests and tools
sys.dont_write_bytecode = True

from pages import ROOT, SCOPE, TRACE, finish, number_in, report, table_rows, text

sys.path.insert(0, str(ROOT / 'tools'))

from reference_meaning import figures
from reference_meaning.products import SIGNED, UNSIGNED, ProductInput


def lines_of_all_texts():
    """The place and the line, of every file of the repository that is a text."""
    for folder, folders, files in os.walk(ROOT):
        folders[:] = sorted(name for name in folders if name != 'target' and not name.startswith('.'))
        for name in sorted(files):
            path = os.path.relpath(os.path.join(folder, name), ROOT)
            try:
                lines = text(path).splitlines()
            except UnicodeDecodeError:
                continue
            for number, line in enumerate(lines, 1):
                yield f'{path}:{number}', line


def check_sections():
    parts = dict(re.findall(r'^##+ (\d+(?:\.\d+)?)\.? (.+)$', text(SCOPE), re.M))
    sections = [number for number in parts if '.' not in number]
    if sections != [str(number) for number in range(1, len(sections) + 1)]:
        report(SCOPE, f'sections are numbered {", ".join(sections)}')
    for number in re.findall(r'\bsection (\d+(?:\.\d+)?)', text(SCOPE)):
        if number not in parts:
            report(SCOPE, f'there is no section {number}')
    return [parts[number] for number in sections]


def check_trace(sections):
    headings = re.findall(r'^## (.+)$', text(TRACE), re.M)
    for name in headings:
        if name not in sections:
            report(TRACE, f'has a heading "{name}" that is no section of {SCOPE}')
    for name in sections:
        if name not in headings:
            report(TRACE, f'has no heading for the section "{name}" of {SCOPE}')
    if sorted(headings) == sorted(sections) and headings != sections:
        report(TRACE, f'has its headings in another order than {SCOPE}')


def check_citations(sections):
    for place, line in lines_of_all_texts():
        for cited in re.findall(r'SCOPE\.md, ("[^"]+"(?: and "[^"]+")*)', line):
            for name in re.findall(r'"([^"]+)"', cited):
                if name not in sections:
                    report(place, f'{SCOPE} has no section "{name}"')
        if re.search(r'\b[Dd]ocument 0\d\b|\bscope document\b', line):
            report(place, f'cites the scope by another name than {SCOPE}')


def check_figures():
    shown = []
    for _, row in table_rows(SCOPE):
        if 'operands' in row:
            width, _, signed = row['width'].partition(', ')
            numbers = map(number_in, (row['design'], width, row['setting'], *row['operands'].split(', ')))
            case = ProductInput(SIGNED if signed else UNSIGNED, *numbers)
            shown.append((case, number_in(row['product']), number_in(row['residue'])))
    if shown != list(figures.PRODUCTS):
        report(SCOPE, 'its table of figures is not that of the reference program')
    row = figures.ROW_REPORT
    sums = f'score {row.score}, true sum {row.true_sum}, error {row.error}, T {row.t}, n {row.n}'
    check_said(f'{pairs_in(figures.ROW_PAIRS)}: {sums}, {worst_in(row)}; residues {listed(row.residues)}.')
    for pairs, largest, place, residues in figures.WORST_PAIRS:
        check_said(f'{pairs_in(pairs)} has the residues {listed(residues)}, and its largest residue is {largest} at place {place}.')
    layer = figures.LAYER
    lent = f'the store {listed(layer.store)} with two columns on the frame {listed(layer.frame)}'
    check_said(f'The layer by design {layer.design} of {lent} has the scores {listed(figures.LAYER_SCORES)}.')


def listed(numbers):
    return ', '.join(map(str, numbers))


def pairs_in(pairs):
    return listed(f'({weight}, {number})' for weight, number in pairs)


def worst_in(row):
    return f'largest residue {row.largest} at place {row.place}'


def check_said(sentence):
    """Of a row or a layer; the scope may break its line anywhere."""
    if sentence.replace('-', '−') not in ' '.join(text(SCOPE).split()):
        report(SCOPE, f'does not say: {sentence}')


def check_sample():
    sample = bytes.fromhex(''.join(re.findall(r'`((?:[0-9A-F]{2} ?)+)`', text(SCOPE))))
    if sample != figures.RECORDS:
        report(SCOPE, f'its sample is {sample.hex()}, and that of the reference program {figures.RECORDS.hex()}')
    if f'```\n{figures.RECORDS_TEXT}```' not in text(SCOPE):
        report(SCOPE, 'its sample prints another text than that of the reference program')


names = check_sections()
check_trace(names)
check_citations(names)
check_figures()
check_sample()
finish()
