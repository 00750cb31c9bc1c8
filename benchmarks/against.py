#!/usr/bin/env python3
"""Print, as Markdown, what a scored row takes with this archive and with another one, as that of an earlier commit.

Both are linked into one program and take turns on rows that neither has seen; times are medians, as in benchmarks/run.py, and
instructions are callgrind's, of one call. Both are first compared on the reports and the residues of many rows.

Usage: python3 benchmarks/against.py OTHER [ARCHIVE] [--pairs=N,N,...] [--designs=N] [--shorter]

The default of ARCHIVE is target/libhighvane.a; rows have 1, 8 and 4,096 pairs, or as many as --pairs says. Where the other archive lacks the
last designs, --designs says how many it has; where it is of before version 2.4, and so its report lacks the largest residue and its place,
--shorter says so.
"""
import sys
import tempfile
from pathlib import Path

sys.dont_write_bytecode = True  # nothing is to appear in the repository

from measure import BY_ITSELF, OURS, Code, archive_of, counts, link, output, times  # noqa: E402
from row_tables import DESIGNS, PAIRS, number, table  # noqa: E402

PREFIX = 'other_'
SETTINGS = DESIGNS | {(3, 8): '3, s = 8'}


def compare(program, lengths, designs):
    names = [OURS, PREFIX + OURS]
    keys = [key for key in sorted(SETTINGS) if key[0] <= designs]
    output([program, 'check', designs])
    calls = [(*key, pairs) for key in keys for pairs in lengths]
    lines = {(call, name): f'{name} uniform {" ".join(map(str, (*call, call[-1], call[-1])))}' for call in calls for name in names}
    taken = times(program, calls)
    counted, _ = counts(program, names, list(lines.values()))

    def print_table(title, figure):
        print(f'{title}, by the number of pairs:\n')
        body = []
        for key in keys:
            cells = [SETTINGS[key]]
            for call in ((*key, pairs) for pairs in lengths):
                ours, other = (figure(call, name) for name in names)
                cells += [number(ours), number(other), f'{ours / other:.2f}']
            body.append(cells)
        table(['design', *(cell for pairs in lengths for cell in (f'{pairs:,}', 'other', 'ratio'))], body)

    print_table('Nanoseconds of a call', lambda call, name: taken[(*call, name)])
    print_table('Instructions of a call', lambda call, name: counted[lines[call, name]][0])
    ours, other = (number(sum(size for _, size, _ in Code(program).sizes(name))) for name in names)
    print(f'Code bytes: {ours}, the other {other}.')


def main():
    def numbers(option):
        return [word.removeprefix(option).split(',') for word in sys.argv[1:] if word.startswith(option)]

    chosen, designs = numbers('--pairs='), numbers('--designs=')
    shorter = [word for word in sys.argv[1:] if word == '--shorter']
    archives = [word for word in sys.argv[1:] if not word.startswith('-')]
    known = len(archives) in (1, 2) and len(chosen) <= 1 and [len(each) for each in designs] in ([], [1]) and len(shorter) <= 1
    known = known and len(archives) + len(chosen) + len(designs) + len(shorter) == len(sys.argv) - 1
    if not known or not all(word.isdecimal() for words in chosen + designs for word in words):
        sys.exit(__doc__)
    other, archive = archive_of(archives[0]), archive_of(*archives[1:])
    with tempfile.TemporaryDirectory() as name:
        folder = Path(name)
        output(['objcopy', f'--prefix-symbols={PREFIX}', other, folder / 'other.a'])
        link('rows.c', [OURS, PREFIX + OURS], [archive, folder / 'other.a'], folder / 'rows', *(['-DSHORTER'] if shorter else []))
        lengths = [int(length) for length in chosen[0]] if chosen else [1, 8, PAIRS]
        compare(folder / 'rows', lengths, int(designs[0][0]) if designs else max(BY_ITSELF))


main()
