#!/usr/bin/env python3
"""What README.md shows is so. One line for each place that is wrong, and status 1; otherwise silence and 0.

- The version of the kit is what `rt version` prints. Another one is said and not wrong: whether it serves, the proofs tell.
- The worked row is what the reference program gives.
- The mean errors are what tools/mean_errors.py prints, and times, counts and bytes are those of docs/PERFORMANCE.md.
- The layout names every crate, every folder, and every file of bindings/, docs/, tests/ and tools/.
"""
import re
import subprocess
import sys

# nothing is to appear beside the tests and tools
sys.dont_write_bytecode = True

from pages import README, ROOT, finish, number_in, report, table_rows, text

sys.path.insert(0, str(ROOT / 'tools'))

from reference_meaning.designs import MITCHELL
from reference_meaning.rows import row_report

PERFORMANCE, MEAN_ERRORS = 'docs/PERFORMANCE.md', 'tools/mean_errors.py'
# tables of docs/PERFORMANCE.md, each by a column that it alone has; of two such tables the first counts
TIMES, COUNTS, BYTES = 'best C, native', 'ours / masked', 'ours / this'
# columns of README.md, and where their figures stand
MEASURED = {
    'ns a pair': (TIMES, 'ours'),
    'ns a pair, ours': (TIMES, 'ours'),
    'ns a pair, C': (TIMES, 'best C'),
    'time, ours / C': (TIMES, 'ours / best C'),
    'instructions a pair': (COUNTS, 'ours'),
    'instructions a pair, ours': (COUNTS, 'ours'),
    'instructions a pair, C': (COUNTS, 'each, masked'),
}
# of these folders the layout names what they hold, and of others the folder
SPREAD = ('bindings', 'docs', 'tests', 'tools')


def expect(place, what, shown, given):
    given = str(given).replace('-', '−')
    if shown != given:
        report(place, f'{what} is {given}, and {shown} is shown')


def check_kit():
    try:
        kit = subprocess.run(['rt', 'version'], stdout=subprocess.PIPE, text=True).stdout.strip()
    except OSError as problem:
        report('rt version', f'cannot be run: {problem.strerror}')
        return
    shown = re.findall(r'`(rattle-kit[^`]*)`', text(README))
    if len(shown) != 1:
        report(README, f'names {len(shown)} versions of the kit')
    elif shown != [kit]:
        print(f'note: README.md names the kit {shown[0]}, and rt version prints {kit}')


def check_worked_row():
    pairs = []
    for place, row in table_rows(README):
        if 'pair' in row:
            pairs.append(tuple(map(number_in, row['pair'].split(', '))))
            alone = row_report(MITCHELL, 0, pairs[-1:])
            for head, given in (('true product', alone.true_sum), ('by design 1', alone.score), ('residue', alone.error)):
                expect(place, head, row[head], given)
    whole = row_report(MITCHELL, 0, pairs)
    fields = {'score': whole.score, 'true sum': whole.true_sum, 'error': whole.error, 'T': whole.t, 'n': whole.n,
              'largest residue': whole.largest, 'its place': whole.place}
    for place, row in table_rows(README):
        if 'field' in row:
            name = row['field'].strip('*')
            expect(place, name, row['here'], fields.pop(name, 'no field'))
    for name in fields:
        report(README, f'the report of the worked row has no {name}')


def check_mean_errors():
    printed = subprocess.run([sys.executable, ROOT / MEAN_ERRORS], check=True, stdout=subprocess.PIPE, text=True).stdout
    means = {row['design']: row for _, row in table_rows(MEAN_ERRORS, printed)}
    for place, row in table_rows(README):
        if 'mean error' in row:
            for head, given in means.pop(row['design'], {'mean error': 'not measured'}).items():
                expect(place, head, row[head], given)
    for design in means:
        report(README, f'shows no mean errors of design {design}')


def check_measured():
    tables = {}
    for _, row in table_rows(PERFORMANCE):
        for mark in (TIMES, COUNTS, BYTES):
            if mark in row:
                tables.setdefault((mark, row.get('design', row.get('row'))), row)
    for place, row in table_rows(README):
        for head in row.keys() & MEASURED:
            mark, column = MEASURED[head]
            expect(place, f'{head}, by {PERFORMANCE},', row[head], tables.get((mark, row['design']), {}).get(column, 'not measured'))
    for shown in re.findall(r'code has (\S+) bytes', text(README)):
        expect(README, f'the size of the code, by {PERFORMANCE},', shown, tables.get((BYTES, 'ours'), {}).get('bytes', 'not measured'))


def check_layout():
    layout = text(README).partition('\n## Layout\n')[2].partition('\n## ')[0]
    named = {name.rstrip('/') for name in re.findall(r'`([^`]+)`', layout)}
    held = subprocess.run(['git', '-c', 'safe.directory=*', 'ls-files'], cwd=ROOT, check=True, stdout=subprocess.PIPE, text=True).stdout
    entries = set()
    for folder, *rest in (path.split('/') for path in held.splitlines()):
        if rest and not folder.startswith('.'):
            entries.add(rest[0] if folder == 'crates' else f'{folder}/{rest[0]}' if folder in SPREAD else folder)
    for entry in sorted(entries - named):
        report(README, f'the layout does not name {entry}')


check_kit()
check_worked_row()
check_mean_errors()
check_measured()
check_layout()
finish()
