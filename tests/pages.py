"""What tests/documents.py, tests/readme.py and tests/scope.py share: the documents, their tables, and what is found wrong in them."""
import functools
import pathlib
import re
import sys

ROOT = pathlib.Path(__file__).resolve().parent.parent
README, SCOPE, TRACE = 'README.md', 'docs/SCOPE.md', 'docs/TRACE.md'

wrong = []


def report(place, what):
    wrong.append(f'{place}: {what}')


def finish():
    """One line for each place that is wrong, and status 1; otherwise silence and 0."""
    for line in dict.fromkeys(wrong):
        print(line, file=sys.stderr)
    sys.exit(1 if wrong else 0)


@functools.cache
def text(path):
    file = ROOT / path
    return file.read_text() if file.is_file() else ''


def number_in(cell):
    """Documents write a minus as it is printed."""
    return int(cell.replace('−', '-'))


def table_rows(document, source=None):
    """The rows of the tables of a document, or of a text under its name: the place, and the cells by the head of their column."""
    head = []
    for number, line in enumerate((text(document) if source is None else source).splitlines(), 1):
        if not line.startswith('|'):
            head = []
            continue
        cells = [cell.strip() for cell in re.split(r'(?<!\\)\|', line)[1:-1]]
        if not head:
            head = cells
        elif not re.fullmatch(r'[|:\- ]+', line):
            if len(cells) != len(head):
                report(f'{document}:{number}', f'{len(cells)} cells under {len(head)} heads')
            yield f'{document}:{number}', dict(zip(head, cells))
