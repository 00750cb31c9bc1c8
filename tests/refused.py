#!/usr/bin/env python3
"""Each wrong program of the must-fail edits is refused at its own place, and because a fact fails there.

    python3 tests/refused.py LOG        after `rt ci`, whose output LOG holds

`rt ci` sees that an edit file is refused as a whole, and says for what first. Where that stands at the place of the one wrong program of the
file, it is enough. The others are checked once more, and this reads all that the checker says: for every wrong program an error stands in the
proof of its function, or in its file of definitions or laws, that does not only follow from another one, is not about the proof's form, as a
name or a path that the changed code no longer has, and is no limit at which a search gave up. A function that the same log calls proved must not
count as refused. One line for each that is wrong, and status 1; at the end how many were read.
"""
import pathlib
import re
import sys

# nothing is to appear beside the tests
sys.dont_write_bytecode = True

ROOT = pathlib.Path(__file__).resolve().parent.parent
sys.path.insert(0, str(ROOT / 'tools'))

from edits import HEAD, errors_at, sections, try_all, what_is_wrong, wrong_programs  # noqa: E402

REFUSED = re.compile(r'^rt: must-fail (\w+)/(\w+)\.edit: refused, as it must be(?: (\(only .*?\)))?: (.*)$', re.M)


def first_said(crate, place, said):
    """Whether the first thing that `rt ci` said of an edit is a fact that fails at the place of its one wrong program."""
    return not what_is_wrong(crate, place, said)


if len(sys.argv) != 2:
    sys.exit(__doc__)
said = {(crate, label): (only, text) for crate, label, only, text in REFUSED.findall(pathlib.Path(sys.argv[1]).read_text())}
wrong, read, again = [], set(), []
for path in sorted(ROOT.glob('crates/*/must-fail/*.edit')):
    crate, text, file = path.parent.parent.name, path.read_text(), path.relative_to(ROOT)
    found = sections(text)
    if not found or HEAD.split(text)[0].strip() or any(not re.search('^old: ', lines, re.M) for _, lines in found.values()):
        wrong.append(f'{file}: each replacement stands below a line "# NAME: PLACE", and each such line has one')
    if len(HEAD.findall(text)) != len({place for place, _ in found.values()}):
        wrong.append(f'{file}: two wrong programs of one name or at one place, so that one may hide the other')
    only, first = said.get((crate, path.stem), ('', ''))
    if not first:
        wrong.append(f'{file}: rt ci does not say that it was refused')
    elif only:
        wrong.append(f'{file}: refused {only}')
    if len(found) != 1 or not first_said(crate, next(iter(found.values()))[0], first):
        again.append((crate, path, text))
for crate, path, name, place in wrong_programs():
    if (crate, name) in read:
        wrong.append(f'{path.relative_to(ROOT)}: {crate} has two wrong programs {name}')
    read.add((crate, name))
for (crate, path, text), log in zip(again, try_all([(crate, text) for crate, _, text in again])):
    for name, (place, _) in sections(text).items():
        what = what_is_wrong(crate, place, log)
        if what:
            wrong.append(f'{path.relative_to(ROOT)}: {name} {what}')
    for proved in re.findall(rf'^fn {crate}::(\S+): proved$', log, re.M):
        if errors_at(crate, proved, log):
            wrong.append(f'{path.relative_to(ROOT)}: {proved} is proved, and counts as refused')
for line in wrong:
    print(line, file=sys.stderr)
print(f'{len(read)} wrong programs and definitions, {len(wrong)} not refused as they must be; {len(again)} edit files were checked once more')
sys.exit(1 if wrong else 0)
