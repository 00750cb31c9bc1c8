"""The wrong programs and wrong definitions that the checker must refuse: crates/CRATE/must-fail/*.edit.

    python3 tools/edits.py CRATE NAME...        tries these alone, and prints what the checker says at the place of each

An edit file holds one of them, or several wrong programs that are tried in one check, each in a function of its own: a function is proved
from its own code and the contracts of what it calls. Before the replacements of each stands the line

    # NAME: PLACE

PLACE is the function whose proof must fail, as MODULE::FUNCTION, or the file of definitions or laws in which a fact must fail, as
specs/Figures. tests/refused.py reads what the checker says of all of them.
"""
import concurrent.futures
import os
import pathlib
import queue
import re
import shutil
import subprocess
import sys
import tempfile

ROOT = pathlib.Path(__file__).resolve().parent.parent
HEAD = re.compile(r'^# (\w+): (\S+)$', re.M)
# an error that only follows from another one, and one about the form of a proof, which shows nothing of the contract
FOLLOWS = re.compile(r'(?:was|were) not (?:admitted|checked)|was rejected')
OF_FORM = re.compile(r'has no (?:field )?`|not in scope|room for only|can be named from here|no occurrence of the path|no part of the goal')
# a search that gave up, which shows nothing false
AT_LIMIT = re.compile(r'the goal may hold|at one of its limits|its own limit')


def sections(text):
    """The wrong programs of an edit file, by name: the place, and the lines that make it."""
    parts = HEAD.split(text)
    return {name: (place, lines.strip()) for name, place, lines in zip(parts[1::3], parts[2::3], parts[3::3])}


def wrong_programs():
    """All of the repository: the crate, the edit file, the name and the place of each."""
    for path in sorted(ROOT.glob('crates/*/must-fail/*.edit')):
        for name, (place, _) in sections(path.read_text()).items():
            yield path.parent.parent.name, path, name, place


def errors_at(crate, place, log):
    """The errors of a log that stand at a place, in its order, without those that follow from others."""
    if '/' in place:
        file, searched = re.escape(place), []
    else:
        *modules, name = place.split('::')
        # functions that call one another have one folder, under the names of all
        file = '/'.join(['proofs', *modules, rf'\+?(?:\w+\+)*{name}(?:\+\w+)*', r'\w+'])
        # what the checker looked for itself, and did not find
        searched = re.findall(rf'^fn {crate}::{place}: no proof: .*?(`search` did not prove .*)$', log, re.M)
    errors = re.findall(rf'^(?:\S*/)?{file}\.antt:\d+:\d+: error: (.*)$', log, re.M) + searched
    return [error for error in errors if not FOLLOWS.search(error)]


def what_is_wrong(crate, place, log):
    """Nothing, where the check of an edit was refused at this place by a fact; otherwise what it was. Errors stand in the order of a proof's lines,
    so that a name that the changed code no longer has may come before the fact that fails."""
    errors = errors_at(crate, place, log)
    if not errors:
        return f'is not refused in {place}'
    facts = [error for error in errors if not OF_FORM.search(error) and not AT_LIMIT.search(error)]
    return '' if facts else f'is refused in {place} by the form of the proof or a limit: {errors[0][:200]}'


def edited(crate, text):
    """The files of a crate that an edit changes, each with its new text."""
    file, old, texts = None, None, {}
    for line in text.splitlines():
        if line.startswith('file: '):
            file = f'crates/{crate}/{line[6:].strip()}'
            texts.setdefault(file, (ROOT / file).read_text())
        elif line.startswith('old: '):
            old = line[5:]
        elif line.startswith('new:'):
            if texts[file].count(old) != 1:
                raise ValueError(f'{file} has this text {texts[file].count(old)} times, and not once: {old}')
            texts[file] = texts[file].replace(old, line[4:].removeprefix(' '))
    return texts


def copy_to(folder):
    """A copy of the crates as they stand, without what was made of them."""
    shutil.copy(ROOT / 'crates.txt', folder)
    shutil.copytree(ROOT / 'crates', folder / 'crates', ignore=shutil.ignore_patterns('out', 'must-fail'))
    return folder


def checked(copy, crate, text):
    """What the checker says of a copy with an edit, which is taken back then."""
    try:
        texts = edited(crate, text)
    except (OSError, ValueError) as problem:
        return f'cannot be applied: {problem}'
    for file, new in texts.items():
        (copy / file).write_text(new)
    try:
        done = subprocess.run(['rt', 'check'], cwd=copy / f'crates/{crate}', stdin=subprocess.DEVNULL, capture_output=True, text=True)
        return done.stdout + done.stderr
    finally:
        for file in texts:
            shutil.copy(ROOT / file, copy / file)


def try_all(wanted):
    """The log of each of these edits, given as a crate and a text, by as many checks at a time as there are processors."""
    count = min(len(wanted), os.cpu_count() or 1)
    with tempfile.TemporaryDirectory() as name, concurrent.futures.ThreadPoolExecutor(max(count, 1)) as pool:
        copies = queue.SimpleQueue()
        for number in range(count):
            folder = pathlib.Path(name) / str(number)
            folder.mkdir()
            copies.put(copy_to(folder))

        def one(edit):
            copy = copies.get()
            try:
                return checked(copy, *edit)
            finally:
                copies.put(copy)
        return list(pool.map(one, wanted))


def try_alone(crate, names):
    """Tries these wrong programs of a crate, each by itself."""
    found = {name: (path, place) for owner, path, name, place in wrong_programs() if owner == crate}
    for name in names:
        if name not in found:
            sys.exit(f'{crate} has no wrong program {name}')
    logs = try_all([(crate, sections(found[name][0].read_text())[name][1]) for name in names])
    for name, log in zip(names, logs):
        place = found[name][1]
        print(f'{name}, in {place}:')
        print('\n'.join(errors_at(crate, place, log)) or log.strip()[-400:])
        wrong = what_is_wrong(crate, place, log)
        if wrong:
            print(f'{name} {wrong}')


if __name__ == '__main__':
    if len(sys.argv) < 3:
        sys.exit(__doc__)
    try_alone(sys.argv[1], sys.argv[2:])
