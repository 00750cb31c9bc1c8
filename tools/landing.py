#!/usr/bin/env python3
"""Print, in Markdown, what a landing moved between two commits: definitions, contracts, proof files and must-fail edits that were added,
changed, removed or renamed, how many stayed, and the lines of each crate before and after.

    python3 tools/landing.py OLD NEW [--time]

A file that git finds renamed is the same file, and what differs in a text only by the new name of a crate has stayed. Of definitions and
contracts, comments and layout do not count. With --time, `rt all verdict` is run on a clone of each commit, one after the other, and the
seconds are printed; the clones are removed afterwards. It proves every crate from nothing, where `rt all check` would begin with what other
checks on this machine kept. A commit that was written for another kit cannot be timed.
"""
import collections
import re
import subprocess
import sys
import tempfile
import time

# nothing is to appear beside the tools
sys.dont_write_bytecode = True

from edits import sections  # noqa: E402

# the files of a crate
PARTS = {'source': r'src/.*\.rt', 'definitions': r'specs/.*\.antt', 'proofs': r'proofs/.*\.antt', 'edits': r'must-fail/.*\.edit'}
# what is compared, and in which of them it stands
KINDS = {'definitions': 'definitions', 'contracts': 'source', 'proofs': 'proofs', 'edits': 'edits'}

DEFINITION = re.compile(r'(?:(?:unfoldable|abbrev) )?(?:pub )?(?:(?:record|data) (\S+)|(\S+) :(?= |$))')
FUNCTION = re.compile(r'^( *)(?:pub(?:\(\w+\))? )?(?:extern "C" )?fn (\w+)|^impl (\w+)', re.M)
CLAUSE = re.compile(r'\b(?:requires|ensures)\b[^{}]*$')


def git(*words):
    return subprocess.run(['git', *words], check=True, capture_output=True, text=True).stdout


def part_of(path):
    inner = path.split('/', 1)[-1]
    return next((part for part, pattern in PARTS.items() if re.fullmatch(pattern, inner)), None)


def crate_of(path):
    return path.split('/')[0]


def files_of(commit):
    """The files of the crates, by their paths below crates/."""
    paths = (path[len('crates/'):] for path in git('ls-tree', '-r', '--name-only', '-z', commit, 'crates/').split('\0'))
    return {path: git('show', f'{commit}:crates/{path}') for path in paths if part_of(path)}


def renames(old, new):
    """The new path of each file that git finds renamed, but for edits, which are compared by name."""
    words = git('diff', '--name-status', '-z', '--find-renames', '--break-rewrites', old, new, '--', 'crates/').split('\0')
    found = {}
    while len(words) > 1:
        status, path = words.pop(0), words.pop(0)
        now = words.pop(0) if status.startswith('R') else ''
        if now and part_of(now[len('crates/'):]) != 'edits':
            found[path[len('crates/'):]] = now[len('crates/'):]
    return found


def crate_names(paths, moved):
    """The crate in which most files of each old crate now are."""
    places = collections.defaultdict(collections.Counter)
    for path in paths:
        places[crate_of(path)][crate_of(moved.get(path, path))] += 1
    return {name: now.most_common(1)[0][0] for name, now in places.items()}


def plain(text, comment):
    """The text without comments and layout."""
    return ' '.join(re.sub(rf'(^|\s){comment}.*', r'\1', text, flags=re.M).split())


def definitions(lines, header=''):
    """Each name that stands at the start of a line, with its text; a nameless module has its own lines, two places in."""
    found, name, module = {}, None, []
    for line in [*(line for line in lines if not line.lstrip().startswith('--')), 'use']:
        if module and line[:1] not in ('', ' '):
            found.update(definitions([inner[2:] for inner in module[1:]], header + module[0] + '\n'))
            module = []
        match = DEFINITION.match(line)
        if module or line.startswith('module '):
            module.append(line)
            name = None
        elif match:
            name = match.group(1) or match.group(2)
            found[name] = header + line
        elif re.match(r'use\b|pub mod\b', line):
            name = None
        elif name:
            found[name] += '\n' + line
    return {name: plain(text, '--') for name, text in found.items()}


def body_at(text, at):
    """Where the body of a function begins: at its first brace that is not of a clause."""
    depth, clause = 0, at
    while at < len(text):
        if text[at] == '{' and depth == 0 and not CLAUSE.search(text, clause, at):
            return at
        depth += (text[at] in '([{') - (text[at] in ')]}')
        at += 1
        if depth == 0 and text[at - 1] == '}':
            clause = at
    return at


def contracts(text):
    """The signature of each function, with what it requires and ensures."""
    found, owner = {}, ''
    for match in FUNCTION.finditer(text):
        indent, name, implemented = match.groups()
        if implemented:
            owner = implemented + '::'
        else:
            found[(owner if indent else '') + name] = plain(text[match.start():body_at(text, match.end())], '//')
    return found


def pieces(files, kind):
    """What is compared, by its path and, where a file has several, its name."""
    found = {}
    for path, text in files.items():
        # Lib.antt only names the other files of its folder
        if part_of(path) != KINDS[kind] or path.endswith('/Lib.antt'):
            continue
        if kind == 'definitions':
            inner = definitions(text.splitlines())
        elif kind == 'contracts':
            inner = contracts(text)
        elif kind == 'edits':
            # wrong programs that are tried together stand in one file, and each is compared by its own name
            tried = {name: lines for name, (_, lines) in sections(text).items()} or {path.split('/')[-1].removesuffix('.edit'): text.strip()}
            found.update({(f'{crate_of(path)}/must-fail/{name}.edit', ''): lines for name, lines in tried.items()})
            continue
        else:
            inner = {'': text}
        found.update({(path, name): piece for name, piece in inner.items()})
    return found


def shown(path, name=''):
    """A path without what its kind says already."""
    crate, _, rest = path.split('/', 2)
    return f'`{crate}/{rest.rpartition(".")[0]}{" " if name else ""}{name}`'


def nameless(text, name):
    return re.sub(rf'(?<!\w){re.escape(name)}(?!\w)', '·', text) if name else text


def became(piece, text, come):
    """Which piece that has come one that is gone may have become, and a word where its text is another."""
    path, name = piece
    for other, new in come.items():
        if other[1] == name and new == text:
            return other, ''
    for other in come:
        if name and (crate_of(other[0]), other[1]) == (crate_of(path), name):
            return other, ', changed'
    # a signature alone, without a contract, may be like many others
    if not FUNCTION.match(text) or re.search(r'\b(?:requires|ensures)\b', text):
        for other, new in come.items():
            if nameless(new, other[1]) == nameless(text, name):
                return other, ''
    return None, ''


def compared(old, new, was):
    """What became of the pieces, by a word for it, and how many stayed. The old ones have their new paths, which were others before."""
    by = {'changed': [shown(*piece) for piece in new if piece in old and old[piece] != new[piece]], 'renamed': [], 'added': [], 'removed': []}
    come = {piece: text for piece, text in new.items() if piece not in old}
    for piece, text in old.items():
        if piece not in new:
            before = shown(was.get(piece[0], piece[0]), piece[1])
            other, changed = became(piece, text, come)
            if other:
                del come[other]
                by['renamed'].append(f'{before} to {shown(*other)}{changed}')
            else:
                by['removed'].append(before)
    by['added'] = [shown(*piece) for piece in come]
    return by, sum(piece in old and old[piece] == text for piece, text in new.items())


def lines_table(old_files, new_files, names):
    counts = collections.defaultdict(lambda: [0, 0])
    for side, files in enumerate((old_files, new_files)):
        for path, text in files.items():
            crate = crate_of(path) if side else names[crate_of(path)]
            for row in (f'`{crate}`', 'all'):
                counts[row, part_of(path)][side] += text.count('\n')
    yield '| crate | ' + ' | '.join(PARTS) + ' |'
    yield '|---' * (1 + len(PARTS)) + '|'
    # the row of all crates stands last
    for row in sorted({row for row, _ in counts}, key=lambda row: (row == 'all', row)):
        cells = (counts[row, part] for part in PARTS)
        yield f'| {row} | ' + ' | '.join(str(after) if before == after else f'{before} → {after}' for before, after in cells) + ' |'


def seconds(commit):
    """The time of `rt all verdict`, which proves from nothing, on a clone of its own."""
    with tempfile.TemporaryDirectory() as folder:
        git('clone', '--quiet', '--shared', '--no-checkout', git('rev-parse', '--show-toplevel').strip(), folder)
        git('-C', folder, 'checkout', '--quiet', '--detach', commit)
        began = time.monotonic()
        done = subprocess.run(['rt', 'all', 'verdict'], cwd=folder, stdout=subprocess.PIPE, stderr=subprocess.STDOUT, text=True)
        if done.returncode != 0:
            sys.exit(f'rt all verdict fails on {commit}:\n' + '\n'.join(done.stdout.splitlines()[-5:]))
        return time.monotonic() - began


def main():
    words = [word for word in sys.argv[1:] if word != '--time']
    if len(words) != 2:
        sys.exit(__doc__)
    try:
        old, new = (git('rev-parse', '--verify', word + '^{commit}').strip() for word in words)
    except subprocess.CalledProcessError as problem:
        sys.exit(problem.stderr.strip())
    old_files, new_files, moved = files_of(old), files_of(new), renames(old, new)
    names = crate_names(old_files, moved)

    def with_new_names(text):
        return re.sub(r'(?<=Rattle[.·])\w+|\b\w+(?=::)', lambda word: names.get(word.group(), word.group()), text)

    was = {moved.get(path, path): path for path in old_files}
    old_texts = {path: with_new_names(old_files[before]) for path, before in was.items()}
    print(f'From {old[:7]} to {new[:7]}.')
    crates = [f'`{name}` is now `{now}`' for name, now in sorted(names.items()) if now != name]
    old_crates, new_crates = set(names.values()), set(map(crate_of, new_files))
    crates += [f'`{name}` is new' for name in sorted(new_crates - old_crates)] + [f'`{name}` is gone' for name in sorted(old_crates - new_crates)]
    files = [f'{shown(path)} to {shown(now)}' for path, now in sorted(moved.items())
             if path in old_files and now in new_files and now != names[crate_of(path)] + path[len(crate_of(path)):]]
    for title, found in (('Crates', crates), ('Files renamed', files)):
        if found:
            print(f'\n**{title}**: ' + '; '.join(found) + '.')
    for kind in KINDS:
        by, stayed = compared(pieces(old_texts, kind), pieces(new_files, kind), was)
        moves = {word: found for word, found in by.items() if found}
        print(f'\n**{kind.capitalize()}**: ' + ', '.join([f'{stayed} stayed'] + [f'{len(found)} {word}' for word, found in moves.items()]) + '.')
        for word, found in moves.items():
            print(f'- {word}: ' + ', '.join(found))
    print('\n**Lines**, before and after:\n')
    print('\n'.join(lines_table(old_files, new_files, names)))
    if '--time' in sys.argv:
        print(f'\n**Time** of `rt all verdict`, from nothing: {seconds(old):.0f} s before, {seconds(new):.0f} s after.')


if __name__ == '__main__':
    main()
