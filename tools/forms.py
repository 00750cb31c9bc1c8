#!/usr/bin/env python3
"""Counts the places in src/ where a form of today's Rattle might be plainer: those of docs/DESIGN-PASS.md, by its numbers.

    tools/forms.py [COMMIT] [--list]

Without a commit it counts what lies in the folder. With --list it says where each place is."""
import collections
import pathlib
import re
import subprocess
import sys

TOP = pathlib.Path(__file__).resolve().parent.parent
KEPT = {'let', 'mut', 'while', 'for', 'in', 'if', 'else', 'return', 'match', 'as'}


def texts(commit):
    """The files of src/ and proofs/ by their paths."""
    if commit is None:
        paths = [p.relative_to(TOP).as_posix() for p in TOP.glob('crates/*/*/**/*') if p.suffix in ('.rt', '.antt')]
        read = lambda path: (TOP / path).read_text()
    else:
        git = lambda *words: subprocess.run(['git', '-C', TOP, *words], capture_output=True, text=True, check=True).stdout
        paths = git('ls-tree', '-r', '--name-only', commit).split()
        read = lambda path: git('show', f'{commit}:{path}')
    return {p: read(p) for p in sorted(paths) if re.fullmatch(r'crates/\w+/(src/.*\.rt|proofs/.*(Answers|Invariants)\.antt)', p)}


def functions(source):
    """Each function's name, parameters, clauses, body and line."""
    for m in re.finditer(r'^( *)(?:pub(?:\(crate\))? )?(?:extern "C" )?fn (\w+)(?:<[^\n(]*>)?\(([^)]*)\)(.*?)\{\n(.*?)^\1\}', source, re.S | re.M):
        yield m[2], re.findall(r'(\w+): ([^,\n]+)', m[3]), m[4], m[5], source[:m.start()].count('\n') + 1


def shape(body):
    """A body without its names, numbers and arguments, and without lines that read a place of a slice or lend a part of one."""
    body = re.sub(r'//.*|^ *let \w+ = &?\w+\[.*\];\n', '', body, flags=re.M)
    body = re.sub(r'\b[a-zA-Z_][\w:]*', lambda m: m[0] if m[0] in KEPT else 'i', body)
    body = re.sub(r'\b\d\w*', 'n', body)
    while re.search(r'\([^()]+\)', body):
        body = re.sub(r'\([^()]+\)', '()', body)
    body = re.sub(r'\s+', ' ', body)
    return re.sub(r'(i\(\); )+', 'i(); ', body)


def main():
    words = [w for w in sys.argv[1:] if w != '--list']
    files = texts(words[0] if words else None)
    found = collections.defaultdict(list)

    def lines(key, pattern, inside=r''):
        for path, text in files.items():
            if path.endswith('.rt') and re.search(inside, path):
                for number, line in enumerate(text.split('\n'), 1):
                    if re.search(pattern, line):
                        found[key].append(f'{path}:{number}: {line.strip()}')

    lines('1a own enums with an arm for a refusal or an end', r'^ +(Refused\(u32\)|End),')
    lines('1b refusals as numbers', r'^pub const [A-Z_]+: u32 = \d+;|^ +(pub )?refusal: u32,$', 'refusals|records/src/lib|capi')
    lines('1c tests of a number for a refusal', r'(refusal|by_\w+|row_refusal\(.*\)) [!=]= 0')
    lines('1d numbers for kinds', r'const [A-Z_]+: u8 = \d+;|(if|else if) (design|kind|group) == |^ +(\d+|b\'.\')( \| b\'.\')* =>')
    lines('1e values that stand for none', r'usize::MAX|NOWHERE|-> Field \{|next: usize,')
    shapes = collections.defaultdict(list)
    clauses = collections.defaultdict(set)
    pairs = collections.defaultdict(list)
    for path, text in files.items():
        if not path.endswith('.rt'):
            continue
        crate = path.split('/')[1]
        for name, parameters, facts, body, number in functions(text):
            place = f'{path}:{number}: {name}'
            if body.count('\n') > 3:
                shapes[crate, shape(body)].append(place)
            for clause in re.findall(r'requires (?:\w+ )?\{ (.*) \}', facts):
                for part in clause.split(' × '):
                    part = part.strip(' ()')
                    if re.search('[≤<≡]', part) and ':' not in part:
                        clauses[crate, part].add(place)
            for a, b in zip(parameters, parameters[1:]):
                pairs[crate, a, b].append(place)
            if any(t == 'usize' and n in ('n', 'm', 'count', 'length') for n, t in parameters) and any('[' in t for _, t in parameters):
                found['6 a buffer with its length beside it'].append(place)
            if len(set(re.findall(r'(?:if|else if) (?:design|kind) == \d', body))) > 1 or re.search(r'^ +(?:\d+|b\'.\') => \w+(?:::\w+)?\(', body, re.M):
                found['7 a switch by a number on which step to run'].append(place)
    for places in shapes.values():
        if len(places) > 1:
            found['2 functions of one crate that are alike but for names, numbers and arguments'] += [f'{p} ({len(places)} alike)' for p in places]
    lines('3 loops that count by hand', r'^ *while ')
    lines('4 equality, order, conversion and printing by hand',
          r'fn (new|none|no_sums|empty|bits|from_bits|to_bits|laid|of_pattern|u32_of|i16_of|i64_of|magnitude|without_sign|greater|larger|fewer|earlier|at_most_31|put_number|put_signed|print|is_pattern)\(')
    for (crate, part), places in clauses.items():
        if len(places) > 2:
            found['5a facts in the requires of three functions or more'].append(f'{crate}: {part} ({len(places)})')
    for (crate, a, b), places in pairs.items():
        if len(places) > 2:
            found['5b parameters that travel together'].append(f'{crate}: {a[0]}: {a[1]}, {b[0]}: {b[1]} ({len(places)})')
    for path, text in files.items():
        if path.endswith('.antt'):
            found['8 files of answers and invariants'].append(path)
            found['8 lines in them'] += [path] * text.count('\n')
    for key in sorted(found):
        print(f'{len(found[key]):5} {key}')
        if '--list' in sys.argv and not key.startswith('8'):
            print(''.join(f'        {place}\n' for place in found[key]), end='')


main()
