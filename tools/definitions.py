#!/usr/bin/env python3
"""Print docs/DEFINITIONS.md: every file of definitions, with its lines and the first sentence of its comment.

Usage: python3 tools/definitions.py >docs/DEFINITIONS.md
"""
import pathlib
import re

root = pathlib.Path(__file__).resolve().parent.parent
crates = re.findall(r'^(\w+)(?: staticlib)?:', (root / 'crates.txt').read_text(), re.M)


def first_sentence(text):
    comment = re.match(r'(?:--.*\n)+', text)
    words = ' '.join(line.lstrip('- ') for line in comment.group(0).splitlines()) if comment else ''
    return re.split(r'\.(?: |$)', words)[0].replace('|', '\\|')


print('''# Definitions

What has to be believed of the library, beside the kit that checks it: the files below say what is meant, and everything else is held to
them. `Figures`, `Sample` and the like are examples that are proved by computation. `python3 tools/definitions.py` prints this page, and
the gate compares it.

| crate | file | lines | holds |
|---|---|---|---|''')
total = 0
for crate in crates:
    for path in sorted((root / 'crates' / crate / 'specs').glob('*.antt')):
        # Lib.antt only names the other files of its folder
        if path.name != 'Lib.antt':
            text = path.read_text()
            total += text.count('\n')
            print(f'| `{crate}` | `{path.stem}` | {text.count(chr(10))} | {first_sentence(text)} |')
print(f'| all | | {total} | |')
