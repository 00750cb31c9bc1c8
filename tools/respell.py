#!/usr/bin/env python3
"""Brings the repository's own definitions and lemmas to snake case, as today's Rattle spells them.

    python3 tools/respell.py [FOLDER]       rewrites the crates of FOLDER, or of this repository, in place

It was run once, after the kit's own script had brought the rest to today's spelling. A name in camel case that begins with a small letter
becomes words joined by underscores, and so does a letter ℕ or ℤ at its end: byMitchell is by_mitchell, sumℤ is sum_ℤ. Only definitions,
lemmas and clauses have such names; the functions of src/ were in snake case before. Types, modules and strings stay. The documents name
definitions too.
"""
import pathlib
import re
import sys

ROOT = pathlib.Path(sys.argv[1] if len(sys.argv) > 1 else pathlib.Path(__file__).resolve().parent.parent)
# a string, which stays, or a name; antt's names may have dashes, primes and letters that no ASCII has
PIECE = re.compile(r'("(?:\\.|[^"\\\n])*")|([^\s(){}.,;:@"«»◌|\[\]\\⌜⌝=&*<>#!`/?~%^$\']+)')
CAMEL = re.compile(r'[a-z][a-z0-9₀-₉]*(?:[A-Z]|[ℕℤ])')


def respelled(name):
    """A name in snake case; its parts between dashes come one by one."""
    words = re.sub(r'(?<=[a-z0-9₀-₉])(?=[A-Z])|(?<=[a-z])(?=[ℕℤ])', '_', name)
    return re.sub(r'[A-Z]+', lambda capitals: capitals[0].lower(), words)


def parts_in(text):
    """The parts, between dashes, of the names in a text."""
    for string, name in PIECE.findall(text):
        yield from name.split('-')


def turned(text, known):
    """The text with these names respelled."""
    def piece(found):
        if found[1] is not None:
            return found[1]
        return '-'.join(respelled(part) if part in known else part for part in found[2].split('-'))
    return PIECE.sub(piece, text)


def code_of(text):
    """A file of definitions or proofs without its comments."""
    return '\n'.join(line for line in text.split('\n') if not line.lstrip().startswith('--'))


def main():
    laws = sorted(ROOT.glob('crates/*/specs/**/*.antt')) + sorted(ROOT.glob('crates/*/proofs/**/*.antt'))
    known = {part for path in laws for part in parts_in(code_of(path.read_text())) if CAMEL.match(part)}
    for path in laws + sorted(ROOT.glob('crates/*/src/**/*.rt')) + sorted(ROOT.glob('docs/*.md')):
        text = path.read_text()
        new = turned(text, known)
        if new != text:
            path.write_text(new)


main()
