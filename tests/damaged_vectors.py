#!/usr/bin/env python3
"""See that the program `vectors` can fail: it counts every damaged line as wrong, and no other.

    python3 tests/damaged_vectors.py PROGRAM

Runs the program on a copy of the stored vectors in which, for every kind of line, one line is damaged in each of the ways below, and
compares what it prints, group by group, with how many lines were damaged. The lines are described at the top of tools/reference.py.
"""
import collections
import pathlib
import re
import subprocess
import sys

VECTORS = pathlib.Path(__file__).resolve().parent.parent / 'crates/vectors'
# more than the program reads
CAPACITY = 1 << 21
GROUPS = {'u': 'products', 's': 'products', 'r': 'rows', 't': 'stores', 'l': 'layers', 'h': 'scores', 'f': 'singles'}
# where the refusal stands, the first field of the answer; of a row and of a layer it is behind two lists
REFUSAL = {'u': 6, 's': 6, 't': 4, 'h': 4, 'f': 3}
# where the first of these lists begins, and how many fields stand between the two
FIRST_LIST, BETWEEN = {'r': 3, 'l': 5}, {'r': 0, 'l': 1}
# how many fields of an answer stand before the numbers of the list that ends it
BEFORE_NUMBERS = {'r': 9, 'l': 2}


def after_list(words, at):
    return at + 1 + int(words[at])


def refusal_at(words):
    kind = words[0]
    if kind in REFUSAL:
        return REFUSAL[kind]
    return after_list(words, after_list(words, FIRST_LIST[kind]) + BETWEEN[kind]) + 1


def with_word(at, change):
    """A damage that changes one field of the answer, counted from the refusal on, or from the end."""
    def damage(words):
        place = at if at < 0 else refusal_at(words) + at
        return ' '.join(words[:place] + [change(words[place])] + words[place + 1:])
    return damage


def one_more(word):
    return str(int(word) + 1)


def letter(word):
    return word[:-1] + 'o'


def with_store(change):
    """A damage that changes the list that a store repeats, from its numbers and how many they come to."""
    def damage(words):
        end = after_list(words, 5)
        numbers = change(words[6:end], int(words[4]))
        return ' '.join(words[:5] + [str(len(numbers))] + numbers + words[end:])
    return damage


# of a refused layer, whose answer they leave right
REPEATED = {
    'an empty list for a store with weights': with_store(lambda numbers, length: []),
    'a list that is longer than its store': with_store(lambda numbers, length: numbers * (length // len(numbers) + 1)),
}
# of any line
FORM = {
    'a field missing': lambda words: ' '.join(words[:-1]),
    'a field more': lambda words: ' '.join(words + ['0']),
    'a space at the end': lambda words: ' '.join(words) + ' ',
    'two spaces': lambda words: ' '.join(words[:2]) + '  ' + ' '.join(words[2:]),
    'a letter in the first field': lambda words: ' '.join([words[0], letter(words[1])] + words[2:]),
    'a letter in the refusal': with_word(0, letter),
    'a letter in the last field': with_word(-1, letter),
    'a last field of more than 64 bits': with_word(-1, lambda word: str(2**64 + int(word))),
    'no number but the kind': lambda words: words[0],
}
# of any line; the line then belongs to no group
KIND = {
    'an unknown kind': lambda words: ' '.join(['z'] + words[1:]),
    'a kind of the figures': lambda words: ' '.join(['q'] + words[1:]),
    'a space before the kind': lambda words: ' ' + ' '.join(words),
    'an empty line': lambda words: '',
}


def answers(kind, words):
    """The damages of an accepted and of a refused line: each field of the answer wrong."""
    fields = range(BEFORE_NUMBERS.get(kind, len(words) - refusal_at(words)))
    # of the list that ends the answer, the first number and the last
    ends = [len(fields), -1] if kind in BEFORE_NUMBERS else []
    accepted = {f'field {at} of the answer': with_word(at, one_more) for at in [*fields, *ends]}
    refused = {f'field {at} of a refused answer': with_word(at, one_more) for at in fields}
    refused['a refusal taken back'] = with_word(0, lambda word: '0')
    return accepted, {**refused, **(REPEATED if kind == 'l' else {})}


def is_fit(words):
    """A list that is to be damaged has three numbers at least, so that its first and its last differ; and a store has weights."""
    kind, refusal = words[0], refusal_at(words)
    if words[refusal] == '0':
        return kind not in BEFORE_NUMBERS or int(words[refusal + BEFORE_NUMBERS[kind] - 1]) >= 3
    return kind != 'l' or int(words[4]) > 0


def damaged(lines):
    """The lines with one of them damaged in each way, and of each of these its place, its kind and the way."""
    lines, done = list(lines), []
    for kind in GROUPS:
        places = {True: [], False: []}
        # the last line is kept for the line feed that it lacks
        for place, line in enumerate(lines[:-1]):
            words = line.split(' ')
            if words[0] == kind and is_fit(words):
                places[words[refusal_at(words)] == '0'].append(place)
        accepted, refused = answers(kind, lines[places[True][0]].split(' '))
        for ways, is_accepted in ((accepted, True), (refused, False), (FORM, True), (KIND, True)):
            for what, damage in ways.items():
                place = places[is_accepted].pop()
                lines[place] = damage(lines[place].split(' '))
                done.append((place, kind, what))
    return lines, done


def counts(program, text):
    """What the program prints of each group: how many lines it compared, and how many were wrong."""
    ran = subprocess.run([program], input=text.encode(), stdout=subprocess.PIPE)
    if ran.returncode != 0:
        sys.exit(f'damaged vectors: {program} ended with status {ran.returncode}')
    printed = ran.stdout.decode()
    return printed, {name: (int(lines), int(wrong)) for name, lines, wrong in re.findall(r'^(\w+): (\d+) \w+, (\d+) wrong$', printed, re.M)}


def main():
    if len(sys.argv) != 2:
        sys.exit(__doc__)
    program = sys.argv[1]
    whole, stored = (VECTORS / 'stdin').read_text().splitlines(), (VECTORS / 'stdout').read_text()
    lines, done = damaged(whole)
    # The last line has no line feed: every group counts that once, as wrong.
    text = '\n'.join(lines)
    if len(text) >= CAPACITY:
        sys.exit(f'damaged vectors: {len(text)} bytes are more than the program reads')
    due = collections.Counter((GROUPS[kind], what in KIND) for _, kind, what in done)
    expected = {}
    for name, compared in re.findall(r'^(\w+): (\d+) ', stored, re.M):
        expected[name] = (int(compared), 0)
        if name in GROUPS.values():
            expected[name] = (int(compared) - due[name, True] + 1, due[name, False] + 1)
        elif name == 'input':
            expected[name] = (len(whole) + 1, sum(what in KIND for _, _, what in done) + 1)
    printed, found = counts(program, text)
    if found == expected and printed.count('\n') == stored.count('\n'):
        print(f'damaged vectors: {len(done) + 1} lines damaged, each counted as wrong, and no other of {len(whole)}')
        return 0
    for name in expected:
        if found.get(name) != expected[name]:
            print(f'{name}: {found.get(name)} compared and wrong, and {expected[name]} expected')
    for place, kind, what in done:
        alone = counts(program, lines[place] + '\n')[1]
        if sum(wrong for _, wrong in alone.values()) != 1:
            print(f'{what} of a line {kind} is not counted as wrong: {lines[place][:100]}')
    return 1


if __name__ == '__main__':
    sys.exit(main())
