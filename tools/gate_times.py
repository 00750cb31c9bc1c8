#!/usr/bin/env python3
"""Print, as Markdown, when the gate had proved each crate and when it began the crate's must-fail edits, in seconds from its start.

Usage: bash .ci/run | python3 tools/gate_times.py

The gate says no times, so this reads what it prints as it comes, and hands it on to standard error. Crates are proved side by side: the
seconds of one are no cost of its own. A crate that an earlier run on this machine proved is marked as kept.
"""
import re
import sys
import time

if len(sys.argv) != 1 or sys.stdin.isatty():
    sys.exit(__doc__)
began = time.monotonic()
proved, edits, files, last = {}, {}, {}, None
for line in sys.stdin:
    print(line, end='', file=sys.stderr, flush=True)
    now = f'{time.monotonic() - began:.0f}'
    if found := re.match(r'rt: (\w+) (proved$|is kept: )', line):
        proved[found[1]] = now if found[2] == 'proved' else 'kept'
    elif found := re.match(r'rt: (\w+): trying its must-fail edits \(\d+\)$', line):
        edits[found[1]] = now
    elif found := re.match(r'rt: must-fail (\w+)/', line):
        files[found[1]] = files.get(found[1], 0) + 1
    elif re.match(r'\d+ passed, \d+ failed$', line) and last is None:
        last = now
if not proved:
    sys.exit('no proof of a gate was read')
print('| crate | proved at, s | edits begun at, s | edit files |')
print('|---|---|---|---|')
for name, at in proved.items():
    print(f'| `{name}` | {at} | {edits.get(name, "")} | {files.get(name, 0)} |')
print(f'| all, with the programs | {last or "not ended"} | | {sum(files.values())} |')
