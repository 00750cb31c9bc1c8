#!/usr/bin/env python3
"""Failures of reading and writing are seen: the bench program says what failed, the command tools/bench makes a status of that, and
tools/records.py does both. Interrupted calls and short writes are no failures.

    python3 tests/failures.py PROGRAM PRELOADED

PRELOADED is tests/preloaded.c as a shared object. Prints how much was tried; the first that differs is shown, and the exit status is
then 1.
"""
import contextlib
import os
import signal
import subprocess
import sys
import time

sys.dont_write_bytecode = True

from trials import COMMAND, EXAMPLE, LINES, LONG, LONG_LINES, RECORDS, SAMPLE, expect, piped, ran, run

PROGRAM, PRELOADED = (os.path.abspath(word) for word in sys.argv[1:])
# the program cannot set its status
BOTH = {'the program': ([PROGRAM], 0), 'the command': (COMMAND, 1)}
CLOSED_INPUT = 'reading standard input: Bad file descriptor'
CLOSED_OUTPUT = 'writing standard output: Bad file descriptor'
FULL = 'writing standard output: No space left on device'
BROKEN = 'writing standard output: Broken pipe'


def try_descriptors(folder):
    for redirected, failure in {
        '<&-': CLOSED_INPUT,
        '<.': 'reading standard input: Is a directory',
        '<&- >&-': CLOSED_INPUT,
        '>/dev/full': FULL,
        '</dev/null >/dev/full': FULL,
        '>&-': CLOSED_OUTPUT,
    }.items():
        for what, (words, status) in BOTH.items():
            expect(f'{what} {redirected}', ran(words, redirected, SAMPLE), (status, b'', f'bench: {failure}\n'))
    for what, (words, status) in BOTH.items():
        expect(f'{what}, all closed', ran(words, '<&- >&- 2>&-'), (status, b'', ''))
    expect('a text to a full device', ran(COMMAND + [EXAMPLE], '>/dev/full'), (1, b'', f'bench: {FULL}\n'))


def try_part_of_input(folder):
    """The sample's records are read, and then a read would block: nothing is printed of them."""
    for what, (words, status) in BOTH.items():
        end, start = os.pipe()
        os.write(start, SAMPLE)
        os.set_blocking(end, False)
        done = subprocess.run(words, stdin=end, stdout=subprocess.PIPE, stderr=subprocess.PIPE)
        os.close(end)
        os.close(start)
        expect(f'{what} on a part of the input', (done.returncode, done.stdout, done.stderr),
               (status, b'', b'bench: reading standard input: Resource temporarily unavailable\n'))


def try_part_of_output(folder):
    # a file that may grow to 8 blocks takes a part, and then nothing; by default the system ends the program there
    file, limit = folder / 'limited', 'ulimit -f 8;'
    for what, (words, status) in BOTH.items():
        found = ran(words, f'>{file}', LONG, limit, restore_signals=False)
        expect(f'{what}, a limited file', found, (status, b'', 'bench: writing standard output: File too large\n'))
        size = file.stat().st_size
        expect(f'{what}, what a limited file has', (0 < size < len(LONG_LINES), file.read_bytes()), (True, LONG_LINES[:size]))
    expect('a limited file by default', ran([PROGRAM], f'>{file}', LONG, limit)[0], -signal.SIGXFSZ)
    # a pipe that nobody reads, from the start or from some bytes on; likewise
    for taken in (0, 1000):
        for what, (words, status) in BOTH.items():
            expect(f'{what}, a pipe that closes', piped(words, LONG, taken, restore_signals=False),
                   (status, LONG_LINES[:taken], f'bench: {BROKEN}\n'))
        # the program's own library has the write fail
        expect('a pipe that closes by default', piped([PROGRAM], LONG, taken), (0, LONG_LINES[:taken], f'bench: {BROKEN}\n'))
        expect('a pipe that closes by default, the command', piped(COMMAND, LONG, taken), (1, LONG_LINES[:taken], f'bench: {BROKEN}\n'))


def try_interrupts(folder):
    notes = folder / 'notes'
    preloaded = {**os.environ, 'LD_PRELOAD': PRELOADED, 'NOTES': str(notes)}
    process = subprocess.Popen([PROGRAM], stdin=subprocess.PIPE, stdout=subprocess.PIPE, stderr=subprocess.PIPE, bufsize=0, env=preloaded)
    # it waits for input, and then for room in the pipe
    with contextlib.suppress(BrokenPipeError):
        for piece in (LONG[:10], LONG[10:]):
            time.sleep(0.03)
            process.stdin.write(piece)
    process.stdin.close()
    time.sleep(0.03)
    found = process.stdout.read(), process.stderr.read(), process.wait()
    expect('interrupted', found, (LONG_LINES, b'', 0))
    expect('interrupted reads and writes, and short writes', set(notes.read_text()), set('rws'))
    # no shell starts it: a timer outlives an exec, and the handler does not
    file = folder / 'stored'
    with file.open('wb') as output:
        done = subprocess.run([PROGRAM], input=SAMPLE, stdout=output, stderr=subprocess.PIPE, timeout=60, env={**preloaded, 'SYNC_FAILS': '1'})
    found = done.returncode, file.read_bytes(), done.stderr
    expect('a file that is not stored', found, (0, LINES, b'bench: writing standard output: Disk quota exceeded\n'))
    for name, lines, told in (('LOOK_INTERRUPTED', LINES, b''), ('TAKES_NOTHING', b'', b'bench: writing standard output: write zero\n')):
        with file.open('wb') as output:
            done = subprocess.run([PROGRAM], input=SAMPLE, stdout=output, stderr=subprocess.PIPE, timeout=60, env={**preloaded, name: '1'})
        expect(name, (done.returncode, file.read_bytes(), done.stderr), (0, lines, told))


def try_records(folder):
    encode, decode = RECORDS + ['encode'], RECORDS + ['decode']
    for words, redirected, failure in (
        (encode + [EXAMPLE], '>/dev/full', FULL),
        (encode + [EXAMPLE], '>&-', CLOSED_OUTPUT),
        (RECORDS, '>/dev/full', FULL),
        (encode + ['-'], '<&-', CLOSED_INPUT),
        (decode + [folder], '', f'reading {folder}: Is a directory'),
        (decode + ['missing'], '', 'reading missing: No such file or directory'),
    ):
        expect(f'{words} {redirected}', ran(words, redirected), (1, b'', f'records: {failure}\n'))
    expect('records.py, a pipe that closes', piped(decode + ['-'], LONG, 10), (1, b'table 255 ', f'records: {BROKEN}\n'))


if __name__ == '__main__':
    run('failures', try_descriptors, try_part_of_input, try_part_of_output, try_interrupts, try_records)
