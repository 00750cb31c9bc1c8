#!/usr/bin/env python3
"""The command tools/bench: what it takes, what it says of a wrong input, what it makes of rt, and how it is stopped.

    python3 tests/command.py PROGRAM

PROGRAM is the bench program, proved and built. Prints how much was tried; the first that differs is shown, and the exit status is
then 1.
"""
import contextlib
import fcntl
import os
import pathlib
import re
import shutil
import signal
import subprocess
import sys
import termios
import time

sys.dont_write_bytecode = True

from trials import COMMAND, EXAMPLE, LINES, MAX_INPUT, ROOT, SAMPLE, TOO_LONG, expect, ran, run, stand_in

PROGRAM = os.path.abspath(sys.argv[1])


def try_inputs(folder):
    binary, text, link = folder / 'records', folder / 'records.txt', folder / 'link'
    binary.write_bytes(SAMPLE)
    link.symlink_to(COMMAND[0])
    for words, given in (
        (COMMAND + [EXAMPLE], b''),
        (COMMAND + ['records'], b''),
        (COMMAND, SAMPLE),
        (COMMAND + ['-'], SAMPLE),
        (COMMAND + ['--text'], EXAMPLE.read_bytes()),
        ([link, EXAMPLE], b''),
    ):
        expect(words, ran(words, given=given, cwd=folder), (0, LINES, ''))
    missing = 'No such file or directory'
    for name, reason in (('missing.txt', missing), ('missing', missing), (folder, 'Is a directory')):
        expect(f'tools/bench {name}', ran(COMMAND + [name]), (1, b'', f'bench: reading {name}: {reason}\n'))
    text.write_text('table 1 1\n  table 256 1\nproduct 1 0 3\n')
    expect('a wrong text', ran(COMMAND + [text]),
           (1, b'', f"{text}:2:9: first byte: '256' is not from 0 to 255\n{text}:3:14: the second operand is missing\n"))
    text.write_text('table 1 1\n' * (MAX_INPUT // 3 + 1))
    expect('a long text', ran(COMMAND + [text]), (0, b'0 no 19\ntotal 0 1\n', f'bench: {text}: 65,538 {TOO_LONG}\n'))
    status, wrote, said = ran(COMMAND + ['--help'])
    expect('tools/bench --help', (status, b'    tools/bench [--text] [FILE]\n' in wrote, said), (0, True, ''))
    expect('two names', ran(COMMAND + ['a', 'b']), (1, b'', 'usage: tools/bench [--text] [FILE]   (--help says more)\n'))


def try_building(folder):
    """In a copy of the tools, so that nothing that was built is touched."""
    copy = folder / 'copy'
    shutil.copytree(ROOT / 'tools', copy / 'tools')
    (copy / 'crates.txt').touch()
    (copy / 'crates/bench').mkdir(parents=True)
    command = [copy / 'tools/bench', EXAMPLE]
    stand_in(folder, f'[ "$*" = "run" ] && mkdir out && cp {PROGRAM} out && sleep 1.2')
    status, wrote, said = ran(command)
    progress = 'bench: proving and building where that is due; from nothing .*\nbench: all is proved and built, after [0-9]+ s\n'
    expect('a missing program', (status, wrote, bool(re.fullmatch(progress, said)) or said), (0, LINES, True))
    stand_in(folder, 'seq 100; echo not proved >&2; exit 3')
    expect('rt fails', ran(command),
           (1, b'', ''.join(f'{line}\n' for line in range(82, 101)) + 'not proved\nbench: rt run ended with status 3\n'))
    stand_in(folder, 'mkdir alone && sleep 0.1 && rmdir alone')
    beside = [subprocess.Popen(command, stdout=subprocess.PIPE, stderr=subprocess.DEVNULL) for _ in range(3)]
    expect('three at once', [(process.communicate()[0], process.returncode) for process in beside], [(LINES, 0)] * 3)
    stand_in(folder)
    (copy / 'crates/bench/out/bench').write_text('#!/bin/sh\nkill -SEGV $$\n')
    expect('a program that is ended', ran(command), (1, b'', 'bench: crates/bench/out/bench was ended by SIGSEGV\n'))
    (copy / 'crates/bench/out/bench').unlink()
    expect('rt makes no program', ran(command), (1, b'', 'bench: rt run made no crates/bench/out/bench\n'))
    expect('no rt', ran([sys.executable, copy / 'tools/bench.py', EXAMPLE], before='export PATH=/nowhere;'),
           (1, b'', 'bench: rt, which proves and builds the bench, cannot be run: No such file or directory\n'))


def is_running(number):
    with contextlib.suppress(OSError):
        return (pathlib.Path('/proc') / number / 'stat').read_text().rsplit(') ', 1)[1][0] not in 'ZX'
    return False


def stopped(process, number):
    """Send a signal to a command and to what runs with it, as a terminal does; its status, and what it then said."""
    os.killpg(process.pid, number)
    said = process.stderr.read().decode()
    return process.wait(timeout=10), said


def try_stopping(folder):
    # what a script runs in the background has interrupts ignored, these tests among it
    for number in (signal.SIGINT, signal.SIGTERM):
        signal.signal(number, signal.SIG_DFL)
    options = {'stdout': subprocess.PIPE, 'stderr': subprocess.PIPE, 'bufsize': 0, 'start_new_session': True}
    # As it proves, where it has said so. What a shell runs in the background ignores an interrupt, and ends all the same.
    started = folder / 'started'
    stand_in(folder, f'sleep 60 & echo $$ $! >{started}; wait')
    process = subprocess.Popen(COMMAND + [EXAMPLE], **options)
    while process.stderr.read(1) not in (b'\n', b''):
        pass
    expect('stopped as it proves', stopped(process, signal.SIGINT), (-signal.SIGINT, 'bench: stopped by SIGINT\n'))
    left, until = started.read_text().split(), time.monotonic() + 5
    while (left := [number for number in left if is_running(number)]) and time.monotonic() < until:
        time.sleep(0.02)
    expect('what still runs', left, [])
    # as the program has read all there is, and waits for more
    stand_in(folder)
    for number in (signal.SIGINT, signal.SIGTERM):
        process = subprocess.Popen(COMMAND, stdin=subprocess.PIPE, **options)
        process.stdin.write(SAMPLE)
        while process.poll() is None and any(fcntl.ioctl(process.stdin, termios.FIONREAD, bytes(4))):
            time.sleep(0.01)
        expect('stopped as it reads', stopped(process, number), (-number, f'bench: stopped by {number.name}\n'))


if __name__ == '__main__':
    # with rt itself, which finds all proved
    expect('tools/bench, with rt', ran(COMMAND + [EXAMPLE])[:2], (0, LINES))
    run('command', try_inputs, try_building, try_stopping)
