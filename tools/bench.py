"""Run the bench on records and print their transcript.

    tools/bench [--text] [FILE]

FILE.txt is a text of records, written as `python3 tools/records.py --help` says. Any other FILE holds records in their binary form, and
so does standard input, which is read where no FILE is named or FILE is -. With --text either is a text, whatever its name.

The bench is proved and built first where its sources have changed, by `rt run` in its folder; that takes some minutes from nothing.

Standard output gets the transcript and nothing else. The exit status is 0 where the whole input was read and the whole transcript was
written; a refused record is a line of the transcript and no failure. Otherwise it is 1, and standard error says why.
"""
import contextlib
import fcntl
import itertools
import os
import pathlib
import signal
import subprocess
import sys
import tempfile
import time

# nothing is to appear beside the tools
sys.dont_write_bytecode = True

import records
from streams import INPUT, TOOL, Failure, opened, run, say, write

ROOT = pathlib.Path(__file__).resolve().parent.parent
CRATE = ROOT / 'crates/bench'
PROGRAM = CRATE / 'out/bench'
# more seconds than rt takes where nothing is due, and how many lines are shown of what it said where it fails
PATIENCE, SHOWN = 1, 20


@contextlib.contextmanager
def alone():
    """One command at a time runs rt, which keeps notes in files that a second one would write too."""
    with open(ROOT / 'crates.txt') as lock:
        for turn in itertools.count():
            with contextlib.suppress(BlockingIOError):
                fcntl.flock(lock, fcntl.LOCK_EX | fcntl.LOCK_NB)
                break
            if turn == 10 * PATIENCE:
                say(f'{TOOL}: waiting for another run, which proves and builds')
            time.sleep(0.1)
        yield


def prove():
    """Prove and build what is due. rt knows, by the contents of every file that the bench is built on."""
    with alone(), tempfile.TemporaryFile() as said:
        start = time.monotonic()
        status = check(said)
        said.seek(0)
        if status != 0:
            lines = said.read().decode(errors='replace').splitlines()
            raise Failure(*lines[-SHOWN:], f'{TOOL}: rt run {ending(status)}')
        if time.monotonic() - start > PATIENCE:
            say(f'{TOOL}: all is proved and built, after {time.monotonic() - start:.0f} s')
    if not PROGRAM.exists():
        raise Failure(f'{TOOL}: rt run made no {PROGRAM.relative_to(ROOT)}')


def check(said):
    """The status of rt run, which proves and builds the bench and runs it on no input.

    It has a process group of its own, which ends with this command.
    """
    try:
        rt = subprocess.Popen(['rt', 'run'], cwd=CRATE, stdin=subprocess.DEVNULL, stdout=said, stderr=said, start_new_session=True)
    except OSError as problem:
        raise Failure(f'{TOOL}: rt, which proves and builds the bench, cannot be run: {problem.strerror}')
    try:
        try:
            return rt.wait(PATIENCE)
        except subprocess.TimeoutExpired:
            say(f'{TOOL}: proving and building where that is due; from nothing it takes some minutes')
            return rt.wait()
    except BaseException:
        with contextlib.suppress(ProcessLookupError):
            os.killpg(rt.pid, signal.SIGTERM)
        raise


def ending(status):
    return f'ended with status {status}' if status > 0 else f'was ended by {signal.Signals(-status).name}'


def transcribe(source):
    """Run the program. It says in a line what failed, since it cannot set its own exit status."""
    # a pipe that nobody reads is an error of its write, and does not end it
    ran = subprocess.run([PROGRAM], stderr=subprocess.PIPE, restore_signals=False, **source)
    if ran.stderr:
        raise Failure(*ran.stderr.decode(errors='replace').splitlines())
    if ran.returncode != 0:
        raise Failure(f'{TOOL}: {PROGRAM.relative_to(ROOT)} {ending(ran.returncode)}')


def main(arguments):
    if arguments in (['-h'], ['--help']):
        write(__doc__.encode())
        return
    names = [word for word in arguments if word != '--text']
    if len(names) > 1 or any(name.startswith('-') and name != INPUT for name in names):
        raise Failure('usage: tools/bench [--text] [FILE]   (--help says more)')
    name = names[0] if names else INPUT
    # what is wrong with the input is said before anything is proved
    if '--text' in arguments or name.endswith('.txt'):
        source = {'input': records.encode_file(name)}
    else:
        source = {'stdin': opened(name)}
    prove()
    transcribe(source)


if __name__ == '__main__':
    run(main)
