"""What tests/failures.py, tests/command.py and tests/texts.py share: commands that a shell starts, and what is expected of them."""
import os
import pathlib
import subprocess
import sys
import tempfile

ROOT = pathlib.Path(__file__).resolve().parent.parent
sys.path.insert(0, str(ROOT / 'tools'))

from reference_meaning.records import MAX_INPUT, transcript

COMMAND, RECORDS = [ROOT / 'tools/bench'], [sys.executable, ROOT / 'tools/records.py']
EXAMPLE = ROOT / 'examples/sample.txt'
# the example's records and their transcript
SAMPLE, LINES = ((ROOT / 'crates/bench' / name).read_bytes() for name in ('stdin', 'stdout'))
# records of which the transcript is longer than a pipe holds
LONG = bytes([3, 255, 255]) * (MAX_INPUT // 3)
LONG_LINES = transcript(LONG).encode()
TOO_LONG = 'bytes of records; the bench refuses more than 65,536 with 19'
tried = 0


def expect(what, found, wanted):
    global tried
    tried += 1
    if found != wanted:
        sys.exit(f'{what}: {str(found)[:2000]} found, and {str(wanted)[:2000]} expected')


def ran(words, redirected='', given=b'', before='', **options):
    """The status of a command that a shell starts with its descriptors redirected, what it wrote and what it said."""
    shell = ['sh', '-c', f'{before} exec "$@" {redirected}', 'sh', *words]
    done = subprocess.run(shell, input=given, stdout=subprocess.PIPE, stderr=subprocess.PIPE, timeout=60, **options)
    return done.returncode, done.stdout, done.stderr.decode()


def piped(words, given, taken, **options):
    """The same, where standard output is a pipe that is closed after so many bytes were read from it."""
    with tempfile.TemporaryFile() as file:
        file.write(given)
        file.seek(0)
        with subprocess.Popen(words, stdin=file, stdout=subprocess.PIPE, stderr=subprocess.PIPE, bufsize=0, **options) as process:
            read = process.stdout.read(taken) if taken else b''
            process.stdout.close()
            said = process.stderr.read().decode()
    return process.returncode, read, said


def stand_in(folder, lines='true'):
    """A script in the place of rt; with no lines it finds nothing to do."""
    rt = folder / 'bin/rt'
    rt.parent.mkdir(exist_ok=True)
    rt.write_text(f'#!/bin/sh\n{lines}\n')
    rt.chmod(0o755)


def run(what, *parts):
    """Try the parts, each in the same folder, with a script in the place of rt."""
    with tempfile.TemporaryDirectory() as name:
        folder = pathlib.Path(name)
        os.environ['PATH'] = f'{folder}/bin:{os.environ["PATH"]}'
        stand_in(folder)
        for part in parts:
            part(folder)
    print(f'{what}: {tried} tried, 0 wrong')
