"""What the tools for people share of reading, writing and ending. What fails is said in a line on standard error, with no traceback,
and makes the exit status 1.
"""
import os
import signal
import sys

TOOL = os.path.basename(sys.argv[0]).removesuffix('.py')
INPUT = '-'


class Failure(Exception):
    """Ends a tool; its arguments are the lines that say why."""


class Stopped(BaseException):
    """A signal came, of this number."""


def stop(number, _):
    # a second one finds nothing in its way
    signal.signal(number, signal.SIG_DFL)
    raise Stopped(number)


def run(main):
    """Run a tool on its arguments and end the process. A signal that stops it ends it as that signal does, so that a shell knows."""
    hold()
    for number in (signal.SIGINT, signal.SIGTERM, signal.SIGHUP):
        if signal.getsignal(number) != signal.SIG_IGN:
            signal.signal(number, stop)
    try:
        main(sys.argv[1:])
    except Failure as failure:
        say(*failure.args)
        sys.exit(1)
    except OSError as problem:
        say(f'{TOOL}: {problem}')
        sys.exit(1)
    except Stopped as stopped:
        number, = stopped.args
        say(f'{TOOL}: stopped by {signal.Signals(number).name}')
        signal.raise_signal(number)


def hold():
    """A standard descriptor that is closed would go to the next file that is opened. The null device takes its place, opened the wrong
    way, so that reading or writing there fails as on the closed one."""
    for descriptor, way in ((0, os.O_WRONLY), (1, os.O_RDONLY), (2, os.O_WRONLY)):
        try:
            os.fstat(descriptor)
        except OSError:
            os.open(os.devnull, way)


def label(name):
    return 'standard input' if name == INPUT else name


def opened(name):
    """A file that is open for reading; the name - is standard input."""
    try:
        return open(0 if name == INPUT else name, 'rb', buffering=0, closefd=name != INPUT)
    except OSError as problem:
        raise Failure(f'{TOOL}: reading {label(name)}: {problem.strerror}')


def read(name):
    """All bytes of a file. By `os.read`, since a file object takes a read that would block for the end."""
    parts = []
    with opened(name) as file:
        try:
            while part := os.read(file.fileno(), 1 << 20):
                parts.append(part)
        except OSError as problem:
            raise Failure(f'{TOOL}: reading {label(name)}: {problem.strerror}')
    return b''.join(parts)


def write(data):
    """Write bytes to standard output and close it, since a file may say only then that it had no room."""
    try:
        put(1, data)
        os.close(1)
    except OSError as problem:
        raise Failure(f'{TOOL}: writing standard output: {problem.strerror}')


def say(*lines):
    """Write lines to standard error. Where that cannot be written, nobody can be told."""
    try:
        put(2, ''.join(line + '\n' for line in lines).encode('utf-8', 'surrogateescape'))
    except OSError:
        pass


def put(descriptor, data):
    left = memoryview(data)
    while left:
        left = left[os.write(descriptor, left):]
