"""Builds the programs of this folder with an archive, and takes figures from them: instructions, code bytes and stack bytes."""
import contextlib
import re
import subprocess
import sys
import tempfile
from pathlib import Path

HERE = Path(__file__).resolve().parent
INCLUDE = HERE.parent / 'include'
OURS = 'highvane_score_row'
# the row of each design by itself
BY_ITSELF = {1: f'{OURS}_mitchell', 2: f'{OURS}_nearest', 3: f'{OURS}_staged', 4: f'{OURS}_truncated', 5: f'{OURS}_twice_truncated'}
# The rows written by hand are compiled for baseline x86-64, as the archive is: no instruction that it may not use too. Some gcc
# put landing marks for indirect branches at the start of each function by themselves; the archive has none, so the rows get none.
C = ['gcc', '-std=gnu11', '-Wall', '-Wextra', '-fcf-protection=none', f'-I{INCLUDE}', f'-I{HERE}']
RUST = ['rustc', '-O', '--edition=2021', '--crate-type=lib', '--emit=obj', '-Cpanic=abort', '-Ccodegen-units=1',
        '--check-cfg=cfg(one_loop)']
C_ROWS = {
    'c_each': ['-O3'],
    'c_each_masked': ['-O3', '-DMASKED_SIGNS'],
    'c_one': ['-O3', '-DONE_LOOP'],
    'c_one_masked': ['-O3', '-DONE_LOOP', '-DMASKED_SIGNS'],
    'c_each_small': ['-Os'],
    'c_one_small': ['-Os', '-DONE_LOOP'],
}
# What is possible: by patterns, and with every instruction of the machine that measures. Their times are taken, and nothing else.
BEST_ROWS = {f'{name}_native': [*C_ROWS[name], '-march=native'] for name in ('c_each', 'c_each_masked', 'c_one', 'c_one_masked')}
BEST_ROWS |= {f'{name}_after_native': [*C_ROWS[name], '-DPLACE_AFTER', '-march=native'] for name in ('c_each_masked', 'c_one_masked')}
BEST_ROWS |= {'c_patterns': ['-O3', '-DPATTERNS'], 'c_patterns_native': ['-O3', '-DPATTERNS', '-march=native']}
RUST_ROWS = {'rust_each': [], 'rust_one_loop': ['--cfg=one_loop']}
ROWS = [OURS, *C_ROWS, *RUST_ROWS]
ALL_ROWS = [*ROWS, *BEST_ROWS]
# A layer, its rows one by one, and those written by hand; with every instruction of the machine too, of which times alone are taken.
LAYER, ROW_BY_ROW = 'highvane_score_layer', 'row_by_row'
C_LAYERS = {'c_masked': ['-O3'], 'c_branching': ['-O3', '-DBRANCHING'], 'c_patterns': ['-O3', '-DPATTERNS']}
BEST_LAYERS = {f'{name}_native': [*C_LAYERS[name], '-march=native'] for name in ('c_masked', 'c_patterns')}
LAYERS = [LAYER, ROW_BY_ROW, *C_LAYERS]
ALL_LAYERS = [*LAYERS, *BEST_LAYERS]


def output(command, **options):
    """What a command prints. A failure ends the run with what the command said."""
    try:
        done = subprocess.run([str(word) for word in command], capture_output=True, text=True, **options)
    except FileNotFoundError:
        raise SystemExit(f'benchmarks: {command[0]} is needed and was not found') from None
    if done.returncode:
        raise SystemExit(f'benchmarks: {Path(command[0]).name} failed\n{done.stdout}{done.stderr}')
    return done.stdout


def compiled(source, macro, variants, folder):
    """Compiles a file of C once for each variant, whose function has the variant's name, and gives the objects."""
    objects = []
    for name, flags in variants.items():
        objects.append(folder / f'{name}.o')
        output([*C, *flags, f'-D{macro}={name}', '-c', HERE / source, '-o', objects[-1]])
    return objects


def build(archive, folder):
    """Compiles the rows written by hand and the three programs into `folder`."""
    objects = compiled('row.c', 'SCORE_ROW', C_ROWS | BEST_ROWS, folder)
    for name, flags in RUST_ROWS.items():
        objects.append(folder / f'{name}.o')
        output([*RUST, *flags, HERE / 'row.rs', '-o', objects[-1]])
    link('rows.c', ALL_ROWS, [*objects, archive], folder / 'rows')
    for program in ('operations', 'stack'):
        output([*C, '-O2', HERE / f'{program}.c', archive, '-o', folder / program])


def build_layers(archive, folder):
    """Compiles the layers written by hand and the program that calls them into `folder`."""
    link('layers.c', ALL_LAYERS, [*compiled('layer.c', 'SCORE_LAYER', C_LAYERS | BEST_LAYERS, folder), archive], folder / 'layers')


def link(source, names, objects, program, *flags):
    """Links the program that calls rows or layers, of these names, with the objects that have them."""
    listed = ' '.join(f'X({name})' for name in names)
    output([*C, '-O2', f'-DIMPLEMENTATIONS={listed}', *flags, HERE / source, *objects, '-o', program])


def archive_of(argument=None):
    """The archive to measure: the one that is named, or the one that tools/archive makes."""
    archive = Path(argument or HERE.parent / 'target' / 'libhighvane.a')
    if not archive.is_file():
        raise SystemExit(f'benchmarks: there is no archive {archive}; tools/archive makes target/libhighvane.a')
    return archive.resolve()


@contextlib.contextmanager
def built(build, usage):
    """A folder with what `build` makes of the archive that the command line names, or else of the one that tools/archive makes."""
    if len(sys.argv) > 2 or sys.argv[1:] in (['-h'], ['--help']):
        raise SystemExit(usage)
    archive = archive_of(*sys.argv[1:])
    with tempfile.TemporaryDirectory() as name:
        build(archive, Path(name))
        yield Path(name)


def counts(program, functions, lines):
    """For each line, what the calls that it asks of a program take, as callgrind counts them inside the functions named, with all
    that they call, none of which may be another of them: the instructions, and the conditional branches that its simulated
    processor predicts wrongly. Also what the program prints."""
    with tempfile.TemporaryDirectory() as dumps:
        toggles = [f'--toggle-collect={name}' for name in functions]
        valgrind = ['valgrind', '-q', '--tool=callgrind', '--branch-sim=yes', f'--callgrind-out-file={dumps}/dump']
        printed = output([*valgrind, *toggles, program], input=''.join(f'{line}\n' for line in lines))
        found = {}
        for dump in Path(dumps).iterdir():
            text = dump.read_text()
            name = re.search(r'^desc: Trigger: Client Request: (.*)$', text, re.M)
            events, totals = (re.search(rf'^{word}: (.*)$', text, re.M) for word in ('events', 'totals'))
            if name and events and totals:
                of = dict(zip(events[1].split(), map(int, totals[1].split())))
                found[name[1]] = of.get('Ir', 0), of.get('Bcm', 0)
    missing = [line for line in lines if not found.get(line, (0, 0))[0]]
    if missing:
        raise SystemExit(f'benchmarks: callgrind counted nothing for: {missing[0]}')
    return found, printed


def run_bytes(program, name, calls):
    """How many bytes of a function's code, and of what it calls, some calls of it run, those of instructions that are run once or more."""
    code = Code(program)
    with tempfile.TemporaryDirectory() as dumps:
        lines = ''.join(f'{name} uniform {" ".join(map(str, call))}\n' for call in calls)
        valgrind = ['valgrind', '-q', '--tool=callgrind', '--dump-instr=yes', '--compress-pos=no', f'--callgrind-out-file={dumps}/dump']
        output([*valgrind, f'--toggle-collect={name}', program], input=lines)
        run = {int(at, 16) for dump in Path(dumps).iterdir() for at in re.findall(r'^0x([0-9a-f]+) ', dump.read_text(), re.M)}
    return sum(size for start in code.reached(name) for at, size in code.lengths(start) if at in run)


def times(program, calls):
    """Nanoseconds of a call, by its design, its setting, its pairs, or rows and columns, and the name of the implementation."""
    printed = output([program, 'time'], input=''.join(f'{" ".join(map(str, call))}\n' for call in calls))
    found = {}
    for line in printed.splitlines():
        call, name, taken = line.split('\t')
        found[(*map(int, call.split()), name)] = float(taken)
    return found


class Code:
    """The functions of a linked program, with what each calls."""

    def __init__(self, program):
        self.functions = {}
        for line in output(['nm', '--print-size', '--defined-only', '--demangle', program]).splitlines():
            symbol = re.match(r'([0-9a-f]+) ([0-9a-f]+) [Tt] (.+)$', line)
            if symbol:
                self.functions[int(symbol[1], 16)] = (int(symbol[2], 16), symbol[3])
        constants = re.search(r'\.rodata +([0-9a-f]+) +([0-9a-f]+)', output(['objdump', '-h', program]))
        first = int(constants[2], 16)
        self.constants = range(first, first + int(constants[1], 16))
        self.text = {}
        for line in output(['objdump', '-d', '--no-show-raw-insn', program]).splitlines():
            instruction = re.match(r' +([0-9a-f]+):\t(.*)', line)
            if instruction:
                self.text[int(instruction[1], 16)] = instruction[2]

    def reached(self, name):
        """The addresses of a function and of all functions that it calls or jumps to, itself first."""
        waiting = [address for address, (_, symbol) in self.functions.items() if symbol == name]
        found = []
        while waiting:
            start = waiting.pop(0)
            if start in found:
                continue
            found.append(start)
            for text in self.instructions(start):
                target = re.match(r'(?:call|j\w+) +([0-9a-f]+) <', text)
                if target:
                    waiting += [other for other, (size, _) in self.functions.items()
                                if other != start and other <= int(target[1], 16) < other + size]
                elif re.match(r'call +\*', text):
                    raise SystemExit(f'benchmarks: {name} calls through a register or memory, which cannot be followed: {text}')
        return found

    def instructions(self, start):
        size, _ = self.functions[start]
        return [self.text[at] for at in range(start, start + size) if at in self.text]

    def lengths(self, start):
        """The address and the bytes of each instruction of a function."""
        end = start + self.functions[start][0]
        places = [at for at in range(start, end) if at in self.text]
        return [(at, after - at) for at, after in zip(places, [*places[1:], end])]

    def sizes(self, name):
        """For a function and each that it calls: its name, its bytes, and how often it reads a constant."""
        rows = []
        for start in self.reached(name):
            size, symbol = self.functions[start]
            targets = [int(at, 16) for text in self.instructions(start) for at in re.findall(r'# ([0-9a-f]+)', text)]
            rows.append((symbol, size, sum(at in self.constants for at in targets)))
        return rows
