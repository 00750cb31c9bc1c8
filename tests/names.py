#!/usr/bin/env python3
"""What include/highvane.h names, everything else has under the same name, with the same number and the same text.

- The archive and the shared object export the functions that it declares, and no other.
- The packages for Rust and Python have its version, functions, designs, limits and refusals with their texts; the reference program has
  the refusals with their texts, and the crate `refusals` has the refusals.
- tests/c/check_names.c holds every constant of it against a call.

    python3 tests/names.py ARCHIVE SHARED-OBJECT
"""
import pathlib
import re
import subprocess
import sys

if len(sys.argv) != 3:
    sys.exit(__doc__)
sys.dont_write_bytecode = True  # nothing is to appear in the repository
ROOT = pathlib.Path(__file__).resolve().parent.parent
sys.path[:0] = [str(ROOT / 'bindings/python'), str(ROOT / 'tools')]
import highvane  # noqa: E402
from reference_meaning import refusals as reference  # noqa: E402


def text(path):
    return (ROOT / path).read_text()


def there(pattern, source):
    return dict.fromkeys(re.findall(pattern, source, re.M), 'there')


def numbers(pattern, source):
    """The numbers by their names."""
    return {name: int(number) for name, number in re.findall(pattern, source)}


def version(pattern, source):
    return {'number': '.'.join(re.findall(pattern, source, re.M))}


def upper(name):
    """A name of Rust's form in the header's."""
    return re.sub(r'(?<!^)(?=[A-Z])', '_', name).upper()


header = re.sub(r'/\*.*?\*/', '', text('include/highvane.h'), flags=re.S)
enums = {kind: numbers(r'HIGHVANE_(\w+) = (\d+)', body) for kind, body in re.findall(r'enum highvane_(\w+) \{(.*?)\}', header, re.S)}
texts = dict(re.findall(r'case HIGHVANE_(\w+): return "(.*)";', header))
DUE = {
    'version': version(r'#define HIGHVANE_VERSION_(?:MAJOR|MINOR|PATCH) (\d+)', header),
    'function': there(r'^\w+ (highvane_\w+)\(', header),
    'limit': numbers(r'#define HIGHVANE_(\w+_MAX) (\d+)', header),
    'design': enums['design'],
    # 0 is none; it is the others that a caller meets by name
    'refusal': {name: (number, texts.get(name)) for name, number in enums['refusal'].items() if number},
}
DUE['constant'] = dict.fromkeys([*DUE['limit'], *enums['design'], *enums['refusal']], 'there')
wrong = [f'the header: {kind} is empty' for kind, named in DUE.items() if not named]


def compare(place, **found):
    """What a place has is what the header has, name by name."""
    for kind, named in found.items():
        for name in sorted(named.keys() | DUE[kind].keys()):
            if named.get(name) != DUE[kind].get(name):
                wrong.append(f'{place}: {kind} {name} is {named.get(name)}, and in the header {DUE[kind].get(name)}')


for archive in sys.argv[1:]:
    symbols = subprocess.run(['nm', '--defined-only', '--extern-only', archive], check=True, capture_output=True, text=True).stdout
    compare(archive, function=there(r' [A-Z] (\S+)$', symbols))

compare('tests/c/check_names.c', constant=there(r'\bHIGHVANE_(\w+)', text('tests/c/check_names.c')))

# the crate has no texts
known = {upper(name): number for name, number in numbers(r' (\w+) = (\d+),', text('crates/refusals/src/lib.rt')).items()}
compare('crates/refusals', refusal={name: (number, texts.get(name)) for name, number in known.items()})

named = {name: number for name, number in vars(reference).items() if isinstance(number, int) and number}
compare('tools/reference_meaning/refusals.py', refusal={name: (number, reference.TEXTS.get(number)) for name, number in named.items()})

rust = ''.join(path.read_text() for path in sorted((ROOT / 'bindings/rust/src').glob('*.rs')))
compare('bindings/rust/Cargo.toml', version=version(r'^version = "(.*)"$', text('bindings/rust/Cargo.toml')))
compare('bindings/rust/Cargo.lock', version=version(r'^version = "(.*)"$', text('bindings/rust/Cargo.lock')))
compare('bindings/rust',
        function=there(r'\bfn (highvane_\w+)\(', rust),
        limit=numbers(r'pub const (\w+_MAX): \w+ = ([\d_]+);', rust),
        design={upper(name): int(number) for number, name in re.findall(r'\((\d), \w+\) => Design::(\w+)', rust)},
        refusal={upper(name): (int(number), meaning) for name, number, meaning in re.findall(r'(\w+) = (\d+), "(.*)";', rust)})

compare('bindings/python',
        version={'number': highvane.__version__},
        function=dict.fromkeys((name for name in vars(highvane.raw) if name.startswith('highvane_')), 'there'),
        limit={name: number for name, number in vars(highvane).items() if name.endswith('_MAX')},
        design={each.name: each.value for each in highvane.Design},
        refusal={each.name: (each.value, each.text) for each in highvane.Refusal})

print(*wrong, f'names: {len(DUE["function"])} functions, {len(DUE["constant"])} constants, {len(wrong)} wrong', sep='\n')
sys.exit(1 if wrong else 0)
