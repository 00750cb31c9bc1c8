#!/usr/bin/env python3
"""What the documents say of the repository is so. One line for each place that is wrong, and status 1; otherwise silence and 0.

- README.md shows, as examples and as their output, the files that the tests compile and run.
- docs/DEFINITIONS.md is what tools/definitions.py prints, and any other table with the columns crate, file and lines is true.
- Every path, every `crate::name` and every `File.name` that README.md and docs/ have in backticks exists.
- In the tables of docs/TRACE.md only citations stand in backticks, written as its key says. What they cite exists, every must-fail edit
  is cited, and every public function is cited and has a contract.
"""
import re
import subprocess
import sys

# nothing is to appear beside the tests
sys.dont_write_bytecode = True

from pages import README, ROOT, TRACE, finish, report, table_rows, text

sys.path.insert(0, str(ROOT / 'tools'))

from edits import wrong_programs  # noqa: E402

CRATES = {path.name for path in (ROOT / 'crates').iterdir()}
EDITS = {f'{crate}/{name}' for crate, _, name, _ in wrong_programs()}
# notes of landings and these pages name what is gone, so they are not read
PAST = ('PORT.md', 'DESIGN-PASS.md', 'LOOK-BACK.md')
DOCUMENTS = [README, *sorted(f'docs/{path.name}' for path in (ROOT / 'docs').glob('*.md') if path.name not in PAST)]
# words that stand for any name; endings of files; crates of the kit, and types of the language
ANY = re.compile(r'\b(CRATE|EDIT|FILE|FUNCTION)\b')
ENDINGS = {'antt', 'c', 'edit', 'h', 'md', 'py', 'rs', 'rt', 'toml', 'txt'}
KIT = {'bytes', 'io', 'libc', 'os', 'std', 'u8', 'u16', 'u32', 'u64', 'usize', 'i16', 'i32', 'i64', 'f32', 'f64'}


def blocks(opening, source):
    """From each line that the pattern opens the lines up to the next that is indented no more than it."""
    return [found.group(0) for found in re.finditer(rf'^( *)(?:{opening}).*\n((?:\1 .*\n|\n)*)', source, re.M)]


def block(opening, source):
    return next(iter(blocks(opening, source)), '')


def is_defined(crate, file, *names):
    """Whether a file of the crate's definitions or laws has the name, and the record of that name the field."""
    name = rf'{re.escape(names[0])}(?!\S)'
    declared = rf'^ *(?!--)(?:(?:unfoldable|abbrev|pub) )*(?:(?:record|data) {name}|(?:[^\s:=]+ )*{name}(?: [^\s:=]+)* :(?!\S))'
    sources = [text(f'crates/{crate}/{folder}/{file}.antt') for folder in ('specs', 'proofs')]
    if len(names) == 1:
        return any(re.search(declared, source, re.M) for source in sources)
    field = rf'^ *pub {re.escape(names[1])} :'
    return len(names) == 2 and any(re.search(field, block(rf'pub record {name}', source), re.M) for source in sources)


def is_in_source(crate, *names):
    """Whether the crate's source has the name, in a module or a type where these are named before it."""
    folder = f'crates/{crate}/src'
    source = text(f'{folder}/lib.rt') or text(f'{folder}/main.rt')
    for name in names[:-1]:
        source = text(f'{folder}/{name}.rt') or ''.join(blocks(rf'pub (?:struct|enum|trait) {name}\b|impl\b.* (?:for )?{name}\b', source))
    name = re.escape(names[-1])
    # handed on alone, or as one of the names in braces
    handed_on = rf'^pub use [\w:]+::(?:{name}|\{{(?:[^{{}}]*,)?\s*{name}\s*(?:,[^{{}}]*)?\}});'
    # a variant, which stands in an enum alone: a line of a call or of a literal looks the same
    variants = ''.join(blocks(r'pub enum \w+', source))
    return bool(re.search(rf'\b(?:fn|const|struct|enum|trait|type|mod) {name}\b|{handed_on}', source, re.M)
                or re.search(rf'^ +{name}(?: = \d+)?,$', variants, re.M))


def is_path(word):
    pattern = ANY.sub('*', word).rstrip('/')
    # what is made stands below target/, and of each crate in its folder out
    crate = re.match(r'crates/(\w+)/out(?:/|$)', word)
    if word.startswith('target/') or crate and (crate[1] in CRATES or ANY.fullmatch(crate[1])):
        return True
    return word in EDITS or any(ROOT.glob(pattern)) or any(ROOT.glob(f'crates/*/{pattern}'))


def check_examples():
    """The programs that README.md shows are those that the tests compile and run, and the output is what they print."""
    readme = text(README)
    shown = re.findall(r'```(\w*)\n(.*?)```', readme, re.S)
    # the bench's lines stand indented in README.md
    shown.append(('bench', ''.join(line[4:] + '\n' for line in readme.splitlines() if re.match(r'    (\d+ (ok|no)|total) \d+', line))))
    tested = {('c', 'examples/score.c'), ('', 'examples/score.out'), ('rust', 'bindings/rust/examples/score.rs'),
              ('python', 'bindings/python/examples/score.py'), ('bench', 'crates/bench/stdout')}
    for kind, file in sorted(tested):
        if (kind, text(file)) not in shown:
            report(README, f'does not show {file} as it is')
    for kind, block in shown:
        if kind in ('c', 'rust', 'python') and (kind, block) not in {(kind, text(file)) for kind, file in tested}:
            report(README, f'shows in {kind} what no test runs: {block.splitlines()[0]}')


def check_counts():
    listed = subprocess.run([sys.executable, ROOT / 'tools/definitions.py'], check=True, capture_output=True, text=True).stdout
    if text('docs/DEFINITIONS.md') != listed:
        report('docs/DEFINITIONS.md', 'is not what tools/definitions.py prints')
    for document in DOCUMENTS:
        for place, row in table_rows(document):
            crate, file = (row.get(head, '').strip('`') for head in ('crate', 'file'))
            if 'lines' in row and file:
                path = f'crates/{crate}/specs/{file}.antt'
                if not text(path):
                    report(place, f'there is no {path}')
                elif row['lines'] != str(text(path).count('\n')):
                    report(place, f'{path} has {text(path).count(chr(10))} lines, not {row["lines"]}')


def check_names(document):
    """Paths and names in backticks, outside of blocks of code and of TRACE's tables. A name may leave out its crate."""
    source = re.sub(r'```.*?```', lambda found: '\n' * found.group().count('\n'), text(document), flags=re.S)
    for number, line in enumerate(source.splitlines(), 1):
        if document == TRACE and line.startswith('|'):
            continue
        for word in ' '.join(re.findall(r'`([^`]+)`', line)).split():
            path = re.fullmatch(r'[\w.*+-]+(?:/[\w.*+-]+)*/?', word)
            name = re.match(r'([a-z_0-9]+)(?:::\w+)+', word)
            dotted = re.fullmatch(r'[A-Z]\w*\.([^\s.]+)(?:\.[^\s.]+)?', word)
            if path and '/' in word and not is_path(word):
                report(f'{document}:{number}', f'there is no path {word}')
            elif name and name[1] not in KIT:
                parts = name[0].split('::')
                if not (is_in_source(*parts) if parts[0] in CRATES else any(is_in_source(crate, *parts) for crate in CRATES)):
                    report(f'{document}:{number}', f'no source has {name[0]}')
            elif dotted and dotted[1] not in ENDINGS and not ANY.search(word):
                if not any(is_defined(crate, *word.split('.')) for crate in CRATES):
                    report(f'{document}:{number}', f'no crate has {word}')


def check_citations(place, cell, cited):
    """The citations of a cell; what is found of the source goes to `cited`, as a crate and a name."""
    crate, context = 'designs', None
    for word in re.findall(r'`([^`]+)`', cell):
        parts = word.split('::') if '::' in word else word.split('.')
        if word in CRATES:
            crate = word
        elif '/' in word:
            if not is_path(word):
                report(place, f'there is no path {word}')
        elif '::' in word:
            context = (is_in_source, *parts[:-1])
            if parts[0] not in CRATES or not is_in_source(*parts):
                report(place, f'no source has {word}')
            cited.update({(parts[0], parts[-1]), (parts[0], '::'.join(parts[-2:]))})
        elif len(parts) > 1:
            context = (is_defined, crate, parts[0])
            if not is_defined(crate, *parts):
                report(place, f'{crate} has no {word}')
        elif context is None:
            report(place, f'{word} alone, and nothing before it')
        else:
            is_known, *names = context
            if not is_known(*names, word):
                report(place, f'{" ".join(names)} has no {word}')
            if is_known is is_in_source:
                cited.add((names[0], word))


def public_traits(crate, path):
    """The traits of a file that other crates can name; their functions are as public as they are."""
    root, found = text(f'crates/{crate}/src/lib.rt'), re.findall(r'^pub trait (\w+)', path.read_text(), re.M)
    if path.stem == 'lib' or re.search(rf'^pub mod {path.stem};', root, re.M):
        return found
    return [trait for trait in found if re.search(rf'^pub use [\w:]*\{{?[^;]*\b{trait}\b', root, re.M)]


def check_trace():
    guarded, cited = set(), set()
    for place, row in table_rows(TRACE):
        crate = None
        for edit in filter(None, row.pop('must-fail edits', '').split(', ')):
            crate = edit.split('/')[0] if '/' in edit else crate
            edit = edit if '/' in edit else f'{crate}/{edit}'
            guarded.add(edit)
            if edit not in EDITS:
                report(place, f'there is no edit {edit}')
        for cell in row.values():
            check_citations(place, cell, cited)
    for edit in sorted(EDITS - guarded):
        report(TRACE, f'the edit {edit} is not cited')
    for path in sorted(ROOT.glob('crates/*/src/*.rt')):
        crate, source = path.parent.parent.name, path.read_text()
        if not text(f'crates/{crate}/src/lib.rt'):
            continue
        functions = re.findall(r'^ *pub (?:extern "C" )?fn (\w+)(.*?)^ *\{', source, re.M | re.S)
        for trait in public_traits(crate, path):
            found = re.findall(r'^    fn (\w+)(.*?)[;{]$', ''.join(blocks(rf'pub trait {trait}\b', source)), re.M | re.S)
            functions += [(f'{trait}::{name}', contract) for name, contract in found]
        for name, contract in functions:
            if (crate, name) not in cited:
                report(TRACE, f'the public function {crate}::{name} is not cited')
            if 'ensures' not in contract:
                report(path.relative_to(ROOT), f'{name} is public and has no contract')
            if 'requires' in contract:
                report(path.relative_to(ROOT), f'{name} is public and asks something of who calls it')


check_examples()
check_counts()
for each in DOCUMENTS:
    check_names(each)
check_trace()
finish()
