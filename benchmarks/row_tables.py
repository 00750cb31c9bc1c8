"""The tables of scored rows, each as its head and its lines, and where there are several, each with its title first. `table` prints one."""
from measure import BEST_ROWS, BY_ITSELF, C_ROWS, OURS, ROWS, Code, run_bytes, times

PAIRS = 4096
DESIGNS = {(1, 0): '1', (2, 0): '2', (3, 1): '3, s = 1', (3, 2): '3, s = 2', (3, 4): '3, s = 4', (3, 16): '3, s = 16',
           (4, 6): '4, t = 6', (4, 15): '4, t = 15', (5, 6): '5, t = 6', (5, 15): '5, t = 15'}
# the designs that row.c has by patterns too, and those that keep bits
PATTERNS, KEEPING = (1, 5), (4, 5)
DATA = {'uniform': 'Uniform over all 65,536 numbers', 'small': 'Small numbers, some of them 0'}
MASKED, BRANCHING = ['c_each_masked', 'c_one_masked'], ['c_each', 'c_one']
COLUMNS = {OURS: 'ours', 'c_each_masked': 'each, masked', 'c_each': 'each', 'c_one_masked': 'one, masked', 'c_one': 'one',
           'c_each_small': 'Os each', 'c_one_small': 'Os one', 'rust_each': 'Rust each', 'rust_one_loop': 'Rust one'}
LENGTHS = [1, 64, PAIRS]
# What a block may take more or fewer by way of the row by any design, which is compiled apart, as instructions a pair. A test and a jump for
# every four pairs would be half an instruction.
OF_BLOCK = 0.1


def number(value):
    return f'{value:,}' if isinstance(value, int) else f'{value:,.1f}'


def table(head, rows):
    print(f'| {" | ".join(head)} |')
    print(f'|{"---|" * len(head)}')
    for row in rows:
        print(f'| {" | ".join(row)} |')
    print()


class Rows:
    """Figures of scored rows: asked for in a first pass over the tables, counted all in one run, and read in a second."""

    def __init__(self):
        self.asked, self.found = [], {}

    def both(self, name, data, design, setting, pairs, frame=None, places=None):
        """Instructions of a whole call, and branches predicted wrongly."""
        lengths = [pairs if length is None else length for length in (pairs, frame, places)]
        line = ' '.join(map(str, (name, data, design, setting, *lengths)))
        if not self.found:
            self.asked.append(line)
            return 1, 1
        return self.found[line]

    def count(self, *call):
        return self.both(*call)[0]

    def pair(self, name, data, design, setting):
        return self.count(name, data, design, setting, PAIRS) / PAIRS


def pair_tables(rows):
    tables = []
    for data, title in DATA.items():
        body = []
        for (design, setting), label in DESIGNS.items():
            figures = {name: rows.pair(name, data, design, setting) for name in ROWS}
            fewest = [min(figures[name] for name in names) for names in (MASKED, MASKED + BRANCHING)]
            body.append([label, *(number(figures[name]) for name in COLUMNS), *(f'{figures[OURS] / few:.2f}' for few in fewest)])
        tables.append((title, ['design', *COLUMNS.values(), 'ours / masked', 'ours / fewest'], body))
    return tables


def time_tables(program):
    """What rows take in nanoseconds, and as ratios to C: to the best written by hand, and to the best with all that the machine has."""
    stages = {(3, s): f'3, s = {s}' for s in range(1, 17)}
    designs = {key: label for key, label in DESIGNS.items() if key[0] < 3} | stages
    designs |= {key: label for key, label in DESIGNS.items() if key[0] > 3}
    natives = [name for name in BEST_ROWS if name.endswith('_native') and 'patterns' not in name]
    patterns = ['c_patterns', 'c_patterns_native']
    found = times(program, [(*key, pairs) for key in designs for pairs in (1, 8, PAIRS)])

    def of(key, pairs, names):
        return min(found[(*key, pairs, name)] for name in names)

    long, short = [], []
    for key, label in designs.items():
        ours, best, native = (of(key, PAIRS, names) / PAIRS for names in ([OURS], C_ROWS, natives))
        by_patterns = [f'{of(key, PAIRS, [name]) / PAIRS:.2f}' if key[0] in PATTERNS else '' for name in patterns]
        branch = of(key, PAIRS, BRANCHING) / PAIRS
        long.append([label, f'{ours:.2f}', f'{best:.2f}', f'{ours / best:.2f}', f'{native:.2f}', f'{ours / native:.2f}', *by_patterns,
                     f'{branch:.2f}'])
        cells = []
        for pairs in (1, 8):
            ours, best = (of(key, pairs, names) for names in ([OURS], C_ROWS))
            cells += [f'{ours:.1f}', f'{best:.1f}', f'{ours / best:.2f}']
        short.append([label, *cells])
    head = ['design', 'ours', 'best C', 'ours / best C', 'best C, native', 'ours / native', 'patterns in C', 'patterns, native', 'branch']
    return ((head, long),
            (['design', 'ours, 1 pair', 'best C', 'ours / best C', 'ours, 8 pairs', 'best C', 'ours / best C'], short))


def wrong_table(rows):
    body = [[label, *(f'{rows.both(name, "uniform", *key, PAIRS)[1] / PAIRS:.1f}' for name in COLUMNS)]
            for key, label in DESIGNS.items()]
    return ['design', *COLUMNS.values()], body


def growth_tables(rows):
    head = ['design', 'empty', *(f'{n:,}' for n in LENGTHS), 'a pair, 1 to 64', 'a pair, 64 to 4,096']
    tables = []
    for data, title in (('ones', 'The same pair throughout, 32,767 and −32,767'), ('uniform', DATA['uniform'])):
        body = []
        for (design, setting), label in DESIGNS.items():
            empty, *three = (rows.count(OURS, data, design, setting, n) for n in (0, *LENGTHS))
            slopes = [(three[i + 1] - three[i]) / (LENGTHS[i + 1] - LENGTHS[i]) for i in range(2)]
            body.append([label, *(number(n) for n in (empty, *three)), *(f'{slope:.2f}' for slope in slopes)])
        tables.append((title, head, body))
    return tables


def own_table(rows):
    """The row of each design by itself, and a pair of it by any design. The two are compiled apart, so that a block may take some more or
    fewer; a pair takes the same, and by designs 4 and 5 with every setting, or else a loop would choose; where it does not, this stops. The
    pair is the same throughout, so that only the first block is looked through for a place."""
    keys = {key: label for key, label in DESIGNS.items() if key[0] not in KEEPING}
    keys |= {(design, t): f'{design}, every t' for design in KEEPING for t in range(1, 16)}
    body = {}
    for (design, setting), label in keys.items():
        own, any_design = ([rows.count(name, 'ones', design, setting, n) for n in LENGTHS] for name in (BY_ITSELF[design], OURS))
        a_pair, by_any = ((counts[2] - counts[1]) / (LENGTHS[2] - LENGTHS[1]) for counts in (own, any_design))
        cells = [label, *(number(n) for n in own), f'{a_pair:.2f}', f'{by_any:.2f}']
        if rows.found and (abs(by_any - a_pair) > OF_BLOCK or body.get(label, cells) != cells):
            raise SystemExit(f'benchmarks: a row of design {design} with setting {setting} does not choose once: {own}, {any_design}')
        body[label] = cells
    return ['design', *(f'{n:,}' for n in LENGTHS), 'a pair, 64 to 4,096', 'a pair by any design'], list(body.values())


def own_code_table(program):
    code = Code(program)
    return ['row', 'bytes'], [[f'`{name}`', number(sum(size for _, size, _ in code.sizes(name)))] for name in (*BY_ITSELF.values(), OURS)]


def refusal_table(rows):
    def counted(design, setting, pairs, frame, places):
        return number(rows.count(OURS, 'uniform', design, setting, pairs, frame, places))
    body = [['1', *(counted(6, 0, n, n, n) for n in LENGTHS)], ['3', *(counted(1, 1, n, n, n) for n in LENGTHS)],
            ['5', *(counted(1, 0, n, n - 1, n) for n in LENGTHS)],
            ['6', '', '', f'{counted(1, 0, PAIRS + 1, PAIRS + 1, PAIRS + 1)} (4,097 pairs)'],
            ['7', *(counted(1, 0, n, n, n - 1) for n in LENGTHS)]]
    return ['refusal', *(f'{n:,}' for n in LENGTHS)], body


def stage_table(rows):
    head = ['s', *(cell for data in ('most stages', 'uniform') for cell in (f'ours, {data}', 'more', f'each, {data}', 'more'))]
    body, before = [], None
    for stages in range(1, 17):
        figures = [rows.pair(name, data, 3, stages) for data in ('ones', 'uniform') for name in (OURS, 'c_each')]
        more = [f'{b - a:.1f}' for a, b in zip(before, figures)] if before else [''] * 4
        body.append([str(stages), *(cell for pair in zip(map(number, figures), more) for cell in pair)])
        before = figures
    return head, body


def code_table(program):
    code, body, ours = Code(program), [], None
    for name, title in COLUMNS.items():
        sizes = code.sizes(name)
        total = sum(size for _, size, _ in sizes)
        ours = ours or total
        parts = ', '.join(f'`{symbol}` {size:,}' for symbol, size, _ in sizes) if len(sizes) > 1 else ''
        body.append([title, number(total), f'{ours / total:.2f}', str(sum(reads for *_, reads in sizes)), parts])
    return ['row', 'bytes', 'ours / this', 'reads of constants', 'parts'], body


def design_code_table(program):
    """What a row of each design runs of the code: of a long one with pairs left over from the last four, and of a short one."""
    names = [OURS, *MASKED[:1]]
    body = []
    for design, setting in {1: 0, 2: 0, 3: 2, 4: 6, 5: 6}.items():
        calls = [(design, setting, pairs, pairs, pairs) for pairs in (3, PAIRS - 1)]
        body.append([str(design), *(number(run_bytes(program, name, calls)) for name in names)])
    return ['design', *(COLUMNS[name] for name in names)], body
