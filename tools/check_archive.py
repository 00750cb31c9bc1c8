#!/usr/bin/env python3
"""Check the compiled archive of the C interface, and print the bytes of each function.

The chip has no multiplier, so no function that computes a design's product may hold a multiply instruction. Scoring a row, which the bench
does and the chip does otherwise, multiplies: it forms the true product of each pair, and by designs 2 and 3 the residue as the product of
what powers leave; the compiler makes two loops of each, for several pairs and for the rest, and the pairs that go one by one have a third.
The writer of decimals divides by ten, which the compiler does by a multiply. Scoring a layer forms no true product of a pair, and no
function of its file multiplies anything.

No loop of a row or of a layer jumps by a table, and no inner loop chooses a design or works out what a setting fixes: none compares with 2,
3, 4 or 5, calls, or shifts by a register, and one that takes several pairs at a time has no condition but its own end. The stages of a few
pairs of a row, one pair after the other, are a loop of the kernel's, which shifts by what the operands have.

The code is for any processor of x86-64: no instruction is one that came later. The archive must need nothing from outside (no undefined
symbol) and hold no data that a program could write, so that it can go into ROM as it is. Constants are counted in each of its three files:
the byte table's 512 bytes, the words of a transcript, the places that a row, a layer and a product by any design jump to, and the vectors
that rows and layers read, of which a linked program has those of its own once. Of the stack below its pointer a function may use the red
zone alone, as the header says.

Usage: python3 tools/check_archive.py ARCHIVE     (tools/archive writes target/libhighvane.a)
"""
import re
import subprocess
import sys

# every multiply of x86-64: mul, imul, mulx, and the vector ones (pmuludq, vpmulld, mulps, ..)
MULTIPLY = re.compile(r'v?p?i?mul\w*|v?pmadd\w*|vf[n]?m(?:add|sub)\w*')
# what not every processor of x86-64 has: SSE3 and later, and the bits that are counted or moved in one instruction
LATER = re.compile(r'v\w+|p?h(?:add|sub)\w+|addsub\w+|mov(?:s[lh]|d)dup|lddqu|pshufb|pabs[bwd]|psign\w+|palignr|pmaddubsw|pmulhrsw'
                   r'|p?blend\w+|dp[pb][sd]'
                   r'|ptest|pm(?:ax|in)(?:sb|sd|uw|ud)|pmulld|pmuldq|pmov[sz]x\w+|p(?:ins|ext)r[bdq]|(?:insert|extract)ps|round[sp][sd]|packusdw'
                   r'|pcmp(?:eqq|gtq|[ei]str\w+)|phminposuw|mpsadbw|crc32\w*|popcnt\w*|lzcnt\w*|tzcnt\w*|andn|bextr|sh[lr]x|sarx|rorx'
                   r'|pdep|pext|movbe\w*')
# how many a function may have: a row's true products and residues, of which a vector takes up to three; a decimal's division by ten
ALLOWED = {
    'highvane_score_row': 27,
    'highvane_score_row_mitchell': 4,
    'highvane_score_row_nearest': 7,
    'highvane_score_row_staged': 9,
    'highvane_score_row_truncated': 4,
    'highvane_score_row_twice_truncated': 3,
    'transcripts::writers::put_digits': 1,
}
# the rows and the file of the layer, in which loops are looked at; what makes a loop one of vectors, one that goes pair by pair, and the
# kernel's
ROW = re.compile(r'highvane_score_row(?:_\w+)?$')
LAYER_FILE = 'capi_layers.o'
VECTOR = re.compile(r'p(?:add|sub|mull|mulh|muludq|madd)\w*')
ONE_BY_ONE = 'inc'
KERNEL = 'bsr'
CHOICE = re.compile(r'\$0x[2345],')
BY_REGISTER = re.compile(r'%cl,')
# a jump; one by a table; what is not followed by the next instruction; and what fills a gap
JUMP = re.compile(r'j|notrack\s+jmp')
BY_TABLE = re.compile(r'(?:notrack\s+)?jmp\w*\s+\*')
ENDS = re.compile(r'(?:notrack\s+)?jmp|ret|ud2')
GAP = re.compile(r'(?:data16\s|cs\s)*(?:nop|xchg\s+%ax,%ax)')
# sections that a program writes, or that run before it; and constants, with how many bytes they may have
DATA = re.compile(r'\.(data|bss|tdata|tbss|init_array|fini_array)\b')
CONSTANTS = re.compile(r'\.rodata\b')
CONSTANT_BYTES = {'capi.o': 512 + 24 + (20 + 16) + 372, 'capi_rows_c.o': 852, 'capi_layers.o': 236}
# an operand below the stack pointer, and how many bytes below it anything may lie
BELOW_STACK = re.compile(r'-0x([0-9a-f]+)\(%rsp')
RED_ZONE = 128


def output(*command):
    return subprocess.run(command, check=True, capture_output=True, text=True).stdout


def functions(archive):
    """The instructions of each function, each with its place and its operands, and how many bytes it has; by its file and its name, since
    two files may have a function of one name."""
    code, file, name = {}, None, None
    for line in output('objdump', '-d', '--no-show-raw-insn', archive).splitlines():
        member, head = re.match(r'(\S+): +file format', line), re.match(r'[0-9a-f]+ <(.+)>:$', line)
        if member:
            file, name = member.group(1), None
        if head:
            name = file, head.group(1)
            code[name] = []
        instruction = re.match(r'\s+([0-9a-f]+):\s+(\S+)(.*)', line)
        if instruction and name:
            code[name].append((int(instruction[1], 16), instruction[2], instruction[3]))
    sizes = {}
    for line in output('nm', '--print-size', '--defined-only', archive).splitlines():
        member, symbol = re.match(r'(\S+):$', line), re.match(r'[0-9a-f]+ ([0-9a-f]+) [Tt] (.+)$', line)
        if member:
            file = member.group(1)
        if symbol:
            sizes[file, symbol.group(2)] = int(symbol.group(1), 16)
    return code, sizes


class Flow:
    """The blocks of a function, each by the place where it begins, with its instructions and the places where it may go on."""

    def __init__(self, function):
        # what fills the gap before a loop leads nowhere
        code = [each for each in function if not GAP.match(each[1] + each[2])]
        after = {place: code[i + 1][0] for i, (place, _, _) in enumerate(code[:-1])}
        jumps = {place: target(operands) for place, instruction, operands in code if JUMP.match(instruction + operands)}
        self.first = code[0][0]
        starts = {self.first, *jumps.values(), *(after[place] for place in jumps if place in after)}
        self.instructions, self.next = {}, {}
        for place, instruction, operands in code:
            if place in starts:
                block = self.instructions.setdefault(place, [])
            block.append((place, instruction, operands))
        for start, block in self.instructions.items():
            last, instruction, operands = block[-1]
            self.next[start] = {jumps[last]} - {None} if last in jumps else set()
            if not ENDS.match(instruction + operands) and last in after:
                self.next[start].add(after[last])
        # a jump by a table leads to what nothing else leads to
        by_table = set(self.instructions) - {self.first}.union(*self.next.values())
        for start, block in self.instructions.items():
            if BY_TABLE.match(block[-1][1] + block[-1][2]):
                self.next[start] |= by_table

    def without(self, left_out):
        """The blocks that are reached without one of them."""
        found, waiting = set(), [self.first]
        while waiting:
            start = waiting.pop()
            if start not in found and start != left_out:
                found.add(start)
                waiting += self.next[start]
        return found

    def loops(self):
        """The blocks of each loop, by the block that it begins with: no way leads into a loop but by that one."""
        found = {}
        for head in set().union(*self.next.values()):
            by_head = set(self.instructions) - self.without(head)
            waiting = [start for start in by_head if head in self.next[start]]
            body = {head} if waiting else set()
            while waiting:
                start = waiting.pop()
                if start not in body:
                    body.add(start)
                    waiting += [each for each in by_head if start in self.next[each]]
            if body:
                found[head] = body
        return found


def target(operands):
    """Where a jump leads, if it says so."""
    to = re.match(r'\s*([0-9a-f]+) <', operands)
    return int(to[1], 16) if to else None


def loops_of(code):
    """The instructions of each loop of a function, by the place where it begins, and whether it holds no other loop."""
    flow = Flow(code)
    loops = flow.loops()
    for head, body in sorted(loops.items()):
        inner = not any(other in body for other in loops if other != head)
        yield head, [each for start in sorted(body) for each in flow.instructions[start]], inner


def choices(loop, inner):
    """What a loop of a row or a layer does beside its work on pairs: of any loop that it jumps by a table, and the rest of inner ones."""
    names = [instruction for _, instruction, _ in loop]
    yield from (f'a jump by a table, {name}{operands}' for _, name, operands in loop if BY_TABLE.match(name + operands))
    if not inner or KERNEL in names:
        return
    for _, instruction, operands in loop:
        if instruction.startswith('call'):
            yield 'a call'
        if instruction.startswith('cmp') and CHOICE.search(operands):
            yield f'a choice, {instruction}{operands}'
        if instruction.startswith(('sh', 'sa')) and BY_REGISTER.search(operands):
            yield f'a shift by a register, {instruction}{operands}'
    conditions = sum(name.startswith('j') and name != 'jmp' for name in names)
    if conditions > 1 and any(VECTOR.fullmatch(name) for name in names) and ONE_BY_ONE not in names:
        yield f'{conditions} conditions'


def main():
    if len(sys.argv) != 2:
        sys.exit('usage: check_archive.py ARCHIVE')
    archive = sys.argv[1]
    code, sizes = functions(archive)
    wrong = []
    if not any(name.startswith('highvane_') for _, name in code):
        wrong.append('no exported function was found')
    for (file, name), instructions in code.items():
        found = [i for _, i, _ in instructions if MULTIPLY.fullmatch(i)]
        if len(found) > (0 if file == LAYER_FILE else ALLOWED.get(name, 0)):
            wrong.append(f'{name} multiplies: {", ".join(found)}')
        wrong += [f'{name} has {later}, which not every processor has' for later in sorted({i for _, i, _ in instructions if LATER.fullmatch(i)})]
        below = max((int(depth, 16) for _, _, operands in instructions for depth in BELOW_STACK.findall(operands)), default=0)
        if below > RED_ZONE:
            wrong.append(f'{name} reaches {below} bytes below the stack pointer, more than {RED_ZONE}')
    loops = {'rows': 0, 'layers': 0}
    for (file, name), instructions in code.items():
        if file == LAYER_FILE or ROW.search(name):
            for place, loop, inner in loops_of(instructions):
                loops['layers' if file == LAYER_FILE else 'rows'] += inner
                wrong += [f'{name}, the loop at {place:x}: {choice}' for choice in choices(loop, inner)]
    wrong += [f'no loop of {of} was found' for of, count in loops.items() if not count]
    undefined = re.findall(r'^\s*U (.+)$', output('nm', '--undefined-only', archive), re.M)
    if undefined:
        wrong.append('undefined symbols: ' + ' '.join(undefined))
    constants, file = {}, None
    for line in output('size', '-A', archive).splitlines():
        fields = line.split()
        if '(ex ' in line:
            file = fields[0]
        if len(fields) == 3 and DATA.match(fields[0]) and fields[1] != '0':
            wrong.append(f'data: section {fields[0]} of {fields[1]} bytes')
        if len(fields) == 3 and CONSTANTS.match(fields[0]):
            constants[file] = constants.get(file, 0) + int(fields[1])
    for file in sorted({*constants, *CONSTANT_BYTES}):
        found, most = constants.get(file, 0), CONSTANT_BYTES.get(file, 0)
        if not 0 < found <= most:
            wrong.append(f'{file}: {found} bytes of constants, and 1 to {most} are expected')
    for file, name in sorted(sizes, key=lambda each: each[::-1]):
        print(f'{sizes[file, name]:6} bytes, {len(code[file, name]):4} instructions  {name}')
    for line in wrong:
        print('check_archive:', line, file=sys.stderr)
    if wrong:
        sys.exit(1)
    print(f'{len(code)} functions, {sum(constants.values())} bytes of constants: no multiply instruction in a design, no undefined symbol, no data')
    print(f'{loops["rows"]} inner loops of rows, {loops["layers"]} of layers: none chooses a design, and none works out what a setting fixes')


main()
