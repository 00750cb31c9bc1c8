"""What the choice of inputs shares: limits, operands at boundaries, repetitions, rotations, random numbers, and how a line is put
together."""

import collections
import itertools
import math
import random

from reference_meaning.products import UNSIGNED, fits, highest_operand, lowest_operand

MAX_U32 = 2**32 - 1
MAX_U64 = 2**64 - 1
MAX_I64 = 2**63 - 1
MIN_I64 = -(2**63)

# The inputs of an operation, without repetition, and pairs of the refusals that apply to an input and that input: where several
# apply, their order is seen.
Chosen = collections.namedtuple("Chosen", "cases ordered")


def without_repetition(cases):
    # A dictionary keeps the order of first arrival.
    return list(dict.fromkeys(cases))


def repeated(numbers, length):
    """So many numbers, those of a list again and again."""
    return tuple(itertools.islice(itertools.cycle(numbers), length))


def line_of(*fields):
    return " ".join(str(field) for field in fields)


def generator():
    """Each operation draws from a generator of its own that starts with the same seed, so that a change to one of them leaves
    the others' lines alone."""
    return random.Random(20010203)


def boundary_operands(kind, width):
    """Zero, powers of two, ties of the nearest power, ends of the width, and neighbours."""
    centres = [0]
    for k in range(width + 1):
        centres.append(2**k)
        centres.append(3 * 2**k)
    near = {centre + step for centre in centres for step in (-1, 0, 1)}
    both_signs = near | {-operand for operand in near}
    ends = {lowest_operand(kind, width), highest_operand(kind, width)}
    return sorted(operand for operand in both_signs | ends if fits(kind, width, operand))


def rotation_step(length):
    """A step near three eighths of the length that reaches every place of a rotation."""
    step = 3 * length // 8
    while math.gcd(step, length) != 1:
        step += 1
    return step


def boundary_pairs(operands):
    """Pairs of operands without end; any run of len(operands) pairs from the start of a
    turn has each operand once in first place and once in second place."""
    length = len(operands)
    step = rotation_step(length)
    for index in itertools.count():
        # The turn number shifts the second operand, so that a later turn brings new pairs.
        turn = index // length
        yield operands[index % length], operands[(index * step + turn) % length]


def random_size(rng, bits, drawn=32):
    """A size of random bit length, at most `bits`; small sizes are as likely as large ones.
    Only getrandbits is used, whose results do not depend on the version of Python."""
    length = rng.getrandbits(16) % (bits + 1)
    if length == 0:
        return 0
    leading = 2 ** (length - 1)
    return leading + rng.getrandbits(drawn) % leading


def random_operand(rng, kind, width):
    if kind == UNSIGNED:
        return random_size(rng, width)
    size = random_size(rng, width - 1)
    return -size if rng.getrandbits(1) else size


def random_pairs(rng, kind, width, count):
    return [
        (random_operand(rng, kind, width), random_operand(rng, kind, width))
        for _ in range(count)
    ]
