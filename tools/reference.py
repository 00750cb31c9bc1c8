"""The reference program: docs/SCOPE.md once more, in plain integers, and the test vectors that it makes.

It was written from the papers alone: the scope (docs/SCOPE.md), which is the authority, and the source documents 000, 001, 002 and
003 that it cites.  It shares no code with the library and was written without sight of it, so an agreement between the two says
something about both.  Beside this file stand

    reference_meaning/   what each operation gives, refusals included
    reference_vectors/   which inputs become vectors, and how a line is written
    reference_checks/    what the program checks of itself before it prints

Without arguments it checks itself and then prints test vectors, one a line, fields separated by one space, a line feed after each
line.  The first field is the kind, a letter.  The products, `u` and `s`, come first, mixed; the other kinds follow in the order in
which they stand here:

    u DESIGN WIDTH SETTING A B REFUSAL PRODUCT
    s DESIGN WIDTH SETTING A B REFUSAL PRODUCT
    r DESIGN SETTING WEIGHTS FRAME PLACES REFUSAL SCORE TRUE ERROR T N LARGEST PLACE RESIDUES
    t LENGTH COLUMNS ROW REFUSAL START COUNT
    l DESIGN SETTING COLUMNS STORE FRAME PLACES REFUSAL SCORES
    h SCORE T SHIFT REFUSAL SCOREBITS TBITS
    f A B REFUSAL BITS

All numbers are decimal, a negative one with a leading minus sign.  REFUSAL is 0 where the input is accepted; where it is refused,
every field after REFUSAL is 0.  A list is its length followed by its elements, so an empty list is 0.  A repeated list is a length
followed by a list: so many elements, those of the list again and again from its first on.  The list is as short as it can be, so it
is empty only where the length is 0.

`u` (unsigned product) and `s` (signed product): DESIGN, WIDTH and SETTING fit 32 bits unsigned; A and B fit 64 bits, unsigned for
`u` and signed for `s`, and so does PRODUCT.

`r` (scoring a row, at width 16): DESIGN and SETTING fit 32 bits unsigned.  WEIGHTS and FRAME are lists of signed 16-bit numbers.
PLACES is the length of the residue slice that is lent, whose place j (counted from 0) holds 1000000 + j before the call.  SCORE,
TRUE and ERROR are signed, T and N are not negative.  LARGEST is the largest size of a residue, and PLACE the first place that has
it.  RESIDUES is the list of the residues, as long as the row; every later place keeps its contents, and where the row is refused, so
that RESIDUES is empty, every place does.

`t` (finding a row in a weight store): LENGTH is the store's, 0 to 8192, COLUMNS and ROW fit 64 bits unsigned.  The row is the COUNT
elements of the store from place START on.

`l` (scoring a layer, at width 16): DESIGN and SETTING fit 32 bits unsigned, COLUMNS 64 bits.  STORE and FRAME are repeated lists of
signed 16-bit numbers, STORE of at most 12288.  PLACES is the length of the score slice that is lent, whose place j holds 1000000 + j
before the call.  SCORES is the list of the scores, and its length the number of rows that is handed back; every later place keeps
its contents, and where the layer is refused, so that SCORES is empty, every place does.

`h` (handing out a score): SCORE fits 64 bits signed, T 64 bits unsigned, SHIFT 32 bits unsigned.  SCOREBITS and TBITS are binary64
patterns as unsigned numbers.

`f` (single product): A, B and BITS are binary32 patterns as unsigned numbers.

Exit status: 0 after printing, 1 if a self-check fails (nothing is printed then), 2 if there are arguments.
"""

import sys

# Nothing is to be left beside the sources.
sys.dont_write_bytecode = True

import reference_checks.layers
import reference_checks.products
import reference_checks.records
import reference_checks.rows
import reference_checks.scaling
import reference_checks.singles
import reference_checks.stores
import reference_vectors.layers
import reference_vectors.products
import reference_vectors.rows
import reference_vectors.scaling
import reference_vectors.singles
import reference_vectors.stores
from reference_checks.expect import SelfCheckFailed, expect

# The vectors in the order of printing, each with what checks them.
PARTS = (
    (reference_vectors.products, reference_checks.products),
    (reference_vectors.rows, reference_checks.rows),
    (reference_vectors.stores, reference_checks.stores),
    (reference_vectors.layers, reference_checks.layers),
    (reference_vectors.scaling, reference_checks.scaling),
    (reference_vectors.singles, reference_checks.singles),
)

# What is printed is kept beside the library, so it must stay small; the program that runs it reads less than 2^21 bytes.
MAX_BYTES = 1500000
MAX_LINES = 23000


def checked_text():
    """All lines of vectors, after the self-checks."""
    lines = []
    for vectors, checks in PARTS:
        chosen = vectors.chosen()
        checks.check(chosen)
        lines += [vectors.line(case) for case in chosen.cases]
    reference_checks.records.check()
    text = "".join(line + "\n" for line in lines)
    expect(len(lines) < MAX_LINES, f"{len(lines)} lines")
    expect(len(text) < MAX_BYTES, f"{len(text)} bytes")
    return text


def main(arguments):
    if arguments:
        print("usage: reference.py (no arguments)", file=sys.stderr)
        return 2
    try:
        text = checked_text()
    except SelfCheckFailed as failure:
        print(f"self-check failed: {failure}", file=sys.stderr)
        return 1
    # Written as bytes, so that a line feed stays one on every system.
    sys.stdout.buffer.write(text.encode("ascii"))
    return 0


if __name__ == "__main__":
    sys.exit(main(sys.argv[1:]))
