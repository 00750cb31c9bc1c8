"""Self-checks of the byte table and of the records, which have no vectors: all pairs of bytes are one loop, and the inputs of the
bench program stand in tests/bench_runs.py."""

import itertools

from reference_meaning import figures
from reference_meaning.designs import MITCHELL, unsigned_product
from reference_meaning.records import KINDS, transcript
from reference_meaning.refusals import CUT_SHORT, INPUT_TOO_LONG, UNKNOWN_KIND
from reference_meaning.table import table_product

from .expect import expect


def check_table():
    """The codes give what design 1 gives at width 8, for all pairs of bytes."""
    for a, b in itertools.product(range(256), repeat=2):
        found, due = table_product(a, b), unsigned_product(MITCHELL, 0, a, b)
        expect(found == due, f"table product of {a} and {b}: {found}, not {due}")


def check_sample():
    found = transcript(figures.RECORDS)
    expect(found == figures.RECORDS_TEXT, f"the sample prints {found!r}")


def check_ends_of_reading():
    """A kind that is unknown, a body without its last byte, and one byte too many."""
    ends = [(bytes([kind]), kind, UNKNOWN_KIND) for kind in range(256) if kind not in KINDS]
    ends += [(bytes([kind, *[0] * (KINDS[kind].length - 1)]), kind, CUT_SHORT) for kind in KINDS]
    ends += [(bytes(65536), 0, UNKNOWN_KIND), (bytes(65537), 0, INPUT_TOO_LONG)]
    for data, kind, refusal in ends:
        found = transcript(data)
        due = f"{kind} no {refusal}\ntotal 0 1\n"
        expect(found == due, f"{len(data)} bytes from {data[:8].hex()} print {found!r}")


def check():
    check_table()
    check_sample()
    check_ends_of_reading()
