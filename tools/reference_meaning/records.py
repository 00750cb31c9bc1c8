"""The records of the bench program, and the text that it prints (docs/SCOPE.md, "The bench program's records").

A further kind of record is a line of KINDS.
"""

import collections

from . import refusals
from .products import SIGNED, ProductInput, product_outcome
from .rows import ROW_WIDTH
from .singles import SingleInput, single_outcome
from .table import table_product

MAX_INPUT = 65536


def unsigned_field(field):
    return int.from_bytes(field, "little")


def signed_field(field):
    return int.from_bytes(field, "little", signed=True)


def product_record(body):
    operands = signed_field(body[2:4]), signed_field(body[4:6])
    return product_outcome(ProductInput(SIGNED, body[0], ROW_WIDTH, body[1], *operands))


def single_record(body):
    return single_outcome(SingleInput(unsigned_field(body[:4]), unsigned_field(body[4:])))


def table_record(body):
    return refusals.ACCEPTED, table_product(*body)


# The bytes of a kind's body, and what gives the refusal number and the result of a whole one.
Kind = collections.namedtuple("Kind", "length outcome")

KINDS = {
    1: Kind(6, product_record),
    2: Kind(8, single_record),
    3: Kind(2, table_record),
}


def record_at(data, at):
    """The refusal number and the result of the record at a place, and where the next one is:
    past the end, where this one ends the reading."""
    kind = KINDS.get(data[at])
    if kind is None:
        return refusals.UNKNOWN_KIND, 0, len(data)
    body = data[at + 1 : at + 1 + kind.length]
    if len(body) < kind.length:
        return refusals.CUT_SHORT, 0, len(data)
    return *kind.outcome(body), at + 1 + kind.length


def line_of(kind, refusal, result):
    return f"{kind} no {refusal}\n" if refusal else f"{kind} ok {result}\n"


def transcript(data):
    """The whole text for an input of bytes."""
    if len(data) > MAX_INPUT:
        return line_of(0, refusals.INPUT_TOO_LONG, 0) + "total 0 1\n"
    text, accepted, refused, at = "", 0, 0, 0
    while at < len(data):
        kind = data[at]
        refusal, result, at = record_at(data, at)
        text += line_of(kind, refusal, result)
        accepted += refusal == 0
        refused += refusal != 0
    return text + f"total {accepted} {refused}\n"
