"""The bench's records: what the bench program prints for an input."""
import ctypes

from . import raw
from ._lent import BYTES, lent

# bytes of records that are read; a longer input is refused whole, with 19
INPUT_MAX = 65536
# bytes that the transcript of any input has room in
TRANSCRIPT_MAX = 245760


def transcript(records):
    """What the bench prints for an input: a line for each record, and the total. A refusal, 17, 18 and 19 among them, is a line.

    >>> print(transcript(bytes([3, 255, 255, 7])), end='')
    3 ok 65024
    7 no 17
    total 1 1
    """
    out = (ctypes.c_uint8 * TRANSCRIPT_MAX)()
    with lent('records', records, BYTES) as r:
        written = raw.highvane_transcript(r.start, r.length, ctypes.addressof(out))
    return ctypes.string_at(out, written).decode('ascii')
