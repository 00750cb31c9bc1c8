"""Memory that a caller lends for one call, by the buffer protocol and without a copy. What C leaves to its callers is seen to here: what
the items are, where they lie, and that they stay there, since an owner cannot resize or close what it has lent."""
import collections
import contextlib
import ctypes

# what the items are called, the codes that stand for them in a buffer's format, and the bytes of one
Items = collections.namedtuple('Items', 'what codes size')
BYTES = Items('bytes', 'Bc', 1)
I16 = Items('signed 16-bit numbers', 'h', 2)
I64 = Items('signed 64-bit numbers', 'ql', 8)
# what a format may begin with: the machine's own order of bytes, which is the only one that the library reads
NATIVE = '@=<'


class _Buffer(ctypes.Structure):
    """Py_buffer of Python's C interface. It is needed since ctypes gives the address of no buffer that is read-only."""
    _fields_ = [
        ('buf', ctypes.c_void_p), ('obj', ctypes.c_void_p), ('len', ctypes.c_ssize_t), ('itemsize', ctypes.c_ssize_t),
        ('readonly', ctypes.c_int), ('ndim', ctypes.c_int), ('format', ctypes.c_char_p), ('shape', ctypes.c_void_p),
        ('strides', ctypes.c_void_p), ('suboffsets', ctypes.c_void_p), ('internal', ctypes.c_void_p),
    ]


_get = ctypes.pythonapi.PyObject_GetBuffer
_get.argtypes = (ctypes.py_object, ctypes.POINTER(_Buffer), ctypes.c_int)
_release = ctypes.pythonapi.PyBuffer_Release
_release.argtypes = (ctypes.POINTER(_Buffer),)
_release.restype = None
# PyBUF_ND: without gaps, and perhaps read-only
_WITHOUT_GAPS = 0x0008


class Lent:
    """A lent buffer: the address where it begins, and how many items it has."""

    def __init__(self, name, start, length, size):
        self.name, self.start, self.length, self.size = name, start, length, size
        if length > 0 and start % size != 0:
            raise ValueError(f'{name} must begin at a multiple of {size} bytes')

    def refuse_overlap(self, other):
        """The library asks that what it writes overlaps nothing else that it is lent."""
        if (self.length > 0 and other.length > 0 and self.start < other.start + other.length * other.size
                and other.start < self.start + self.length * self.size):
            raise ValueError(f'{self.name} must not overlap {other.name}')


def _judge(name, view, items, is_written):
    code = view.format[1:] if view.format[:1] in NATIVE else view.format
    if view.itemsize != items.size or len(code) != 1 or code not in items.codes:
        raise TypeError(f'{name} must hold {items.what} (format {items.codes[0]!r}), not items of format {view.format!r}')
    if view.ndim != 1:
        raise ValueError(f'{name} must have one dimension, not {view.ndim}')
    if not view.c_contiguous:
        raise ValueError(f'{name} must have no gaps between its items')
    if is_written and view.readonly:
        raise TypeError(f'{name} must not be read-only')


@contextlib.contextmanager
def lent(name, thing, items, is_written=False):
    """Lends a thing until the end of the `with`; then nothing of it is held any more, also where an exception is kept."""
    try:
        view = memoryview(thing)
    except TypeError:
        raise TypeError(f'{name} must be a buffer of {items.what}, not {type(thing).__name__}') from None
    with view:
        _judge(name, view, items, is_written)
        buffer = _Buffer()
        _get(view, buffer, _WITHOUT_GAPS)
        try:
            yield Lent(name, buffer.buf, len(view), items.size)
        finally:
            _release(buffer)
