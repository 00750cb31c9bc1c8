"""The C interface as include/highvane.h declares it: the shared object, its answers and its functions. ctypes judges no argument of
theirs; the modules beside this one do."""
import ctypes
import os
import pathlib
from ctypes import c_double, c_float, c_int64, c_size_t, c_uint8, c_uint16, c_uint32, c_uint64, c_void_p

FOLDER = pathlib.Path(os.environ.get('HIGHVANE_LIB') or pathlib.Path(__file__).resolve().parents[3] / 'target')


def _loaded():
    path = FOLDER / 'libhighvane.so'
    if not path.is_file():
        raise ImportError(f'{path} is not there: tools/archive --shared makes it, and HIGHVANE_LIB names another folder')
    try:
        return ctypes.CDLL(str(path.resolve()))
    except OSError as error:
        raise ImportError(f'{path} cannot be loaded: {error}') from error


_LIBRARY = _loaded()


class Unsigned(ctypes.Structure):
    """The answer of highvane_product_unsigned."""
    _fields_ = [('product', c_uint64), ('refusal', c_uint32)]


class Signed(ctypes.Structure):
    """The answer of highvane_product_signed."""
    _fields_ = [('product', c_int64), ('refusal', c_uint32)]


class Report(ctypes.Structure):
    """The answer of highvane_score_row and of the rows by one design."""
    _fields_ = [('score', c_int64), ('true_sum', c_int64), ('error', c_int64), ('magnitude_sum', c_uint64), ('nonzero_pairs', c_uint64),
                ('largest_residue', c_uint64), ('largest_place', c_uint64), ('refusal', c_uint32)]


class Layer(ctypes.Structure):
    """The answer of highvane_score_layer."""
    _fields_ = [('rows', c_uint64), ('refusal', c_uint32)]


class Scaled(ctypes.Structure):
    """The answer of highvane_scale."""
    _fields_ = [('score', c_double), ('magnitude_sum', c_double), ('refusal', c_uint32)]


class Single(ctypes.Structure):
    """The answer of highvane_single_product."""
    _fields_ = [('value', c_float), ('refusal', c_uint32)]


def _function(name, answer, *parameters):
    try:
        function = getattr(_LIBRARY, name)
    except AttributeError:
        raise ImportError(f'libhighvane.so in {FOLDER} is of another version: it has no {name}') from None
    function.restype = answer
    function.argtypes = parameters
    return function


highvane_product_unsigned = _function('highvane_product_unsigned', Unsigned, c_uint32, c_uint32, c_uint32, c_uint64, c_uint64)
highvane_product_signed = _function('highvane_product_signed', Signed, c_uint32, c_uint32, c_uint32, c_int64, c_int64)
highvane_score_row = _function('highvane_score_row', Report, c_uint32, c_uint32, c_void_p, c_size_t, c_void_p, c_size_t, c_void_p, c_size_t)
_BY_ITSELF = c_uint32, c_void_p, c_size_t, c_void_p, c_size_t, c_void_p, c_size_t
highvane_score_row_mitchell = _function('highvane_score_row_mitchell', Report, *_BY_ITSELF)
highvane_score_row_nearest = _function('highvane_score_row_nearest', Report, *_BY_ITSELF)
highvane_score_row_staged = _function('highvane_score_row_staged', Report, *_BY_ITSELF)
highvane_score_row_truncated = _function('highvane_score_row_truncated', Report, *_BY_ITSELF)
highvane_score_row_twice_truncated = _function('highvane_score_row_twice_truncated', Report, *_BY_ITSELF)
highvane_row_refusal = _function('highvane_row_refusal', c_uint32, c_void_p, c_size_t, c_size_t, c_size_t)
highvane_score_layer = _function('highvane_score_layer', Layer, c_uint32, c_uint32, c_void_p, c_size_t, c_size_t, c_void_p, c_size_t,
                                 c_void_p, c_size_t)
highvane_scale = _function('highvane_scale', Scaled, c_int64, c_uint64, c_uint32)
highvane_single_product = _function('highvane_single_product', Single, c_uint32, c_uint32)
highvane_table_product = _function('highvane_table_product', c_uint16, c_uint8, c_uint8)
highvane_transcript = _function('highvane_transcript', c_size_t, c_void_p, c_size_t, c_void_p)


def _judge_report():
    """A shared object of before 2.4.0 has every name too, and a shorter report, of which nothing would be read where it stands."""
    if highvane_score_row(0, 0, None, 0, None, 0, None, 0).refusal != 1:
        raise ImportError(f'libhighvane.so in {FOLDER} is of another version: its report has other fields')


_judge_report()
