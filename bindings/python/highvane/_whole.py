"""Whole numbers as C's types hold them. ctypes would cut a number down to the type's bits; here it is an error."""
import operator


def _whole(name, number, least, most):
    if isinstance(number, bool):
        raise TypeError(f'{name} must be a whole number, not a bool')
    try:
        number = operator.index(number)
    except TypeError:
        raise TypeError(f'{name} must be a whole number, not {type(number).__name__}') from None
    # the number itself may be too long to print
    if not least <= number <= most:
        raise OverflowError(f'{name} must be {least} to {most}')
    return number


def u8(name, number):
    return _whole(name, number, 0, (1 << 8) - 1)


def u32(name, number):
    return _whole(name, number, 0, (1 << 32) - 1)


def u64(name, number):
    return _whole(name, number, 0, (1 << 64) - 1)


def i64(name, number):
    return _whole(name, number, -1 << 63, (1 << 63) - 1)
