"""The designs on sizes, the settings that they take, and the widths (docs/SCOPE.md, "The designs" and "Setting").

A further design is a function of two nonzero sizes and a setting, and a line of DESIGNS.
"""

import collections


def split(size):
    """The k and the a of a nonzero size 2^k + a, where 2^k is the largest power within it."""
    k = size.bit_length() - 1
    return k, size - 2**k


def mitchell(size_a, size_b, _setting=0):
    """Design 1 (source 002, equation 23; source 003, equation 2)."""
    k, a = split(size_a)
    m, b = split(size_b)
    s = a * 2**m + b * 2**k
    if s < 2 ** (k + m):
        return 2 ** (k + m) + s
    return 2 * s


def nearest_power(size):
    """The K and the q of size = 2^K + q; a tie goes up (source 000, equations 3.8, 3.9)."""
    k, a = split(size)
    if 2 * a >= 2**k:
        return k + 1, a - 2**k
    return k, a


def nearest(size_a, size_b, _setting=0):
    """Design 2 (source 001, equation 16, its last term left out)."""
    big_k, q = nearest_power(size_a)
    big_m, r = nearest_power(size_b)
    return 2 ** (big_k + big_m) + q * 2**big_m + r * 2**big_k


def staged(size_a, size_b, stages):
    """Design 3: the sum over the stages, each of which takes what the one before it left."""
    total = 0
    for _ in range(stages):
        if size_a == 0 or size_b == 0:
            # This stage gives 0, and nothing is left from which a later one could give more.
            break
        k, a = split(size_a)
        m, b = split(size_b)
        total += 2 ** (k + m) + a * 2**m + b * 2**k
        size_a, size_b = a, b
    return total


def kept_sum(size_a, size_b, t):
    """S, the sum of both fractions, cut to t bits, and of a carry."""
    k, a = split(size_a)
    m, b = split(size_b)
    fraction_a = (a * 2**t) // 2**k
    fraction_b = (b * 2**t) // 2**m
    # The carry does not depend on whether the cut took anything off.
    return fraction_a + fraction_b + 1


def truncated(size_a, size_b, t):
    """Design 4 (source 003, first stage) with t kept bits."""
    k, _ = split(size_a)
    m, _ = split(size_b)
    total = kept_sum(size_a, size_b, t)
    if total < 2**t:
        return (2 ** (k + m) * (2**t + total)) // 2**t
    return (2 ** (k + m + 1) * total) // 2**t


def left_over(size_a, size_b, t):
    """What the first stage of design 5 leaves of both sizes; it may be 0."""
    k, a = split(size_a)
    m, b = split(size_b)
    if kept_sum(size_a, size_b, t) < 2**t:
        return a, b
    return 2**k - a - 1, 2**m - b - 1


# So many bits the second stage of design 5 keeps, whatever the first one does.
SECOND_KEPT_BITS = 2


def twice_truncated(size_a, size_b, t):
    """Design 5 (source 003, both stages): design 4 with t kept bits, and with two on what that leaves."""
    first = truncated(size_a, size_b, t)
    left_a, left_b = left_over(size_a, size_b, t)
    if left_a == 0 or left_b == 0:
        return first
    return first + truncated(left_a, left_b, SECOND_KEPT_BITS)


# The product of two nonzero sizes with a setting, and the settings that are accepted at a width.
Design = collections.namedtuple("Design", "product settings")

MITCHELL, NEAREST, STAGED, TRUNCATED, TWICE_TRUNCATED = 1, 2, 3, 4, 5

DESIGNS = {
    MITCHELL: Design(mitchell, lambda width: range(0, 1)),
    NEAREST: Design(nearest, lambda width: range(0, 1)),
    STAGED: Design(staged, lambda width: range(1, width + 1)),
    TRUNCATED: Design(truncated, lambda width: range(1, width)),
    TWICE_TRUNCATED: Design(twice_truncated, lambda width: range(1, width)),
}

WIDTHS = (8, 12, 16, 32)


def settings_accepted(design, width):
    return DESIGNS[design].settings(width)


def unsigned_product(design, setting, a, b):
    """The product of an accepted unsigned input."""
    if a == 0 or b == 0:
        return 0
    return DESIGNS[design].product(a, b, setting)


def signed_product(design, setting, a, b):
    """The product of an accepted signed input: of the sizes, and minus for one minus."""
    size = unsigned_product(design, setting, abs(a), abs(b))
    if (a < 0) != (b < 0):
        return -size
    return size
