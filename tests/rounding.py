"""A reading of the paper's "each size rounded up to the alignment", of request 4's "the powers of two" and of request 5's "the rounding should
report that it passed 2^64 - 1 instead of stopping there, its callers pass that on", written apart from the definitions. Roundings and sums
are whole numbers here, and each says whether it passed."""
from paper import U64

POWERS = {2**k for k in range(64)}


def is_power(n):
    return n in POWERS


def rounded(size, alignment):
    """The least multiple that is not below the size, found by what is missing from it."""
    return size + -size % alignment


def added(total, size, alignment):
    """No total is below 0, so that with a rounding that passed the sum passes too."""
    return total + rounded(size, alignment)


def has_passed(n):
    """One that lands on 2^64 - 1 has not."""
    return n > U64
