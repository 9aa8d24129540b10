"""A float32 as text that gives its bits back: the shortest decimal, and a NaN by its bits."""
import re
import struct
from fractions import Fraction
from functools import lru_cache

NUMBER = re.compile(r"[+-]?(\d+\.?\d*|\.\d+)(e[+-]?\d{1,4})?", re.I | re.A)
LARGEST = 0x7F7FFFFF  # the bits of the largest finite one
INFINITE = 0x7F800000
SIGN = 0x80000000
BEYOND = Fraction(2**128 - 2**103)


def value_of(bits):
    return struct.unpack("<f", struct.pack("<I", bits))[0]


def is_nan(bits):
    return bits & ~SIGN > INFINITE


@lru_cache(maxsize=4096)
def nearest(word):
    """The bits of the float32 nearest to a decimal of 0 or more, of two the even one; none from half a step above the largest on."""
    exact = Fraction(word)
    if exact >= BEYOND:
        return None
    try:
        near = struct.unpack("<I", struct.pack("<f", float(word)))[0]
    except OverflowError:
        near = LARGEST
    # a double may have been rounded before, so the floats beside it are looked at too
    beside = range(max(near - 1, 0), min(near + 1, LARGEST) + 1)
    return min(beside, key=lambda bits: (abs(Fraction(value_of(bits)) - exact), bits % 2))


def parse(text):
    """The bits that a text stands for; ValueError says why it stands for none."""
    word = text.lower()
    if word.startswith("nan:"):
        bits = int(word[4:], 16) if re.fullmatch(r"[0-9a-f]{8}", word[4:]) else 0
        if not is_nan(bits):
            raise ValueError(f"{text} is no NaN: nan: and eight digits of its bits, as nan:7fc00000")
        return bits
    sign = SIGN if word.startswith("-") else 0
    if word.lstrip("+-") == "inf":
        return sign | INFINITE
    if not NUMBER.fullmatch(word):
        raise ValueError(f"{text} is no number")
    bits = nearest(word.lstrip("+-"))
    if bits is None:
        raise ValueError(f"{text} is too large for a float32")
    return sign | bits


@lru_cache(maxsize=4096)
def text_of(bits):
    if is_nan(bits):
        return f"nan:{bits:08x}"
    sign, size = "-" if bits & SIGN else "", bits & ~SIGN
    if size == INFINITE:
        return sign + "inf"
    value = value_of(size)
    for digits in range(1, 10):
        word = f"{value:.{digits}g}"
        if nearest(word) == size:
            return sign + word
    raise AssertionError(bits)
