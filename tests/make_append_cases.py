#!/usr/bin/env python3
"""Writes crates/cases_append/stdin and stdout: instances to append, and the answers of append.py.

A case: the Tlas as a u32, the bytes in use as a u64 and the room as a u32; then the Tlases, the Blases and the items, each after its length
as a u32. Its line: of one call for all of them the number, E, the bytes in use and a hash of all the room, filled with a pattern before; then
of one call after another, up to the first that is refused, the last one's number, the bytes in use, how many calls there were, and a hash of
a room of its own, filled alike.

The reading is held to itself: what one call takes comes to the same as one after another, and as two calls for a part each; what it refuses is
what the first bad one is refused by alone.
"""
import collections
import functools
import itertools
import pathlib
import random
import struct
from typing import NamedTuple

from append import INSTANCE, ITEM, append_many, append_one, one_by_one, split
from make_read_cases import record
from paper import U64

PATTERN = 165
M = 4294967291
# what the program has room for
MOST_TLASES = 8192
MOST_BLASES = 16384
MOST = 65536


class Case(NamedTuple):
    tlases: bytes
    blases: bytes
    tlas: int
    items: bytes
    room: int
    used: int


# ---- tables: Tlas 1 and 3 return vertices, Blas 0 to 2 too. No append goes by any other field but the address.


def tlas_of(flags, k=0):
    return record(4, flags, k % 3, U64 - k, 0, k)


def blas_of(flags, address, k=0):
    return record(2, 7, flags, 3, 1, U64 - k, address, k)


TLASES = b"".join(tlas_of(flags, k) for k, flags in enumerate((0, 2, 253, 255)))
BLASES = b"".join(blas_of(*both, k) for k, both in enumerate(((2, 4096), (255, U64), (6, 0x0102030405060708), (0, 0), (253, 2**63))))
PLAIN, RETURNS = 0, 1


# ---- items


def item(k, blas=None, custom=None):
    """One that is like no other: each byte of its numbers tells k and its place. Any Tlas takes it."""
    numbers = bytes((k * 57 + i * 3 + k // 256) % 256 for i in range(48))
    return struct.pack("<HIB", k % 3 if blas is None else blas, k * 70001 % 2**24 if custom is None else custom, k % 256) + numbers


# refused by a Tlas that returns vertices
BAD = {6: dict(blas=5), 34: dict(custom=2**24), 35: dict(blas=3)}


def items(n, bad=None):
    """n of them, some bad: their numbers by position."""
    return b"".join(item(k, **BAD[bad[k]] if k in (bad or {}) else {}) for k in range(n))


def case(given, spare=0, used=0, tlas=RETURNS, tlases=TLASES, blases=BLASES):
    """With room for all of them and spare bytes more, or fewer."""
    return Case(tlases, blases, tlas, given, max(0, used + INSTANCE * (len(given) // ITEM) + spare), used)


# ---- cases


def counts():
    """Room as it is needed, a byte less, for one fewer, and more."""
    for n, used, spare in itertools.product((0, 1, 2, 40), (0, 1, 63, 64), (0, -1, -INSTANCE, 1, 70)):
        yield case(items(n), spare, used)
    for n, used, spare in ((512, 0, 0), (512, 0, -1), (512, 1, 9), (513, 64, 0), (513, 0, -INSTANCE)):
        yield case(items(n), spare, used)


def far():
    """More bytes in use than there are, up to where a sum of them passes 2^64 - 1."""
    for n, room in itertools.product((0, 1, 2), (0, 64, 200)):
        for used in (room, room + 1, room + 63, room + 64, 2**32 - 1, 2**32, 2**32 + 1, 2**63, *(U64 - k for k in (128, 127, 64, 63, 62, 1, 0))):
            yield case(items(n))._replace(room=room, used=used)
    for n, more in itertools.product((1, 2, 40), (-1, 0, 1, 63)):
        yield case(items(n))._replace(room=2600, used=2**64 - INSTANCE * n + more)


def bad_ones():
    """Each refusal first, in the middle and last, with room and without; two of them; several of one; and the values that are just taken."""
    for n, number, spare in itertools.product((1, 2, 3, 40), BAD, (0, -1, 70)):
        for k in sorted({0, n // 2, n - 1}):
            yield case(items(n, {k: number}), spare, 3)
    yield case(items(512, {511: 35}))
    yield case(items(513, {256: 6}), -INSTANCE)
    # one call after another stops for want of room before it comes to the bad one
    for number, k in itertools.product(BAD, range(5)):
        yield case(items(5, {k: number}), -INSTANCE * 3)
    for (i, j), one, other, spare in itertools.product(((0, 1), (0, 4), (2, 3), (3, 4)), BAD, BAD, (0, -1)):
        yield case(items(5, {i: one, j: other}), spare)
    for tlas, blas, custom in itertools.product((PLAIN, RETURNS), (0, 3, 5), (2**24 - 1, 2**24)):
        yield from (case(before + item(9, blas, custom), tlas=tlas) for before in (b"", items(2)))
    for custom in (0, 2**16, 2**24 - 1, 2**24, 2**24 + 1, 2**25, 2**31, 2**32 - 1):
        yield from (case(before + item(9, custom=custom), tlas=tlas) for before in (b"", items(1)) for tlas in (PLAIN, RETURNS))
    for blas in (0, 2, 3, 4, 5, 6, 255, 256, 258, 261, 32768, 65535):
        yield from (case(before + item(9, blas=blas), tlas=tlas) for before in (b"", items(1)) for tlas in (PLAIN, RETURNS))


def parts():
    """A part of an item at the end, alone and with all that comes before it or after."""
    for n, length, end in itertools.product((0, 1, 2, 40), (1, 2, 7, 54), (item(77), b"\xff" * ITEM)):
        part = end[:length]
        yield case(items(n) + part)
        yield case(items(n) + part, -1, 1)
        yield case(items(n) + part, tlas=4)
        if n in (1, 2):
            yield from (case(items(n, {n - 1: number}) + part) for number in BAD)
    yield case(b"\0")._replace(used=U64)


def bad_tlases():
    for tlas in (3, 4, 5, 255, 256, 257, 260, 65535):
        for given in (b"", items(1), items(3), items(3, {0: 6}), items(3, {1: 34}), items(3, {2: 35}), items(1) + b"\1", b"\1"):
            yield from (case(given, spare, used, tlas) for spare, used in ((0, 0), (-1, 1)))
    yield case(items(2), tlas=4)._replace(used=U64)
    yield case(b"", tlas=65535)._replace(used=U64)


def tables():
    """Part records, empty tables, and ids past 255."""
    for length, tlas, n in itertools.product((0, 1, 21, 22, 23, 43, 44, 45, 66), (0, 1, 2), (0, 1)):
        yield case(items(n), tlas=tlas, tlases=TLASES[:length])
    for length, blas, tlas in itertools.product((0, 1, 27, 28, 29, 55, 56, 57, 84), (0, 1, 2), (PLAIN, RETURNS)):
        yield case(item(1, blas), tlas=tlas, blases=BLASES[:length])
        yield case(item(1, 0) + item(2, blas), tlas=tlas, blases=BLASES[:length])
    for given in (b"", b"\0", items(1)):
        yield from (case(given, tlas=0, tlases=TLASES * t, blases=BLASES * b) for t in (0, 1) for b in (0, 1))
    # where an id that lost its upper byte would name another
    many_tlases = b"".join(tlas_of(2 * (k == 256), k) for k in range(258))
    many_blases = b"".join(blas_of(2 * (k > 254), 2**40 + k, k) for k in range(258))
    yield from (case(items(1), tlas=k, tlases=many_tlases) for k in (0, 255, 256, 257, 258))
    yield from (case(item(1, 3), tlas=k, tlases=many_tlases) for k in (0, 256))
    yield from (case(item(1, 255) + item(2, k), blases=many_blases) for k in (0, 254, 256, 257, 258, 513))


def flags():
    some = (0, 1, 2, 3, 4, 6, 7, 127, 128, 130, 253, 254, 255)
    for tlas, blas in itertools.product(some, some):
        yield case(item(tlas, 0), tlas=0, tlases=tlas_of(tlas), blases=blas_of(blas, tlas * 256 + blas))


# zeros, ones, the least and the greatest; infinities; NaNs, quiet and signalling, of either sign
NUMBERS = (0, 0x80000000, 0x3F800000, 0xBF800000, 1, 0x807FFFFF, 0x00800000, 0x7F7FFFFF, 0xFF7FFFFF, 0x7F800000, 0xFF800000)
NANS = (0x7FC00000, 0x7FC00001, 0x7FFFFFFF, 0x7F800001, 0x7FBFFFFF, 0x7FA5A5A5, 0xFFC00000, 0xFFFFFFFF, 0xFF800001, 0xFFBFFFFF)


def numbers():
    """Each of them in each of the twelve places, alone and together."""
    every = NUMBERS + NANS
    given = [item(k)[:7] + struct.pack("<12I", *(every[(k + i) % len(every)] for i in range(12))) for k in range(len(every))]
    yield case(b"".join(given), 5, 7)
    yield from (case(one, 1, 1) for one in given)


def random_table(rng, size):
    n = rng.choice((0, 1, 2, 3, 4, 4, 5, 6))
    return rng.randbytes(n * size + rng.choice((0, 0, 0, 1, size - 1))), n


def random_item(rng, blases):
    blas = rng.randrange(blases) if blases and rng.random() < 0.98 else rng.choice((blases, rng.randrange(65536)))
    custom = rng.randrange(2**24) if rng.random() < 0.98 else rng.choice((2**24, rng.randrange(2**32)))
    word = rng.choice((lambda: rng.randrange(2**32), lambda: rng.choice(NUMBERS + NANS)))
    return struct.pack("<HIB12I", blas, custom, rng.randrange(256), *(word() for _ in range(12)))


def at_random(rng):
    for _ in range(600):
        (tlases, t), (blases, b) = random_table(rng, 22), random_table(rng, 28)
        # the bit that 35 goes by
        if rng.random() < 0.7:
            blases = bytes(v | 2 * (i % 28 == 1) for i, v in enumerate(blases))
        tlas = rng.randrange(t) if t and rng.random() < 0.9 else rng.choice((t, t + 1, rng.randrange(65536)))
        given = b"".join(random_item(rng, b) for _ in range(rng.choice((0, 1, 2, 3, 5, 8, 13, 30))))
        given += rng.randbytes(rng.choice((0,) * 9 + (rng.randrange(1, ITEM),)))
        used = rng.choice((0, INSTANCE, rng.randrange(300)))
        yield case(given, rng.choice((0, 0, 0, 1, -1, INSTANCE, -INSTANCE, rng.randrange(-300, 300))), used, tlas, tlases, blases)
    for _ in range(60):
        tlases, blases, given = (rng.randbytes(rng.randrange(most)) for most in (70, 200, 400))
        tlas, used = rng.choice((0, 1, rng.randrange(65536))), rng.choice((0, rng.randrange(300), rng.randrange(2**64)))
        yield Case(tlases, blases, tlas, given, rng.randrange(600), used)


def cases():
    yield from counts()
    yield from far()
    yield from bad_ones()
    yield from parts()
    yield from bad_tlases()
    yield from tables()
    yield from flags()
    yield from numbers()
    yield from at_random(random.Random(83))


# ---- what is expected


@functools.cache
def hashed(data):
    h = 0
    for v in data:
        h = (h * 31 + v + 7) % M
    return h


def hold(c, out, many, left, each, each_left):
    """The reading held to itself, by what was lent, what a call for many came to, and what one after another."""
    lent, (whole, part), (number, e, k, used) = c[:3], split(c.items), many
    # alone: with room for it
    alone = [append_one(*lent, one, bytes(INSTANCE), 0)[0][0] for one in whole]
    first = next((i for i, n in enumerate(alone) if n), None)
    assert e == 0 and len(left) == c.room
    if number == 0:
        assert first is None and not part
        assert each == (0, used, len(whole)) and each_left == left
        half = len(whole) // 2 * ITEM
        (*_, between), some = append_many(*lent, c.items[:half], out, c.used)
        assert append_many(*lent, c.items[half:], some, between) == ((0, 0, 0, used), left)
    else:
        assert used == c.used and left == out
    if first is not None:
        assert (number, k) == (alone[first], first)
    elif number == 5:
        assert part and k == len(whole)
    elif number == 39:
        assert k == 0 and not part and each[0] == (39 if whole else 0)
        assert each[2] == min(len(whole), max(0, c.room - c.used) // INSTANCE + 1)
    elif number:
        assert (number, k) == (6, 0) and not whole
    if len(whole) == 1 and not part:
        assert (each, each_left) == ((number, used, 1), left)


def answered(c):
    """What is printed of a case, and what each way is refused by."""
    out = bytes([PATTERN]) * c.room
    many, left = append_many(*c[:4], out, c.used)
    each, each_left = one_by_one(*c[:4], out, c.used)
    hold(c, out, many, left, each, each_left)
    return (*many, hashed(left), *each, hashed(each_left)), many[0], each[0]


def data_of(c):
    assert len(c.tlases) <= MOST_TLASES and len(c.blases) <= MOST_BLASES and len(c.items) <= MOST and c.room <= MOST
    lent = (struct.pack("<I", len(x)) + x for x in (c.tlases, c.blases, c.items))
    return struct.pack("<IQI", c.tlas, c.used, c.room) + b"".join(lent)


def told(numbers):
    return ", ".join(f"{k} of {n}" for n, k in sorted(collections.Counter(numbers).items()))


def main():
    folder = pathlib.Path(__file__).resolve().parent.parent / "crates/cases_append"
    folder.mkdir(exist_ok=True)
    some = list(cases())
    lines, many, each = zip(*map(answered, some))
    assert set(many) == {0, 5, 6, 34, 35, 39} and set(each) == {0, 6, 34, 35, 39}
    data = b"".join(map(data_of, some))
    (folder / "stdin").write_bytes(data)
    (folder / "stdout").write_text("".join(" ".join(map(str, line)) + "\n" for line in lines))
    print(f"{len(some)} cases, {len(data)} bytes; in one call {told(many)}; one after another {told(each)}")


if __name__ == "__main__":
    main()
