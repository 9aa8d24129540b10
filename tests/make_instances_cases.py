#!/usr/bin/env python3
"""Writes crates/cases_instances/stdin and stdout: records to read and items to append, and the answers of instances.py and
append.py.

Tables come first: the Tlases and the Blases, each after its length as a u32, and the number of their cases as a u32. A case: its
kind, 1 for records and 2 for items, a Tlas, the room and the length of what follows, each as a u32. Each call has a line: number,
E, the bytes written or in use, and a hash of all the room, filled with a pattern before. Records are read; if that is not refused,
what it gives is appended to Tlas 0 and to Tlas 1, each time with as much room as there were records. Items are appended to the
Tlas; if that is not refused, what is there is read, with as much room as there were items.

The reading is held to itself and to that of the writer, both ways round; and by these cases every wrong reading of
instances_wrong.py is told from it.
"""
import collections
import itertools
import pathlib
import random
import struct
from typing import NamedTuple
from unittest import mock

import instances
from append import INSTANCE, ITEM, append_many, in_table, split
from instances import IDS, addresses, found, judge, parts, whole
from instances_wrong import WRONG
from make_append_cases import NANS, NUMBERS, PATTERN, hashed, tlas_of, told
from make_read_cases import record
from paper import U64, blas, records

RECORDS, ITEMS = 1, 2
# what the program has room for
MOST_TLASES = 8192
MOST_BLASES = 16384
MOST = 65536


class Tables(NamedTuple):
    tlases: bytes
    blases: bytes


class Case(NamedTuple):
    kind: int
    tlas: int
    room: int
    data: bytes


# ---- tables: one of the two Tlases returns vertices, and three of each four Blases


TLASES = tlas_of(253) + tlas_of(2, 1)
SWAPPED = tlas_of(255, 2) + tlas_of(0, 3)
PLAIN, RETURNS = 0, 1


def blases_of(known, flags=(2, 7, 254, 253)):
    """Blases with these addresses. Beside each stand those of its neighbours, and in the other fields anything: no reading goes by
    them."""
    known = tuple(known)

    def one_of(k, address):
        before, after = (known[k - 1], known[(k + 1) % len(known)]) if len(known) > 1 else (address ^ 1, address ^ 2)
        return record(2, k % 7, flags[k % len(flags)], k % 5, k % 2, before, address, after)

    return b"".join(one_of(k, address) for k, address in enumerate(known))


# each once but for the last two
SOME = (4096, 0, U64, 0x0102030405060708, 2**63, 4096 + 256, 77, 77)
TWICE, NEVER = 77, 4097
# those that a Tlas that returns vertices takes, and stand once
RETURNED = (0, 1, 2, 4, 5)
TABLES = Tables(TLASES, blases_of(SOME))


# ---- records and items


def some_bytes(k):
    """The bytes of twelve numbers: each tells k and its place."""
    return bytes((k * 59 + i * 5 + k // 256 + 11) % 256 for i in range(48))


def one(k, address=None, zero=0, both=None, numbers=None):
    """A record like no other, which is read, and may be appended to any Tlas."""
    address = SOME[RETURNED[k % 5]] if address is None else address
    both = k * 2654435761 % 2**32 if both is None else both
    return (some_bytes(k) if numbers is None else numbers) + struct.pack("<IIQ", both, zero, address)


def item(k, blas=None, custom=None, numbers=None):
    """An item like no other, which any Tlas takes."""
    blas = RETURNED[k % 5] if blas is None else blas
    custom = k * 70001 % 2**24 if custom is None else custom
    return struct.pack("<HIB", blas, custom, (k * 3 + 1) % 256) + (some_bytes(k) if numbers is None else numbers)


# what may be wrong with a record
BAD = {
    "word": dict(zero=1),
    "none": dict(address=NEVER),
    "several": dict(address=TWICE),
    "word and none": dict(zero=2**31, address=NEVER),
    "word and several": dict(zero=2**16, address=TWICE),
}


def some(n, bad=None):
    """n records, some bad, by their positions."""
    return b"".join(one(k, **BAD[bad[k]] if k in (bad or {}) else {}) for k in range(n))


def each(of, *given):
    return b"".join(of(k, one_of) for k, one_of in enumerate(given))


def read(data, spare=0):
    """With room for all that is whole and spare bytes more, or fewer."""
    return Case(RECORDS, 0, max(0, len(data) // INSTANCE * ITEM + spare), data)


def append(data, tlas=PLAIN, spare=0):
    return Case(ITEMS, tlas, max(0, len(data) // ITEM * INSTANCE + spare), data)


NO_ROOM = -MOST


# ---- cases of one pair of tables


def counts():
    """Room as it is needed, a byte less, for one fewer, none, and more; as much as the records have."""
    for n, spare in itertools.product((0, 1, 2, 3, 40), (0, -1, -ITEM, NO_ROOM, 1, ITEM, 70)):
        yield read(some(n), spare)
    yield from (read(some(n), 9 * n) for n in (1, 7))
    yield from (read(some(512)), read(some(513), 9))


def bad_ones():
    """Each sort at each place, with room and without; two of them, at each pair of places; all bad."""
    for n, sort, spare in itertools.product((1, 2, 3), BAD, (0, -1, NO_ROOM)):
        yield from (read(some(n, {k: sort}), spare) for k in range(n))
    yield from (read(some(40, {k: sort})) for k, sort in zip((0, 20, 39, 38, 21), BAD))
    for (i, j), first, second in itertools.product(itertools.combinations(range(4), 2), BAD, BAD):
        yield read(some(4, {i: first, j: second}), (0, -1)[(i + j) % 2])
    yield from (read(some(5, dict.fromkeys(range(5), sort))) for sort in BAD)
    yield read(some(300, {257: "several"}), -1)


def uneven():
    """Every length that is not in 64s: no record or some, good and bad, and of one more a part, good, bad and zero."""
    for rest in range(1, INSTANCE):
        sort, part = tuple(BAD)[rest % len(BAD)], one(9)[:rest]
        yield read(part)
        yield read(bytes(rest), NO_ROOM)
        yield read(some(2) + part)
        yield read(some(2) + part, -1)
        yield read(some(3, {rest % 3: sort}) + part, (0, NO_ROOM)[rest % 2])
        yield read(some(1) + one(9, **BAD[sort])[:rest], 70)
    # lengths in 55s
    yield from (read(some(n)[: n * ITEM]) for n in range(1, 8))
    yield read(some(100) + b"\0", -1)
    yield read(some(100)[:-1])


def zero_words():
    """The u32 with each bit alone, each byte alone, and others, beside a good address and bad ones."""
    words = [2**k for k in range(32)] + [value << 8 * k for k in range(4) for value in (7, 128, 255)]
    words += [0x01000001, 0x10101010, 2**32 - 2, 2**32 - 1]
    for zero in words:
        yield read(one(5, zero=zero))
        yield read(some(2) + one(5, zero=zero), (0, -1)[zero % 2])
    for zero, address in itertools.product(words[::5], (TWICE, NEVER)):
        yield read(one(5, address, zero))
        yield read(one(4, address) + one(5, zero=zero))
        yield read(one(4, zero=zero) + one(5, address))


def custom_and_mask():
    """The u32 at 48 with each bit alone and each left out; custom data and masks at their ends."""
    values = [2**k for k in range(32)] + [2**32 - 1 - 2**k for k in range(32)]
    values += [custom + mask * 2**24 for custom in (0, 1, 2**23, 2**24 - 1) for mask in (0, 1, 127, 128, 254, 255)]
    yield from (read(one(k, both=value)) for k, value in enumerate(values))
    yield read(each(lambda k, value: one(k, both=value), *values))
    customs = [2**k for k in range(26)] + [0, 2**24 - 1, 2**24, 2**24 + 1, 2**25 - 1, 2**32 - 1]
    yield from (append(item(k, custom=custom), k % 2) for k, custom in enumerate(customs))
    yield append(b"".join(item(k, custom=2**k) for k in range(24)), RETURNS)
    # each mask
    yield append(b"".join(map(item, range(256))))


# those of the append's cases; the least and the greatest subnormal ones of either sign; more payloads, of one bit and of several
CLASSES = (*NUMBERS, 0x80000001, 0x007FFFFF, 0x00400000, 0x80800000, 0x00012345)
CLASSES += (*NANS, 0x7F800002, 0x7FA00000, 0x7FC00002, 0x7FD23456, 0xFF812345, 0xFFA00000, 0xFFC00001, 0xFFD00000, 0xFFFFFFFE)


def numbers():
    """Each of them in each of the twelve places, and in all; all of them in turn; each bit of each number; both ways round."""

    def both_ways(*given):
        twelves = [struct.pack("<12I", *words) for words in given]
        yield read(each(lambda k, words: one(k, numbers=words), *twelves))
        yield append(each(lambda k, words: item(k, numbers=words), *twelves), len(given) % 2)

    def at(k, value, other):
        return [value if i == k else other(i) for i in range(12)]

    for n, value in enumerate(CLASSES):
        yield from both_ways(*(at(k, value, lambda i: 0x3F800000 + 16 * i + n) for k in range(12)))
        yield from both_ways([value] * 12)
        yield read(one(n, numbers=struct.pack("<12I", *at(n % 12, value, lambda i: 0))))
    yield from both_ways(*([CLASSES[(k + i) % len(CLASSES)] for i in range(12)] for k in range(len(CLASSES))))
    yield from both_ways(*(at(k, 2**bit, lambda i: 0) for k in range(12) for bit in range(k % 3, 32, 3)))


def near_addresses():
    """Each of the table, those that differ from one in a bit or are beside it, its bytes turned and its halves exchanged."""
    for k, address in enumerate(SOME):
        yield read(one(k, address))
        yield read(some(1) + one(k, address) + some(1))
        near = {(address + more) % 2**64 for more in (1, -1, 256, -256, 2**32, -(2**32))}
        yield from (read(one(k, other)) for other in sorted(near))
    for k, address in itertools.product(range(64), (4096, 0, U64, TWICE)):
        yield read(one(k, address ^ 2**k))
    yield from (read(one(1, address)) for address in (0x0807060504030201, 0x0506070801020304))


def appended():
    """Items appended and read: of addresses that stand once and twice, and refused ones."""
    for n, tlas in itertools.product((0, 1, 2, 3, 40), (PLAIN, RETURNS, 2)):
        yield append(b"".join(map(item, range(n))), tlas)
    yield append(b"".join(map(item, range(512))), RETURNS)
    for id, tlas in itertools.product(range(10), (PLAIN, RETURNS)):
        yield append(item(3, id), tlas)
        yield append(item(1) + item(3, id) + item(2, 6), tlas)
    yield append(b"".join(item(k, k % 6) for k in range(30)))
    yield append(item(1) + item(2, custom=2**24))
    yield append(item(1) + item(2)[:54])
    yield append(item(1), PLAIN, -1)
    yield append(item(1) + item(2), PLAIN, 100)


def of_some():
    for of in (counts, bad_ones, uneven, zero_words, custom_and_mask, numbers, near_addresses, appended):
        yield from of()


# ---- tables


def standing():
    """An address that stands never, once, twice and three times, at each place of a small table; the least, the greatest."""
    for address in (0, U64, 4096, 2**32, 2**63):
        others = [address ^ (9 + k) for k in range(5)]
        for n in (0, 1, 2, 3, 5):
            for at in itertools.chain(*(itertools.combinations(range(n), times) for times in range(min(n, 3) + 1))):
                known = [address if k in at else others[k] for k in range(n)]
                more = [one(n, others[0]) + one(n, address), one(n, others[n - 1]) + one(n, others[0])] if n > 2 else []
                spare = -1 if n == 5 and len(at) == 1 else 0
                yield Tables(TLASES, blases_of(known)), [read(data, spare) for data in (one(n, address), *more)]
        yield Tables(SWAPPED, blases_of([address] * 5)), [read(one(1, address)), append(item(1, 4))]


def cut_tables():
    """A part of a Blas at the end, with an address of its own, with one that stands before it, and zero; parts of Tlases; none."""
    known = (4096, 0, 8192)
    for length in range(85):
        yield Tables(TLASES, blases_of(known)[:length]), [read(one(length, address)) for address in known]
    for address, length in itertools.product((4096, 0), range(28, 85)):
        blases = blases_of((address, 55, address))[:length]
        yield Tables(TLASES, blases), [read(one(length, address)), read(one(length, 55) + one(1, address))]
    for n in range(1, 28):
        yield Tables(SWAPPED, blases_of((4096, 0)) + bytes(n)), [read(one(n, 0)), read(one(n, 4096))]
    for length in (0, 1, 21, 22, 23, 43, 45):
        cases = [read(b""), read(one(length, 0)), append(item(length, 2), length % 2)]
        yield Tables((TLASES + SWAPPED)[:length], blases_of(known)), cases
    yield Tables(b"", b""), [read(b""), read(one(1, 0)), read(one(1, 0, 1)), read(b"\0"), append(b""), append(item(0))]


def other_fields():
    """Every byte of a Blas but its address's: none is judged, nor taken for one of an address."""
    for at, value in itertools.product((*range(12), *range(20, 28)), (0, 1, 2, 255)):
        table = bytearray(blases_of((4096, 0, 8192)))
        table[28 + at] = value
        yield Tables(TLASES, bytes(table)), [read(one(at, 0) + one(at, 8192)), append(item(at, 1))]
    for filled in (b"\0", b"\xff"):
        table = b"".join(filled * 12 + struct.pack("<Q", address) + filled * 8 for address in (1, 2, 3))
        yield Tables(SWAPPED, table), [read(one(k, address)) for k, address in enumerate((0, 1, 2, 3, U64, 2**32 - 1))]


def far_address(k):
    """Another for each k, not in order, and each byte another."""
    return (k + 1) * 0x9E3779B97F4A7C15 % 2**64


def far(n):
    return [far_address(k) for k in range(n)]


def singly(known):
    return [read(one(k, address)) for k, address in enumerate(known)]


def pairs(n):
    """Pairs of places in a table of n: at its ends, about 128, and far from each other."""
    about = {(0, 127), (126, 127), (127, 128), (0, 128), (127, n - 1), (128, 129), (128, n - 1)}
    return sorted((i, j) for i, j in about | {(0, 1), (0, n - 1), (n - 2, n - 1), (1, n // 2)} if 0 <= i < j < n)


def sized(rng):
    """Tables of each size: all addresses at once, some alone, and others; some in order."""
    for n in (1, 2, 64, 127, 128, 129, 130, 200, 256, 257, 300, 585):
        known = far(n)
        cases = singly(known[k] for k in sorted({0, n // 2, 126, 127, 128, n - 2, n - 1} & set(range(n))))
        cases += singly((far_address(n), 0, U64, known[0] + 1, known[-1] ^ 2**63))
        if n < 200 or n == 257:
            cases.append(read(each(one, *reversed(known))))
        cases += [append(b"".join(item(k, k) for k in rng.sample(range(n), min(n, 40))))]
        cases += [append(item(1, n)), append(item(1, n - 1))]
        yield Tables(TLASES, blases_of(known)), cases
    for n, down in itertools.product((2, 127, 128, 129), (False, True)):
        known = sorted(far(n), reverse=down)
        yield Tables(TLASES, blases_of(known)), singly(known[:3] + known[-3:])


def twice():
    """Tables in which addresses stand twice, at each pair of places: many of them at once, and one."""
    for n in (127, 128, 129, 300):
        known = far(n)
        for i, j in pairs(n):
            known[j] = known[i]
        yield Tables(SWAPPED, blases_of(known)), singly(dict.fromkeys(known))[:: n // 100]
    for n in (2, 3, 128, 129):
        for i, j in pairs(n):
            known = far(n)
            known[j] = known[i]
            others = [k for k in sorted({0, i - 1, i + 1, j - 1, j + 1, n - 1}) if 0 <= k < n and k not in (i, j)]
            cases = [append(item(1, i)), append(item(1, j)), *singly((known[i], far_address(j), *(known[k] for k in others)))]
            yield Tables(TLASES, blases_of(known)), cases
    # the ends of what an address may be, among many others
    for end in (0, U64):
        for n, at in ((127, {126}), (128, {0}), (128, {64}), (128, {127}), (128, {0, 127}), (129, {128}), (129, {1, 128})):
            known = [end if k in at else far_address(k) for k in range(n)]
            yield Tables(TLASES, blases_of(known)), [*singly((end, U64 - end)), read(one(2, known[2]) + one(1, end))]


# addresses that fall together where a Blas is looked up by some of their bits, or by a remainder
TOGETHER = {
    "256s": lambda k: 256 * k,
    "255 and 256s": lambda k: 256 * k + 255,
    "257s": lambda k: 257 * k,
    "256 and 257s": lambda k: 257 * k + 256,
    "down in 257s": lambda k: U64 - 257 * k,
    "251s": lambda k: 251 * k + 5,
    "low bytes": lambda k: (k << 56) + 0x123456789ABCDE,
    "high bytes": lambda k: 0xABCDEF0123456700 + k,
    "512s": lambda k: 512 * k + 511,
    "65536s": lambda k: 65536 * k + 65535,
    "2^32s": lambda k: (k << 32) + 3,
    "one bit each": lambda k: (1 << k % 64) ^ 7 * (k // 64),
    "in turn": lambda k: k,
    "halves alike": lambda k: (k << 32) + k,
    "halves opposed": lambda k: (k << 32) + (255 - k),
}


def together():
    """Tables whose addresses fall together, full ones and small ones: none stands twice, or one; those of the table, and others
    that fall in with them."""
    for name, address in TOGETHER.items():
        for n in (128, 20, 129) if name in ("257s", "high bytes") else (128, 20):
            known = [address(k) for k in range(n)]
            assert len(set(known)) == n, name
            others = {address(n), address(n + 1), known[0] ^ 2**40, known[-1] ^ 2**20} - set(known)
            yield Tables(TLASES, blases_of(known)), [read(each(one, *known)), *singly(sorted(others))]
        for n, i, j in ((128, 0, 127), (20, 0, 19), (20, 5, 12)):
            known = [address(k) for k in range(n)]
            known[j] = known[i]
            cases = singly((known[i], known[2], address(j), known[n - 3]))
            yield Tables(SWAPPED, blases_of(known)), [*cases, append(item(1, j)), append(item(1, 2))]


def random_case(rng, known):
    def word():
        return rng.choice(CLASSES) if rng.random() < 0.3 else rng.randrange(2**32)

    def head():
        blas = rng.randrange(len(known)) if known and rng.random() < 0.98 else rng.randrange(65536)
        return struct.pack("<HIB", blas, rng.randrange(2**24) if rng.random() < 0.98 else rng.randrange(2**32), rng.randrange(256))

    def tail():
        address = rng.choice(known) if known and rng.random() < 0.97 else rng.choice((0, U64, rng.randrange(2**64)))
        return struct.pack("<IIQ", word(), rng.randrange(2**32) if rng.random() < 0.03 else 0, address)

    twelves = [struct.pack("<12I", *(word() for _ in range(12))) for _ in range(rng.choice((0, 1, 1, 2, 3, 5, 8, 13)))]
    if rng.random() < 0.3:
        return append(b"".join(head() + words for words in twelves), rng.randrange(2), rng.choice((0, 0, 0, 1, -1, 64)))
    data = b"".join(words + tail() for words in twelves) + rng.randbytes(rng.choice((0,) * 15 + (rng.randrange(1, INSTANCE),)))
    return read(data, rng.choice((0, 0, 0, 1, -1, ITEM, -ITEM, rng.randrange(-200, 300))))


def at_random(rng):
    for _ in range(90):
        n = rng.choice((0, 1, 2, 3, 5, 5, 8, 8, 13, 13, 40, 130))
        pool = [rng.choice((rng.randrange(2**64), rng.randrange(1000), 257 * rng.randrange(40))) for _ in range(3 * n + 1)]
        known = [rng.choice(pool) if rng.random() < 0.2 else pool[k] for k in range(n)]
        once = [address for address in known if known.count(address) == 1]
        blases = blases_of(known, rng.choice(((2, 7, 254, 253), (2,), (0,), (255, 2)))) + rng.randbytes(rng.choice((0, 0, 1, 27)))
        cases = [random_case(rng, rng.choice((once, once, known))) for _ in range(rng.choice((3, 8)))]
        yield Tables(rng.choice((TLASES, SWAPPED)), blases), cases
    for _ in range(20):
        cases = [read(rng.randbytes(rng.choice((0, 64, 128, 100))), rng.randrange(99)) for _ in range(2)]
        yield Tables(rng.randbytes(44), rng.randbytes(rng.randrange(200))), cases


def groups():
    """Tables, and the cases of each."""
    rng = random.Random(107)
    yield TABLES, list(of_some())
    yield from standing()
    yield from cut_tables()
    yield from other_fields()
    yield from sized(rng)
    yield from twice()
    yield from together()
    yield from at_random(rng)


# ---- what is expected


def filled(room):
    return bytes([PATTERN]) * room


def calls(tables, c):
    """Each call of a case: its numbers, and what it leaves of its room."""
    if c.kind == RECORDS:
        answer, left = instances.read_instances(c.data, tables.blases, filled(c.room))
        yield answer, left
        for tlas in (0, 1) if answer[0] == 0 else ():
            yield append_many(*tables, tlas, left[: answer[3]], filled(len(c.data)), 0)
    else:
        answer, left = append_many(*tables, c.tlas, c.data, filled(c.room), 0)
        yield answer, left
        if answer[0] == 0:
            yield instances.read_instances(left[: answer[3]], tables.blases, filled(len(c.data)))


def hold_records(tables, c, answer, left):
    """What is read, held to each record read alone, to two calls for a part each, and to the writer."""
    given, written = whole(c.data), answer[3]
    alone = [judge(r, tables.blases, ITEM)[0] for r in given]
    bad = next((k for k, number in enumerate(alone) if number), None)
    assert len(left) == c.room and left[written:] == filled(c.room - written)
    if len(c.data) % INSTANCE:
        assert answer == (48, 0, 0, 0)
    elif bad is not None:
        assert answer == (alone[bad], bad, 0, 0)
    elif c.room < ITEM * len(given):
        assert answer == (39, 0, 0, 0)
    else:
        assert answer == (0, 0, 0, ITEM * len(given))
        hold_accepted(tables, c.data, left[:written])


def hold_accepted(tables, data, items):
    half = len(whole(data)) // 2 * INSTANCE
    halves = [instances.read_instances(part, tables.blases, bytes(len(part))) for part in (data[:half], data[half:])]
    assert b"".join(left[: answer[3]] for answer, left in halves) == items
    known = [blas(r)["address"] for r in records(1, tables.blases, 2)]
    for r, one_of in zip(whole(data), split(items)[0], strict=True):
        assert [k for k, address in enumerate(known) if address == parts(r)[3]] == [in_table(tables.blases, one_of)[0]["blas"]]
    # "What it accepts, the writer turns back into the same bytes, 35 aside", of any Tlas
    for tlas in range(len(tables.tlases) // 22):
        answer, there = append_many(*tables, tlas, items, bytes(len(data)), 0)
        if answer[0] == 35:
            assert tables.tlases[22 * tlas] & 2 and not in_table(tables.blases, split(items)[0][answer[2]])[1]["flags"] & 2
        else:
            assert answer == (0, 0, 0, len(data)) and there == data


def hold_items(tables, c, again, back):
    """What was appended, read: "an instance that the writer took and whose Blas address stands once in the table comes back as it
    was", else the first is refused that does not."""
    known = addresses(tables.blases)
    several = [k for k, one_of in enumerate(split(c.data)[0]) if known.count(in_table(tables.blases, one_of)[1]["address"]) > 1]
    if several:
        assert again == (50, several[0], 0, 0)
    else:
        assert again == (0, 0, 0, len(c.data)) and back == c.data


def hold_far():
    """Where a table is longer than the program has room for: an id is a u16, and all of the table counts."""
    known = tuple(range(IDS + 2))
    assert [found(known, k) for k in (0, IDS - 1, IDS, IDS + 1)] == [0, IDS - 1, None, None]
    assert found((*known, 5), 5) is None and found((*known, IDS), IDS) is None and found(known, IDS + 2) is None


def reads(expected):
    """What is lent to each call that reads, and what it comes to."""
    for tables, c, right in expected:
        if c.kind == RECORDS:
            yield c.data, tables.blases, c.room, right[0]
        elif len(right) > 1:
            (*_, used), left = right[0]
            yield left[:used], tables.blases, len(c.data), right[1]


def is_noticed(of, wrong, reading):
    """Whether a reading that has another function in place of one is told from the right one."""
    assert hasattr(instances, of), of

    def differs(data, blases, room, right):
        try:
            return instances.read_instances(data, blases, filled(room)) != right
        except struct.error:
            # what it takes for an item's numbers does not fit one
            return True

    with mock.patch.object(instances, of, wrong):
        return any(differs(*call) for call in reading)


def data_of(tables, cases):
    assert len(tables.tlases) <= MOST_TLASES and len(tables.blases) <= MOST_BLASES
    assert all(max(c.room, len(c.data) // ITEM * INSTANCE) <= MOST for c in cases)
    lent = b"".join(struct.pack("<I", len(table)) + table for table in tables)
    return lent + struct.pack("<I", len(cases)) + b"".join(struct.pack("<4I", *c[:3], len(c.data)) + c.data for c in cases)


def main():
    folder = pathlib.Path(__file__).resolve().parent.parent / "crates/cases_instances"
    folder.mkdir(exist_ok=True)
    some_groups = list(groups())
    expected = [(tables, c, list(calls(tables, c))) for tables, cases in some_groups for c in cases]
    hold_far()
    seen = collections.defaultdict(list)
    for tables, c, (first, *rest) in expected:
        if c.kind == RECORDS:
            hold_records(tables, c, *first)
        elif rest:
            hold_items(tables, c, *rest[0])
        seen[c.kind, "first"].append(first[0][0])
        seen[c.kind, "then"] += [answer[0] for answer, _ in rest]
    numbers = {k: set(v) for k, v in seen.items()}
    assert numbers[RECORDS, "first"] == {0, 39, 48, 49, 50} and numbers[RECORDS, "then"] == {0, 6, 35}
    assert numbers[ITEMS, "first"] == {0, 5, 6, 34, 35, 39} and numbers[ITEMS, "then"] == {0, 50}
    reading = list(reads(expected))
    for name, (of, wrong) in WRONG.items():
        if not is_noticed(of, wrong, reading):
            raise SystemExit(f"a wrong reading that no case tells from the right one: {name}")
    data = b"".join(data_of(*group) for group in some_groups)
    (folder / "stdin").write_bytes(data)
    lines = [" ".join(map(str, (*answer, hashed(left)))) for *_, right in expected for answer, left in right]
    (folder / "stdout").write_text("".join(line + "\n" for line in lines))
    print(f"{len(expected)} cases of {len(some_groups)} tables, {len(data)} bytes; {len(WRONG)} wrong readings noticed")
    print(f"records: {told(seen[RECORDS, 'first'])}; appended to two Tlases: {told(seen[RECORDS, 'then'])}")
    print(f"items: {told(seen[ITEMS, 'first'])}; read: {told(seen[ITEMS, 'then'])}")


if __name__ == "__main__":
    main()
