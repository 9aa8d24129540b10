#!/usr/bin/env python3
"""Writes crates/cases_build/stdin and stdout: builds over lent tables, and the answers of paper.py.

A case: seventeen u32, the scratch alignment, the lengths of the eight tables in bytes and of the seven lent outputs in elements, the version;
then the tables. Its line: number, E, three figures, recorded, scratch size, how many elements of each output are written, and a hash of each
output's whole array, which was filled with a pattern before.

The reading is held to itself for 37: the place is the first one up to which the sizes, each rounded, sum to 2^64 - 1 or more; and the builds
that are refused by it are those whose larger total comes to 2^64 - 1 where roundings and sums stop there. And for the version: the same values
are answered alike in either.
"""
import copy
import functools
import pathlib
import random
import struct
from collections import Counter

from make_read_cases import ABOUT_2_32, FIRST, record
from paper import NONE, U64, build
from reading import LIMITS, VERSIONS, sizes
from rounding import rounded

ARRAYS = (72, 40, 80, 33024, 2400, 72, 700)
BYTES = (8, 8, 8, 1, 8, 2, 2)
M = 4294967291


def base():
    """Three Blases, triangles with and without indices and transform, and boxes; two Tlases; every output is written."""
    return dict(
        version=1,
        alignment=256,
        buffers=[[1000, 1], [48, 1], [600, 1], [36, 1]],
        blases=[[0, 4, 0, 0, 300, 4096, 9], [0, 1, 1, 0, 10, 8192, 0], [1, 6, 2, 0, 512, 2**63, 3]],
        declared=[
            [0, 1, 30, 2, 12, 4, 2, 1, 6],
            [2, 0, 20, 0, 0, 0, 0, 0, 0],
            [1, 0, 3, 1, 12, 4, 0, 0, 0],
            [0, 0, 3, 1, 12, 4, 0, 0, 0],
        ],
        tlases=[[0, 0, 1000, 3, 0], [2, 0, 24, 1, 5]],
        entries=[[0, 0, 2], [1, 0, 1], [2, 1, 1], [0, 1, 0]],
        geometries=[
            [1, 3, 2, 12, 0, 2, 2, 2, 1, 6, 1, 3, NONE, 7, 7],
            [0, 3, 0, 12, 3, 1, 0, NONE, 0, 0, 9, 9, NONE, 9, 9],
            [0, 3, 0, 12, 3, 1, 0, NONE, 0, 0, 9, 9, 1, 1, 0],
            [0, 20, 8, 24, 2, 9, 9, 9, 9, 9, 9, 9, 9, 9, 9],
        ],
        packages=[[0, 3], [1, 1], [0, 0]],
        slots=[
            [1, 0, 5, 255] + [0x3F800000 + i for i in range(12)],
            [0, NONE, 2**32 - 1, 9] + [7] * 12,
            [1, 1, 2**24 - 1, 1] + [0x7FC00001, 0xFFFFFFFF, 0x80000000, 1] * 3,
            [1, 2, 0, 0] + [0] * 12,
        ],
    )


SECTIONS = ("buffers", "blases", "declared", "tlases", "entries", "geometries", "packages", "slots")


def tables(x):
    return [b"".join(record(k, *r, version=x["version"]) for r in x[name]) for k, name in enumerate(SECTIONS, 1)]


def changed(*edits):
    """The base with (section, record, field, value) edits; a section None is the alignment."""
    x = base()
    for section, i, j, value in edits:
        if section is None:
            x["alignment"] = value
        else:
            x[section][i][j] = value
    return x


def as_version(version, x):
    return dict(x, version=version)


def flat(some):
    """Each build by itself, where several are yielded at once."""
    for x in some:
        yield from x if isinstance(x, tuple) else (x,)


def refusals():
    g, d, b, t = "geometries", "declared", "blases", "tlases"
    yield changed((None, 0, 0, 0))
    yield changed(("buffers", 1, 1, 4))
    yield changed((b, 2, 0, 2)), changed((b, 0, 3, 2))
    yield changed((d, 1, 0, 3)), changed((d, 2, 5, 0)), changed((t, 1, 0, 1)), changed(("entries", 2, 1, 2))
    yield changed((g, 3, 4, NONE)), changed((g, 0, 6, 3)), changed(("slots", 1, 0, 2))
    yield changed(("entries", 0, 2, 3)), changed(("packages", 0, 1, 2)), changed(("entries", 0, 2, 65535), ("entries", 1, 2, 4))
    # 6
    for i, j, v in ((0, 4, 4), (0, 4, 65534), (0, 7, 4), (2, 12, 4), (3, 4, 4)):
        yield changed((g, i, j, v))
    yield changed(("entries", 1, 0, 3)), changed(("entries", 0, 0, 65535)), changed(("slots", 2, 1, 3)), changed(("packages", 1, 0, 2))
    # a geometry's buffer before its entry's Blas, an entry's Blas before the next entry's buffer, slots before the Tlas
    yield changed(("entries", 0, 0, 9), (g, 1, 4, 9)), changed(("entries", 0, 0, 9), (g, 2, 4, 9)), changed(("packages", 0, 0, 9), ("slots", 2, 1, 9))
    # 10, 11
    yield changed((b, 0, 0, 1)), changed(("entries", 2, 0, 0)), changed(("entries", 1, 0, 2))
    yield changed((d, 3, 0, 2)), changed((d, 0, 0, 1))
    # 12 to 20
    yield changed((g, 0, 0, 2)), changed((g, 0, 1, 31)), changed((g, 0, 1, 30), (g, 0, 2, 0)), changed((g, 0, 5, 3)), changed((g, 0, 3, 11))
    yield changed((g, 0, 3, 14)), changed((g, 0, 8, 0)), changed((d, 3, 7, 1)), changed((g, 0, 9, 9)), changed((g, 0, 6, 1)), changed((g, 0, 7, NONE))
    # the data buffer: 21, 22, 23
    for marks in (0, 2, 3):
        yield changed(("buffers", 0, 1, marks))
    yield changed(("buffers", 0, 0, 59)), changed(("buffers", 0, 0, 60)), changed((g, 0, 3, 2**63)), changed((g, 0, 3, 2**64 - 4))
    # the index buffer: 24, 21, 22, 25, 26, 26, 27, 23
    yield changed((g, 0, 10, 0)), changed((d, 0, 7, 0), (g, 0, 8, 0))
    for marks in (0, 2, 3):
        yield changed(("buffers", 2, 1, marks))
    yield changed((d, 0, 6, 0), (g, 0, 6, 0))
    for width in (1, 2):
        for first in (2**30 - 1, 2**30, 2**31 - 1, 2**31):
            yield changed((d, 0, 6, width), (g, 0, 6, width), (g, 0, 11, first))
    yield changed((d, 0, 8, 2**32 - 1), (g, 0, 9, 2**30)), changed((d, 0, 8, 2**32 - 1), (g, 0, 9, 2**30 - 1))
    yield changed((g, 0, 9, 5)), changed((g, 0, 9, 4)), changed((g, 0, 11, 144)), changed((g, 0, 11, 145)), changed((g, 0, 9, 0))
    # the transform buffer: 28, 24, 21, 22, 26, 29, 23, 30
    yield changed((b, 1, 1, 0)), changed((g, 2, 13, 0)), changed((g, 2, 12, NONE))
    for marks in (0, 2, 3):
        yield changed(("buffers", 1, 1, marks))
    for offset in (2**32, 2**32 - 16, 8, 16, 2**64 - 1):
        yield changed((g, 2, 14, offset))
    yield changed(("buffers", 1, 0, 47)), changed(("buffers", 1, 0, 64), (g, 2, 14, 16)), changed(("buffers", 1, 0, 63), (g, 2, 14, 16))
    # boxes: 31, 32, 33, 26, 23
    yield changed((g, 3, 0, 1)), changed((g, 3, 1, 21)), changed((g, 3, 2, 4)), changed((g, 3, 3, 16)), changed((g, 3, 3, 28)), changed((g, 3, 3, 0))
    yield changed((d, 1, 2, 2**32 - 1), (g, 3, 1, 178956971)), changed((d, 1, 2, 2**32 - 1), (g, 3, 1, 178956970))
    yield changed((d, 1, 2, 2**32 - 1), (g, 3, 1, 178956970), ("buffers", 2, 0, 2**33)), changed((g, 3, 3, 2**32)), changed((g, 3, 1, 0), (g, 3, 3, 2**32))
    yield changed((g, 3, 3, 2**64 - 8)), changed((g, 3, 2, 112)), changed((g, 3, 2, 120)), changed((g, 3, 2, 128))
    # 34, 35, 36
    yield changed(("slots", 0, 2, 2**24)), changed(("slots", 3, 1, 0)), changed(("slots", 3, 1, 0), ("slots", 3, 2, 2**24)), changed((t, 0, 3, 1)), changed((t, 0, 3, 2)), changed((t, 1, 3, 0))
    # 37 and totals
    yield changed((b, 0, 4, U64)), changed((t, 0, 2, U64)), changed((None, 0, 0, 1), (b, 0, 4, U64 - 523)), changed((None, 0, 0, 1), (b, 0, 4, U64 - 1034), (b, 1, 4, 0), (b, 2, 4, 1034))
    yield changed((None, 0, 0, 7), (b, 0, 4, U64 - 2), (b, 1, 4, 0), (b, 2, 4, 0)), changed((None, 0, 0, 2**32 - 1))
    zero = [(b, 0, 4, 0), (b, 1, 4, 0), (b, 2, 4, 0), (t, 0, 2, 0), (t, 1, 2, 0)]
    # the other entries, the other package, and by a Blas and a Tlas that come again; half of 2^64 twice would wrap to 0
    yield changed((b, 1, 4, U64)), changed((b, 2, 4, U64)), changed((t, 1, 2, U64))
    for size in (2**63 - 1, 2**63):
        for some in ([(b, 0, 4, size)], [(t, 0, 2, size)]):
            yield changed((None, 0, 0, 1), *some), changed(*zero, (None, 0, 0, 1), *some), changed(*zero, (None, 0, 0, 3), *some), changed(*zero, *some)
    # an entry before a package that gets there sooner; a Blas total of 2^64 - 2 leaves it to the package
    yield changed(*zero, (b, 0, 4, 2**63), (t, 0, 2, U64)), changed(*zero, (None, 0, 0, 1), (b, 0, 4, 2**63 - 1), (t, 1, 2, U64))
    # 37 before 21 and 38, and after what is refused of ids, geometries and slots
    for top in ((b, 0, 4, U64), (t, 0, 2, U64)):
        yield changed(top, (t, 0, 1, 1)), changed(top, (b, 0, 3, 1)), changed(top, (b, 0, 2, 3)), changed(top, (t, 1, 1, 1), (b, 1, 3, 1), (b, 2, 2, 3))
        yield changed(top, ("packages", 1, 0, 2)), changed(top, (g, 3, 3, 16)), changed(top, ("slots", 3, 1, 0)), changed(top, (t, 1, 3, 0))
    # nothing recorded: zero scratch comes before destroyed and compacted
    yield changed(*zero), changed(*zero, (b, 0, 2, 3), (t, 0, 1, 1), (b, 0, 3, 1))
    yield changed(*zero, *((b, i, j, v) for i in range(3) for j, v in ((2, 3), (3, 1))), (t, 0, 1, 1), (t, 1, 1, 1))
    # 21, 38
    yield changed((t, 0, 1, 1)), changed((t, 1, 1, 1), (b, 0, 3, 1)), changed((b, 0, 3, 1)), changed((b, 1, 3, 1), (b, 0, 2, 3)), changed((b, 0, 2, 3)), changed((b, 2, 2, 3), (b, 2, 3, 1))


def wide_boxes():
    """Boxes from 2^32 on: 32, 33, 26 and 23 over whole numbers. Regions that end at the buffer's end, a byte before and past it; sums that would
    come back to 0 where they wrap; a stride or a region that is too large, which 26 refuses whatever the offset is."""
    g, b = ("geometries", 3), ("buffers", 2)
    for first in (*ABOUT_2_32, 2**32 - 8, 2**32 + 4, 2**32 + 8, 2**40, 2**63 + 8, 2**64 - 480, 2**64 - 488, 2**64 - 8):
        for size in sorted({600, U64, *(n for n in (first + 480, first + 479, first + 481, (first + 480) % 2**64) if n <= U64)}):
            yield changed((*g, 2, first), (*b, 0, size))
        for count, stride in ((0, 24), (20, 16), (20, 2**32 - 8), (0, 2**32), (20, 2**64 - 8), (1, 2**32 - 8)):
            yield changed((*g, 2, first), (*g, 1, count), (*g, 3, stride), (*b, 0, U64))
        yield changed((*g, 2, first), (*b, 1, 3)), changed((*g, 2, first), (*b, 1, 0)), changed((*g, 2, first), (*g, 1, 21))
    declared = ("declared", 1, 2, 2**32 - 1)
    for first in (2**32 - 8, 2**32, 2**64 - 2**32, 2**64 - 2**32 + 8):
        for count in (178956970, 178956971):
            yield changed(declared, (*g, 2, first), (*g, 1, count), (*b, 0, U64))


def wide_vertices():
    """First vertices from 2^32 on, of a geometry whose stride may be any: 23 over whole numbers. Products below 2^64, at it and past it, such as
    would come back to 0 or to little where they wrap, and a stride of 0, by which every vertex is at byte 0."""
    g, b = ("geometries", 0), ("buffers", 0)
    free = (("declared", 0, 4, 0), ("declared", 0, 5, 1))
    firsts = (0, *ABOUT_2_32, 2**32 - 3, 2**32 + 1, 2**62, 2**63 - 3, 2**64 - 3, 2**64 - 4)
    for first in firsts:
        for stride in (0, 1, 2, 3, 4, 12, 2**31, 2**32 - 1, 2**32, 2**32 + 1, 2**63, U64):
            for size in sorted({0, 1000, U64, *(n for n in ((first + 3) * stride, (first + 3) * stride - 1) if 0 <= n <= U64)}):
                yield changed(*free, (*g, 2, first), (*g, 3, stride), (*b, 0, size))
    # factors of 2^64 - 1: the region ends there, or one stride further on
    for stride in (3, 5, 17, 257, 641, 65537, 6700417):
        for more in (0, 1):
            yield changed(*free, (*g, 2, U64 // stride - 3 + more), (*g, 3, stride), (*b, 0, U64))
    # none at all from there on, and what is judged before and after
    for first in firsts:
        yield changed(*free, (*g, 1, 0), (*g, 2, first), (*b, 0, U64)), changed(*free, (*g, 1, 0), (*g, 2, first), (*g, 3, 1), (*b, 0, U64))
        yield changed((*g, 2, first), (*g, 3, 11)), changed((*g, 2, first), (*b, 1, 2)), changed(*free, (*g, 2, first), (*g, 3, 0), (*g, 10, 0))
        yield changed(*free, (*g, 2, first), (*g, 3, 0), (*g, 11, 145)), changed(("geometries", 2, 2, first), ("buffers", 3, 0, U64), ("geometries", 2, 14, 8))


def wide_refusals():
    yield from (as_version(2, x) for x in flat((*wide_boxes(), *wide_vertices())))


def needing(alignment, blases, tlases):
    """A build whose entries and packages need these sizes and have neither geometries nor slots. Their Blases and Tlases come in another order,
    where there is room after one that no entry or package names: a place is no id, and only what is built counts."""
    x = dict({name: [] for name in SECTIONS}, version=1, alignment=alignment)
    x["blases"] = [[0, 4, 0, 0, size, 4096, 1] for size in (U64, *reversed(blases))]
    x["entries"] = [[len(blases) - i, 0, 0] for i in range(len(blases))]
    one = len(tlases) < 32
    x["tlases"] = [[0, 0, size, 0, 1] for size in (*[U64] * one, *reversed(tlases))]
    x["packages"] = [[len(tlases) - 1 + one - i, 0] for i in range(len(tlases))]
    return x


def rounded_once():
    """Alignments and sizes: one size about the last multiple, in the first, a middle and the last place. Of these alignments 1, 2, 7, 14 and 127
    divide 2^64 - 2; 3, 5, 255, 257, 641, 65537 and 2^32 - 1 divide 2^64 - 1; and powers of two divide 2^64."""
    for a in (1, 2, 3, 5, 7, 14, 127, 255, 256, 257, 641, 65537, 2**31, 2**32 - 2, 2**32 - 1):
        last = U64 // a * a
        for size in sorted({last - a, last - a + 1, last, last + 1, U64 - 1, U64} - {U64 + 1}):
            for at in range(3):
                yield a, [size if i == at else 0 for i in range(3)]


def summed():
    """Alignments and sizes: two and three sizes that sum to 2^64 - 2, 2^64 - 1 or 2^64, each as far below its multiple as it can be, at the
    start, at the end with zeros between, and with more to come."""
    for total, some in ((U64 - 1, (1, 2, 7, 127)), (U64, (1, 3, 255, 2**32 - 1)), (U64 + 1, (1, 2, 256, 2**31))):
        for a in some:
            half, third = total // a // 2 * a, total // a // 3 * a
            for parts in ((half, total - half), (a, total - a), (total - a, a), (third, third, total - 2 * third)):
                sizes = [part - a + 1 for part in parts]
                yield from ((a, [*sizes, 0]), (a, [n for size in sizes for n in (0, size)]), (a, [*sizes, *sizes]))


def sides():
    """Pairs of sizes of Blases and of Tlases, to the alignment 1: every pair of totals that are 0, small, just below 2^64 - 1, at it and past it."""
    some = ([], [0, 0], [5], [U64 - 1, 0], [U64], [0, 0, U64], [U64 - 1, 0, 1], [U64 - 1, 2, U64], [2**63, 2**63])
    return ((blases, tlases) for blases in some for tlases in some)


def largest_tables():
    """As many entries and packages as there may be, the place anywhere among them."""
    for at in (0, 1, 31, 32, 62, 63):
        yield needing(256, [U64 if i == at else i for i in range(64)], [0] * 32)
    for at in (0, 1, 15, 16, 30, 31):
        yield needing(256, [0] * 64, [U64 if i == at else i for i in range(32)])
    # each about as large as it may be: the last one decides
    for less in range(4):
        blases, tlases = [2**58] * 63 + [2**58 - less], [2**59] * 31 + [2**59 - less]
        yield needing(1, blases, [5] * 32)
        yield needing(1, [5] * 64, tlases)
        yield needing(1, blases, tlases)
        yield needing(4, blases, [7] * 32)
        yield needing(4, [7] * 64, tlases)
    yield needing(1, [2**58] * 63 + [2**58 - 2], [2**59] * 31 + [2**59 - 1])
    yield needing(2**31, [2**58 - 2**31 + 1] * 64, [2**59 - 2**31 + 1] * 32)
    # one Blas in all entries, one Tlas in all packages
    for size, most in ((2**58, 2**59), (2**58 - 1, 2**59), (2**58 - 1, 2**59 - 1)):
        x = needing(1, [size], [most])
        x["entries"], x["packages"] = x["entries"] * 64, x["packages"] * 32
        yield x


def some_sizes(choose, a, most):
    """Parts of a total that is often about 2^64 - 1, as they are or as multiples."""
    n = choose.choice((0, 1, 2, 3, 5, choose.randint(1, most)))
    total = choose.choice((0, U64 - 1, U64, U64 + 1, U64 - a, U64 - choose.randrange(64 * a), choose.randrange(U64), choose.randrange(2**40)))
    step = choose.choice((1, a))
    cuts = sorted(choose.randrange(total // step + 1) * step for _ in range(n - 1))
    parts = [end - start for start, end in zip([0, *cuts], [*cuts, total])][:n]
    parts += [0] * choose.randint(0, min(3, most - n))
    choose.shuffle(parts)
    return [min(part, U64) for part in parts]


def marked(x):
    """With all that is built destroyed, and each Blas compacted."""
    for r in x["blases"]:
        r[2:4] = 3, 1
    for r in x["tlases"]:
        r[1] = 1
    return x


def random_totals():
    choose = random.Random(5)
    for _ in range(300):
        a = choose.choice((1, 2, 3, 7, 255, 256, 65537, 2**31, 2**32 - 1, choose.randrange(1, 2**32)))
        x = needing(a, some_sizes(choose, a, 64), some_sizes(choose, a, 32))
        yield marked(x) if choose.random() < 0.2 else x
    for _ in range(100):
        x = base()
        x["alignment"] = choose.choice((1, 3, 7, 256, choose.randrange(1, 2**32)))
        for r, at in [(r, 4) for r in x["blases"]] + [(r, 2) for r in x["tlases"]]:
            r[at] = choose.choice((0, r[at], 2**62, 2**63 - 1, 2**63, U64 - choose.randrange(2000), choose.randrange(U64)))
        yield marked(x) if choose.random() < 0.2 else x


def total_cases():
    """Totals about 2^64 - 1, with nothing that is refused before them."""
    for a, sizes in (*rounded_once(), *summed()):
        yield needing(a, sizes, [1, 0]), ARRAYS
        yield needing(a, [0, 1], sizes), ARRAYS
    for blases, tlases in sides():
        yield needing(1, blases, tlases), ARRAYS
        # 37 before 21, 38 and 39; and none of them with zero scratch
        yield marked(needing(1, blases, tlases)), (0,) * 7
        yield needing(1, blases, tlases), (0,) * 7
    for x in (*largest_tables(), *random_totals()):
        yield x, ARRAYS


def all_cases():
    room = ARRAYS
    for version in VERSIONS:
        for x in (base(), *flat(refusals())):
            yield as_version(version, x), room
    for x in wide_refusals():
        yield x, room
    # each output exactly full, and one element less; also with nothing recorded
    zero = changed(*[("blases", i, 4, 0) for i in range(3)], *[("tlases", i, 2, 0) for i in range(2)])
    far = as_version(2, changed(("geometries", 3, 2, 2**40), ("buffers", 2, 0, 2**41)))
    for x in (base(), zero, far):
        lengths = [len(o or []) for o in build(x["version"], x["alignment"], tables(x), room)[1]]
        yield x, tuple(lengths)
        for i in range(7):
            if lengths[i]:
                yield x, tuple(n - (k == i) for k, n in enumerate(lengths))
    empty = {name: [] for name in SECTIONS}
    for version in VERSIONS:
        yield dict(empty, version=version, alignment=1), (0,) * 7
    # compacted and short: 38 before 39
    yield changed(("blases", 0, 2, 3)), (0,) * 7
    choose = random.Random(7)
    for i in range(600):
        x = base() if i < 400 else as_version(2, base())
        for _ in range(choose.randint(1, 4)):
            name = choose.choice(SECTIONS)
            i = choose.randrange(len(x[name]))
            j = choose.randrange(len(x[name][i]))
            width = {"slots": 1}.get(name, 1)
            x[name][i][j] = choose.choice((0, 1, 2, 3, x[name][i][j], max(0, x[name][i][j] - 1), min(x[name][i][j] + 1, 255) if width else 0))
        if i >= 400 and choose.random() < 0.7:
            r, size = choose.choice(x["geometries"]), choose.choice(x["buffers"])
            r[FIRST[1]] = choose.choice((*ABOUT_2_32, 2**32 + 8 * choose.randrange(2**20), choose.randrange(2**64)))
            size[0] = choose.choice((size[0], 2**33, U64, choose.randrange(2**64)))
        if choose.random() < 0.3:
            x["geometries"] += copy.deepcopy(x["geometries"][3:])
            x["entries"][2][2] += 1
        yield x, tuple(choose.choice((n, n, n, choose.randrange(12))) for n in room)


def table_cases(version=1):
    """Limits, sums and part records of lent tables."""
    for k, name in enumerate(SECTIONS, 1):
        t = tables(as_version(version, base()))
        for extra in (b"\0", bytes(3)):
            yield t[: k - 1] + [t[k - 1] + extra] + t[k:]
    for k, most in enumerate(LIMITS[:8], 1):
        for n in (most, most + 1):
            t = [b""] * 8
            one = {3: record(3, 0, 0, 0, 0, 0, 1, 0, 0, 0)}.get(k, bytes(sizes(version)[k - 1]))
            t[k - 1] = one * n
            if k == 3:
                t[1] = bytes(28)
            if k == 6:
                t[4] = record(5, 0, 1, n)
            if k == 8:
                t[6] = record(7, 0, n)
            yield t


def other_tables():
    """Geometries of the other version: as many bytes as are no whole records, and as are fewer or more of them."""
    for version in VERSIONS:
        yield version, tables(as_version(3 - version, base()))
        size, other = sizes(version)[5], sizes(3 - version)[5]
        for n in (1, 11, 12, 22, 24):
            t = [b""] * 8
            t[5] = bytes(other * n)
            for count in sorted({n, other * n // size}):
                t[4] = record(5, 0, 1, count)
                yield version, list(t)
    t = tables(base())
    # bytes that are left over, as many as one record has more than the other
    yield 1, [*t[:5], t[5] + bytes(4), *t[6:]]
    yield 2, [*t[:5], *tables(as_version(2, base()))[5:6], *t[6:]]
    yield 2, [*t[:5], tables(as_version(2, base()))[5][:-4], *t[6:]]


def agrees(x, answer):
    """37's place and figures against a sum from the start for each place; and what is refused by it against totals that stop at 2^64 - 1."""
    number, sort_of_21, size = answer[0], answer[3], answer[-1]
    if number not in (0, 21, 37, 38, 39) or (number, sort_of_21) == (21, 1):
        # refused before the totals are judged: there must be something to refuse
        return x["geometries"] != []
    blases, tlases = [x["blases"][r[0]][4] for r in x["entries"]], [x["tlases"][r[0]][2] for r in x["packages"]]
    ups = [[rounded(n, x["alignment"]) for n in some] for some in (blases, tlases)]
    stopped = max(functools.reduce(lambda total, n: min(U64, total + min(U64, n)), some, 0) for some in ups)
    if stopped < U64:
        return number != 37 and (number != 0 or size == max(map(sum, ups)))
    sort, at = next((sort, i) for sort, some in enumerate(ups, 1) for i in range(len(some)) if sum(some[: i + 1]) >= U64)
    return answer == (37, at, 0, sort, 0, 0, 0, 0)


# of most outputs nothing is written
@functools.cache
def hashed(values, index):
    n = 256 ** BYTES[index]
    pattern = n // 255 * 165
    array = [pattern] * ARRAYS[index]
    if values is not None:
        array[: len(values)] = values
    h = 0
    for v in array:
        h = (h * 31 + v % M + 7) % M
    return h


def main():
    folder = pathlib.Path(__file__).resolve().parent.parent / "crates/cases_build"
    folder.mkdir(exist_ok=True)
    lines, seen, places, wide = [], Counter(), Counter(), Counter()
    cases = [(x, x["version"], x["alignment"], tables(x), room) for x, room in (*all_cases(), *total_cases())]
    cases += [(None, version, 256, t, ARRAYS) for version in VERSIONS for t in table_cases(version)]
    cases += [(None, version, 256, t, ARRAYS) for version, t in other_tables()]
    with open(folder / "stdin", "wb") as out:
        for x, version, alignment, t, room in cases:
            out.write(struct.pack("<17I", alignment, *(len(s) for s in t), *room, version) + b"".join(t))
            answer, outputs = build(version, alignment, t, room)
            if x and not agrees(x, answer):
                raise SystemExit(f"the reading is at odds with itself: {answer} for {x}")
            if x and all(r[FIRST[1]] < 2**32 for r in x["geometries"]):
                other = as_version(3 - version, x)
                assert build(other["version"], alignment, tables(other), room) == (answer, outputs), x
            elif x:
                wide[answer[0]] += 1
            seen[answer[0]] += 1
            if answer[0] == 37:
                places[answer[3], answer[1]] += 1
            counts = [len(o or []) for o in outputs]
            hashes = (hashed(None if o is None else tuple(o), i) for i, o in enumerate(outputs))
            lines.append(" ".join(map(str, (*answer, *counts, *hashes))))
    assert {(1, 0), (1, 63), (2, 0), (2, 31)} <= set(places), places
    (folder / "stdout").write_text("".join(line + "\n" for line in lines))
    # what is refused at or behind a wide offset, and what is not
    assert {0, 15, 21, 22, 23, 24, 26, 29, 31, 32, 33} <= set(wide), wide
    sorts = ", ".join(f"{sum(n for (of, _), n in places.items() if of == sort)} with {sort}" for sort in (1, 2))
    print(f"{len(cases)} builds; " + ", ".join(f"{n} of {k}" for k, n in sorted(seen.items())) + f"; of 37 {sorts}")
    print(f"{sum(wide.values())} with an offset or a first vertex from 2^32 on; " + ", ".join(f"{n} of {k}" for k, n in sorted(wide.items())))


if __name__ == "__main__":
    main()
