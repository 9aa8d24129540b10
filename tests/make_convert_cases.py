#!/usr/bin/env python3
"""Writes crates/cases_convert/stdin, sheets each after its length and the room that it is converted into, as u32s; and crates/cases_convert/stdout,
by convert.py for each sheet a line of each way, to version 2 and to version 1: number, place, bytes written and a hash of all the room, filled
with a pattern before. Behind a line of one that is written, what is written is converted back, into 65,536 bytes: its line, and whether it
has the sheet's own bytes.

The reading is held to itself: what is written has each field's value, unused ones too, 4 bytes more or less for each geometry, and is printed
alike; it never means the same, and back it gives the same bytes."""
import pathlib
import random
import struct

from canonical import meaning
from convert import convert, converted, offsets
from make_read_cases import ABOUT_2_32, at_limit, cases as read_cases, put, record, rich, sheet, worked
from make_write_cases import PATTERN, drawing, hashed, some_sheet
from printed import printed
from reading import LIMITS, VERSIONS, Walked, longest, read

ROOM = 65536


def drawn(kind, firsts):
    """A sheet of version 2 whose one entry, of this kind, draws as many geometries as there are offsets."""
    none = (0, 1, 12, 0, 1, 0, 65535, 0, 0, 0, 0, 65535, 0, 0)
    rows = [record(6, none[0], none[1], first, *none[2:], version=2) for first in firsts]
    return sheet([[], [], [], [], [record(5, 0, kind, len(rows))], rows, [], [], [record(9, 2, 7)]], version=2)


def far_sheets():
    """Offsets about 2^32 at the first, a middle and the last of some geometries, of either kind; at two of them; at all."""
    for kind in (0, 1):
        for n in (1, 2, 3, 5):
            for at in range(n):
                yield from (drawn(kind, [value if i == at else 2**32 - 1 for i in range(n)]) for value in ABOUT_2_32)
            yield from (drawn(kind, [value] * n) for value in ABOUT_2_32)
        for at, other in ((0, 2), (1, 2), (0, 1)):
            yield drawn(kind, [2**32 + i if i in (at, other) else 8 * i for i in range(3)])
    # no byte of the upper four may be left out
    yield from (drawn(1, [0, 2**k]) for k in range(24, 64))
    for at in (0, 1, 127, 254, 255):
        yield from (drawn(1, [value if i == at else 8 * i for i in range(256)]) for value in (2**32 - 1, 2**32))
    for firsts in ((2**32 - 1,) * 3, (2**32, 0, 0), (0, 2**32, 0), (0, 0, 2**32), (0, 2**63, 2**64 - 1)):
        yield sheet(rich(2, firsts), version=2)


def early_sheets():
    """The reader's refusals before 47: each of them after an offset that does not fit, before it, and by its own bytes."""
    far = sheet(rich(2, (2**32, 2**32, 2**32)), version=2)
    last = len(far) - 3
    places = [place for place, _ in offsets(Walked(far))]
    yield far
    for n in (1, 12, 14, places[0], places[0] + 7, places[0] + 8, places[1] + 4, last, len(far) - 1):
        yield far[:n]
    yield far + b"\0"
    for at, width, value in ((0, 1, 0), (0, 1, 3), (0, 1, 1), (1, 4, 0), (13, 2, 257), (last, 1, 5), (places[2] + 16, 2, 65535)):
        yield put(far, at, width, value)
    for version in VERSIONS:
        yield from (at_limit(k, LIMITS[k - 1] + 1, version)[:300] for k in range(1, 10))


def full_sheets(rng):
    """The longest of either version, leftovers in unused fields; of version 2 with offsets that fit and with one that doesn't, the last."""
    narrow = some_sheet(rng, LIMITS).data()
    fits = converted(narrow)
    assert (len(narrow), len(fits)) == tuple(map(longest, VERSIONS))
    last = [place for place, _ in offsets(Walked(fits))][-1]
    return narrow, narrow + b"\0", fits, fits + b"\0", put(fits, last, 8, 2**32)


def small_sheets(rng):
    """At random, of either version, with leftovers in unused fields; of version 2 with offsets that fit and with any."""
    for _ in range(60):
        first = (rng.randint(0, 2), rng.randint(0, 3), rng.randint(0, 4), rng.randint(0, 2))
        counts = (*first, *drawing(rng), *drawing(rng), rng.randint(0, 3))
        narrow = some_sheet(rng, counts).data()
        yield narrow
        yield converted(narrow)
        yield some_sheet(rng, counts, 2).data()


def cases():
    rng = random.Random(61)
    plain = [sheet([[]] * 9, version=v) for v in VERSIONS] + [worked(v) for v in VERSIONS] + [sheet(rich(v), version=v) for v in VERSIONS]
    for data in (*plain, sheet(rich(2, (2**32 - 1, 8, 2**32)), version=2), drawn(1, [2**32] * 3)):
        more = 4 * len(Walked(data).tables[5].records)
        needed = {1: len(data) + more, 2: len(data) - more}[data[0]]
        for room in sorted({0, 1, needed // 2, len(data) - 1, len(data), needed - 1, needed, needed + 1, needed + 40, ROOM}):
            yield data, room
    some = [data for data in read_cases() if len(data) < 1000]
    for data in (b"", *rng.sample(some, 400), *small_sheets(rng)):
        yield data, rng.choice((len(data) + 1024, len(data) + 1024, ROOM, 0, len(data)))
    for data in (*far_sheets(), *early_sheets()):
        yield data, len(data) + 4
        # what is refused of a sheet comes before 39
        if len(data) < 1000:
            yield data, 0
    narrow, too_long, fits, too_wide, far = full_sheets(rng)
    yield from ((narrow, longest(2)), (narrow, longest(2) - 1), (too_long, ROOM))
    yield from ((fits, longest(1)), (fits, longest(1) - 1), (too_wide, ROOM), (far, 0))


# ---- what is expected


def lines(data, room, seen):
    for version in (2, 1):
        answer, left = convert(version, data, bytes([PATTERN]) * room)
        yield " ".join(map(str, (*answer, hashed(left))))
        seen.setdefault((version, answer[0]), []).append(data)
        if answer[0] == 0:
            text = left[: answer[2]]
            again, left = convert(3 - version, text, bytes([PATTERN]) * ROOM)
            yield " ".join(map(str, (*again, hashed(left))))
            yield "same" if left[: again[2]] == data else "different"


def values(data):
    """Every field's value, of used and unused ones, but for the version."""
    w = Walked(data)
    return [*w.head.values()][1:], [[list(r.values.values()) for r in t.records] for t in w.tables]


def hold(data):
    """What is written of an accepted sheet, held to it."""
    text = converted(data)
    more = 4 * len(Walked(data).tables[5].records)
    assert len(text) == len(data) + (more if data[0] == 1 else -more)
    assert read(text)[0] == 0 and values(text) == values(data) and converted(text) == data
    assert printed(text) == printed(data) and meaning(text) != meaning(data)


def main():
    folder = pathlib.Path(__file__).resolve().parent.parent / "crates/cases_convert"
    folder.mkdir(exist_ok=True)
    some, seen = list(cases()), {}
    (folder / "stdout").write_text("".join(line + "\n" for data, room in some for line in lines(data, room, seen)))
    (folder / "stdin").write_bytes(b"".join(struct.pack("<2I", len(data), room) + data for data, room in some))
    assert set(seen) == {(2, n) for n in (0, 1, 2, 3, 4, 5, 39)} | {(1, n) for n in (0, 1, 2, 3, 4, 5, 39, 47)}, set(seen)
    assert {data[0] for n in (2, 1) for data in seen[n, 1]} == {0, 1, 2, 3, 255}
    for number in (0, 47):
        tables = [Walked(data).tables for data in seen[1, number]]
        assert {r.values["kind"] for t in tables for r in t[4].records} == {0, 1} and 256 in {t[5].count for t in tables}
    written = {*seen[2, 0], *seen[1, 0]}
    for data in written:
        hold(data)
    for version in (2, 1):
        print(f"to version {version}: " + ", ".join(f"{len(of)} of {n}" for (to, n), of in sorted(seen.items()) if to == version))
    print(f"{len(written)} sheets that are written, held to what is written of them")


if __name__ == "__main__":
    main()
