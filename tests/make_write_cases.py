#!/usr/bin/env python3
"""Writes crates/cases_write/stdin, pairs of sheets, each sheet after its length and the room that it is written into, as u32s; and
crates/cases_write/stdout, by canonical.py a line for each sheet: number, place, bytes written and a hash of all the room, filled with a
pattern before; and after two that are written whether they mean the same. Sheets are of either version, and some pairs of one and the other.

The reading is held to itself: over all sheets that are made, two mean the same exactly when their canonical bytes are equal, and canonical
bytes are read, mean the same and are their own canonical bytes."""
import pathlib
import random
import struct

from canonical import accepted, canonical, meaning, write
from make_read_cases import ABOUT_2_32, at_limit, cases as read_cases, put, record, rich, sheet, worked
from reading import LIMITS, NONE, VERSIONS, is_used, longest, read, sections, single, sizes

PATTERN = 165
M = 4294967291
# patterns of a NaN, quiet and signalling, of either sign, that differ by a bit or two; and zeros, infinities and what lies beside them
NANS = (0x7FC00000, 0x7FC00001, 0x7FC00002, 0x7F800001, 0x7FFFFFFF, 0xFFC00000, 0xFF800001, 0xFFFFFFFF)
NUMBERS = (0, 0x80000000, 1, 0x80000001, 0x3F800000, 0x7F7FFFFF, 0x7F800000, 0xFF800000)


# ---- sheets at random


def any_value(rng, width):
    top = 256**width - 1
    return rng.choice((0, 1, top, rng.randrange(top + 1), rng.randrange(top + 1)))


def allowed_value(rng, f, blases):
    what, *n = f.allowed
    if what == "range":
        return rng.randint(*n)
    if what == "one of":
        return rng.choice(n)
    if what == "inside":
        return rng.randrange(blases)
    if f.float32:
        return rng.choice((*NANS, *NUMBERS, rng.randrange(2**32)))
    if f.none and rng.random() < 0.5:
        return NONE
    value = any_value(rng, f.width)
    if what == "at least":
        return max(value, n[0])
    return value - 1 if (what, value) == ("except", *n) else value


def some_record(rng, s, boxes, kinds, old=None, given=()):
    """The values of a record's fields: used ones that they may have, or those of an old record; anything in unused ones."""
    values = {}
    for i, (f, _, name) in enumerate(single(s.fields)):
        if not is_used(f, values, boxes):
            values[name] = any_value(rng, f.width)
        elif old:
            values[name] = old[i]
        else:
            values[name] = dict(given).get(name, allowed_value(rng, f, len(kinds)))
        if s.kind == name:
            boxes = kinds[values[name]] == 1
    return tuple(values.values())


def parts(rng, total, n):
    """n counts that add up to a total."""
    cuts = sorted(rng.randint(0, total) for _ in range(n - 1))
    return [b - a for a, b in zip((0, *cuts), (*cuts, total))]


class Made:
    """A sheet by its fields' values: alignment, counter and version, and the records."""

    def __init__(self, head, tables):
        self.head, self.tables = head, tables

    @property
    def version(self):
        return self.head[2]

    def data(self):
        return sheet([[record(k, *r, version=self.version) for r in rs] for k, rs in enumerate(self.tables, 1)], *self.head)

    def kinds(self):
        return [r[0] for r in self.tables[1]]

    def drawn(self):
        return [r[1] == 1 for r in self.tables[4] for _ in range(r[2])]


def some_sheet(rng, counts, version=1):
    made = Made((rng.choice((1, 256, 2**32 - 1, rng.randrange(1, 2**32))), any_value(rng, 8), version), [])
    for s, n in zip(sections(version), counts):
        if s.number == 3 and not counts[1]:
            n = 0
        due = [()] * n
        for f in s.fields:
            if f.draws:
                due = [((f.name, k),) for k in parts(rng, counts[f.draws - 1] if n else 0, n)] if n else []
        if s.drawn_by and not counts[s.drawn_by - 1]:
            due = []
        drawn = made.drawn() if s.kind == "entry" else [False] * len(due)
        kinds = made.kinds() if len(made.tables) > 1 else []
        made.tables.append([some_record(rng, s, boxes, kinds, given=given) for boxes, given in zip(drawn, due)])
    return made


def other_leftovers(rng, made):
    """The same sheet with other unused fields, and its declared geometries in another order, but for those of one Blas."""
    tables = list(made.tables)
    lists = {}
    for r in tables[2]:
        lists.setdefault(r[0], []).append(r)
    order = [r[0] for r in tables[2]]
    rng.shuffle(order)
    tables[2] = [lists[b].pop(0) for b in order]
    for s in sections(made.version):
        drawn = made.drawn() if s.kind == "entry" else [False] * len(tables[s.number - 1])
        tables[s.number - 1] = [some_record(rng, s, boxes, made.kinds(), old) for old, boxes in zip(tables[s.number - 1], drawn)]
    return Made(made.head, tables)


def one_bit_off(rng, data):
    """A sheet that is read and has another bit, somewhere."""
    while True:
        at = rng.randrange(len(data))
        other = put(data, at, 1, data[at] ^ (1 << rng.randrange(8)))
        if read(other)[0] == 0:
            return other


# ---- pairs


def field_pairs(version):
    """Each field of a small sheet of each section, in each state that its record can have: every bit of it, as long as the sheet is read."""
    full = rich(version)
    small = {
        1: ((1, [full[0][0]]),),
        2: ((2, full[1][:1]),),
        3: ((2, full[1]), (3, [*full[2], record(3, 0, 0, 3, 1, 12, 1, 0, 1, 5)])),
        4: ((4, full[3][:1]),),
        5: ((5, [full[4][2]]),),
        6: ((5, full[4]), (6, full[5])),
        7: ((7, [full[6][1]]),),
        8: ((7, [record(7, 0, 2)]), (8, full[7][:2])),
        9: ((9, full[8]),),
    }
    yield from bit_pairs(sheet([[]] * 9, version=version), 0, 13)
    for k, some in small.items():
        tables = [[] for _ in range(9)]
        for i, records in some:
            tables[i - 1] = records
        data = sheet(tables, version=version)
        walked = accepted(data)
        table = walked.tables[k - 1]
        for r in table.records:
            for f, at, _ in single(table.section.fields):
                yield from bit_pairs(data, r.place + at, f.width)


def bit_pairs(data, at, width):
    """The field's two lowest bits and its highest, where the sheet is read then."""
    for bit in sorted({0, 1, 8 * width - 1}):
        other = put(data, at + bit // 8, 1, data[at + bit // 8] ^ (1 << bit % 8))
        if read(other)[0] == 0:
            yield data, other


def draw_pairs(version=1):
    """The same records drawn by others, of the same kind or not."""
    for kinds in ((0, 0), (0, 1), (1, 1)):
        for counts in ((1, 1), (0, 2), (2, 0)):
            tables = rich(version)
            tables[4] = [record(5, 0, kind, n) for kind, n in zip(kinds, (1, 1))]
            tables[5] = tables[5][:1] * 2
            other = list(tables)
            other[4] = [record(5, 0, kind, n) for kind, n in zip(kinds, counts)]
            yield sheet(tables, version=version), sheet(other, version=version)
    for counts in ((0, 3), (3, 0), (1, 2)):
        tables = rich(version)
        tables[6] = [record(7, 0, 2), record(7, 0, 1)]
        other = list(tables)
        other[6] = [record(7, 0, n) for n in counts]
        yield sheet(tables, version=version), sheet(other, version=version)


def first_pairs():
    """Wide offsets of either kind of geometry, each beside itself and beside those that agree with it in some of their bytes."""
    every = (0, 8, *ABOUT_2_32, 2**32 + 8, 2**40 + 8, 2**63 + 8)
    for a, b in [*zip(every, every[1:]), *zip(every, every)]:
        for at in range(3):
            pair = [[8, 8, 8], [8, 8, 8]]
            pair[0][at], pair[1][at] = a, b
            yield tuple(sheet(rich(2, firsts), version=2) for firsts in pair)


def version_pairs():
    """A sheet of one version beside the other's with the same values, and with the same bytes where those are read: never the same."""
    bare = [[] if 4 <= k <= 5 else records for k, records in enumerate(rich())]
    for tables in ([[]] * 9, bare):
        yield sheet(tables, version=1), sheet(tables, version=2)
        yield sheet(tables, version=2), sheet(tables, version=1)
    for make in (worked, lambda version: sheet(rich(version), version=version)):
        for a, b in ((1, 2), (2, 1), (2, 2)):
            yield make(a), make(b)


def nan_pairs():
    """The numbers of a present slot, and of an absent one, by their patterns."""
    def one(present, *numbers):
        return sheet([[], [], [], [], [], [], [record(7, 0, 1)], [record(8, present, 0, 0, 0, *numbers)], []])

    every = (*NANS, *NUMBERS)
    for a, b in zip(every, every[1:]):
        for present in (1, 0):
            yield one(present, *[a] * 12), one(present, *[a] * 11, b)
        yield one(1, *[a] * 12), one(1, *[a] * 12)


def order_pairs(rng, version=1):
    """Declared geometries of a few Blases, of either kind: two neighbours swapped, of one Blas or of two, alike or not; and all reversed."""
    for _ in range(40):
        made = some_sheet(rng, (0, rng.randint(1, 4), rng.randint(2, 6), 0, 0, 0, 0, 0, 0), version)
        declared = made.tables[2]
        i = rng.randrange(len(declared) - 1)
        for other in ([*declared[:i], declared[i + 1], declared[i], *declared[i + 2 :]], declared[::-1]):
            yield made.data(), Made(made.head, [*made.tables[:2], other, *made.tables[3:]]).data()


def random_pairs(rng, version=1):
    for _ in range(70):
        first = (rng.randint(0, 2), rng.randint(0, 3), rng.randint(0, 4), rng.randint(0, 2))
        made = some_sheet(rng, (*first, *drawing(rng), *drawing(rng), rng.randint(0, 3)), version)
        data = made.data()
        yield data, other_leftovers(rng, made).data()
        yield data, one_bit_off(rng, other_leftovers(rng, made).data())
    full = some_sheet(rng, LIMITS, version)
    assert len(full.data()) == longest(version)
    yield full.data(), other_leftovers(rng, full).data()


def drawing(rng):
    """How many draw, and how many are drawn."""
    n = rng.randint(0, 2)
    return n, rng.randint(0, 3) if n else 0


def limit_pairs():
    """A full section beside one of one less, of sections that are short."""
    for k in range(1, 10):
        if LIMITS[k - 1] * sizes(1)[k - 1] < 1000:
            yield at_limit(k, LIMITS[k - 1]), at_limit(k, LIMITS[k - 1] - 1)


def with_rooms(data):
    n = len(data)
    return [(data, room) for room in (n, n + 1, n + 40)], [(data, room) for room in (n - 1, 0, n // 2)]


def room_pairs():
    """As much room as is needed, more, and less."""
    for data in (sheet([[]] * 9), worked(), sheet(rich()), sheet(rich(2, (2**32, 8, 2**63)), version=2)):
        fits, short = with_rooms(data)
        for a in fits:
            for b in (*fits, *short):
                yield a, b


def refused_pairs(rng):
    """Refused sheets, some of each version and number, with room or none; each beside one that is written, and before it."""
    by_number = {}
    for data in read_cases():
        if read(data)[0] and len(data) < 1000:
            by_number.setdefault((data[:1] == b"\2", read(data)[0]), []).append(data)
    assert sorted(by_number) == [(False, n) for n in (1, 2, 3, 4, 5)] + [(True, n) for n in (2, 3, 4, 5)]
    fine = worked()
    for some in by_number.values():
        for data in rng.sample(some, min(12, len(some))):
            yield (data, rng.choice((0, len(data), 300))), (fine, len(fine))
            yield (fine, len(fine)), (data, max(0, len(data) - 1))


def pairs():
    rng = random.Random(41)
    of_one = (*field_pairs(1), *draw_pairs(), *nan_pairs(), *order_pairs(rng), *limit_pairs(), *random_pairs(rng))
    of_two = (*field_pairs(2), *draw_pairs(2), *first_pairs(), *order_pairs(rng, 2), *random_pairs(rng, 2))
    for a, b in (*of_one, *of_two, *version_pairs()):
        yield (a, len(a) + rng.choice((0, 0, 7))), (b, len(b) + rng.choice((0, 0, 7)))
    yield from room_pairs()
    yield from refused_pairs(rng)


# ---- what is expected


def hashed(data):
    h = 0
    for v in data:
        h = (h * 31 + v + 7) % M
    return h


def hold(sheets):
    """The reading held to itself, over all pairs of sheets that are read."""
    read_ones = {s for s in sheets if read(s)[0] == 0}
    both = {(meaning(s), canonical(s)) for s in read_ones}
    assert len(both) == len({m for m, _ in both}) == len({c for _, c in both})
    for s in read_ones:
        text = canonical(s)
        assert text[0] == s[0] and len(text) == len(s) and meaning(text) == meaning(s) and canonical(text) == text
    assert {s[0] for s in read_ones} == set(VERSIONS)
    return len(read_ones), len(both)


def main():
    folder = pathlib.Path(__file__).resolve().parent.parent / "crates/cases_write"
    folder.mkdir(exist_ok=True)
    some = list(pairs())
    lines, seen, alike = [], {}, [0, 0]
    for pair in some:
        answers = []
        for data, room in pair:
            answer, left = write(data, bytes([PATTERN]) * room)
            answers.append(answer)
            seen[answer[0]] = seen.get(answer[0], 0) + 1
            lines.append(" ".join(map(str, (*answer, hashed(left)))))
        if answers[0][0] == answers[1][0] == 0:
            same = meaning(pair[0][0]) == meaning(pair[1][0])
            alike[same] += 1
            lines.append("same" if same else "different")
    (folder / "stdin").write_bytes(b"".join(struct.pack("<2I", len(data), room) + data for pair in some for data, room in pair))
    (folder / "stdout").write_text("".join(line + "\n" for line in lines))
    n, meanings = hold(data for pair in some for data, _ in pair)
    print(f"{len(some)} pairs, {alike[1]} the same and {alike[0]} different; " + ", ".join(f"{k} of {n}" for n, k in sorted(seen.items())))
    print(f"{n} sheets of {meanings} meanings")


if __name__ == "__main__":
    main()
