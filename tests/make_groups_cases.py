#!/usr/bin/env python3
"""Writes crates/cases_groups/stdin, groups of slots, each after its length and the room that they are opened into, as u32s; and
crates/cases_groups/stdout, by groups.py a line for each: number, place, group, item, bytes written and a hash of all the room, filled with a
pattern before.

The reading is held to itself: slots found by counting are those that opening gives, and a group's name replaced by its opened slots opens to
the same."""
import pathlib
import random
import struct

from groups import FIELDS, MOST_GROUPS, MOST_SLOTS, SLOT, Refused, counts, last_slots, open_group, open_groups, read_groups, slot_at

PATTERN = 165
M = 4294967291
LENGTH = SLOT - 1
FULL = MOST_SLOTS * SLOT


# ---- as bytes


def number(n):
    return n.to_bytes(2, "little")


def item_bytes(what):
    """A slot by its fields' bytes, or a group by its number."""
    return b"\1" + what if isinstance(what, bytes) else b"\2" + number(what)


def group_bytes(items, count=None):
    return number(len(items) if count is None else count) + b"".join(map(item_bytes, items))


def data_of(groups, count=None):
    return number(len(groups) if count is None else count) + b"".join(map(group_bytes, groups))


def slot(k):
    """One that is like no other: each byte of it tells k and its place."""
    return bytes((k * 57 + i * 3 + k // 256) % 256 for i in range(LENGTH))


def slots(n, first=0):
    return [slot(first + k) for k in range(n)]


# ---- groups of slots


SMALL = [[slot(1)], [0, slot(2)], [1, 0, slot(3)]]
NESTED = [[slot(1), slot(2)], [slot(3), 0, slot(4)], [0, 1, slot(5), 1], [2, 0, 2, slot(6)]]


def doubled(n, first):
    """n groups, each of which but the first names the one before twice: the last opens to 2^(n - 1) times the first's slots."""
    return [first] + [[group, group] for group in range(n - 1)]


def some_groups(rng, most, longest):
    groups = []
    for group in range(rng.randint(1, most)):
        n = rng.choice((1, 1, 2, 3, longest))
        groups.append([rng.randrange(group) if group and rng.random() < 0.6 else rng.randbytes(LENGTH) for _ in range(n)])
    return groups


def whole():
    """What is not refused, or by 46 alone: nested groups, groups that are never named, and as many slots as may be and one more."""
    yield from (SMALL, NESTED, [[slot(0)]], [slots(3)], [slots(2), slots(3, 2)], [slots(2), [0], [1], [0, 2, 1]])
    # never named, with a name or several slots, first or between
    yield from ([slots(5), [0], [slot(9)]], [[slot(1)], [0, 0, 0], slots(2, 5), [0, 2]])
    # 64 groups, each in the one before
    yield [[slot(1)]] + [[group] for group in range(MOST_GROUPS - 1)]
    yield [[slot(1)]] + [[group, slot(group)] for group in range(MOST_GROUPS - 1)]
    # 2^8 and 2^9 slots and 2^63: the 513th is the first group's
    yield from (doubled(9, [slot(7)]), doubled(10, [slot(7)]), doubled(11, [slot(7)]), doubled(MOST_GROUPS, [slot(7)]))
    yield doubled(MOST_GROUPS, slots(3))
    yield doubled(MOST_GROUPS - 1, [slot(7)]) + [[slot(8)]]
    # 511 to 514 slots, all written; by one group 16 times; and with the last ones in a group inside of a group
    for n in range(MOST_SLOTS - 1, MOST_SLOTS + 3):
        yield [slots(n)]
        yield [slots(32), [0] * 15 + slots(n - 480, 40)]
        yield [slots(32), slots(n - 480, 40), [1], [0] * 15 + [2]]
        yield [slots(32), [0, *slots(n - 512, 70)] if n > MOST_SLOTS else [0], [1], [0] * 15 + [2] if n >= MOST_SLOTS else slots(n)]
    # the 513th in one group, and more in others behind it
    yield [slots(2), [0] * 128, [1, 1, 0, slot(9), 1]]
    yield [slots(2), [0] * 128, [1, 1, slot(9), 0, 1]]
    yield [slots(2), [0] * 128, [1, slot(8), 1, 0]]
    # groups that the last one doesn't name may open to any number
    yield doubled(20, slots(2)) + [[slot(3), 0]]


def damaged():
    """Bytes that are refused, or that stand at the edge of it."""
    small, nested = data_of(SMALL), data_of(NESTED)
    yield from (b"", b"\0", b"\1", b"\0\0", b"\0\0\0")
    # every cut, and bytes left over
    yield from (data[:n] for data in (small, nested) for n in range(len(data)))
    yield from (data + more for data in (small, nested) for more in (b"\0", b"\1", b"\2\0\0", number(1) + item_bytes(slot(0)), bytes(60)))
    # every byte changed
    for at in range(len(small)):
        old = small[at]
        for new in sorted({0, 1, 2, 3, 64, 255, old ^ 1, old ^ 128} - {old}):
            yield small[:at] + bytes([new]) + small[at + 1 :]
    # other counts of groups than there are, up to the limit and past it, whole or cut
    for count in (0, 1, 2, 4, 63, 64, 65, 66, 255, 256, 258, 65535):
        yield from (data_of(SMALL, count), number(count))
    for n in (MOST_GROUPS, MOST_GROUPS + 1):
        yield data_of([[slot(1)]] * n)
        yield data_of([[slot(1)]] * n, MOST_GROUPS)
    # other counts of items
    for group in range(len(SMALL)):
        for count in (0, 1, 2, 3, 4, 256, 257, 65535):
            yield number(3) + b"".join(group_bytes(items, count if g == group else None) for g, items in enumerate(SMALL))
    # each name in each place: own group, later ones, past the count
    for group in range(len(NESTED)):
        for item in range(len(NESTED[group])):
            for named in (0, 1, 2, 3, 4, 5, 63, 64, 255, 256, 512, 65535):
                groups = [list(items) for items in NESTED]
                groups[group][item] = named
                yield data_of(groups)
    # what comes first counts, whatever comes later; and anything that is judged before 46
    full = data_of(doubled(MOST_GROUPS, [slot(7)]))
    yield from (full + b"\0", full[:-1], full[:-2] + number(63), data_of([*doubled(MOST_GROUPS - 1, [slot(7)]), [62, 62, 63]]))
    yield data_of([[slot(1)], [1], []])
    yield data_of([[slot(1)], [], [2]])
    yield data_of([slots(513), [1]])
    yield data_of([slots(513), []])
    yield data_of([slots(513)]) + b"\0"
    yield data_of([slots(513), [0]])[:-1]
    yield data_of([slots(513), [0]])[:-3] + b"\7"
    yield data_of([[], slots(513)])
    yield data_of([[slot(1)], [5, 7], [9]])[:-1]
    yield number(2) + group_bytes([slot(1)]) + number(2) + b"\2" + number(1) + b"\7"
    yield number(2) + group_bytes([slot(1)]) + number(2) + b"\7" + b"\2" + number(1)
    yield number(2) + group_bytes([slot(1)]) + number(2) + b"\2" + b"\1"
    yield number(2) + group_bytes([slot(1)]) + number(2) + b"\2"


def random_groups(rng):
    for _ in range(120):
        yield some_groups(rng, 5, 6)
    for _ in range(60):
        yield some_groups(rng, MOST_GROUPS, 4)
    for _ in range(6):
        yield some_groups(rng, 12, 40)


def spoilt(rng, data):
    """The same with a byte, a count or a name that is another, cut, or longer."""
    way = rng.randrange(4)
    at = rng.randrange(len(data))
    if way == 0:
        return data[:at]
    if way == 1:
        return data + rng.randbytes(rng.randint(1, 3))
    return data[:at] + bytes([rng.choice((0, 1, 2, 3, rng.randrange(256)))]) + data[at + 1 :]


# ---- with room


def needed(data):
    """The room that is enough, or none where any is."""
    (refused, *_, written), _ = open_groups(data, bytes(FULL))
    return 0 if refused else written


def cases():
    rng = random.Random(43)
    for groups in whole():
        data = data_of(groups)
        n = needed(data)
        yield from ((data, room) for room in ((n, n - 1, n + 70)[: 3 if n < FULL else 2] if n else (0, FULL)))
    for groups in (SMALL, NESTED):
        data = data_of(groups)
        n = needed(data)
        yield from ((data, room + more) for room in range(0, n + 2 * SLOT, SLOT) for more in (-1, 0, 1, 13))
    for data in damaged():
        yield data, needed(data) or rng.choice((0, 100))
    for groups in random_groups(rng):
        data = data_of(groups)
        yield data, needed(data) + rng.choice((0, 0, -1, 9))
        other = spoilt(rng, data)
        yield other, needed(other) or rng.choice((0, 100))


# ---- what is expected


def hashed(data):
    h = 0
    for v in data:
        h = (h * 31 + v + 7) % M
    return h


def hold(data):
    """The reading held to itself."""
    try:
        groups = read_groups(data)
    except Refused:
        return
    n, found = counts(groups)[-1], last_slots(groups)
    assert len(found) == min(n, MOST_SLOTS + 1)
    some = range(len(found)) if len(found) < 60 else (0, 1, len(found) // 2, len(found) - 2, len(found) - 1)
    for k in some:
        assert found[k] == slot_at(groups, k)
    fields = [what for _, _, what in found]
    if n <= MOST_SLOTS:
        for group, items in enumerate(groups):
            for item, what in enumerate(items):
                if isinstance(what, int) and counts(groups)[what] <= MOST_SLOTS:
                    inside = [x for _, _, x in open_group(groups, what)]
                    other = [*groups[:group], [*items[:item], *inside, *items[item + 1 :]], *groups[group + 1 :]]
                    assert [x for _, _, x in last_slots(other)] == fields


def main():
    folder = pathlib.Path(__file__).resolve().parent.parent / "crates/cases_groups"
    folder.mkdir(exist_ok=True)
    assert sum(FIELDS) == LENGTH
    some = [(data, max(0, room)) for data, room in cases()]
    lines, seen, hashes = [], {}, {}
    for data, room in some:
        answer, left = open_groups(data, bytes([PATTERN]) * room)
        seen[answer[0]] = seen.get(answer[0], 0) + 1
        if left not in hashes:
            hashes[left] = hashed(left)
        lines.append(" ".join(map(str, (*answer, hashes[left]))))
    for data in {data for data, _ in some}:
        hold(data)
    assert sorted(seen) == [0, 2, 3, 4, 5, 39, 45, 46]
    (folder / "stdin").write_bytes(b"".join(struct.pack("<2I", len(data), room) + data for data, room in some))
    (folder / "stdout").write_text("".join(line + "\n" for line in lines))
    longest = max(len(data) for data, _ in some)
    print(f"{len(some)} cases of up to {longest} bytes; " + ", ".join(f"{k} of {n}" for n, k in sorted(seen.items())))


if __name__ == "__main__":
    main()
