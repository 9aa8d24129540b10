"""A reading of the request for groups of slots, "the row card", written from its words and the sheet's description in format/ alone, apart
from the definitions: what is judged of one, and the slots that it opens to."""
import itertools
import sys

from reading import section, single

# "a slot's fields after its present byte"
PRESENT, *FIELDS = [f.width for f, _, _ in single(section(8).fields)]
SLOT = PRESENT + sum(FIELDS)
MOST_GROUPS = 64
MOST_SLOTS = 512
assert (PRESENT, len(FIELDS), SLOT) == (1, 15, 56)
assert sys.getrecursionlimit() > 4 * MOST_GROUPS


class Refused(Exception):
    """number, byte place, group, item"""

    def __init__(self, number, place=0, group=0, item=0):
        super().__init__(number, place, group, item)


class Bytes:
    """What is left to read. "Card cut short": 2 at the field that is not whole."""

    def __init__(self, data):
        self.data, self.at = data, 0

    def field(self, width):
        if len(self.data) - self.at < width:
            raise Refused(2, self.at)
        self.at += width
        return self.data[self.at - width : self.at]

    def number(self, width):
        return int.from_bytes(self.field(width), "little")


def read_item(left, group, item):
    """ "An item is a byte 1 and a slot's fields after its present byte, or a byte 2 and a u16 group number": the fields' bytes, or the
    number. "another item byte": 5; "a group that names itself or a later one": 45."""
    place = left.at
    kind = left.number(1)
    if kind == 1:
        return b"".join(map(left.field, FIELDS))
    if kind != 2:
        raise Refused(5, place)
    named = left.number(2)
    if named >= group:
        raise Refused(45, 0, group, item)
    return named


def read_group(left, group):
    """ "then per group a u16 item count and its items"; 45 for an item count of 0, which has no item."""
    count = left.number(2)
    if count == 0:
        raise Refused(45, 0, group, 0)
    return [read_item(left, group, item) for item in range(count)]


def read_groups(data):
    """ "a u16 group count, at most 64": over 64 the sheet's 4; 45 for a count of 0. "bytes left over": 3."""
    left = Bytes(data)
    count = left.number(2)
    if count > MOST_GROUPS:
        raise Refused(4, 0)
    if count == 0:
        raise Refused(45, 0, 0, 0)
    groups = [read_group(left, group) for group in range(count)]
    if left.at < len(data):
        raise Refused(3, left.at)
    return groups


def open_group(groups, group):
    for item, what in enumerate(groups[group]):
        yield from open_item(groups, group, item, what)


def open_item(groups, group, item, what):
    """ "Opening a group and opening an item call on each other until only slots are left, in written order"."""
    if isinstance(what, bytes):
        yield group, item, what
    else:
        yield from open_group(groups, what)


def last_slots(groups):
    """ "The last group is the house": its slots, and of more than the first 513 no more."""
    return list(itertools.islice(open_group(groups, len(groups) - 1), MOST_SLOTS + 1))


def opened(data, room):
    """The slots' records; "the whole card is judged first, from the start on, 45 included, then 46, then 39"."""
    slots = last_slots(read_groups(data))
    if len(slots) > MOST_SLOTS:
        group, item, _ = slots[MOST_SLOTS]
        raise Refused(46, 0, group, item)
    text = b"".join(b"\1" + fields for _, _, fields in slots)
    if room < len(text):
        raise Refused(39)
    return text


def open_groups(data, out):
    """(number, place, group, item, written) of a call that is lent the bytes out, and what it leaves of them: "nothing written"."""
    try:
        text = opened(data, len(out))
    except Refused as refused:
        return (*refused.args, 0), out
    return (0, 0, 0, 0, len(text)), text + out[len(text) :]


# ---- the same once more, by counting


def counts(groups):
    """How many slots each group opens to."""
    n = []
    for items in groups:
        n.append(sum(1 if isinstance(what, bytes) else n[what] for what in items))
    return n


def slot_at(groups, k):
    """Slot k of the house, found by those counts: no slot before it is opened."""
    n, group = counts(groups), len(groups) - 1
    while True:
        for item, what in enumerate(groups[group]):
            here = 1 if isinstance(what, bytes) else n[what]
            if k < here:
                break
            k -= here
        if isinstance(what, bytes):
            return group, item, what
        group = what
