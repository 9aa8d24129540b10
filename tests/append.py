"""A reading of the request for many instances in one call, "a whole row in one call", written from its words and the paper, apart from the
definitions: a call for one, one call after another, and the call for many."""
import struct

from paper import blas, records, slot, tlas
from reading import sizes

# "a slot's fields after its present byte"
ITEM = sizes(1)[7] - 1
INSTANCE = 64
assert ITEM == 55


def split(items):
    """The whole ones, and how many bytes of a part are left."""
    n = len(items) // ITEM
    return [items[k * ITEM : (k + 1) * ITEM] for k in range(n)], len(items) - n * ITEM


def in_table(blases, item):
    """An item's fields, and its Blas, or none outside of the table."""
    fields, known = slot(b"\1" + item), records(1, blases, 2)
    return fields, blas(known[fields["blas"]]) if fields["blas"] < len(known) else None


def judge_tlas(tlases, id):
    """ "6 for the Tlas", or 0."""
    return 6 if id >= len(records(1, tlases, 4)) else 0


def judge_item(tlases, blases, id, item):
    """ "then per instance 6, 34, 35", or 0, of a Tlas in its table."""
    fields, named = in_table(blases, item)
    if named is None:
        return 6
    if fields["custom"] >= 2**24:
        return 34
    if tlas(records(1, tlases, 4)[id])["flags"] & 2 and not named["flags"] & 2:
        return 35
    return 0


def instance(blases, item):
    """ "those numbers by their bits, custom data in the low 24 bits with the mask above, a zero u32, the address u64"."""
    fields, named = in_table(blases, item)
    return fields["transform"] + struct.pack("<IIQ", fields["custom"] + fields["mask"] * 2**24, 0, named["address"])


def append_one(tlases, blases, id, item, out, used):
    """(number, bytes in use) of a call for one that is lent the bytes out, and what it leaves of them."""
    number = judge_tlas(tlases, id) or judge_item(tlases, blases, id, item) or (39 if used + INSTANCE > len(out) else 0)
    if number:
        return (number, used), out
    return (0, used + INSTANCE), out[:used] + instance(blases, item) + out[used + INSTANCE :]


def one_by_one(tlases, blases, id, items, out, used):
    """(number of the last, bytes in use, how many) of "one call after another", of which a refused one is the last; and the bytes."""
    number = calls = 0
    for item in split(items)[0]:
        (number, used), out = append_one(tlases, blases, id, item, out, used)
        calls += 1
        if number:
            break
    return (number, used, calls), out


def judge(tlases, blases, id, items, room, used):
    """(number, E) of what is refused first, or zeros: "6 for the Tlas, with 0, 0; then per instance", "E being 0 and its position"; a part of
    one at the end is 5; "39 last", without room for all."""
    whole, left = split(items)
    if judge_tlas(tlases, id):
        return 6, 0, 0
    for k, item in enumerate(whole):
        number = judge_item(tlases, blases, id, item)
        if number:
            return number, 0, k
    if left:
        return 5, 0, len(whole)
    if used + INSTANCE * len(whole) > room:
        return 39, 0, 0
    return 0, 0, 0


def append_many(tlases, blases, id, items, out, used):
    """(number, E, bytes in use) of a call for many, and what it leaves of the bytes out: refused it "writes nothing"."""
    verdict = judge(tlases, blases, id, items, len(out), used)
    if verdict[0]:
        return (*verdict, used), out
    new = b"".join(instance(blases, item) for item in split(items)[0])
    return (*verdict, used + len(new)), out[:used] + new + out[used + len(new) :]
