"""A reading of the request for instances read back, "read the rows back off a drive", written from its words and the paper, apart
from the definitions: records judged in turn, the Blas that has an address, and what is handed out."""
import functools
import struct

from append import INSTANCE, ITEM
from paper import blas, records

# an item's Blas is a u16
IDS = 2**16


def parts(record):
    """What the writer puts: "those numbers by their bits, custom data in the low 24 bits with the mask above, a zero u32, the
    address u64"."""
    return record[:48], *struct.unpack("<IIQ", record[48:])


def whole(data):
    return [data[k : k + INSTANCE] for k in range(0, len(data) - INSTANCE + 1, INSTANCE)]


@functools.cache
def addresses(blases):
    """Each Blas's in turn, whatever else it has; a part of a record at the end is none."""
    return tuple(blas(r)["address"] for r in records(1, blases, 2))


def found(known, address):
    """ "finding the Blas by its address": the id of the one that has it, or none "for an address of no Blas or of several". One
    past what a u16 holds has no id, and is still one of several."""
    ids = [i for i, other in enumerate(known) if other == address]
    return ids[0] if len(ids) == 1 and ids[0] < IDS else None


def judge_record(known, record):
    """ "then per record 49 where the u32 that the writer leaves zero holds something else; 50 for an address of no Blas or of
    several", or 0."""
    _, _, zero, address = parts(record)
    if zero:
        return 49
    return 50 if found(known, address) is None else 0


def judge(data, blases, room):
    """(number, E) of what is refused first, or zeros: "48 for a length not in 64s, before all; then per record", "both with the
    record"; "39 last", without room for all."""
    if len(data) % INSTANCE:
        return 48, 0, 0
    known = addresses(blases)
    for k, record in enumerate(whole(data)):
        number = judge_record(known, record)
        if number:
            return number, k, 0
    return (39 if room < len(whole(data)) * ITEM else 0), 0, 0


def item(known, record):
    """The instance as it is lent to be appended, "down to the bits of each number"."""
    numbers, both, _, address = parts(record)
    return struct.pack("<HIB", found(known, address), both % 2**24, both // 2**24) + numbers


def read_instances(data, blases, out):
    """(number, E, bytes written) of a call that is lent the bytes out, and what it leaves of them: refused, "nothing handed
    out"."""
    verdict = judge(data, blases, len(out))
    if verdict[0]:
        return (*verdict, 0), out
    known = addresses(blases)
    new = b"".join(item(known, record) for record in whole(data))
    return (*verdict, len(new)), new + out[len(new) :]
