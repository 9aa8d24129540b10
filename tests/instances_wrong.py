"""Wrong readings of the request for instances read back: each has another function in place of one of instances.py, first those
that the request's issue names. make_instances_cases.py holds its cases to all of them."""
import struct

from append import INSTANCE, ITEM
from instances import addresses, found, judge, judge_record, parts, read_instances, whole
from paper import U64, blas, records

# ---- finding


def standing(known, address):
    return [i for i, other in enumerate(known) if other == address]


def one_of(pick):
    """One of all that have the address."""
    return lambda known, address: pick(standing(known, address) or [None])


def if_so(what):
    """None where it is not so."""
    return lambda known, address: found(known, address) if what(known, address) else None


def by(of):
    """The one that has a part of the address, or what it comes to, in common with it."""
    return lambda known, address: found([of(other) for other in known], of(address))


def first_if(what):
    """The first of several where it is so."""
    return lambda known, a: known.index(a) if a in known and what(known, a) else found(known, a)


def beside_each_other(known, address):
    ids = standing(known, address)
    return None if not ids or any(j == i + 1 for i, j in zip(ids, ids[1:])) else ids[0]


def blases_if(what):
    return lambda blases: tuple(b["address"] for b in map(blas, records(1, blases, 2)) if what(b))


def turned(address):
    return int.from_bytes(address.to_bytes(8, "big"), "little")


def field(name):
    return lambda blases: tuple(blas(r)[name] for r in records(1, blases, 2))


# ---- judging


def in_turn(*judging):
    """The first number that these give a record."""
    return lambda known, r: next((n for n in (of(known, r) for of in judging) if n), 0)


def word(known, r):
    return 49 if parts(r)[2] else 0


def no_blas(known, r):
    return 50 if found(known, parts(r)[3]) is None else 0


def other_record(change):
    """A record judged as if it were another."""
    return lambda known, r: judge_record(known, change(r))


def without_byte(k):
    return other_record(lambda r: r[:k] + b"\0" + r[k + 1 :])


def ordered(*order, place=lambda k: (k, 0), room=lambda n: n * ITEM):
    """Another order of what is judged, another E of a record, or another room."""

    def of(data, blases, lent):
        known, given = addresses(blases), list(enumerate(whole(data)))

        def refused(judge_one, those=given):
            return [(judge_one(known, r), *place(k)) for k, r in those if judge_one(known, r)]

        ways = {
            "48": lambda: [(48, 0, 0)] if len(data) % INSTANCE else [],
            "records": lambda: refused(judge_record),
            "49": lambda: refused(word),
            "50": lambda: refused(no_blas),
            "the last": lambda: refused(judge_record, given[::-1]),
            "39": lambda: [(39, 0, 0)] if lent < room(len(given)) else [],
        }
        return next((no for way in order for no in ways[way]()), (0, 0, 0))

    return of


def in_order(**other):
    return ordered("48", "records", "39", **other)


# ---- what is handed out


def made(ids=lambda n: n, both=lambda n: (n % 2**24, n // 2**24), number=lambda n: n, form="<HIB", order=range(12)):
    """Another item."""

    def of(known, r):
        numbers, of_both, _, address = parts(r)
        twelve = struct.unpack("<12I", numbers)
        head = struct.pack(form, ids(found(known, address)), *both(of_both))
        return head + struct.pack("<12I", *(number(twelve[i]) for i in order))

    return of


def is_nan(n):
    return n % 2**31 > 0x7F800000


def is_signalling(n):
    return is_nan(n) and not n & 0x400000


def answered(change):
    """Another answer, with what is left as it is."""

    def of(*lent):
        answer, left = read_instances(*lent)
        return change(*answer), left

    return of


def left_so(change):
    """Another thing is left, by the answer, what is left, the items of records, and the records."""

    def of(data, blases, out):
        answer, left = read_instances(data, blases, out)

        def items(given):
            (*_, written), all_of = read_instances(given, blases, bytes(len(given)))
            return all_of[:written]

        return answer, change(answer, left, items, data)

    return of


def cleared(n):
    """So many bytes past what is written, or as many as there are."""

    def of(answer, left, *_):
        end = answer[3]
        return left[:end] + bytes(min(n, len(left) - end)) + left[end + n :]

    return left_so(of)


def before_bad(answer, left, items, data):
    """What comes before the refused record is written, as far as there is room."""
    if answer[0] not in (49, 50):
        return left
    new = items(data[: answer[1] * INSTANCE])[: len(left)]
    return new + left[len(new) :]


def what_fits(answer, left, items, data):
    """As many as there is room for are written."""
    if answer[0] != 39:
        return left
    new = items(data)[: len(left) // ITEM * ITEM]
    return new + left[len(new) :]


WRONG = {
    "the first of several": ("found", one_of(lambda ids: ids[0])),
    "the word not looked at": ("judge_record", in_turn(no_blas)),
    "custom data from 25 bits": ("item", made(both=lambda n: (n % 2**25, n // 2**24))),
    "a NaN made quiet": ("item", made(number=lambda n: n | 0x400000 if is_nan(n) else n)),
    "50 before 49": ("judge_record", in_turn(no_blas, word)),
    "48 after the records": ("judge", ordered("records", "48", "39")),
    # finding
    "the last of several": ("found", one_of(lambda ids: ids[-1])),
    "the first of three": ("found", first_if(lambda known, a: known.count(a) > 2)),
    "the first of several, unless they are beside each other": ("found", beside_each_other),
    "the first of several, but not the table's first": ("found", first_if(lambda known, a: known[0] != a)),
    "the first of several, up to 128": ("found", first_if(lambda known, a: len(known) <= 128)),
    "the first of several, past 128": ("found", first_if(lambda known, a: len(known) > 128)),
    "by the lowest byte": ("found", by(lambda a: a % 256)),
    "by the lower half": ("found", by(lambda a: a % 2**32)),
    "by the upper half": ("found", by(lambda a: a >> 32)),
    "without the highest byte": ("found", by(lambda a: a % 2**56)),
    "without the highest bit": ("found", by(lambda a: a % 2**63)),
    "without the lowest bit": ("found", by(lambda a: a >> 1)),
    "by a remainder": ("found", by(lambda a: a % 257)),
    "0 is no address": ("found", if_so(lambda known, a: a != 0)),
    "2^64 - 1 is no address": ("found", if_so(lambda known, a: a != U64)),
    "0 is the first Blas's": ("found", lambda known, a: 0 if a == 0 and known and a not in known else found(known, a)),
    "without the first": ("found", if_so(lambda known, a: known[:1] != (a,))),
    "without the last": ("found", lambda known, a: found(known[:-1], a)),
    "none of 128": ("found", if_so(lambda known, a: len(known) != 128)),
    **{f"only the first {n}": ("addresses", lambda blases, n=n: addresses(blases)[:n]) for n in (1, 127, 128, 129, 255, 256, 512)},
    "a part of a Blas is one": ("addresses", lambda blases: addresses(blases + bytes(-len(blases) % 28))),
    "a part with its address is one": ("addresses", lambda blases: addresses(blases + bytes(8 * (len(blases) % 28 >= 20)))),
    "the scratch size is the address": ("addresses", field("scratch")),
    "the build's number is the address": ("addresses", field("number")),
    "destroyed ones are none": ("addresses", blases_if(lambda b: not b["destroyed"])),
    "those of another kind are none": ("addresses", blases_if(lambda b: b["kind"] < 2)),
    "compacted ones are none": ("addresses", blases_if(lambda b: b["state"] != 3)),
    "an address from its highest byte on": ("addresses", lambda blases: tuple(map(turned, addresses(blases)))),
    # judging
    "no 48": ("judge", ordered("records", "39")),
    "48 last": ("judge", ordered("records", "39", "48")),
    "39 before the records": ("judge", ordered("48", "39", "records")),
    "39 before all": ("judge", ordered("39", "48", "records")),
    "no 39": ("judge", ordered("48", "records")),
    "every 49 before any 50": ("judge", ordered("48", "49", "50", "39")),
    "every 50 before any 49": ("judge", ordered("48", "50", "49", "39")),
    "the last bad record": ("judge", ordered("48", "the last", "39")),
    "records from 1": ("judge", in_order(place=lambda k: (k + 1, 0))),
    "the record as the second number": ("judge", in_order(place=lambda k: (0, k))),
    "the record's byte": ("judge", in_order(place=lambda k: (k * INSTANCE, 0))),
    "no record": ("judge", in_order(place=lambda k: (0, 0))),
    "a byte more of room": ("judge", in_order(room=lambda n: n * ITEM + 1)),
    "a byte less of room": ("judge", in_order(room=lambda n: n * ITEM - 1)),
    "room for one less": ("judge", in_order(room=lambda n: n * ITEM - ITEM)),
    "room for slots": ("judge", in_order(room=lambda n: n * 56)),
    "room for records": ("judge", in_order(room=lambda n: n * INSTANCE)),
    "no records are refused": ("judge", lambda data, *lent: judge(data, *lent) if data else (39, 0, 0)),
    **{f"byte {k} not looked at": ("judge_record", without_byte(k)) for k in range(52, 56)},
    "the word without its highest bit": ("judge_record", other_record(lambda r: r[:55] + bytes([r[55] % 128]) + r[56:])),
    "custom data and mask for the word": ("judge_record", other_record(lambda r: r[:52] + r[48:52] + r[56:])),
    "several are 49": ("judge_record", lambda known, r: 49 if known.count(parts(r)[3]) > 1 else judge_record(known, r)),
    # what is handed out
    "custom data from 23 bits": ("item", made(both=lambda n: (n % 2**23, n // 2**24))),
    "custom data from 32 bits": ("item", made(both=lambda n: (n, n // 2**24))),
    "a mask of 7 bits": ("item", made(both=lambda n: (n % 2**24, n // 2**24 % 128))),
    "a mask from bit 25 on": ("item", made(both=lambda n: (n % 2**24, n // 2**25))),
    "the mask first": ("item", made(both=lambda n: (n // 2**24, n % 2**24), form="<HBI")),
    "an id of 8 bits": ("item", made(ids=lambda n: n % 256)),
    "an id from its high byte on": ("item", made(ids=lambda n: n % 256 * 256 + n // 256)),
    "ids from 1": ("item", made(ids=lambda n: n + 1)),
    "a NaN is the plain one": ("item", made(number=lambda n: 0x7FC00000 if is_nan(n) else n)),
    "a NaN without its sign": ("item", made(number=lambda n: n % 2**31 if is_nan(n) else n)),
    "a signalling NaN is infinite": ("item", made(number=lambda n: n >> 23 << 23 if is_signalling(n) else n)),
    "the least NaN is infinite": ("item", made(number=lambda n: n - 1 if n % 2**31 == 0x7F800001 else n)),
    "a zero without its sign": ("item", made(number=lambda n: 0 if n == 2**31 else n)),
    "a subnormal is zero": ("item", made(number=lambda n: n if n % 2**31 >= 0x800000 else n >> 31 << 31)),
    "an infinity is the greatest": ("item", made(number=lambda n: n - 1 if n % 2**31 == 0x7F800000 else n)),
    **{f"number {k} is the one after": ("item", made(order=[(i + (i == k)) % 12 for i in range(12)])) for k in range(12)},
    "columns for lines": ("item", made(order=[i % 3 * 4 + i // 3 for i in range(12)])),
    "items are counted": ("read_instances", answered(lambda n, e, f, written: (n, e, f, written // ITEM))),
    "the records' bytes are counted": ("read_instances", answered(lambda n, e, f, written: (n, e, f, written // ITEM * INSTANCE))),
    "what comes before the bad one is written": ("read_instances", left_so(before_bad)),
    "as many as there is room for are written": ("read_instances", left_so(what_fits)),
    "what is past them is cleared": ("read_instances", cleared(2**16)),
    "a byte past them is cleared": ("read_instances", cleared(1)),
}
