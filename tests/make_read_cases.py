#!/usr/bin/env python3
"""Writes crates/cases_sheet/stdin, sheets of either version, each after its length as a u32, and crates/cases_sheet/stdout, the answers of
reading.py."""
import pathlib
import random
import struct

from reading import LIMITS, NONE, VERSIONS, read, sections, single, sizes

WIDTHS = {v: tuple(tuple(f.width for f, _, _ in single(s.fields)) for s in sections(v)) for v in VERSIONS}
FIRST = (6, 2)  # section and field of what version 2 widens
ABOUT_2_32 = (2**32 - 1, 2**32, 2**63, 2**64 - 1)
# the first value that a judged field may not have, by section and field; absent: any value
FIRST_BAD = {
    (1, 1): 4,
    (2, 0): 2,
    (2, 1): 8,
    (2, 2): 4,
    (2, 3): 2,
    (3, 6): 3,
    (3, 7): 2,
    (4, 0): 3,
    (4, 1): 2,
    (5, 1): 2,
    (6, 4): NONE,
    (6, 6): 3,
    (6, 8): 2,
    (6, 10): 2,
    (6, 13): 2,
    (8, 0): 2,
    (9, 0): 5,
}


def record(section, *values, version=1):
    return b"".join(v.to_bytes(w, "little") for w, v in zip(WIDTHS[version][section - 1], values, strict=True))


def sheet(sections, alignment=256, counter=1, version=1):
    head = struct.pack("<BIQ", version, alignment, counter)
    return head + b"".join(struct.pack("<H", len(r)) + b"".join(r) for r in sections)


def zeros(section, n, version=1):
    return [bytes(sizes(version)[section - 1])] * n


def worked(version=1):
    """The paper's worked sheet, and the same in version 2."""
    return sheet(
        [
            [record(1, 36, 1)],
            [record(2, 0, 0, 0, 0, 300, 0, 0)],
            [record(3, 0, 0, 3, 1, 12, 4, 0, 0, 0)],
            [record(4, 0, 0, 100, 1, 0)],
            [record(5, 0, 0, 1)],
            [record(6, 0, 3, 0, 12, 0, 1, 0, NONE, 0, 0, 0, 0, NONE, 0, 0, version=version)],
            [record(7, 0, 1)],
            [record(8, 1, 0, 0, 0, *[0] * 12)],
            [record(9, 1, 0), record(9, 2, 0)],
        ],
        version=version,
    )


def rich(version=1, firsts=(0, 0, 8)):
    """Both kinds, buffers given and none, slots present and absent, each kind of action."""
    return [
        [record(1, 1000, 1), record(1, 0, 3)],
        [record(2, 0, 7, 3, 1, 300, 4096, 9), record(2, 1, 0, 0, 0, 10, 8192, 0)],
        [
            record(3, 0, 1, 30, 2, 12, 4, 2, 1, 6),
            record(3, 1, 255, 4, 99, 65535, 0, 255, 255, 77),
            record(3, 0, 0, 3, 1, 12, 1, 0, 0, 5),
        ],
        [record(4, 2, 1, 100, 5, 0), record(4, 0, 0, 0, 0, 1)],
        [record(5, 0, 0, 2), record(5, 1, 1, 1), record(5, 9, 0, 0)],
        [
            record(6, 1, 3, firsts[0], 12, 0, 2, 2, 1, 1, 6, 1, 0, 1, 1, 16, version=version),
            record(6, 0, 3, firsts[1], 12, 65534, 1, 0, NONE, 0, 9, 255, 9, NONE, 255, 9, version=version),
            record(6, 0, 4, firsts[2], 24, 1, 255, 255, 7, 255, 9, 255, 9, 7, 255, 9, version=version),
        ],
        [record(7, 0, 2), record(7, 1, 0), record(7, 3, 1)],
        [
            record(8, 1, 0, 5, 255, *[0x7FC00001] * 12),
            record(8, 0, 65535, 2**32 - 1, 255, *[0xFFFFFFFF] * 12),
            record(8, 1, 1, 2**24, 1, *range(12)),
        ],
        [record(9, 1, 65535), record(9, 2, 0), record(9, 3, 1), record(9, 4, 1)],
    ]


def field_places(tables, version):
    """Section, record, field, place and width of each field."""
    at = 13
    for k, records in enumerate(tables, 1):
        at += 2
        for i, r in enumerate(records):
            for j, w in enumerate(WIDTHS[version][k - 1]):
                yield k, i, j, at, w
                at += w
        assert len(r) == sizes(version)[k - 1] if records else True


def put(data, at, width, value):
    return data[:at] + (value % 256**width).to_bytes(width, "little") + data[at + width :]


def at_limit(section, n, version=1):
    """A sheet whose section has n records, with what it needs of the sections before."""
    s = [[] for _ in range(9)]
    s[1] = zeros(2, 1)
    kind_one = [record(2, 1, 0, 0, 0, 0, 0, 0)]
    if section == 3:
        s[1] = kind_one
    s[section - 1] = zeros(section, n, version)
    if section == 9:
        s[8] = [record(9, 4, 0)] * n
    if section == 6:
        s[4] = [record(5, 0, 1, n)]
    if section == 8:
        s[6] = [record(7, 0, n)]
    if section == 2:
        s[1] = zeros(2, n)
    return sheet(s, version=version)


def cases():
    yield b""
    for version in VERSIONS:
        yield from cases_of(version)


def cases_of(version):
    base = worked(version)
    for n in range(1, len(base) + 1):
        yield base[:n]
    yield base + b"\0"
    yield base + b"\1\2\3"
    for other in (0, 3, 255):
        yield put(base, 0, 1, other)
        # before all else
        yield put(base, 0, 1, other)[:1]
        yield put(put(base, 0, 1, other), 1, 4, 0)
    # the bytes of one version under the other's number: with geometries they are not those of a sheet, without they are
    bare = sheet([[] if 4 <= k <= 5 else records for k, records in enumerate(rich(version))], version=version)
    for data in (base, base + bytes(4), sheet(rich(version), version=version), bare, bare[:-1], bare + b"\0"):
        yield data
        yield put(data, 0, 1, 3 - version)
    yield put(base, 1, 4, 0)
    yield put(base, 1, 4, 2**32 - 1)
    for section, most in enumerate(LIMITS, 1):
        yield at_limit(section, most, version)
        full = at_limit(section, most, version)
        yield full[:-1]
        yield at_limit(section, most + 1, version)
        # one above, with nothing after it
        yield at_limit(section, most + 1, version)[:200]
    # drawn counts: one off either way, and 65535 + 2, which is 1 only modulo 2^16
    for counts, n in (((1, 1), 1), ((0, 0), 1), ((65535, 2), 1), ((65535, 1), 0), ((256, 0), 256)):
        s = [[] for _ in range(9)]
        s[4] = [record(5, 0, 1, c) for c in counts]
        s[5] = zeros(6, n, version)
        yield sheet(s, version=version)
        s = [[] for _ in range(9)]
        s[6] = [record(7, 0, c) for c in counts]
        s[7] = zeros(8, n)
        yield sheet(s, version=version)
    tables = rich(version)
    data = sheet(tables, version=version)
    yield data
    for k, i, j, at, w in field_places(tables, version):
        bad = FIRST_BAD.get((k, j))
        values = {0, 1, 256**w - 1} | ({bad - 1, bad} if bad else set())
        if (k, j) == FIRST:
            values |= {v for v in ABOUT_2_32 if v < 256**w}
            # whole up to its last byte
            yield from (data[: at + n] for n in range(w + 1))
        if (k, j) == (3, 0):
            values |= {1, 2}
        for value in sorted(values):
            yield put(data, at, w, value)
        # a value outside its field before a cut is 5, a field that isn't whole 2
        if bad:
            yield put(data, at, w, bad)[: at + w]
            yield put(data, at, w, bad)[: at + w - 1]
    choose = random.Random(1)
    for _ in range(200):
        spoiled = bytearray(data)
        for _ in range(choose.randint(1, 3)):
            spoiled[choose.randrange(len(spoiled))] = choose.choice((0, 1, 2, 3, 255))
        yield bytes(spoiled[: choose.choice((len(spoiled), choose.randrange(len(spoiled))))])


def main():
    folder = pathlib.Path(__file__).resolve().parent.parent / "crates/cases_sheet"
    answers = []
    with open(folder / "stdin", "wb") as out:
        for case in cases():
            out.write(struct.pack("<I", len(case)) + case)
            answers.append(read(case))
    (folder / "stdout").write_text("".join(" ".join(map(str, a)) + "\n" for a in answers))
    numbers, read_ones = [a[0] for a in answers], [a[1] for a in answers if a[0] == 0]
    assert min(map(numbers.count, range(6))) > 0 and set(read_ones) == set(VERSIONS)
    print(f"{len(answers)} sheets; " + ", ".join(f"{numbers.count(n)} of {n}" for n in range(6)))
    print("read: " + ", ".join(f"{read_ones.count(v)} of version {v}" for v in VERSIONS))


if __name__ == "__main__":
    main()
