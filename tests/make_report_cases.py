#!/usr/bin/env python3
"""Writes crates/cases_report/stdin, sheets each after its length as a u32, and crates/cases_report/stdout, what printed.py prints for them:
the lines of each, and then the lines with their refusal in words.

Every number that a sheet can draw is drawn: 1 to 5 for the sheet, 6 and 10 to 38 for its build, 6, 21 and 40 to 44 for its actions. So is
each sort of 21 and of 37, and a refused action of each kind, by sheets of either version. No sheet draws 42 in a use: its lists start empty,
and a Build lists numbered Blases.
"""
import pathlib
import random
import re
import struct

from make_build_cases import SECTIONS, as_version, base, changed, flat, largest_tables, refusals, table_cases, wide_refusals
from make_read_cases import FIRST, at_limit, put, record, sheet, worked
from paper import U64
from printed import explained, printed
from reading import LIMITS, VERSIONS, longest, sizes


def of(x, actions, counter=7):
    """The sheet of a build's tables and of actions."""
    rows = [[record(k, *r, version=x["version"]) for r in x[name]] for k, name in enumerate(SECTIONS, 1)]
    return sheet(rows + [[record(9, *a) for a in actions]], x["alignment"], counter, x["version"])


BUILD, USE, MARK_BLAS, MARK_TLAS = 1, 2, 3, 4
ALL = [(BUILD, 65535), (USE, 0), (USE, 1), (MARK_BLAS, 1), (MARK_TLAS, 0), (USE, 0)]


def zero_scratch(x):
    for r in x["blases"] + x["tlases"]:
        r[4 if len(r) == 7 else 2] = 0
    return x


def read_cases(version):
    """1 to 5, with places in the header, in each section and past the end."""
    whole = worked(version)
    for n in (0, 1, 4, 5, 12, 14, 15, 22, 60, len(whole) - 1):
        yield whole[:n]
    yield whole + b"\0"
    yield whole + bytes(60000 - len(whole))
    yield put(whole, 0, 1, 3)
    yield put(whole, 0, 1, 3 - version)
    yield put(whole, 1, 4, 0)
    for section, most in enumerate(LIMITS, 1):
        yield at_limit(section, most + 1, version)
    for at, value in ((23, 4), (26, 2), (29, 2)):
        yield put(whole, at, 1, value)


def build_cases():
    for version in VERSIONS:
        yield of(as_version(version, base()), ALL)
        for x in flat(refusals()):
            yield of(as_version(version, x), ALL)
        for t in table_cases(version):
            if all(len(s) % size == 0 for s, size in zip(t, sizes(version))):
                rows = [[s[i : i + size] for i in range(0, len(s), size)] for s, size in zip(t, sizes(version))]
                yield sheet(rows + [[record(9, BUILD, 0), record(9, USE, 0)]], version=version)
    for x in largest_tables():
        yield of(x, ALL)
    for x in wide_refusals():
        yield of(x, ALL)


def submit_cases(version):
    x = as_version(version, base())
    yield of(x, [])
    yield of(x, [(BUILD, 0)] * 64)
    # 6 at an action
    yield of(x, [(BUILD, 0), (USE, 2)])
    yield of(x, [(USE, 65535)])
    yield of(x, [(BUILD, 0), (MARK_BLAS, 3)])
    yield of(x, [(MARK_TLAS, 2)])
    # 43, then used once built; used over a Blas that was built again: 44
    yield of(x, [(USE, 0), (BUILD, 0)])
    yield of(x, [(BUILD, 0), (USE, 0), (USE, 1)])
    yield of(x, [(BUILD, 0), (MARK_BLAS, 2), (USE, 1)])
    yield of(x, [(BUILD, 0), (MARK_BLAS, 1), (USE, 1), (USE, 0)])
    yield of(x, [(BUILD, 0), (MARK_BLAS, 2), (BUILD, 0), (USE, 1)])
    yield of(x, [(BUILD, 0), (MARK_BLAS, 2), (MARK_TLAS, 1), (USE, 1)])
    # a numbered Tlas whose starting list is empty; a Blas that is newer than the Tlas from the start
    yield of(x, [(USE, 1)])
    # 21: a listed Blas that is destroyed and is no entry's
    y = as_version(version, changed(("slots", 3, 1, 3)))
    y["blases"].append([0, 2, 0, 1, 0, 9, 2])
    yield of(y, [(BUILD, 0), (USE, 0), (USE, 1)])
    # 42: a listed Blas without number that is no entry's
    y["blases"][3][6] = 0
    yield of(y, [(USE, 1), (BUILD, 0), (USE, 0)])
    # 44: a listed Blas whose number is above the counter
    y["blases"][3] = [0, 2, 0, 0, 0, 9, 8]
    yield of(y, [(BUILD, 0), (USE, 1)])
    # 40, at once and after the counter has stepped round
    yield of(x, [(BUILD, 0)], counter=0)
    yield of(x, [(USE, 1), (MARK_BLAS, 0)], counter=0)
    yield of(x, [(BUILD, 0), (USE, 0), (BUILD, 0)], counter=U64)
    yield of(x, [(BUILD, 0), (USE, 0), (USE, 1)], counter=U64)
    # 41: a compacted Blas that is no entry's
    y["blases"][3] = [0, 2, 3, 0, 0, 9, 2]
    yield of(y, [(BUILD, 0), (MARK_BLAS, 3)])
    # nothing recorded: kind 1 is passed over and keeps its position
    z = zero_scratch(as_version(version, base()))
    yield of(z, ALL)
    yield of(z, [(BUILD, 0), (BUILD, 0), (USE, 0), (BUILD, 0)])
    yield of(z, [(BUILD, 0)])
    yield of(z, [(MARK_BLAS, 0), (BUILD, 9), (MARK_TLAS, 0), (BUILD, 0), (USE, 0), (USE, 9)])
    yield of(z, [(BUILD, 0), (MARK_BLAS, 0)], counter=0)
    yield of(dict({name: [] for name in SECTIONS}, version=version, alignment=1), [(BUILD, 0), (USE, 0)])


def largest(version=1):
    """As many records of each section as there may be, and the longest numbers."""
    far = 2**61
    x = dict(
        version=version,
        alignment=1,
        buffers=[[U64, 1]] * 256,
        blases=[[1, 7, 2, 0, 2**57, far + i, 0] for i in range(128)],
        declared=[[i % 128, 255, 2**32 - 1, 255, 65535, 65535, 2, 1, 2**32 - 1] for i in range(512)],
        tlases=[[2, 0, 2**58, 2**32 - 1, 0]] * 32,
        entries=[[64 + i, 1, 4] for i in range(64)],
        geometries=[[255, 1, {1: 8, 2: 2**64 - 32}[version], 24, 255] + [0] * 10 for _ in range(256)],
        packages=[[31 - i, 16] for i in range(32)],
        slots=[[1, 64 + i % 64, 2**24 - 1, 255] + [0x7FC00001] * 12 for i in range(512)],
    )
    data = of(x, [(BUILD, 0)] + [(USE, i % 32) for i in range(63)], counter=U64 - 1)
    assert len(data) == longest(version)
    return data


def random_cases():
    choose = random.Random(11)
    for i in range(450):
        x = as_version(1 if i < 300 else 2, base())
        for _ in range(choose.randint(0, 2)):
            name = choose.choice(SECTIONS)
            r = choose.choice(x[name])
            j = choose.randrange(len(r))
            r[j] = choose.choice((0, 1, 2, 3, r[j], max(0, r[j] - 1)))
        if i >= 300 and choose.random() < 0.7:
            r, size = choose.choice(x["geometries"]), choose.choice(x["buffers"])
            r[FIRST[1]], size[0] = choose.choice((2**32 - 8, 2**32, 2**40, 2**63, U64)), choose.choice((size[0], 2**50, U64))
        if choose.random() < 0.2:
            zero_scratch(x)
        actions = [(choose.randint(1, 4), choose.choice((0, 1, 2, 3))) for _ in range(choose.randrange(9))]
        yield of(x, actions, choose.choice((0, 1, 5, 9, U64)))


# ends of explanations, their numbers left out, that the numbers of the causes do not show to be there
WORDS = (
    "destroyed, entry, geometry, buffer",
    "destroyed, entry, Blas",
    "destroyed, package, Tlas",
    "scratch 2^64 - 1, entry",
    "scratch 2^64 - 1, package",
    "destroyed, use of a Tlas at action, Blas",
    "Blas without number, recorded build at action, Blas, Tlas",
    "id outside its table, use of a Tlas at action",
    "id outside its table, mark of a Blas at action",
    "id outside its table, mark of a Tlas at action",
)


def cases():
    for version in VERSIONS:
        yield worked(version)
        yield from read_cases(version)
    yield from build_cases()
    for version in VERSIONS:
        yield from submit_cases(version)
        yield largest(version)
    yield from random_cases()


def main():
    folder = pathlib.Path(__file__).resolve().parent.parent / "crates/cases_report"
    folder.mkdir(exist_ok=True)
    texts, seen, words = [], {}, set()
    with open(folder / "stdin", "wb") as out:
        for case in cases():
            out.write(struct.pack("<I", len(case)) + case)
            texts.append(printed(case))
            for word, number in (line.split()[:2] for line in texts[-1].splitlines()):
                if word in ("sheet", "build", "submit"):
                    seen.setdefault(case[:1], set()).add((word, int(number)))
            texts.append(explained(case))
            words.add(re.sub(r"(?<=\w) \d+(?=,|$)", "", texts[-1].splitlines()[-1]))
    (folder / "stdout").write_text("".join(texts))
    due = {("sheet", n) for n in range(2, 6)} | {("build", n) for n in (0, 6, *range(10, 39))}
    due |= {("submit", n) for n in (0, 6, 21, 40, 41, 42, 43, 44)}
    assert seen == {b"": {("sheet", 2)}, b"\1": due, b"\2": due, b"\3": {("sheet", 1)}}, seen
    for some in ["nothing is refused", *WORDS]:
        assert any(w.endswith(some) for w in words), some
    print(f"{len(texts) // 2} sheets, of up to {max(map(len, texts))} bytes of text; every number that a sheet of either version can draw; {len(words)} explanations, numbers apart")


if __name__ == "__main__":
    main()
