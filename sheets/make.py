#!/usr/bin/env python3
"""Writes the sheets and the groups of this folder, and with --check only says which differ. README.md has what each shows, and what is printed
for it."""
import pathlib
import struct
import sys

here = pathlib.Path(__file__).resolve().parent
sys.path.insert(0, str(here.parent / "tests"))

from convert import convert, converted, offsets  # noqa: E402
from groups import open_groups, opened  # noqa: E402
from make_groups_cases import data_of  # noqa: E402
from make_read_cases import record, sheet, worked  # noqa: E402
from printed import explained, explanation, told, words as words_for  # noqa: E402
from reading import NONE, Walked  # noqa: E402
from verdict import Verdict  # noqa: E402

BUILD, USE, MARK_BLAS, MARK_TLAS = 1, 2, 3, 4


def bits(*numbers):
    return struct.unpack(f"<{len(numbers)}I", struct.pack(f"<{len(numbers)}f", *numbers))


def slot(blas, custom, x, y, turned=False, present=1):
    """An instance at x, y on the floor, as it is or turned by half."""
    c = -1.0 if turned else 1.0
    return record(8, present, blas, custom, 255, *bits(c, 0, 0, x, 0, c, 0, y, 0, 0, 1, 0))


def collection(actions, counter=9, vertices=960, scratch=True, build=True):
    """Blas 0 young and 1 tall, of triangles, 2 a stand of boxes, 3 a post that was built before; Tlas 0 a whole span, 1 a trial corner."""
    s = 1 if scratch else 0
    buffers = [
        record(1, vertices, 1),  # 0 vertices: 80 of 12 bytes
        record(1, 480, 1),  # 1 indices: 240 of two bytes
        record(1, 96, 1),  # 2 transforms: two of 48 bytes
        record(1, 720, 1),  # 3 boxes: 30 of 24 bytes
    ]
    blases = [
        record(2, 0, 4, 0, 0, s * 65_536, 0x1_0000, 0),
        record(2, 0, 3, 2, 0, s * 90_000, 0x2_0000, 5),
        record(2, 1, 2, 0, 0, s * 12_288, 0x3_0000, 0),
        record(2, 1, 2, 0, 0, 4_096, 0x4_0000, 4),
    ]
    declared = [
        record(3, 0, 1, 80, 2, 12, 4, 1, 1, 240),  # Blas 0: leaves and stem in one, with indices
        record(3, 1, 0, 40, 2, 12, 4, 0, 0, 0),  # Blas 1: stem
        record(3, 1, 1, 40, 2, 12, 4, 0, 0, 0),  # Blas 1: trusses
        record(3, 2, 1, 30, 0, 0, 0, 0, 0, 0),  # Blas 2: boxes
        record(3, 3, 1, 2, 0, 0, 0, 0, 0, 0),  # Blas 3: not built here
    ]
    tlases = [record(4, 0, 0, s * 20_000, 64, 5), record(4, 2, 0, s * 5_000, 8, 0)]
    entries = [record(5, 0, 0, 1), record(5, 1, 0, 2), record(5, 2, 1, 1)]
    geometries = [
        record(6, 1, 80, 0, 12, 0, 2, 1, 1, 1, 240, 1, 0, NONE, 0, 0),
        record(6, 0, 40, 0, 12, 0, 2, 0, NONE, 0, 0, 0, 0, 2, 1, 0),
        record(6, 1, 40, 40, 12, 0, 2, 0, NONE, 0, 0, 0, 0, 2, 1, 48),
        record(6, 1, 30, 0, 24, 3, 0, 0, 0, 0, 0, 0, 0, 0, 0, 0),
    ]
    span = [slot(k % 2, 100 * j + k, 0.5 * k, 1.6 * j, turned=j % 2) for j in range(4) for k in range(8)]
    span[11] = slot(NONE, 111, 0.0, 0.0, present=0)  # a gap
    span += [slot(2, 900, -1.0, 0.0), slot(3, 901, -1.0, 6.4)]
    corner = [slot(1, 1, 0.0, 0.0), slot(1, 2, 0.5, 0.0), slot(2, 3, 1.0, 0.0), slot(3, 4, 1.5, 0.0)]
    packages = [record(7, 0, len(span)), record(7, 1, len(corner))]
    if not build:
        entries, geometries, packages, span, corner = [], [], [], [], []
    sections = [buffers, blases, declared, tlases, entries, geometries, packages, span + corner]
    return sheet(sections + [[record(9, *a) for a in actions]], 256, counter)


BOXES = 80_000_000  # of a geometry, 24 bytes each


def far_boxes():
    """Version 2: one Blas of four geometries, whose boxes are one after the other in one buffer, those of the last past 2^32."""
    rows = [record(6, 1, BOXES, 24 * BOXES * i, 24, 0, *[0] * 10, version=2) for i in range(4)]
    sections = [
        [record(1, 4 * 24 * BOXES, 1)],
        [record(2, 1, 0, 0, 0, 1_000_000, 0x1_0000, 0)],
        [record(3, 0, 1, BOXES, 0, 0, 0, 0, 0, 0)] * 4,
        [record(4, 0, 0, 4_096, 1, 0)],
        [record(5, 0, 1, 4)],
        rows,
        [record(7, 0, 1)],
        [slot(0, 0, 0.0, 0.0)],
        [record(9, BUILD, 0), record(9, USE, 0)],
    ]
    return sheet(sections, 256, 1, version=2)


def sheets():
    build_and_use = [(BUILD, 0), (USE, 0), (USE, 1)]
    whole = collection(build_and_use)
    yield "collection", whole
    yield "usable", worked()
    yield "rebuilt", collection(build_and_use + [(MARK_BLAS, 1), (USE, 1)])
    yield "damaged", whole[:2000]
    yield "refused-build", collection(build_and_use, vertices=959)
    yield "nothing-recorded", collection([(BUILD, 0), (USE, 0)], build=False)
    yield "far-boxes", far_boxes()


def nested():
    """A row of four, a bay of two such rows and a post, a house of two such bays and a stand; a slot's fields after its present byte."""
    four = [slot(k % 2, k, 0.5 * k, 0.0)[1:] for k in range(4)]
    return data_of([four, [0, 0, slot(3, 901, -1.0, 6.4)[1:]], [1, 1, slot(2, 900, -1.0, 0.0)[1:]]])


def put(file, data):
    """Writes a file, or says whether it is another."""
    if sys.argv[1:] != ["--check"]:
        file.write_bytes(data)
    return file.is_file() and file.read_bytes() == data


def main():
    readme = (here / "README.md").read_text()
    wrong = []
    if not put(here / "nested.groups", nested()):
        wrong.append("nested.groups")
    slots = opened(nested(), 28672)
    (number, place, *_), _ = open_groups(nested()[:-1], b"")
    said = (f"its {len(nested())} bytes", f"{len(slots) // 56} slots, {len(slots)} bytes", words_for(6, number, place, 0, 0, 0, 0))
    if not all(words in readme for words in said):
        wrong.append("what README.md has for nested.groups")
    data = far_boxes()
    (number, place, _), _ = convert(1, data, b"")
    firsts = [int.from_bytes(data[at : at + width], "little") for at, width in offsets(Walked(data))]
    said = (f"its {len(data)} bytes", words_for(9, number, place, 0, 0, 0, 0), f"byte {firsts[-1]:,}", f"{BOXES:,} boxes", f"{4 * 24 * BOXES:,} bytes")
    if not all(words in readme for words in said):
        wrong.append(f"what README.md has for converting far-boxes: {said}")
    # what is read in version 1 is printed alike in version 2
    for name, data in sheets():
        if data[0] == 1 and not Walked(data).refusal and told(converted(data)) != told(data):
            wrong.append(f"{name} in version 2")
    for name, data in sheets():
        if not put(here / f"{name}.sheet", data):
            wrong.append(f"{name}.sheet")
        text, refusal = told(data)
        words = explanation(refusal) + Verdict(Walked(data), explained(data)).named
        if text not in readme or words.strip() not in readme:
            wrong.append(f"what README.md has for {name}")
            print(f"{name}:\n{text}{words}")
    for w in wrong:
        print(f"not as made: {w}")
    sys.exit(1 if wrong else 0)


main()
