#!/usr/bin/env python3
"""Writes docs/FORMAT.md from the format's description, and with --check only says whether it differs."""
import pathlib
import sys

sys.dont_write_bytecode = True
here = pathlib.Path(__file__).resolve().parent

from layout import COUNT_WIDTH, HEAD, HEAD_SIZE, NONE, SECTIONS, VERSIONS, longest, section, sections, single, size  # noqa: E402
from refusals import CAUSES  # noqa: E402
from text import make, show  # noqa: E402
from walk import Walked, allowed_words, spoken  # noqa: E402

EXAMPLE = """\
# the smallest sheet that builds something: one triangle in one Tlas
alignment 256
counter 1

buffer: size 36, marks BLAS_INPUT
blas: kind triangles, scratch 300
declared: blas 0, count 3, vertex_format 1, least_stride 12, stride_alignment 4
tlas: scratch 100, most_instances 1

entry: blas 0, kind triangles
    geometry: count 3, stride 12, buffer 0, vertex_format 1
package: tlas 0
    slot: blas 0, mask 255, at 0.5 1.6 0

action: kind build
action: kind use, operand 0
"""

INTRODUCTION = """\
# The sheet's format

Made by `format/generate.py` from `format/layout.py` and `format/refusals.py`, which also serve `./zakvind --show`, `--make`, `--picture`,
the words for a refused field, and the reading in `tests/`. `format/generate.py --check` says whether this page is what they make.

A sheet says what acceleration structures there are, what is to be built, and what is then submitted. All numbers are little-endian. The
head comes first, then nine sections in this order: a section is its count, a u16, and as many records, each its fields end to end. Nothing
follows. The shortest sheet has {shortest} bytes, the longest {longest}. The tables that the library takes
are the sections' records without the count.

There are two versions. They have the same fields and differ in the version byte and in one width: a geometry's `first` is a u32 in version 1 and
a u64 in version 2, so that what comes after it in its record stands four bytes further on. Where two places or widths are given below, the
second is version 2's. In the library `zakvind_build` takes geometries of version 1 and `zakvind_build_wide` those of version 2.

Fields are judged from the start on. Each has to be whole (else the sheet is refused by 2) and, if it is used, to have a value that it may
have (else 5; the version: 1). A count has to be whole (2), within its limit (4) and, in a section that is drawn from, the sum of the counts
that draw from it (5). A field that is not used is ignored, but its bytes are there. An id is a record's number in its table, from 0;
whether it is inside the table is judged by a build or an action (6), but for a declared geometry's Blas, which the reader judges (5).
"""

AS_TEXT = """\
## A sheet as text

`./zakvind --show SHEET` prints a sheet as text, and `./zakvind --make TEXT > SHEET` makes the sheet of one. Shown and then made, a sheet
that is read has the same bytes again, unused fields included. Of a refused sheet as much is shown as its bytes tell, with what is refused
marked; what is cut off or left over is only said.

- A line is a field of the head, as `alignment 256`, or a record: its name, a colon, and its fields with their values, with commas between.
  A line that ends with a comma goes on in the next.
- Records are {ones}.
  Geometries stand below their entry, slots below their package; the counts follow from that. A record's number may stand before the
  colon, `buffer 0:`, and then has to be the right one; that of a geometry or a slot counts within its entry or package.
- A number is decimal, or hexadecimal after `0x`. Fields with named values take the names, marks and flags several with `+` between, as
  `BLAS_INPUT+destroyed`. An index or transform buffer can be `none`.
- `transform` has twelve numbers; a `/` may stand after each four. A number is rounded to the nearest float32, and is shown by as few digits
  as give it back; a NaN is written by its bits, as `nan:7fc00000`. In a slot `at X Y Z` stands for the transform that only moves it there.
- A field that is left out is 0, but: an index or transform buffer of triangles is `none`; a present byte is 1 if what it says is there is
  given, and a slot's if any of its fields is; `version` is 1; counts are those of the text. A count that is given is taken as it is given.
  `version 2` may stand on any line, and the `first` of each geometry then holds up to 2^64 - 1.
- `#` begins a comment. What stands in parentheses is a remark, and is ignored: so is shown what an id names, that a field is unused, and
  what is refused.

`--make` refuses, with status 2, line and field, what it can't write: an unknown name, a value that doesn't fit its bytes, a field given
twice. A value that fits but that the reader refuses, such as `marks 9`, is made, with a warning that has line and field, and status 1.

```
{example}```

It is shown so:

```
{shown}```
"""

PRINTED = """\
## What is printed

| Line | Numbers |
|---|---|
| `sheet` | the refusal's number, its byte place; nothing else is printed |
| `build` | the refusal's number, 0 for none; E, two numbers; three figures. Of a refused build nothing else is printed |
| `scratch` | the size |
| `blas` | for each entry: id, scratch offset |
| `tlas` | for each package: id, scratch offset, start and end of its instance bytes |
| `submit` | the refusal's number, 0 for none; the action; two figures |
| `next` | the counter |

With nothing recorded, since what is built needs no scratch, only `build`, `submit` and `next` are printed, and kind 1 actions are passed
over, keeping their positions. With `--explain`, and at a terminal, a line follows that says `nothing is refused`, or what is, in the words
below; for 1 to 6 another names the field or the id.

## Refusals

E is entry and its geometry, or package and its slot, from 0; the second is 0 where there is none. In the library, a refused table is
(section, record). "Both" is declared, given. Of groups of slots 2 to 5 have their byte place too. Of many instances in one call E is 0 and
the position of the refused one, from 0; 0, 0 for the Tlas and for 39. Of instances read back E is the record, from 0, and 0 for 49
and 50; 0, 0 for 48 and 39. Of a conversion 1 is called "version not 1" or "version not 2", by the version that it comes from.
"""

CONVERTED = """\
## One version from the other

`./zakvind --to-2 SHEET` and `zakvind_to_version_2` take a sheet of version 1 and write it as one of version 2, `./zakvind --to-1 SHEET` and
`zakvind_to_version_1` the other way. Only the version byte and the width of each `first` change: every other byte is the same, those of unused
fields too, and there and back gives the sheet's own bytes. What is printed for the two is the same, but they never mean the same, since the
version is part of what a sheet means; `--canonical` keeps it.

Version 2 takes 4 bytes more for each geometry, and every sheet of version 1 that is read can be written so. The other way needs each `first`,
a first vertex or the offset of boxes, to be below 2^32. Judged are, in this order: that there is a first byte (2) and that it is the version to
come from (1, whatever follows); then all that a reader judges (2 to 5); then, to version 1 only, each `first` from the start on (47, with its
byte place in the sheet that is read); then the room (39). Of a refused sheet nothing is written.
"""

GROUPS = """\
## Groups of slots

What `./zakvind --open CARD` and `zakvind_open_groups` take. A group count comes first, a u16, 1 to {groups}; then for each group its item count,
a u16 from 1 on, and as many items. Nothing follows. All numbers are little-endian, groups and items are counted from 0.

| Item | Bytes | What follows its first byte |
|---|---|---|
| 1 | {slot} | a slot's fields after its present byte, with any values: the item is a present slot as section 8 has it |
| 2 | 3 | a u16: the number of a group that comes earlier |

The last group is opened: each item in turn, a slot as it is, a group by opening it. What comes of it are the slots of section 8, one behind the
other with the present byte 1, at least one and at most {most}: {room:,} bytes always have room for them.

All groups are judged, whether the last one names them or not, from the start on: each number and field whole (2), the group count (4, or 45
for 0), an item count (45 for 0), an item's first byte (5), the number of a group (45 if it is not an earlier one); then that nothing follows
(3). Then the {next_one}th slot of the last group is refused (46) with the group and the item where it is written, then too little room (39).
The most that is opened is {next_one} slots, however many are named: 64 groups that each name the one before twice name 2^63 in 564 bytes.
"""

INSTANCES = """\
## Instances to append

What `zakvind_append_instances` takes: instances end to end, {bytes} bytes each, a slot's fields after its present byte;
`zakvind_append_instance` takes one. Bytes left over at the end, less than an instance's, are refused by 5 after the whole ones.
"""

READ_BACK = """\
## Instances read back

What `zakvind_read_instances` takes: records end to end, {record} bytes each, as a build and an append write them, which are those
of VK_KHR_acceleration_structure (VkAccelerationStructureInstanceKHR). All numbers are little-endian.

| At | Width | What it is |
|---|---|---|
| 0 | f32 × 12 | the transform, any bits |
| 48 | u32 | custom data in the low 24 bits, the mask in the high 8 |
| 52 | u32 | 0 |
| 56 | u64 | the address of the Blas |

An instance is written for each, {bytes} bytes as above, end to end; its Blas is the one that has the address, and the transform
keeps its bits, those of a NaN too. Appended, they give the same records again, unless 35 is drawn; what was appended comes back
as it was, if the address of its Blas stands once in the table.

Judged are, in this order: that the length is in {record}s (48); then for each record in turn that the u32 at 52 is 0 (49) and
that one Blas has its address (50); then the room (39). Of a refused call nothing is written. All whole records of the table
count, also more than a sheet may have, and nothing but their addresses is judged. The first 65,536 have an id: an address that
only a later one has is refused by 50.
"""


def by_version(*numbers):
    """One number where all versions have the same, else each version's."""
    return ", ".join(map(str, dict.fromkeys(numbers)))


def width_words(*fields):
    """Of a field as each version has it."""
    f = fields[0]
    kind = by_version(*("f32" if f.float32 else f"u{8 * f.width}" for f in fields))
    return f"{kind} × {f.times}" if f.times > 1 else kind


def value_words(f):
    if f.float32:
        return "any bits"
    named = ", ".join(f"{n} {name}" for n, name in (f.values or f.bits).items())
    what = f.allowed[0]
    if f.bits and what == "range":
        return f"sums of {named}"
    if f.bits:
        return f"0 or {named}"
    if named:
        return named
    if f.none:
        return f"any; {NONE} none"
    return "any" if what == "any" else allowed_words(f)


def used_words(s, f):
    words = []
    for what, *of in f.used:
        if what == "triangles":
            words.append("of a triangle Blas" if s.kind == "blas" else "drawn by a triangle entry")
        elif what == "given":
            words.append(f"with {spoken(of[0])}")
        elif what == "present":
            words.append(f"if {of[0]} is not 0")
        else:
            words.append(f"if {of[0]} is not {of[1]}")
    return ", ".join(words) or "always"


def id_words(f):
    if f.id_of:
        return f"id of a {section(f.id_of).one}"
    if f.id_by:
        by, of = f.id_by
        ones = [f"{section(k).one} ({by} {', '.join(str(v) for v, n in of.items() if n == k)})" for k in sorted(set(of.values()))]
        return "id of a " + " or a ".join(ones)
    return ""


def note_words(f):
    draws = f"how many {section(f.draws).name} it draws" if f.draws else ""
    code = f"in code `{f.code}`" if f.code else ""
    return "; ".join(filter(None, (id_words(f), draws, f.note, code)))


def fields_table(s, *versions):
    """Of the fields as each version has them."""
    yield "| At | Field | Width | Values | Used | What it is |"
    yield "|---|---|---|---|---|---|"
    seen = set()
    for of in zip(*map(single, versions), strict=True):
        f = of[0][0]
        if f.name in seen:
            continue
        seen.add(f.name)
        at, width = by_version(*(at for _, at, _ in of)), width_words(*(own for own, _, _ in of))
        yield f"| {at} | `{f.name}` | {width} | {value_words(f)} | {used_words(s, f) if s else 'always'} | {note_words(f)} |"
    yield ""


def section_text(s, *versions):
    """Of a section as each version has it."""
    yield f"### {s.number}. {s.title or s.name.capitalize()}"
    yield ""
    drawn = f" Drawn in turn by the {section(s.drawn_by).name}, whose counts have to add up to this section's." if s.drawn_by else ""
    code = f" In code a record is `{s.code}`." if s.code else ""
    least, *wider = dict.fromkeys(size(v.fields) for v in versions)
    yield f"At most {s.most}, of {least} bytes each{''.join(f', {n} in version 2' for n in wider)}.{drawn}{code}"
    yield ""
    yield from fields_table(s, *(v.fields for v in versions))


class Accepted:
    """Nothing is refused."""

    def mark_of(self, *_):
        return ""

    def marks_of(self, *_):
        return ()


def example_shown():
    data, refused = make(EXAMPLE)
    assert refused is None, refused
    return show(Walked(data), Accepted())


def page():
    shortest = HEAD_SIZE + COUNT_WIDTH * len(SECTIONS)
    most = " and ".join(f"{longest(v):,} in version {v}" for v in VERSIONS)
    yield INTRODUCTION.format(shortest=shortest, longest=most)
    yield "## Head\n"
    yield f"{HEAD_SIZE} bytes.\n"
    yield from fields_table(None, HEAD)
    yield "## Sections\n"
    for of in zip(*map(sections, VERSIONS), strict=True):
        yield from section_text(of[0], *of)
    ones = ", ".join(f"`{s.one}`" for s in SECTIONS)
    yield AS_TEXT.format(ones=ones, example=EXAMPLE, shown=example_shown())
    yield CONVERTED
    slots = section(8)
    yield GROUPS.format(groups=64, slot=size(slots.fields), most=slots.most, room=slots.most * size(slots.fields), next_one=slots.most + 1)
    yield INSTANCES.format(bytes=size(slots.fields) - 1)
    yield READ_BACK.format(bytes=size(slots.fields) - 1, record=64)
    yield PRINTED
    yield "| No. | Cause | Returned |\n|---|---|---|"
    yield from (f"| {n} | {c.words} | {c.returned} |" for n, c in CAUSES.items())


def main():
    file = here.parent / "docs/FORMAT.md"
    text = "\n".join(page()) + "\n"
    if sys.argv[1:] == ["--check"]:
        if not file.is_file() or file.read_text(encoding="utf-8") != text:
            print("docs/FORMAT.md is not what format/generate.py makes")
            sys.exit(1)
    else:
        file.write_text(text, encoding="utf-8")


if __name__ == "__main__":
    main()
