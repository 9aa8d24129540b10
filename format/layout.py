"""The sheet's format as data, in the paper's order and words. What reads, shows, makes, draws and documents a sheet goes by this.

Numbers are little-endian. A sheet is the head's fields, then each section: its count, a u16, and as many records. A record is its
fields end to end. Fields are judged from the start on: each is whole (else 2), then, where it is used, its value is one that it may
have (else 5), but for the version (else 1). A count is whole (2), at most the section's `most` (4), and that of a drawn section the
sum of the counts that draw it (5). Nothing follows section 9 (3).

There are two versions. They differ in the version byte and in the width of one field, which says so (`in_later`). `sections` has the layout of
either, and whatever reads or writes bytes asks for it by the version; SECTIONS is version 1's, and serves where only names and limits count.
"""
from typing import NamedTuple

VERSIONS = (1, 2)
NONE = 65535  # in a field with `none`: no buffer
COUNT_WIDTH = 2

# Values that a used field may have (`allowed`):
#   ("any",)                  every number of its width
#   ("range", least, most)    these and all between
#   ("at least", n)
#   ("one of", n, ...)
#   ("except", n)
#   ("inside", k)             below the number of records of section k
# When a field is used (`used`), all of them together; nothing said: always. Fields that are not used are ignored, but are there:
#   ("triangles",)            the record's kind is 0; where that kind stands says the section's `kind`
#   ("given", field)          that buffer of the same record is not 65535, none
#   ("present", field)        that byte of the same record is not 0
#   ("not", field, n)         that field of the same record is not n


class Field(NamedTuple):
    name: str  # the paper's word
    width: int  # in bytes
    allowed: tuple = ("any",)
    used: tuple = ()
    id_of: int = 0  # the section whose records it names
    id_by: tuple = ()  # (field, {its value: section}), where another field says which
    none: bool = False  # 65535 names nothing
    values: dict = {}  # names of numbers
    bits: dict = {}  # names of bits
    float32: bool = False
    times: int = 1  # so many fields of this name, one after the other, each judged for itself
    draws: int = 0  # it counts the records that this record draws in turn from that section
    code: str = ""  # its name in code, where that is another
    note: str = ""
    in_later: dict = {}  # its width in a later version than 1, by the version


class Section(NamedTuple):
    number: int
    name: str  # of the table
    one: str  # of one record
    most: int
    fields: tuple
    drawn_by: int = 0  # the section whose records draw this one's
    kind: str = ""  # where a record's kind is: "blas", that of the Blas it names; "entry", that of the entry that draws it
    title: str = ""  # where it is not the name
    code: str = ""  # of one record, in code


KINDS = {0: "triangles", 1: "boxes"}
STATES = {0: "Idle", 1: "Waiting", 2: "Ready", 3: "Compacted"}
INDEX_FORMATS = {0: "none", 1: "two-byte", 2: "four-byte"}
ACTIONS = {1: "build", 2: "use", 3: "mark_blas", 4: "mark_tlas"}
MARKS = {1: "BLAS_INPUT", 2: "destroyed"}
VERTEX_RETURN = "ALLOW_RAY_HIT_VERTEX_RETURN"
BLAS_FLAGS = {1: "USE_TRANSFORM", 2: VERTEX_RETURN, 4: "ALLOW_COMPACTION"}
TLAS_FLAGS = {2: VERTEX_RETURN}

BIT = ("range", 0, 1)
TRIANGLES = (("triangles",),)
WITH_INDEX = (*TRIANGLES, ("given", "index_buffer"))
WITH_TRANSFORM = (*TRIANGLES, ("given", "transform_buffer"))
SLOT = (("present", "present"),)

HEAD = (
    Field("version", 1, ("one of", *VERSIONS)),
    Field("alignment", 4, ("at least", 1), note="of scratch sizes"),
    Field("counter", 8, note="the number that the next build takes"),
)

SECTIONS = (
    Section(
        1,
        "buffers",
        "buffer",
        256,
        (
            Field("size", 8),
            Field("marks", 1, ("range", 0, 3), bits=MARKS),
        ),
        code="Buffer",
    ),
    Section(
        2,
        "blases",
        "blas",
        128,
        (
            Field("kind", 1, BIT, values=KINDS),
            Field("flags", 1, ("range", 0, 7), bits=BLAS_FLAGS),
            Field("state", 1, ("range", 0, 3), values=STATES, code="compacted_state"),
            Field("destroyed", 1, BIT),
            Field("scratch", 8, code="build_scratch_size"),
            Field("address", 8, code="handle"),
            Field("number", 8, code="built_index", note="of the build that last built it, 0 none"),
        ),
        code="Blas",
    ),
    Section(
        3,
        "declared",
        "declared",
        512,
        (
            Field("blas", 2, ("inside", 2), id_of=2),
            Field("flags", 1),
            Field("count", 4, note="of vertices, or of boxes"),
            Field("vertex_format", 1, used=TRIANGLES),
            Field("least_stride", 2, used=TRIANGLES, code="min_vertex_stride"),
            Field("stride_alignment", 2, ("at least", 1), TRIANGLES),
            Field("index_format", 1, ("range", 0, 2), TRIANGLES, values=INDEX_FORMATS),
            Field("index_count_present", 1, BIT, TRIANGLES),
            Field("index_count", 4, used=(*TRIANGLES, ("present", "index_count_present"))),
        ),
        kind="blas",
        title="Declared geometries",
        code="BlasGeometrySizeDescriptor",
    ),
    Section(
        4,
        "tlases",
        "tlas",
        32,
        (
            Field("flags", 1, ("one of", 0, 2), bits=TLAS_FLAGS),
            Field("destroyed", 1, BIT),
            Field("scratch", 8, code="build_scratch_size"),
            Field("most_instances", 4, code="max_instance_count"),
            Field("number", 8, code="built_index", note="of the build that last built it, 0 none"),
        ),
        code="Tlas",
    ),
    Section(
        5,
        "entries",
        "entry",
        64,
        (
            Field("blas", 2, id_of=2),
            Field("kind", 1, BIT, values=KINDS),
            Field("geometry_count", 2, draws=6),
        ),
        code="BlasBuildEntry",
    ),
    Section(
        6,
        "geometries",
        "geometry",
        256,
        (
            Field("flags", 1),
            Field("count", 4, note="of vertices, or of boxes"),
            Field("first", 4, note="first vertex, or the boxes' offset in bytes", in_later={2: 8}),
            Field("stride", 8),
            Field("buffer", 2, ("except", NONE), id_of=1),
            Field("vertex_format", 1, used=TRIANGLES),
            Field("index_format", 1, ("range", 0, 2), TRIANGLES, values=INDEX_FORMATS),
            Field("index_buffer", 2, used=TRIANGLES, id_of=1, none=True),
            Field("index_count_present", 1, BIT, TRIANGLES),
            Field("index_count", 4, used=(*TRIANGLES, ("present", "index_count_present"))),
            Field("first_index_present", 1, BIT, WITH_INDEX),
            Field("first_index", 4, used=(*WITH_INDEX, ("present", "first_index_present"))),
            Field("transform_buffer", 2, used=TRIANGLES, id_of=1, none=True),
            Field("transform_offset_present", 1, BIT, WITH_TRANSFORM, code="transform_buffer_offset_present"),
            Field("transform_offset", 8, used=(*WITH_TRANSFORM, ("present", "transform_offset_present")), code="transform_buffer_offset"),
        ),
        drawn_by=5,
        kind="entry",
        code="BlasGeometry",
    ),
    Section(
        7,
        "packages",
        "package",
        32,
        (
            Field("tlas", 2, id_of=4),
            Field("slot_count", 2, draws=8),
        ),
        code="TlasPackage",
    ),
    Section(
        8,
        "slots",
        "slot",
        512,
        (
            Field("present", 1, BIT),
            Field("blas", 2, used=SLOT, id_of=2),
            Field("custom_data", 4, used=SLOT),
            Field("mask", 1, used=SLOT),
            Field("transform", 4, used=SLOT, float32=True, times=12, note="three lines of four, the last of each the translation"),
        ),
        drawn_by=7,
        code="TlasInstance",
    ),
    Section(
        9,
        "actions",
        "action",
        64,
        (
            Field("kind", 1, ("range", 1, 4), values=ACTIONS, note="5, the mark that names Blases, is of library submissions only"),
            Field("operand", 2, used=(("not", "kind", 1),), id_by=("kind", {2: 4, 3: 2, 4: 4})),
        ),
    ),
)


def in_version(s, version):
    return s._replace(fields=tuple(f._replace(width=f.in_later.get(version, f.width)) for f in s.fields))


BY_VERSION = {version: tuple(in_version(s, version) for s in SECTIONS) for version in VERSIONS}


def sections(version):
    """The sections as a version has them."""
    return BY_VERSION[version]


def section(number):
    """A section by its number, for its names and its limit."""
    return SECTIONS[number - 1]


def size(fields):
    """The bytes of these fields end to end."""
    return sum(f.width * f.times for f in fields)


def single(fields):
    """Each field for itself: (field, place in its record, its name with its number where there are several of it)."""
    at = 0
    for f in fields:
        for i in range(f.times):
            yield f, at, f"{f.name}_{i}" if f.times > 1 else f.name
            at += f.width


def sizes(version):
    """The bytes of a record of each section."""
    return tuple(size(s.fields) for s in sections(version))


def longest(version):
    """As long as a sheet can be."""
    return HEAD_SIZE + sum(COUNT_WIDTH + s.most * size(s.fields) for s in sections(version))


HEAD_SIZE = size(HEAD)
LIMITS = tuple(s.most for s in SECTIONS)

assert (HEAD_SIZE, sizes(1), longest(1)) == (13, (9, 28, 18, 22, 5, 44, 4, 56, 3), 56415)
assert (sizes(2), longest(2)) == ((9, 28, 18, 22, 5, 48, 4, 56, 3), 57439)
