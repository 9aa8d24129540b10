"""A sheet's bytes walked by the format: its fields with their places, and the first refusal of 1 to 5.

The walk goes on past a value outside its field, a count above its limit and counts that do not add up, as far as the bytes reach, so
that all of a refused sheet can be looked at; it stops at a version that there is not and where the bytes end.
"""
import struct
from typing import NamedTuple

from layout import COUNT_WIDTH, HEAD, LIMITS, NONE, VERSIONS, section, sections, single


# by version and section: the fields with their places and names, and a whole record
SINGLE = {(v, s.number): tuple(single(s.fields)) for v in VERSIONS for s in sections(v)}
WHOLE = {k: struct.Struct("<" + "".join({1: "B", 2: "H", 4: "I", 8: "Q"}[f.width] for f, _, _ in fields)) for k, fields in SINGLE.items()}


class Refusal(NamedTuple):
    number: int
    place: int
    section: int = 0  # 0: the head, or what follows the sheet
    record: int = -1  # -1: the section's count
    name: str = ""  # of the field
    why: str = ""


class Record:
    def __init__(self, place, boxes):
        self.place, self.boxes = place, boxes
        self.values = {}  # by name; of a sheet that ends early only the fields that are whole
        self.unused = set()  # names of fields that are ignored


class Table(NamedTuple):
    section: object
    place: int  # of its count
    count: int
    records: list


class Walked:
    def __init__(self, data, is_cut=False):
        """`is_cut`: there may be more bytes than are given here."""
        self.data, self.at, self.is_cut = data, 0, is_cut
        self.head, self.tables, self.refusal = {}, [], None
        self.left = 0  # bytes after what was walked
        try:
            self.walk()
        except EndsEarly:
            pass
        self.left = len(data) - self.at

    @property
    def version(self):
        return self.head["version"]

    def refuse(self, *refusal):
        if self.refusal is None:
            self.refusal = Refusal(*refusal)

    def take(self, width, section=0, record=-1, name="count"):
        raw = self.data[self.at : self.at + width]
        if len(raw) < width:
            self.refuse(2, self.at, section, record, name, f"has {width} byte{'s' * (width > 1)}, of which {bytes_said(len(raw))} there")
            raise EndsEarly
        self.at += width
        return int.from_bytes(raw, "little")

    def walk(self):
        for f in HEAD:
            place, value = self.at, self.take(f.width, name=f.name)
            self.head[f.name] = value
            if not allows(f, value, self.count_of):
                is_version = f.name == "version"
                self.refuse(1 if is_version else 5, place, 0, -1, f.name, f"is {value}, may be {allowed_words(f, self.count_of)}")
                if is_version:
                    return
        for s in sections(self.version):
            self.walk_section(s)
        if self.at < len(self.data):
            more = len(self.data) - self.at
            self.refuse(3, self.at, 0, -1, "", f"{'at least ' * self.is_cut}{bytes_said(more)} after the sheet's end")

    def walk_section(self, s):
        place, count = self.at, self.take(COUNT_WIDTH, s.number)
        table = Table(s, place, count, [])
        kinds = drawn_kinds(self.tables) if s.kind == "entry" else None
        self.tables.append(table)
        if count > s.most:
            self.refuse(4, place, s.number, -1, "count", f"is {count}, may be 0 to {s.most}")
        if s.drawn_by:
            by = section(s.drawn_by)
            due = sum(r.values[f.name] for r in self.tables[by.number - 1].records for f in by.fields if f.draws)
            if due != count:
                self.refuse(5, place, s.number, -1, "count", f"is {count}, the {by.name} draw {due}")
        for i in range(count):
            self.walk_record(s, table, i, bool(kinds) and i < len(kinds) and kinds[i] == 1)

    def walk_record(self, s, table, i, boxes):
        r = Record(self.at, boxes)
        table.records.append(r)
        for f, at, name, value, allowed in judged(self.version, s, r, self.values(s, i), self.blas_kind, self.count_of):
            if not allowed:
                self.refuse(5, r.place + at, s.number, i, name, f"is {value}, may be {allowed_words(f, self.count_of)}")

    def values(self, s, i):
        """A record's numbers: at once where all of it is there, else one by one."""
        whole = WHOLE[self.version, s.number]
        if self.at + whole.size > len(self.data):
            return (self.take(f.width, s.number, i, name) for f, _, name in SINGLE[self.version, s.number])
        self.at += whole.size
        return whole.unpack_from(self.data, self.at - whole.size)

    def count_of(self, number):
        return self.tables[number - 1].count

    def blas_kind(self, i):
        blases = self.tables[1].records
        return blases[i].values.get("kind", 0) if i < len(blases) else 0


class EndsEarly(Exception):
    pass


def bytes_said(n):
    return f"{n} byte is" if n == 1 else f"{n} bytes are"


def judged(version, s, r, values, blas_kind, count_of):
    """The fields of a record in turn, as (field, place in it, name, value, whether it may have that value); r is filled with them."""
    for (f, at, name), value in zip(SINGLE[version, s.number], values):
        r.values[name] = value
        used = not f.used or is_used(f, r.values, r.boxes)
        if not used:
            r.unused.add(name)
        yield f, at, name, value, not used or allows(f, value, count_of)
        if s.kind == name:
            r.boxes = blas_kind(value) == 1


def drawn_kinds(tables):
    """The kind of each geometry, by the entries that draw them; a count that is far too large draws no more than there may be."""
    most = LIMITS[5] + 1
    return [r.values["kind"] for r in tables[4].records for _ in range(min(r.values["geometry_count"], most))]


def is_used(field, values, boxes):
    """Whether a field is used, by the fields before it and by whether its record is one of boxes."""
    for what, *of in field.used:
        if what == "triangles" and boxes:
            return False
        if what == "given" and values[of[0]] == NONE:
            return False
        if what == "present" and values[of[0]] == 0:
            return False
        if what == "not" and values[of[0]] == of[1]:
            return False
    return True


def allows(field, value, count_of):
    what, *n = field.allowed
    if what == "any":
        return True
    if what == "range":
        return n[0] <= value <= n[1]
    if what == "at least":
        return value >= n[0]
    if what == "one of":
        return value in n
    if what == "except":
        return value != n[0]
    assert what == "inside"
    return value < count_of(n[0])


def allowed_words(field, count_of=None):
    """The values that a field may have, in words; those of an id by how many records there are."""
    what, *n = field.allowed
    top = 256**field.width - 1
    if what == "any":
        return f"0 to {top}"
    if what == "range":
        return f"{n[0]} to {n[1]}" if n[1] - n[0] > 1 else f"{n[0]} or {n[1]}"
    if what == "at least":
        return f"{n[0]} to {top}"
    if what == "one of":
        return " or ".join(map(str, n))
    if what == "except":
        return f"0 to {n[0] - 1}"
    s = section(n[0])
    if count_of is None:
        return f"below the count of {s.name}"
    count = count_of(s.number)
    return f"0 to {count - 1}" if count > 1 else "0 only" if count else f"nothing, as there are no {s.name}"


def spoken(name):
    return name.replace("_", " ")


def refusal_words(refusal):
    """A refusal of 1 to 5 with its field: "byte 23: buffer 0, marks is 9, may be 0 to 3"."""
    where = f"byte {refusal.place}: "
    if refusal.section and refusal.record < 0:
        return where + f"count of {section(refusal.section).name} {refusal.why}"
    if refusal.section:
        where += f"{section(refusal.section).one} {refusal.record}, "
    return where + " ".join(filter(None, (spoken(refusal.name), refusal.why)))


def conversion_refusal(walked, version):
    """What is refused of a sheet that is to be converted to a version: a version other than the one to come from, then what a reader refuses,
    then the first value that does not fit its field there."""
    (source,) = set(VERSIONS) - {version}
    if walked.head and walked.version != source:
        return Refusal(1, 0, 0, -1, "version", f"is {walked.version}, may be {source}")
    if walked.refusal:
        return walked.refusal
    for table in walked.tables:
        number = table.section.number
        for i, r in enumerate(table.records):
            for (f, _, name), (_, at, _) in zip(SINGLE[version, number], SINGLE[source, number], strict=True):
                if r.values[name] >= 256**f.width:
                    return Refusal(47, r.place + at, number, i, name, f"is {r.values[name]}, may be {allowed_words(f)}")
    return None


class Missing(NamedTuple):
    """An id outside its table: where it stands, and what it names."""

    section: int
    record: int  # in its section
    name: str
    value: int
    of: int
    e: tuple  # what the build returns


def build_ids(walked):
    """The ids that a build looks for, in its order, as (section, record, field, E)."""
    tables = walked.tables
    geometry, slot = 0, 0
    for i, r in enumerate(tables[4].records):
        for j in range(r.values["geometry_count"]):
            for name in ("buffer", "index_buffer", "transform_buffer"):
                yield 6, geometry, name, (i, j)
            geometry += 1
        yield 5, i, "blas", (i, 0)
    for i, r in enumerate(tables[6].records):
        for j in range(r.values["slot_count"]):
            yield 8, slot, "blas", (i, j)
            slot += 1
        yield 7, i, "tlas", (i, 0)


def named(walked, number, i, name):
    """The section that a field names, and its value; nothing where it is not used, or is none."""
    r = walked.tables[number - 1].records[i]
    field = next(f for f in section(number).fields if f.name == name)
    value = r.values.get(name)
    if value is None or name in r.unused or (field.none and value == NONE):
        return None
    of = field.id_of or field.id_by[1].get(r.values[field.id_by[0]], 0)
    return (of, value) if of else None


def missing_in(walked, ids):
    for number, i, name, e in ids:
        found = named(walked, number, i, name)
        if found and found[1] >= walked.tables[found[0] - 1].count:
            return Missing(number, i, name, found[1], found[0], e)
    return None


def missing_of_build(walked):
    return missing_in(walked, build_ids(walked))


def missing_of_action(walked, i):
    return missing_in(walked, [(9, i, "operand", (i, 0))])


def missing_words(missing, count):
    """ "entry 0, geometry 1: index buffer is 99, there are 4 buffers": the entry or package, the field, the id and its table." """
    where = {
        5: "entry {0}",
        6: "entry {0}, geometry {1}",
        7: "package {0}",
        8: "package {0}, slot {1}",
        9: "action {0}",
    }[missing.section].format(*missing.e)
    s = section(missing.of)
    name = f"its {s.one}" if missing.section == 9 else spoken(missing.name)
    there = f"there is 1 {s.one}" if count == 1 else f"there are {count or 'no'} {s.name}"
    return f"{where}: {name} is {missing.value}, {there}"
