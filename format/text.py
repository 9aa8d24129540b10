"""A sheet as text, and the sheet of such a text. docs/FORMAT.md, "A sheet as text", says how it is written."""
import re
from collections import Counter

import floats
from layout import COUNT_WIDTH, HEAD, NONE, SECTIONS, VERSIONS, section, sections
from walk import SINGLE, Walked, is_used, named, spoken

BY_ONE = {s.one: s for s in SECTIONS}
FIELDS = {(s.number, f.name): f for s in sections(max(VERSIONS)) for f in s.fields}  # none is wider in another version
WIDTH = 120
DIGITS = re.compile("[0-9]+")
IDENTITY = (1.0, 0.0, 0.0, 0.0, 0.0, 1.0, 0.0, 0.0, 0.0, 0.0, 1.0, 0.0)


class BadText(Exception):
    """What a line of the text has wrong, with its number."""


# the names of each field of a section, as many as there are of it; and those that a present byte says are there
NAMES = {(s.number, f.name): [n for g, _, n in SINGLE[1, s.number] if g.name == f.name] for s in SECTIONS for f in s.fields}
BEHIND = {(s.number, f.name): {g.name for g in s.fields if g.used and g.used[-1] == ("present", f.name)} for s in SECTIONS for f in s.fields}


def left_out(s, f, given, values, boxes):
    """What a field is that is not given: 0; a buffer that may be none is none; a present byte is 1 if what it says is there is given."""
    if f.none and is_used(f, values, boxes):
        return NONE
    return 1 if BEHIND[s.number, f.name] & given else 0


# ---- showing


def bits_text(f, value):
    if value and value & ~sum(f.bits) == 0:
        return "+".join(name for bit, name in f.bits.items() if value & bit)
    return str(value)


def value_text(f, value):
    if f.float32:
        return floats.text_of(value)
    if f.none and value == NONE:
        return "none"
    if f.bits:
        return bits_text(f, value)
    return f.values.get(value, str(value))


def about(walked, number, i, declared):
    """What an id names, in a few words; `declared` has how many geometries each Blas has declared."""
    table = walked.tables[number - 1]
    s = table.section
    if i >= table.count:
        return "outside: there is 1 " + s.one if table.count == 1 else f"outside: there are {table.count or 'no'} {s.name}"
    if i >= len(table.records):
        return "not there"
    v = table.records[i].values
    if number == 1:
        return f"{v['size']} bytes, {bits_text(s.fields[1], v['marks'])}" if v["marks"] else f"{v['size']} bytes"
    if number == 2:
        return f"{value_text(s.fields[0], v['kind'])}, {declared.get(i, 0)} declared"
    return f"instances: {v['most_instances']} at most"


class Shown:
    def __init__(self, walked, verdict):
        self.walked, self.verdict, self.out = walked, verdict, []
        self.declared = Counter(r.values.get("blas") for t in walked.tables[2:3] for r in t.records)

    def remark(self, number, i, f, name):
        """What stands behind a value in parentheses: what is refused, that it is unused, what it names."""
        r = self.walked.tables[number - 1].records[i]
        refused = self.verdict.mark_of(number, i, name)
        if refused:
            return f" (REFUSED {refused})"
        if name in r.unused:
            return " (unused)"
        found = named(self.walked, number, i, name) if f.id_of or f.id_by else None
        if not found:
            return ""
        what = section(found[0]).one + ", " if f.id_by else ""
        return f" ({what}{about(self.walked, *found, self.declared)})"

    def fields(self, number, i):
        """The fields of a record that are to be shown, each as text."""
        s, r = section(number), self.walked.tables[number - 1].records[i]
        groups = {f.name: [n for n in NAMES[number, f.name] if n in r.values] for f in s.fields}
        shown = {f.name for f in s.fields if groups[f.name] and self.is_shown(s, f, groups[f.name], r)}
        for f in s.fields:
            if f.name not in shown and (f.draws or self.is_implied(s, f, shown, r)):
                continue
            words = [value_text(f, r.values[n]) for n in groups[f.name]]
            if f.times > 1:
                words = [w + (" /" if k % 4 == 3 and k + 1 < f.times else "") for k, w in enumerate(words)]
            marks = {self.remark(number, i, f, n) for n in groups[f.name]} - {""}
            text = f"{f.name} {' '.join(words)}"
            # of a transform that the sheet cuts off what there is
            yield text + "".join(sorted(marks)) if len(words) == f.times else f"({text})"

    def is_implied(self, s, f, shown, r):
        """Whether a field that is not shown has the value that one left out has, or is not there."""
        return f.name not in r.values or r.values[f.name] == left_out(s, f, shown, r.values, r.boxes)

    def is_shown(self, s, f, names, r):
        """Used fields are shown, but for present bytes and drawn counts, which are implied; of the others those that are not 0."""
        if f.draws:
            return self.wrong_sum(f)
        if BEHIND[s.number, f.name]:
            return r.values[f.name] > 1 or (s.one == "slot" and r.values[f.name] == 0)
        return names[0] not in r.unused or any(r.values[n] for n in names)

    def wrong_sum(self, f):
        """Whether there are more or fewer records than are drawn: then each count is shown."""
        tables = self.walked.tables
        if len(tables) < f.draws:
            return True
        return sum(r.values.get(f.name, 0) for r in tables[f.draws - 2].records) != len(tables[f.draws - 1].records)

    def record(self, number, i, shown_as, indent=""):
        for words in self.verdict.marks_of(number, i):
            self.out.append(f"{indent}# REFUSED {words}")
        line = f"{indent}{section(number).one} {shown_as}:"
        for k, part in enumerate(self.fields(number, i)):
            if k and part[0] != "(" and len(line) + len(part) + 2 > WIDTH:
                self.out.append(line + ",")
                line = f"{indent}    {part}"
            else:
                line += f"{',' if k and part[0] != '(' else ''} {part}"
        self.out.append(line)

    def head(self, number):
        table = self.walked.tables[number - 1]
        self.out += ["", f"# {table.section.name}: {table.count} of at most {table.section.most}, from byte {table.place + COUNT_WIDTH} on"]
        for words in self.verdict.marks_of(number, -1):
            self.out.append(f"# REFUSED {words}")

    def drawing(self, number, name):
        """A section with the records that it draws below each of its own; those that none draws stand below the last."""
        tables = self.walked.tables
        self.head(number)
        drawn = tables[number].records if len(tables) > number else []
        if len(tables) > number:
            self.head(number + 1)
        at, own = 0, tables[number - 1].records
        for i, r in enumerate(own):
            self.record(number, i, i)
            n = len(drawn) - at if i + 1 == len(own) else min(r.values.get(name, 0), len(drawn) - at)
            for j in range(n):
                self.record(number + 1, at + j, j, "    ")
            at += n
        for j in range(at, len(drawn)):
            self.record(number + 1, j, j, "    ")

    def all(self):
        w = self.walked
        for words in self.verdict.marks_of(0, -1):
            self.out.append(f"# REFUSED {words}")
        for f in HEAD:
            if f.name in w.head:
                refused = self.verdict.mark_of(0, -1, f.name)
                self.out.append(f"{f.name} {w.head[f.name]}" + (f" (REFUSED {refused})" if refused else ""))
        for s in SECTIONS[: len(w.tables)]:
            if s.drawn_by:
                continue
            draws = [f.name for f in s.fields if f.draws]
            if draws:
                self.drawing(s.number, draws[0])
                continue
            self.head(s.number)
            for i in range(len(w.tables[s.number - 1].records)):
                self.record(s.number, i, i)
        for number in range(len(w.tables) + 1, len(SECTIONS) + 1):
            self.out += [f"# REFUSED {words}" for words in self.verdict.marks_of(number, -1)]
        if w.left:
            self.out += ["", f"# not shown: {w.left} byte{'s' * (w.left > 1)}, from byte {w.at} on"]
        return "\n".join(self.out) + "\n"


def show(walked, verdict):
    return Shown(walked, verdict).all()


# ---- making


def statements(text):
    """The parts of each statement that commas divide, each with its line: without comments and remarks; a line that ends with a comma
    goes on in the next."""
    parts, number = [], 0
    for number, line in enumerate(text.split("\n"), 1):
        line = re.sub(r"\([^()]*\)", " ", line.split("#", 1)[0]).strip()
        if "(" in line or ")" in line:
            raise BadText(number, "a remark in parentheses ends on its line, and has none inside it")
        if not line:
            continue
        own = [part.strip() for part in line.split(",")]
        goes_on = own[-1] == ""
        parts += [(number, part) for part in (own[:-1] if goes_on else own)]
        if any(part == "" for _, part in parts):
            raise BadText(number, "nothing stands before a comma")
        if not goes_on:
            yield parts
            parts = []
    if parts:
        raise BadText(number, "the text ends after a comma")


def number_of(f, word):
    if DIGITS.fullmatch(word):
        return int(word)
    names = {name.lower(): n for n, name in f.values.items()}
    if f.none and word.lower() == "none":
        return NONE
    if word.lower() in names:
        return names[word.lower()]
    if f.bits:
        bits = {name.lower(): n for n, name in f.bits.items()}
        parts = word.lower().split("+")
        if all(p in bits for p in parts) and len(set(parts)) == len(parts):
            return sum(bits[p] for p in parts)
    if re.fullmatch(r"[0-9][0-9_]*|0x[0-9a-fA-F_]*[0-9a-fA-F]", word):
        return int(word.replace("_", ""), 0 if word.startswith("0x") else 10)
    known = [*f.values.values(), *f.bits.values(), *(["none"] if f.none else [])]
    raise ValueError(f"{word} is no number" + (f", and none of {', '.join(known)}" if known else ""))


def value_of(f, word, line):
    try:
        value = floats.parse(word) if f.float32 else number_of(f, word)
    except ValueError as e:
        raise BadText(line, f"{f.name}: {e}") from None
    hold(f, value, word, line)
    return value


def hold(f, value, word, line):
    """What a field's bytes cannot hold is refused."""
    if value >= 256**f.width:
        wider = "".join(f"; in version {v} there are {width}" for v, width in f.in_later.items() if width > f.width)
        raise BadText(line, f"{f.name}: {word} does not fit {f.width} byte{'s' * (f.width > 1)}, which hold 0 to {256**f.width - 1}{wider}")


class Made:
    """A record as it is written in the text, with the line of each field that is given."""

    def __init__(self, s, line, boxes):
        self.section, self.line, self.boxes, self.drawn = s, line, boxes, 0
        self.given, self.lines = {}, {}

    def put(self, line, part):
        name, *words = part.split()
        s = self.section
        if s.one == "slot" and name == "at":
            self.put_translation(line, words)
            return
        f = FIELDS.get((s.number, name))
        if f is None:
            raise BadText(line, f"{s.one} has no field {name}; it has {', '.join(f.name for f in s.fields)}")
        words = [w for w in words if w != "/"] if f.times > 1 else words
        if len(words) != f.times:
            raise BadText(line, f"{name} has {f.times} value{'s' * (f.times > 1)}, and {len(words)} are given")
        self.give(line, name, [value_of(f, w, line) for w in words])

    def give(self, line, name, values):
        if name in self.given:
            raise BadText(line, f"{name} is given twice")
        self.given[name], self.lines[name] = values, line

    def put_translation(self, line, words):
        if len(words) != 3:
            raise BadText(line, f"at has 3 values, and {len(words)} are given")
        f = self.section.fields[-1]
        bits = [floats.parse(repr(x)) for x in IDENTITY]
        bits[3::4] = [value_of(f, w, line) for w in words]
        self.give(line, f.name, bits)

    def line_of(self, name):
        """The line of a field; of one that is left out the record's."""
        return self.lines.get(name.rstrip("_0123456789"), self.line)

    def values(self, fields):
        """(field, value) of each field, those that are left out included."""
        values = {}
        for f in fields:
            if f.name in self.given:
                own = self.given[f.name]
            elif f.draws:
                own = [self.drawn]
            else:
                own = [left_out(self.section, f, set(self.given), values, self.boxes)] * f.times
            values[f.name] = own[0]
            yield from ((f, v) for v in own)

    def bytes(self, fields):
        """By the fields as the sheet's version has them: it may stand anywhere in the text."""
        out = b""
        for f, value in self.values(fields):
            hold(f, value, value, self.line_of(f.name))
            out += value.to_bytes(f.width, "little")
        return out


class Text:
    def __init__(self, text):
        self.head, self.lines = {}, {}
        self.records = {s.number: [] for s in SECTIONS}
        for (line, first), *rest in statements(text):
            what, colon, own = first.partition(":")
            if colon and what.split()[:1] and what.split()[0] in BY_ONE:
                self.put_record(line, what.split(), [(line, own.strip()), *rest])
            else:
                self.put_head(line, ", ".join([first, *(part for _, part in rest)]))

    def put_head(self, line, statement):
        name, *words = statement.split()
        f = next((f for f in HEAD if f.name == name), None)
        if f is None:
            known = ", ".join([*(f.name for f in HEAD), *BY_ONE])
            raise BadText(line, f"{name} begins no line; what does is {known}, each record with a colon behind it")
        if len(words) != 1:
            raise BadText(line, f"{name} has 1 value, and {len(words)} are given")
        if name in self.head:
            raise BadText(line, f"{name} is given twice")
        self.head[name], self.lines[name] = value_of(f, words[0], line), line

    def put_record(self, line, what, parts):
        s = BY_ONE[what[0]]
        above = self.records[s.drawn_by][-1] if s.drawn_by and self.records[s.drawn_by] else None
        r = Made(s, line, s.kind == "entry" and above is not None and above.given.get("kind") == [1])
        place = above.drawn if above else len(self.records[s.number])
        if len(what) > 2 or what[1:] not in ([], [str(place)]):
            raise BadText(line, f"{' '.join(what)} stands where {s.one} {place} does")
        if above:
            above.drawn += 1
        self.records[s.number].append(r)
        for at, part in parts:
            if part:
                r.put(at, part)

    def bytes(self):
        head = {"version": 1, "alignment": 0, "counter": 0, **self.head}
        out = b"".join(head[f.name].to_bytes(f.width, "little") for f in HEAD)
        for r in self.records[3]:
            blas = r.given.get("blas", [0])[0]
            blases = self.records[2]
            r.boxes = blas < len(blases) and blases[blas].given.get("kind") == [1]
        # a version that there is not is refused before any width counts
        for s in sections(head["version"] if head["version"] in VERSIONS else 1):
            records = self.records[s.number]
            if len(records) >= 256**COUNT_WIDTH:
                raise BadText(records[-1].line, f"{len(records)} {s.name} are more than a count holds")
            out += len(records).to_bytes(COUNT_WIDTH, "little") + b"".join(r.bytes(s.fields) for r in records)
        return out

    def line_of(self, refusal):
        """The line that has what is refused."""
        records = self.records.get(refusal.section, [])
        if 0 <= refusal.record < len(records):
            return records[refusal.record].line_of(refusal.name)
        if refusal.section:
            return records[-1].line if records else 0
        return self.lines.get(refusal.name, 0)


def make(text):
    """The sheet of a text, and what its reader refuses in it as (line, number, words), or None."""
    t = Text(text)
    data = t.bytes()
    refusal = Walked(data).refusal
    if refusal is None:
        return data, None
    name = "count" if refusal.section and refusal.record < 0 else refusal.name
    return data, (t.line_of(refusal), refusal.number, f"{spoken(name)} {refusal.why}")
