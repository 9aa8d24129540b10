#!/usr/bin/env python3
"""Writes what the bindings have of the sheet's format, from layout.py: include/zakvind_records.h and bindings/rust/src/layout.rs.
With --check nothing is written; a file that is not as it would be written is said, and is a failure."""
import pathlib
import sys

from layout import HEAD_SIZE, NONE, SECTIONS, VERSIONS, longest, sections, single, size

ROOT = pathlib.Path(__file__).resolve().parent.parent
WIDTH = 132  # of a line of Rust, as in rustfmt.toml
MADE = "Made by format/generate_bindings.py from format/layout.py."


def wide(s):
    """The section as version 2 has it, by the name that it has beside version 1's, or nothing where both have the same."""
    other = sections(2)[s.number - 1]
    return other._replace(one=f"wide_{s.one}", name=f"wide_{s.name}") if other != s else None


# each section, and behind it the one of version 2 where that is another
RECORDS = [r for s in sections(1) for r in (s, wide(s)) if r]


def of_version(r):
    """What is said of a record that only one version has."""
    s = SECTIONS[r.number - 1]
    return f", of version {1 if r == s else 2}" if wide(s) else ""


def code(field):
    return field.code or field.name


def least(field):
    """The value of a field of which nothing is said: none, or the least that it may have."""
    if field.none:
        return NONE
    return field.allowed[1] if field.allowed[0] in ("at least", "range", "one of") else 0


def may(field):
    sort, *numbers = field.allowed
    return {
        "any": "",
        "range": "{} to {}",
        "at least": "{} or more",
        "one of": " or ".join("{}" for _ in numbers),
        "except": "not {}",
        "inside": "a record of section {}",
    }[sort].format(*numbers)


# ---- C


def c_type(field):
    return "float" if field.float32 else f"uint{8 * field.width}_t"


def c_note(field):
    named = ", ".join(f"{n} {name}" for n, name in (field.values or field.bits).items())
    parts = [field.note, named if field.values else named and f"bits: {named}", "" if named else may(field)]
    parts.append(f"{NONE} none" if field.none else "")
    return "; ".join(p for p in parts if p)


def c_constants():
    """Names of values and of bits, each once."""
    names = {}
    for s in SECTIONS:
        for f in s.fields:
            if s.number == 9:
                continue
            for n, name in {**f.values, **f.bits}.items():
                names[f"ZAKVIND_{f.name}_{name}".upper().replace("-", "_")] = n
    return names


def c_record(s):
    name = f"zakvind_{s.one}"
    bytes_of = f"ZAKVIND_{s.one}_BYTES".upper()
    yield f"/* Section {s.number}, {(s.title or SECTIONS[s.number - 1].name).lower()}{of_version(s)}. */"
    yield "typedef struct {"
    for f in s.fields:
        times = f"[{f.times}]" if f.times > 1 else ""
        note = c_note(f)
        yield f"    {c_type(f)} {code(f)}{times};" + (f" /* {note} */" if note else "")
    yield f"}} {name};"
    yield ""
    yield f"static inline void zakvind_pack_{s.one}(uint8_t at[{bytes_of}], const {name} *r)"
    yield "{"
    place = 0
    for f in s.fields:
        if f.times > 1:
            yield f"    for (size_t i = 0; i < {f.times}; i++)"
            yield f"        zakvind_put_f32(at + {place} + {f.width} * i, r->{code(f)}[i]);"
        elif f.width == 1:
            yield f"    at[{place}] = r->{code(f)};"
        else:
            yield f"    zakvind_put(at + {place}, {f.width}, r->{code(f)});"
        place += f.width * f.times
    yield "}"
    yield ""
    yield f"static inline {name} zakvind_unpack_{s.one}(const uint8_t at[{bytes_of}])"
    yield "{"
    yield f"    {name} r;"
    place = 0
    for f in s.fields:
        if f.times > 1:
            yield f"    for (size_t i = 0; i < {f.times}; i++)"
            yield f"        r.{code(f)}[i] = zakvind_get_f32(at + {place} + {f.width} * i);"
        elif f.width == 1:
            yield f"    r.{code(f)} = at[{place}];"
        else:
            yield f"    r.{code(f)} = zakvind_get_u{8 * f.width}(at + {place});"
        place += f.width * f.times
    yield "    return r;"
    yield "}"
    yield ""
    yield f"/* A {s.one.replace('_', ' ')} of which nothing is said: all 0, but for what may not be 0, and no buffer where there may be none. */"
    yield f"static inline {name} zakvind_{s.one}_default(void)"
    yield "{"
    yield f"    {name} r;"
    yield "    memset(&r, 0, sizeof r);"
    for f in s.fields:
        if least(f):
            yield f"    r.{code(f)} = {least(f)};"
    yield "    return r;"
    yield "}"
    yield ""


def c_header():
    yield f"/* {MADE}"
    yield " *"
    yield " * The records of tables and sheets: how long each is, how many a table may have, and each packed to its bytes and unpacked from them."
    yield " * A packed record is what the struct says, bit by bit: whether its values may stand there is judged by the calls. */"
    yield "#ifndef ZAKVIND_RECORDS_H"
    yield "#define ZAKVIND_RECORDS_H"
    yield ""
    for header in ("stddef.h", "stdint.h", "string.h"):
        yield f"#include <{header}>"
    yield ""
    yield "/* Bytes of one record. */"
    yield "enum {"
    for s in RECORDS:
        said = of_version(s)
        yield f"    ZAKVIND_{s.one}_BYTES".upper() + f" = {size(s.fields)}," + (f" /* {said[2:]} */" if said else "")
    yield f"    ZAKVIND_INSTANCE_FIELDS_BYTES = {size(SECTIONS[7].fields) - 1}, /* a slot's after its present byte */"
    yield f"    ZAKVIND_HEAD_BYTES = {HEAD_SIZE},"
    yield f"    ZAKVIND_LONGEST_SHEET = {max(map(longest, VERSIONS))}, /* of either version */"
    yield f"    ZAKVIND_LONGEST_VERSION_1 = {longest(1)}"
    yield "};"
    yield ""
    yield "/* The most records of a table. */"
    yield "enum {"
    for s in SECTIONS:
        yield f"    ZAKVIND_MOST_{s.name}".upper() + f" = {s.most}" + ("," if s.number < 9 else "")
    yield "};"
    yield ""
    yield "/* Values and bits of fields. */"
    yield "enum {"
    for name, n in c_constants().items():
        yield f"    {name} = {n},"
    yield f"    ZAKVIND_NO_BUFFER = {NONE}"
    yield "};"
    yield ""
    yield "/* Little-endian numbers of `width` bytes. */"
    yield "static inline void zakvind_put(uint8_t *at, size_t width, uint64_t value)"
    yield "{"
    yield "    for (size_t i = 0; i < width; i++)"
    yield "        at[i] = (uint8_t)(value >> (8 * i) & 255);"
    yield "}"
    yield ""
    yield "static inline uint64_t zakvind_get(const uint8_t *at, size_t width)"
    yield "{"
    yield "    uint64_t value = 0;"
    yield "    for (size_t i = 0; i < width; i++)"
    yield "        value |= (uint64_t)at[i] << (8 * i);"
    yield "    return value;"
    yield "}"
    yield ""
    for bits in (16, 32):
        yield f"static inline uint{bits}_t zakvind_get_u{bits}(const uint8_t *at) {{ return (uint{bits}_t)zakvind_get(at, {bits // 8}); }}"
    yield "static inline uint64_t zakvind_get_u64(const uint8_t *at) { return zakvind_get(at, 8); }"
    yield ""
    yield "/* A float by its bits, those of a NaN too. */"
    yield "static inline void zakvind_put_f32(uint8_t *at, float value)"
    yield "{"
    yield "    uint32_t bits;"
    yield "    memcpy(&bits, &value, sizeof bits);"
    yield "    zakvind_put(at, 4, bits);"
    yield "}"
    yield ""
    yield "static inline float zakvind_get_f32(const uint8_t *at)"
    yield "{"
    yield "    uint32_t bits = zakvind_get_u32(at);"
    yield "    float value;"
    yield "    memcpy(&value, &bits, sizeof value);"
    yield "    return value;"
    yield "}"
    yield ""
    for s in RECORDS:
        yield from c_record(s)
    yield "#endif"


# ---- Rust


def rust_allowed(field):
    sort, *numbers = field.allowed
    return {
        "any": "Any",
        "range": "Range({}, {})",
        "at least": "AtLeast({})",
        "one of": "OneOf(&[" + ", ".join(map(str, numbers)) + "])",
        "except": "Except({})",
        "inside": "Inside({})",
    }[sort].format(*numbers)


def rust_used(s, field):
    places = {name: i for i, (f, at, name) in enumerate(single(s.fields))}
    rules = []
    for rule in field.used:
        if rule[0] == "triangles":
            rules.append("Triangles")
        elif rule[0] == "not":
            rules.append(f"Not({places[rule[1]]}, {rule[2]})")
        else:
            rules.append(f"{rule[0].capitalize()}({places[rule[1]]})")
    return "&[" + ", ".join(rules) + "]"


def rust_layout():
    yield f"//! {MADE}"
    yield "//!"
    yield "//! The sheet's sections as data: how many records a section may have, and where each field stands, when it is used and what"
    yield "//! values it may have."
    yield "use crate::format::{Allowed::*, KindOf, Section, Used::*, field};"
    yield ""
    for s in RECORDS:
        name = SECTIONS[s.number - 1].name
        yield f"/// Bytes of a record of section {s.number}, `{name}`{of_version(s)}."
        yield f"pub const {s.one.upper()}_BYTES: usize = {size(s.fields)};"
        if name == s.name:
            yield f"/// The most records of section {s.number}, `{name}`."
            yield f"pub const MOST_{name.upper()}: usize = {s.most};"
    yield "/// Bytes of the longest sheet of either version."
    yield f"pub const LONGEST_SHEET: usize = {max(map(longest, VERSIONS))};"
    yield "/// Bytes of the longest sheet of version 1."
    yield f"pub const LONGEST_VERSION_1: usize = {longest(1)};"
    yield "/// In a field that may have it: no buffer."
    yield f"pub const NO_BUFFER: u16 = {NONE};"
    for s in RECORDS:
        yield from rust_section(s)
    for version in VERSIONS:
        names = ", ".join((version == 2 and wide(s) or s).name.upper() for s in SECTIONS)
        yield ""
        yield f"/// Sections 1 to 9 of version {version}."
        start, value = f"pub(crate) static SECTIONS_{version}: [Section; 9] =", f"[{names}];"
        one_line = f"{start} {value}"
        yield from [one_line] if len(one_line) <= WIDTH else [start, f"    {value}"]


def rust_section(s):
    name, one = SECTIONS[s.number - 1].name, SECTIONS[s.number - 1].one
    yield ""
    yield f"const {s.name.upper()}: Section = Section {{"
    yield f"    number: {s.number},"
    yield f'    name: "{name}",'
    yield f'    one: "{one}",'
    yield f'    counted: "count of {name}",'
    yield f"    most: MOST_{name.upper()},"
    yield f"    bytes: {s.one.upper()}_BYTES,"
    yield f"    drawn_by: {s.drawn_by},"
    draws = [i for i, (f, _, _) in enumerate(single(s.fields)) if f.draws]
    yield f"    draws: {f'Some({draws[0]})' if draws else 'None'},"
    yield f"    kind: KindOf::{s.kind.capitalize() or 'Triangles'},"
    fields = [
        f'field("{name}", {at}, {f.width}, {rust_allowed(f)}, {rust_used(s, f)}, {f.id_of}, {str(f.none).lower()})'
        for f, at, name in single(s.fields)
    ]
    one_line = "    fields: &[" + ", ".join(fields) + "],"
    if len(one_line) <= WIDTH:
        yield one_line
    else:
        yield "    fields: &["
        yield from (f"        {f}," for f in fields)
        yield "    ],"
    yield "};"


FILES = {"include/zakvind_records.h": c_header, "bindings/rust/src/layout.rs": rust_layout}


def main():
    check = sys.argv[1:] == ["--check"]
    if sys.argv[1:] and not check:
        print(f"usage: {sys.argv[0]} [--check]", file=sys.stderr)
        return 2
    faults = 0
    for name, lines in FILES.items():
        path, text = ROOT / name, "\n".join(lines()) + "\n"
        if not check:
            path.write_text(text, encoding="utf-8")
        elif not path.is_file() or path.read_text(encoding="utf-8") != text:
            print(f"format: {name} is not as format/generate_bindings.py writes it")
            faults += 1
    return 1 if faults else 0


if __name__ == "__main__":
    sys.exit(main())
