"""A reading of the request for a canonical writer over the sheet's description in format/, written apart from the definitions: what an
accepted sheet means, and its canonical bytes. Neither goes by the other, so that each can be held to it. By request 6 the writer "writes the
version that it read, and two sheets of different versions never count as meaning the same"."""
from reading import HEAD, Walked, read, sections, single


def accepted(data):
    walked = Walked(data)
    if walked.refusal:
        raise ValueError(f"refused by {walked.refusal.number} at {walked.refusal.place}")
    return walked


def meaning(data):
    """ "what the reader yields, unused fields aside and f32 by bits, with each Blas's declared list in order": the head's numbers, the version
    among them, and each section's records as their fields, None for an unused one; the declared geometries as a list for each Blas."""
    walked = accepted(data)
    sections = [tuple(tuple(None if name in r.unused else v for name, v in r.values.items()) for r in t.records) for t in walked.tables]
    declared = [[] for _ in walked.tables[1].records]
    for fields in sections[2]:
        declared[fields[0]].append(fields)
    sections[2] = tuple(map(tuple, declared))
    return (*walked.head.values(), *sections)


def record_bytes(section, r):
    """A record, "unused fields zero"."""
    return b"".join((0 if name in r.unused else r.values[name]).to_bytes(f.width, "little") for f, _, name in single(section.fields))


def canonical(data):
    """The sheet's bytes: "unused fields zero, declared geometries by Blas number and, within a Blas, in their old order"."""
    walked = accepted(data)
    out = b"".join(walked.head[f.name].to_bytes(f.width, "little") for f in HEAD)
    for section, table in zip(sections(walked.version), walked.tables):
        records = table.records
        if section.name == "declared":
            records = sorted(records, key=lambda r: r.values["blas"])  # sorted keeps the order of equals
        out += len(records).to_bytes(2, "little") + b"".join(record_bytes(section, r) for r in records)
    return out


def write(data, out):
    """(number, place, written) of a call that is lent the bytes out, and what it leaves of them."""
    answer = read(data)
    if answer[0]:
        return (*answer, 0), out
    text = canonical(data)
    if len(out) < len(text):
        return (39, 0, 0), out
    return (0, 0, len(text)), text + out[len(text) :]
