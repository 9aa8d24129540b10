"""A reading of request 6's converters over the sheet's description in format/, written apart from the definitions: "1 to 2 always, 2 to 1 only
where every box offset and first vertex fits", by cutting the sheet where its offsets stand; all else is copied as it is."""
from reading import Walked, read, sections, single

U32 = 2**32 - 1


def offsets(walked):
    """Place and width of each geometry's primitive offset, a first vertex or a box offset by the entry that draws it."""
    for r in walked.tables[5].records:
        for f, at, name in single(sections(walked.version)[5].fields):
            if name == "first":
                yield r.place + at, f.width


def converted(data):
    """An accepted sheet in the other version, "all else the same"; none where an offset does not fit."""
    walked, at, out = Walked(data), 1, bytes([3 - data[0]])
    for place, width in offsets(walked):
        value = int.from_bytes(data[place : place + width], "little")
        if value >= 256 ** (12 - width):
            return None
        out += data[at:place] + value.to_bytes(12 - width, "little")
        at = place + width
    return out + data[at:]


def convert(version, data, out):
    """(number, place, written) of a call that converts to this version and is lent the bytes out, and what it leaves of them: "the converter
    gives the reader's first, 1 also for the other way's version; then 47 at the byte place of the first that doesn't fit; then 39"."""
    if data and data[0] != 3 - version:
        return (1, 0, 0), out
    answer = read(data)
    if answer[0]:
        return (*answer, 0), out
    if version == 1:
        for place, width in offsets(Walked(data)):
            if int.from_bytes(data[place : place + width], "little") > U32:
                return (47, place, 0), out
    text = converted(data)
    if len(out) < len(text):
        return (39, 0, 0), out
    return (0, 0, len(text)), text + out[len(text) :]
