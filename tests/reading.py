"""A reading of the paper's part "The sheet" and of request 6's "version 2 of the sheet has the primitive offset as u64, all else the same" over
their description in format/, written apart from the definitions: the first refusal with its byte place, or what is read; and a record of a
lent table judged for itself."""
import pathlib
import sys

sys.path.insert(0, str(pathlib.Path(__file__).resolve().parent.parent / "format"))

from layout import HEAD, LIMITS, NONE, VERSIONS, longest, section, sections, single, sizes  # noqa: E402, F401
from refusals import CAUSES  # noqa: E402, F401
from walk import WHOLE, Record, Walked, is_used, judged  # noqa: E402, F401


def read(data):
    """(number, place) of the first refusal, or (0, version, alignment, counter, start and count of each section)."""
    w = Walked(data)
    if w.refusal:
        return (w.refusal.number, w.refusal.place)
    places = [n for t in w.tables for n in (t.place + 2, t.count)]
    return (0, w.head["version"], w.head["alignment"], w.head["counter"], *places)


def record_fits(version, number, raw, boxes, blas_kinds):
    """Whether a whole record of a lent table has only values that its fields may have."""
    values = WHOLE[version, number].unpack(raw)
    judging = judged(version, section(number), Record(0, boxes), values, lambda i: blas_kinds[i] if i < len(blas_kinds) else 0, lambda _: len(blas_kinds))
    return all(allowed for *_, allowed in judging)
