"""The paper's table of causes as data: what a cause is called, what its figures are called where they are printed, and what is returned."""
from typing import NamedTuple


class Cause(NamedTuple):
    words: str
    figures: tuple = ()  # what its printed figures are called
    returned: str = "E"


BOTH = ("declared", "given")
NEEDED = ("needed", "given")

CAUSES = {
    1: Cause("version neither 1 nor 2", (), "byte place"),
    2: Cause("sheet ends early", (), "byte place: of the field that is not whole"),
    3: Cause("bytes after the sheet", (), "byte place: of the first left over"),
    4: Cause("count above its limit", (), "byte place, E or action"),
    5: Cause("value outside its field", (), "byte place, E or action"),
    6: Cause("id outside its table", (), "E or action"),
    10: Cause("kind mismatch"),
    11: Cause("more geometries than declared"),
    12: Cause("flags differ", BOTH, "E, declared, given"),
    13: Cause("vertex count above declared", BOTH, "E, both"),
    14: Cause("vertex format differs", BOTH, "E, both"),
    15: Cause("stride below least", NEEDED, "E, needed, given"),
    16: Cause("stride not a multiple", NEEDED, "E, needed, given"),
    17: Cause("index count on one side only"),
    18: Cause("index count above declared", BOTH, "E, both"),
    19: Cause("index format differs", BOTH, "E, both"),
    20: Cause("index count declared, no index buffer"),
    21: Cause("destroyed", (), "E, sort (1 buffer, 2 Blas, 3 Tlas), id; or action, Blas"),
    22: Cause("no BLAS_INPUT", (), "E, sort (1 buffer), id"),
    23: Cause("region overruns buffer", ("offset", "region", "size"), "E, offset, region, size"),
    24: Cause("first index, index count or transform offset absent"),
    25: Cause("index format none"),
    26: Cause("product or offset above 2^32 - 1", ("offset", "count", "stride"), "E, offset, count, stride (transform: offset, offset, 1)"),
    27: Cause("index count not in threes", ("count",), "E, count"),
    28: Cause("transform unflagged"),
    29: Cause("transform offset not in 16s"),
    30: Cause("transform flagged, absent"),
    31: Cause("box count above declared", BOTH, "E, both"),
    32: Cause("box offset not in eights"),
    33: Cause("box stride below 24 or not in eights", ("stride",), "E, stride"),
    34: Cause("custom data from 2^24 on"),
    35: Cause("Tlas returns vertices, Blas does not"),
    36: Cause("too many present slots", ("count", "most"), "E, count, most"),
    37: Cause("scratch 2^64 - 1", (), "E, 1 for an entry or 2 for a package: the first whose running total is 2^64 - 1 or more"),
    38: Cause("compacted Blas"),
    39: Cause("lent output too short", (), "0, 0"),
    40: Cause("counter 0", (), "action"),
    41: Cause("Blas to build is compacted", ("Blas",), "action, Blas"),
    42: Cause("Blas without number", ("Blas", "Tlas"), "action; Blas, Tlas in a build; Tlas, Blas in a use"),
    43: Cause("Tlas without number", ("Tlas",), "action, Tlas"),
    44: Cause("Blas newer than Tlas", ("Blas", "Tlas"), "action, Blas, Tlas"),
    45: Cause("count 0, or a group that is not an earlier one", (), "group, item, 0 where there is none"),
    46: Cause("more than 512 slots", (), "group, item: of the 513th slot"),
    47: Cause("first vertex or primitive offset above 2^32 - 1", (), "byte place: of the first that does not fit"),
    48: Cause("length not in 64s", (), "0, 0"),
    49: Cause("u32 at byte 52 not 0", (), "record, 0"),
    50: Cause("address of no Blas or of several", (), "record, 0"),
}
