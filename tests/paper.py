"""A reading of the paper's "Building, in order" and "Submission" over lent tables, of the request for 37's place, of request 6's "above, the
same checks are read over whole numbers", and of request 8's mark, written apart from the definitions."""
import struct

from reading import LIMITS, NONE, record_fits, sizes

U64 = 2**64 - 1
U32 = 2**32 - 1


class No(Exception):
    """number, then what is returned with it"""


def numbers(data, *widths):
    at, out = 0, []
    for w in widths:
        out.append(int.from_bytes(data[at : at + w], "little"))
        at += w
    return out


def records(version, table, section):
    size = sizes(version)[section - 1]
    return [table[i * size : (i + 1) * size] for i in range(len(table) // size)]


def buffer(r):
    size, marks = numbers(r, 8, 1)
    return dict(size=size, input=marks & 1, destroyed=marks & 2)


def blas(r):
    return dict(zip(("kind", "flags", "state", "destroyed", "scratch", "address", "number"), numbers(r, 1, 1, 1, 1, 8, 8, 8)))


def tlas(r):
    return dict(zip(("flags", "destroyed", "scratch", "most", "number"), numbers(r, 1, 1, 8, 4, 8)))


def descriptor(r):
    names = ("blas", "flags", "count", "format", "least", "alignment", "index_format", "present", "indices")
    d = dict(zip(names, numbers(r, 2, 1, 4, 1, 2, 2, 1, 1, 4)))
    d["indices"] = d["indices"] if d.pop("present") else None
    return d


def geometry_of(version, r):
    """In version 2 with "the primitive offset as u64"."""
    v = numbers(r, 1, 4, {1: 4, 2: 8}[version], 8, 2, 1, 1, 2, 1, 4, 1, 4, 2, 1, 8)
    names = ("flags", "count", "first", "stride", "buffer", "format", "index_format", "index_buffer")
    g = dict(zip(names, v[:8]))
    g["indices"] = v[9] if v[8] else None
    g["first_index"] = v[11] if v[10] else None
    g["transform_buffer"] = v[12]
    g["offset"] = v[14] if v[13] else None
    return g


def slot(r):
    present, id, custom, mask = numbers(r, 1, 2, 4, 1)
    return dict(present=present, blas=id, custom=custom, mask=mask, transform=r[8:56])


def judge_table(version, section, table, before):
    """4, the sum, the first bad record, a part record: as (number, record), or None."""
    size = sizes(version)[section - 1]
    rows = records(version, table, section)
    if len(rows) > LIMITS[section - 1]:
        return 4, 0
    blas_kinds, boxes = [], [False] * len(rows)
    if section == 3:
        blas_kinds = [r[0] for r in records(version, before, 2)]
    if section in (6, 8):
        counts = [numbers(r[-2:], 2)[0] for r in records(version, before, section - 1)]
        if sum(counts) != len(rows):
            return 5, 0
        if section == 6:
            boxes = [r[2] == 1 for r, n in zip(records(version, before, 5), counts) for _ in range(n)]
    for i, r in enumerate(rows):
        if not record_fits(version, section, r, boxes[i], blas_kinds):
            return 5, i
    if len(table) % size:
        return 5, len(rows)
    return None


def check_geometry(d, g, boxes, blas_of, buffers, asked):
    """What the checks ask for, or No(number, figures)."""

    def usable(id):
        if buffers[id]["destroyed"]:
            raise No(21, 1, id)
        if not buffers[id]["input"]:
            raise No(22, 1, id)

    def region(id, offset, length):
        if offset + length > buffers[id]["size"]:
            raise No(23, min(offset, U64), min(length, U64), buffers[id]["size"])
        asked.append((id, offset, offset + length))

    if d["flags"] != g["flags"]:
        raise No(12, d["flags"], g["flags"])
    if boxes:
        if g["count"] > d["count"]:
            raise No(31, d["count"], g["count"])
        if g["first"] % 8:
            raise No(32)
        if g["stride"] < 24 or g["stride"] % 8:
            raise No(33, g["stride"])
        usable(g["buffer"])
        if g["stride"] > U32 or g["count"] * g["stride"] > U32:
            raise No(26, min(g["count"] * g["stride"], U64), g["count"], g["stride"])
        region(g["buffer"], g["first"], g["count"] * g["stride"])
        return
    if g["count"] > d["count"]:
        raise No(13, d["count"], g["count"])
    if g["format"] != d["format"]:
        raise No(14, d["format"], g["format"])
    if g["stride"] < d["least"]:
        raise No(15, d["least"], g["stride"])
    if g["stride"] % d["alignment"]:
        raise No(16, d["alignment"], g["stride"])
    if (d["indices"] is None) != (g["indices"] is None):
        raise No(17)
    if d["indices"] is not None and g["indices"] > d["indices"]:
        raise No(18, d["indices"], g["indices"])
    if d["index_format"] != g["index_format"]:
        raise No(19, d["index_format"], g["index_format"])
    if d["indices"] is not None and g["index_buffer"] == NONE:
        raise No(20)
    usable(g["buffer"])
    region(g["buffer"], g["first"] * g["stride"], g["count"] * g["stride"])
    if g["index_buffer"] != NONE:
        if g["first_index"] is None or g["indices"] is None:
            raise No(24)
        usable(g["index_buffer"])
        if g["index_format"] == 0:
            raise No(25)
        width = 2 * g["index_format"]
        for n in (g["first_index"], g["indices"]):
            if n * width > U32:
                raise No(26, n * width, n, width)
        if g["indices"] % 3:
            raise No(27, g["indices"])
        region(g["index_buffer"], g["first_index"] * width, g["indices"] * width)
    if g["transform_buffer"] != NONE:
        if not blas_of["flags"] & 1:
            raise No(28)
        if g["offset"] is None:
            raise No(24)
        usable(g["transform_buffer"])
        if g["offset"] > U32:
            raise No(26, g["offset"], g["offset"], 1)
        if g["offset"] % 16:
            raise No(29)
        region(g["transform_buffer"], g["offset"], 48)
    elif blas_of["flags"] & 1:
        raise No(30)


def round_up(size, alignment):
    return (size + alignment - 1) // alignment * alignment


def build(version, alignment, tables, rooms):
    """(number, e0, e1, f0, f1, f2, recorded, size) and the seven outputs as lists, or None for each that is not written."""
    nothing = [None] * 7

    def refused(number, e=(0, 0), figures=()):
        f = (*figures, 0, 0, 0)[:3]
        return (number, *e, *f, 0, 0), nothing

    if alignment == 0:
        return refused(5)
    for k in range(1, 9):
        fault = judge_table(version, k, tables[k - 1], tables[k - 2] if k > 1 else b"")
        if fault:
            return refused(fault[0], (k, fault[1]))
    of = [records(version, t, k) for k, t in enumerate(tables, 1)]
    buffers, blases = [buffer(r) for r in of[0]], [blas(r) for r in of[1]]
    descriptors, tlases = [descriptor(r) for r in of[2]], [tlas(r) for r in of[3]]
    geometries = iter([geometry_of(version, r) for r in of[5]])
    entries = [(id, kind, [next(geometries) for _ in range(n)]) for id, kind, n in (numbers(r, 2, 1, 2) for r in of[4])]
    slots = iter([slot(r) for r in of[7]])
    packages = [(id, [next(slots) for _ in range(n)]) for id, n in (numbers(r, 2, 2) for r in of[6])]

    for i, (id, kind, gs) in enumerate(entries):
        for j, g in enumerate(gs):
            mentioned = [g["buffer"]]
            if kind == 0:
                mentioned += [x for x in (g["index_buffer"], g["transform_buffer"]) if x != NONE]
            if any(x >= len(buffers) for x in mentioned):
                return refused(6, (i, j))
        if id >= len(blases):
            return refused(6, (i, 0))
    for i, (id, ss) in enumerate(packages):
        for j, s in enumerate(ss):
            if s["present"] and s["blas"] >= len(blases):
                return refused(6, (i, j))
        if id >= len(tlases):
            return refused(6, (i, 0))

    asked, offsets, total = [], [], 0
    for i, (id, kind, gs) in enumerate(entries):
        own = [d for d in descriptors if d["blas"] == id]
        for j, g in enumerate(gs):
            if blases[id]["kind"] != kind:
                return refused(10, (i, j))
            if j >= len(own):
                return refused(11, (i, j))
            try:
                check_geometry(own[j], g, kind == 1, blases[id], buffers, asked)
            except No as no:
                return refused(no.args[0], (i, j), no.args[1:])
        offsets.append(total)
        total += round_up(blases[id]["scratch"], alignment)

    tlas_offsets, staging, bytes_, lists, tlas_total = [], [], b"", [id for id, _, _ in entries], 0
    for i, (id, ss) in enumerate(packages):
        start, listed = len(bytes_), []
        for j, s in enumerate(ss):
            if not s["present"]:
                continue
            if s["custom"] >= 2**24:
                return refused(34, (i, j))
            if tlases[id]["flags"] & 2 and not blases[s["blas"]]["flags"] & 2:
                return refused(35, (i, j))
            bytes_ += s["transform"] + struct.pack("<IIQ", s["custom"] | s["mask"] << 24, 0, blases[s["blas"]]["address"])
            listed.append(s["blas"])
        if len(listed) > tlases[id]["most"]:
            return refused(36, (i, 0), (len(listed), tlases[id]["most"]))
        tlas_offsets.append(tlas_total)
        tlas_total += round_up(tlases[id]["scratch"], alignment)
        staging += [start, len(bytes_)]
        lists += [id, len(listed), *listed]

    ranges = [cell for r in asked for cell in r]
    size = max(total, tlas_total)
    if size == 0:
        if rooms[4] < len(ranges):
            return refused(39)
        return (0,) * 8, [None, None, None, None, ranges, None, None]
    # the running total with each one is where the next one starts, and with the last the whole
    for sort, totals in ((1, [*offsets[1:], total]), (2, [*tlas_offsets[1:], tlas_total])):
        for i, running in enumerate(totals):
            if running >= U64:
                return refused(37, (i, 0), (sort,))
    for i, (id, _) in enumerate(packages):
        if tlases[id]["destroyed"]:
            return refused(21, (i, 0), (3, id))
    for i, (id, _, _) in enumerate(entries):
        if blases[id]["destroyed"]:
            return refused(21, (i, 0), (2, id))
        if blases[id]["state"] == 3:
            return refused(38, (i, 0))
    compactable = [id for id, _, _ in entries if blases[id]["flags"] & 4]
    outputs = [offsets, tlas_offsets, staging, list(bytes_), ranges, compactable, lists]
    if any(len(o) > room for o, room in zip(outputs, rooms)):
        return refused(39)
    return (0, 0, 0, 0, 0, 0, 1, size), outputs


def submit(counter, blases, tlases, counts, cells, actions, lists):
    """(number, action, f0, f1), the counter, and the four buffers after it. Buffers are lists of bytes and of cells."""
    blases, tlases, counts, cells = list(blases), list(tlases), list(counts), list(cells)
    nb, nt = len(blases) // 28, len(tlases) // 22

    def answer(number, action=0, f0=0, f1=0):
        return (number, action, f0, f1), counter, blases, tlases, counts, cells

    for section, table in ((2, bytes(blases)), (4, bytes(tlases))):
        fault = judge_table(1, section, table, b"")  # these two are the same in either version
        if fault:
            return answer(fault[0])
    if len(counts) < nt or len(cells) < 512 * nt:
        return answer(39)
    for t in range(nt):
        if counts[t] > 512:
            return answer(4)
        if any(b >= nb for b in cells[512 * t : 512 * t + counts[t]]):
            return answer(6)

    def number_of(table, size, at, i):
        return int.from_bytes(bytes(table[i * size + at : i * size + at + 8]), "little")

    def put(table, at, n):
        table[at : at + 8] = list(n.to_bytes(8, "little"))

    def decode(at):
        kind, operand, n, m = actions[at : at + 4]
        if kind == 2:
            return "use", operand
        if kind == 3:
            return "build", [operand], []
        if kind == 4:
            return "build", [], [(operand, [])]
        # "a mark that names each Tlas's Blases: kind 5 ... Every rule takes it for a Build of those lists"
        if kind not in (1, 5) or operand + n > len(lists):
            raise No(5)
        own, at, packages = lists[operand : operand + n], operand + n, []
        for _ in range(m):
            if at + 2 > len(lists) or at + 2 + lists[at + 1] > len(lists):
                raise No(5)
            packages.append((lists[at], lists[at + 2 : at + 2 + lists[at + 1]]))
            at += 2 + lists[at + 1]
        return "build", own, packages

    def act(at):
        nonlocal counter
        if at + 4 > len(actions):
            raise No(5)
        what, *rest = decode(at)
        if what == "use":
            t = rest[0]
            if t >= nt:
                raise No(6)
            own = number_of(tlases, 22, 14, t)
            if own == 0:
                raise No(43, t)
            for b in cells[512 * t : 512 * t + counts[t]]:
                n = number_of(blases, 28, 20, b)
                if n == 0:
                    raise No(42, t, b)
                if n > own:
                    raise No(44, b, t)
                if blases[28 * b + 3] == 1:
                    raise No(21, b)
            return
        own, packages = rest
        if len(own) > 64 or len(packages) > 32 or any(len(p) > 512 for _, p in packages):
            raise No(4)
        if any(b >= nb for b in own) or any(t >= nt or any(b >= nb for b in p) for t, p in packages):
            raise No(6)
        if counter == 0:
            raise No(40)
        for b in own:
            if blases[28 * b + 2] == 3:
                raise No(41, b)
        n, counter = counter, (counter + 1) % 2**64
        for b in own:
            blases[28 * b + 2] = 0
            put(blases, 28 * b + 20, n)
        for t, p in packages:
            for b in p:
                if number_of(blases, 28, 20, b) == 0:
                    raise No(42, b, t)
            put(tlases, 22 * t + 14, n)
            counts[t] = len(p)
            cells[512 * t : 512 * t + len(p)] = p

    for i in range((len(actions) + 3) // 4):
        try:
            act(4 * i)
        except No as no:
            return answer(no.args[0], i, *no.args[1:])
    return answer(0)
