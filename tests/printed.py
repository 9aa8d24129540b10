"""What the sheet program prints for a sheet, from the readings in reading.py and paper.py, and what it refuses in words."""
from paper import build, submit
from reading import CAUSES, read, sizes

# as many elements of each output as any sheet can need
ROOMS = (64, 32, 64, 32768, 2304, 64, 640)

# what a build's E is, where it is no entry and geometry
PLACES = {
    4: ("section", "record"),
    5: ("section", "record"),
    6: ("entry or package", "geometry or slot"),
    34: ("package", "slot"),
    35: ("package", "slot"),
    36: ("package",),
    38: ("entry",),
    39: (),
}
# what 37's place is, by its first figure
TOTALS = {1: "entry", 2: "package"}
SORTS = {1: ("entry", "geometry", "buffer"), 2: ("entry", "Blas"), 3: ("package", "Tlas")}
KINDS = {1: "recorded build", 2: "use of a Tlas", 3: "mark of a Blas", 4: "mark of a Tlas", 5: "mark as built"}


def line(word, *numbers):
    return " ".join((word, *map(str, numbers))) + "\n"


def u16(data):
    return int.from_bytes(data[:2], "little")


def explanation(refusal):
    """The refusal in words: nothing, or what is refused ("sheet", "build" or "action"), its number, its place and its figures."""
    if refusal is None:
        return "nothing is refused\n"
    what, number, place, figures = refusal
    words, names = CAUSES[number].words, CAUSES[number].figures
    if what == "sheet":
        items = [("byte", place)]
    elif what == "action":
        position, kind = place
        if number == 21:
            names = ["Blas"]
        if number == 42 and kind not in (1, 5):
            names = ["Tlas", "Blas"] if kind == 2 else ["Blas or Tlas", "Tlas or Blas"]
        items = [(KINDS[kind] + " at action" if kind in KINDS else "action", position), *zip(names, figures)]
    elif number in (21, 22):
        *where, sort = SORTS[1] if number == 22 else SORTS.get(figures[0], ("entry", "geometry", "resource"))
        items = [*zip(where, place), (sort, figures[1])]
    elif number == 37:
        items = [(TOTALS.get(figures[0], "entry or package"), place[0])]
    else:
        items = [*zip(PLACES.get(number, ("entry", "geometry")), place), *zip(names, figures)]
    return f"refused {number}: " + ", ".join([words, *(f"{name} {value}" for name, value in items)]) + "\n"


# the numbers that a call refuses with: 1 reads a sheet, 2 builds, 3 submits, 4 appends an instance, 5 writes a sheet, 6 opens groups,
# 7 appends many instances, 8 converts a sheet to version 2, 9 converts one to version 1, 10 reads instances
CALLS = {
    1: range(1, 6),
    2: (4, 5, 6, *range(10, 40)),
    3: (4, 5, 6, 21, *range(39, 45)),
    4: (6, 34, 35, 39),
    5: (*range(1, 6), 39),
    6: (*range(2, 6), 39, 45, 46),
    7: (5, 6, 34, 35, 39),
    8: (*range(1, 6), 39),
    9: (*range(1, 6), 39, 47),
    10: (39, 48, 49, 50),
}
# the version that a conversion comes from: "1 also for the other way's version"
COMES_FROM = {8: 1, 9: 2}


def words(call, number, e0, e1, f0, f1, f2):
    """The words of a call's refusal, by the numbers that it answers."""
    if number == 0:
        return explanation(None)
    if number not in CALLS.get(call, ()):
        return f"refused {number}: no such cause\n"
    if call == 6 and number in (45, 46):
        return f"refused {number}: {CAUSES[number].words}, group {e0}, item {e1}\n"
    if call == 7 and number != 39:
        # the Tlas's 6 is at 0 too
        which = "Tlas or instance" if (number, e1) == (6, 0) else "instance"
        return f"refused {number}: {CAUSES[number].words}, {which} {e1}\n"
    if call == 10 and number in (49, 50):
        return f"refused {number}: {CAUSES[number].words}, record {e0}\n"
    if call in COMES_FROM and number == 1:
        return f"refused 1: version not {COMES_FROM[call]}, byte {e0}\n"
    if call == 1 or (call in (5, 6, 8, 9) and number != 39):
        return explanation(("sheet", number, e0, ()))
    if call == 2:
        return explanation(("build", number, (e0, e1), (f0, f1, f2)))
    if call == 3:
        return explanation(("action", number, (e0, e1), (f0, f1)))
    return f"refused {number}: {CAUSES[number][0]}\n"


def told(data):
    """The lines, and what they refuse."""
    answer = read(data)
    if answer[0]:
        return line("sheet", *answer), ("sheet", answer[0], answer[1], ())
    version, alignment, counter, places = answer[1], answer[2], answer[3], answer[4:]
    tables = [data[a : a + n * size] for a, n, size in zip(places[::2], places[1::2], sizes(version))]
    built, outputs = build(version, alignment, tables[:8], ROOMS)
    text = line("build", *built[:6])
    if built[0]:
        return text, ("build", built[0], built[1:3], built[3:6])
    recorded = built[6] == 1
    entries, packages = places[9], places[13]
    lists = []
    if recorded:
        blas_offsets, tlas_offsets, ranges, lists = outputs[0], outputs[1], outputs[2], outputs[6]
        text += line("scratch", built[7])
        for i in range(entries):
            text += line("blas", u16(tables[4][5 * i :]), blas_offsets[i])
        for p in range(packages):
            text += line("tlas", u16(tables[6][4 * p :]), tlas_offsets[p], *ranges[2 * p : 2 * p + 2])
    cells, positions = [], []
    for i in range(places[17]):
        kind, operand = tables[8][3 * i], u16(tables[8][3 * i + 1 :])
        if kind == 1 and not recorded:
            continue
        positions.append(i)
        cells += [1, 0, entries, packages] if kind == 1 else [kind, operand, 0, 0]
    n = len(tables[3]) // 22
    (number, action, *figures), counter, *_ = submit(counter, tables[1], tables[3], [0] * n, [0] * (512 * n), cells, lists)
    action = positions[action] if number and positions else 0
    text += line("submit", number, action, *figures) + line("next", counter)
    return text, ("action", number, (action, tables[8][3 * action]), figures) if number else None


def printed(data):
    return told(data)[0]


def explained(data):
    text, refusal = told(data)
    return text + explanation(refusal)
