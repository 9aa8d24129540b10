#!/usr/bin/env python3
"""named.py PROGRAM...: holds what the Rust binding names of a refused sheet (its example `named`) to what the format's own tools name, for
the shipped sheets, in either version, with one to three of their bytes changed, or cut. A line that differs is shown, and is a failure."""
import pathlib
import random
import subprocess
import sys
import tempfile

sys.dont_write_bytecode = True
ROOT = pathlib.Path(__file__).resolve().parent.parent
sys.path.insert(0, str(ROOT / "format"))

from walk import Walked, missing_of_action, missing_of_build, missing_words, refusal_words  # noqa: E402

ROUNDS = 4000


def widened(sheet):
    """The same in version 2: each geometry has four zero bytes more behind the first nine."""
    records = Walked(sheet).tables[5].records
    places = [r.place + 9 for r in records]
    pieces = [sheet[a:b] for a, b in zip([1, *places], [*places, len(sheet)])]
    return b"\2" + bytes(4).join(pieces)


def changed(sheets, rng):
    data = bytearray(rng.choice(sheets))
    for _ in range(rng.randint(1, 3)):
        data[rng.randrange(len(data))] = rng.choice((0, 1, 2, 3, 4, 7, 9, 255, rng.randrange(256)))
    if rng.random() < 0.1:
        del data[rng.randrange(len(data)) :]
    elif rng.random() < 0.05:
        data += bytes(rng.randint(1, 3))
    return bytes(data)


def named(sheet):
    """What the format names: of a refused sheet the field, else the first id outside its table that a build or an action has."""
    walked = Walked(sheet)
    if walked.refusal:
        return refusal_words(walked.refusal)
    actions = range(walked.count_of(9))
    missing = missing_of_build(walked) or next(filter(None, (missing_of_action(walked, i) for i in actions)), None)
    return missing and missing_words(missing, walked.count_of(missing.of)) or ""


def main():
    rng = random.Random(12)
    shipped = [(ROOT / "sheets" / name).read_bytes() for name in ("collection.sheet", "usable.sheet", "rebuilt.sheet", "nothing-recorded.sheet")]
    shipped += [widened(s) for s in shipped] + [(ROOT / "sheets" / "far-boxes.sheet").read_bytes()]
    sheets = [changed(shipped, rng) for _ in range(ROUNDS)]
    with tempfile.NamedTemporaryFile() as file:
        file.write(b"".join(len(s).to_bytes(4, "little") + s for s in sheets))
        file.flush()
        told = subprocess.run([*sys.argv[1:], file.name], check=True, capture_output=True, text=True).stdout.split("\n")[:-1]
    if len(told) != len(sheets):
        print(f"named: {len(told)} lines for {len(sheets)} sheets")
        return 1
    compared = {}
    for sheet, line in zip(sheets, told):
        if not line:
            continue  # refused by another number, or before the action that names it
        expected = named(sheet)
        if line != expected:
            print(f"named: the binding says\n  {line}\nthe format\n  {expected}")
            return 1
        kind = ("id" if not line.startswith("byte") else "field", sheet[:1])
        compared[kind] = compared.get(kind, 0) + 1
    silent = [s for s, line in zip(sheets, told) if not line and Walked(s).refusal]
    by_version = [[compared.get((kind, version), 0) for version in (b"\1", b"\2")] for kind in ("field", "id")]
    if silent or min(map(min, by_version)) < 50:
        print(f"named: {len(silent)} refused sheets of which nothing is named; compared {compared}")
        return 1
    fields, ids = ("{} of version 1 and {} of version 2".format(*numbers) for numbers in by_version)
    print(f"named: fields, {fields}, and ids, {ids}, are named as the format names them")
    return 0


if __name__ == "__main__":
    sys.exit(main())
