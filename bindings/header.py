#!/usr/bin/env python3
"""Holds the header and the Rust package to what they speak of: each exported function says which numbers it refuses by, the same that the
comparison with the Rust reaches; the numbers have names, the same as in the table of causes; the Rust errors have that table's words."""
import pathlib
import re
import sys

sys.dont_write_bytecode = True
ROOT = pathlib.Path(__file__).resolve().parent.parent
sys.path.insert(0, str(ROOT / "format"))

from refusals import CAUSES  # noqa: E402

CALLS = {
    "sheet": "read_sheet",
    "to_2": "to_version_2",
    "to_1": "to_version_1",
    "build": "build",
    "wide": "build_wide",
    "submit": "submit",
    "append": "append_instance",
    "many": "append_instances",
    "back": "read_instances",
    "open": "open_groups",
}
TEXTS = ("report", "explain", "words")


def text(path):
    return (ROOT / path).read_text(encoding="utf-8")


def numbers(words):
    """The numbers of "4 to 6, 21 and 39 to 44"."""
    found = set()
    for least, most in re.findall(r"(\d+)(?: to (\d+))?", words):
        found |= set(range(int(least), int(most or least) + 1))
    return found


def main():
    faults = []
    header = text("include/zakvind.h")
    said = {}
    for comment, name in re.findall(r"/\*((?:[^*]|\*(?!/))*)\*/\s*(?:enum \{[^}]*\};\s*)?zakvind_\w+ zakvind_(\w+)\(", header):
        refuses = re.search(r"Refuses by ([\d, \nand*to]+\d)", comment)
        said[name] = numbers(refuses[1]) if refuses else set()
    reached = re.search(r"const CAN_GIVE.*?\n\];", text("oracle/src/compare.rs"), re.S)[0]
    can_give = {CALLS[call]: numbers(given) - {0} for call, given in re.findall(r'"(\w+)",\s*&\[([\d,\s]+)\]', reached)}
    can_give |= {name: {39} for name in TEXTS}
    can_give["write_sheet"] = can_give["read_sheet"] | {39}  # the Rust has no sheet to write
    if said != can_give:
        faults.append(f"the header says that calls refuse by\n  {said}\nand they can by\n  {can_give}")

    names = re.search(r"ZAKVIND_ACCEPTED = 0,(.*?)\};", header, re.S)[1]
    if sorted(map(int, re.findall(r"= (\d+)", names))) != sorted(CAUSES):
        faults.append("the header's numbers are not those of the table of causes")

    spoken = set()
    for file in ("building", "submission", "sheet", "groups", "convert", "instances"):
        for number, words in re.findall(r"^\s*/// (\d+)(?: in a \w+)?: (.*)$", text(f"bindings/rust/src/{file}.rs"), re.M):
            spoken.add(int(number))
            if words.replace("`", "") != CAUSES[int(number)].words:
                faults.append(f"{file}.rs says of {number}: {words}")
    if spoken != set(CAUSES):
        faults.append(f"the Rust errors leave out {sorted(set(CAUSES) - spoken)}")
    for fault in faults:
        print(f"header: {fault}")
    print(f"header: {len(said)} functions, {len(CAUSES)} causes, {len(faults)} faults")
    return 1 if faults else 0


if __name__ == "__main__":
    sys.exit(main())
