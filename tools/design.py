#!/usr/bin/env python3
"""tools/design.py [COMMIT]: counts the places that docs/DESIGN-PASS.md speaks of, in the working tree or in a commit; --list names them."""
import re
import subprocess
import sys

arguments = [it for it in sys.argv[1:] if it != "--list"]
shows = "--list" in sys.argv


def git(*words):
    return subprocess.run(["git", *words], capture_output=True, text=True, check=True).stdout


def sources():
    if arguments:
        names = git("ls-tree", "-r", "--name-only", arguments[0]).split("\n")
        read = lambda name: git("show", f"{arguments[0]}:{name}")
    else:
        names = git("ls-files").split("\n")
        read = lambda name: open(name).read()
    return {name: read(name) for name in names if re.fullmatch(r"crates/\w+/src/\w+\.rt", name)}


def without_comments(text):
    return re.sub(r"//[^\n]*", "", text)


files = {name: without_comments(text) for name, text in sources().items()}
found = {}


def count(point, pattern, skip=None):
    rows = found.setdefault(point, [])
    for name, text in files.items():
        for hit in re.finditer(pattern, text, re.M):
            if not (skip and re.search(skip, hit[0])):
                rows.append(f"{name}: {' '.join(hit[0].split())[:100]}")


# 1. An enum with a variant for success or presence, or for nothing at all; a test of one that only passes a refusal on; a field that says
# whether the next is given; a number for a kind, a state or a refusal; a function that answers such a number.
GOOD = "Fine|Passed|Accepted|Written|EndsAt|InUse|Inside|Given|Of|Rounded|Match|Fit|Size|One|Records|Slots|Recorded|ToRecord|Whole"
BAD = "Refused|TooShort|Passed|InvalidResource|Missing|Absent|Nothing|TooFar|Full|Reached|NoneOrSeveral|Truncated|NothingRecorded|Longer"
for name, text in files.items():
    for hit in re.finditer(r"^(?:pub )?enum (\w+) \{(.*?)^\}", text, re.M | re.S):
        variants = re.findall(r"^    (\w+)", hit[2], re.M)
        has = lambda words: any(re.fullmatch(words, it) for it in variants)
        if len(variants) <= 5 and has(GOOD) and has(BAD):
            found.setdefault("1a own enums like Option or Result", []).append(f"{name}: {hit[1]}")
count("1b tests that pass a refusal on", r"^ *(if let|let) \w+::\w+(\([^=]*\))? = [^;{]*(else \{\s*return|\{\s*return)|=> \w+::Refused\(\w+\),$")
count("1c a flag with a value beside it", r"pub \w+_present: u8,")
count("1d numbers for kinds, states and refusals", r"pub (kind|\w+_state|destroyed|index_format|number|call): u\d+,")

# 2. Functions of one crate, or of two, whose bodies are the same but for names and constants.
shapes = {}
for name, text in files.items():
    for hit in re.finditer(r"^( *)(?:pub )?fn (\w+)[^;]*?^\1\{\n(.*?)^\1\}", text, re.M | re.S):
        body = hit[3]
        if body.count("\n") < 3 or "/cases" in name:
            continue
        names = {}
        shape = re.sub(r"\b[A-Za-z_]\w*\b|\b\d[\w_]*\b", lambda it: names.setdefault(it[0], f"n{len(names)}"), body)
        shapes.setdefault(re.sub(r"\s+", " ", shape), []).append(f"{name}: {hit[2]}")
found["2 twins (groups of functions of one shape)"] = [", ".join(it) for it in shapes.values() if len(it) > 1]

# 3.
count("3 loops that are no for", r"^ *(while|loop)\b.*")

# 4. Words of the older code for what operators do, and conversions of one value by hand.
count("4a both, either, first, pick", r"\b(both|either|first|pick)\(.*")
count("4b wrapping and widening by hand", r"\b(wrapping_add_u64|wide)\(.*")

# 5. Six parameters or more.
for name, text in files.items():
    for hit in re.finditer(r"^ *(?:pub )?(?:extern \"C\" )?fn (\w+)(?:<[^>]*>)?\(([^)]*)\)", text, re.M):
        if hit[2].count(":") >= 6:
            found.setdefault("5 six parameters or more", []).append(f"{name}: {hit[1]}, {hit[2].count(':')}")

# 6. Fixed arrays that are filled to a length kept beside them, and chains of indices in arrays.
count("6 fixed arrays", r"\[(?:\w+|0\w*); [\w]+\]", r"\[f32; 12\]|\[u32; 12\]")

# 7.
count("7 a switch on which step", r"\bmatch (section|call|verb|kind)\b")

# 8.
listing = git("ls-tree", "-r", "--name-only", arguments[0]) if arguments else git("ls-files")
found["8 proof files of functions"] = re.findall(r"^crates/\w+/proofs/.*/(?:Invariants|Answers)\.antt$", listing, re.M)

for point in sorted(found):
    print(f"{len(found[point]):4} {point}")
    for row in found[point] if shows else []:
        print(f"       {row}")
