#!/usr/bin/env python3
"""Holds the papers to the code, and the code to the rules that a reader can check by eye but shouldn't have to. `--picture` prints the
README's picture of the families, from crates.txt; `--rests` its table of what each contract rests on."""
import collections
import pathlib
import re
import shutil
import sys

sys.path.insert(0, str(pathlib.Path(__file__).resolve().parent))
import contracts  # noqa: E402

root = pathlib.Path(__file__).resolve().parent.parent
faults = []


def read(path):
    path = root / path
    return path.read_text(encoding="utf-8") if path.is_file() else ""


# ---- crates.txt: groups under a comment `# group: what it is`, crates with what they use

groups = collections.OrderedDict()
uses = {}
group = None
for line in read("crates.txt").splitlines():
    m = re.fullmatch(r"# (\w+): .+", line)
    if m:
        group = m.group(1)
        groups[group] = []
    elif m := re.fullmatch(r"(\w+)(?: staticlib)?:(.*)", line):
        name = m.group(1)
        uses[name] = m.group(2).split()
        if group is None:
            faults.append(f"crates.txt: {name} stands in no group")
        else:
            groups[group].append(name)
family = {c: g for g, cs in groups.items() for c in cs}
for crate, g in family.items():
    if re.match(r"(sheet|groups|build|submit|report|capi|cases)(_|$)", crate) and not crate.startswith(g):
        faults.append(f"crates.txt: {crate} stands in the group {g}")


def picture():
    """The families and their uses, those that follow from others left out."""
    edges = {g: {family[d] for c in cs for d in uses[c] if d in family} - {g} for g, cs in groups.items()}

    def reach(g):
        seen, todo = set(), list(edges[g])
        while todo:
            at = todo.pop()
            if at not in seen:
                seen.add(at)
                todo.extend(edges[at])
        return seen

    lines = ["```mermaid", "flowchart TD"]
    for g, cs in groups.items():
        lines.append(f"    {g}[\"<b>{g}</b><br/>" + "<br/>".join(cs) + '"]')
    for g in groups:
        far = set().union(*(reach(d) for d in edges[g])) if edges[g] else set()
        for d in groups:
            if d in edges[g] and d not in far:
                lines.append(f"    {g} --> {d}")
    return "\n".join(lines + ["```"])


def rests():
    """What each entry point's contract rests on, as a table."""
    files, answer = contracts.rests()
    rows = ["| Entry point | Lines | In |", "|---|---|---|"]
    for name, definitions in answer.items():
        count = contracts.lines(files, definitions)
        where = collections.OrderedDict()
        for module in sorted(count):
            crate, _, file = module.partition("/specs/")
            where.setdefault(crate, []).append(file.removesuffix(".antt"))
        inside = "; ".join(f"`{crate}`: " + ", ".join(names) for crate, names in where.items())
        label = name if name in contracts.CLAIMS else f"`{name}`"
        rows.append(f"| {label} | {sum(count.values())} | {inside} |")
    return "\n".join(rows), answer


table, answer = rests()
if "--picture" in sys.argv:
    print(picture())
    sys.exit()
if "--rests" in sys.argv:
    print(table)
    sys.exit()

readme = read("README.md")
if picture() not in readme:
    faults.append("README.md has another picture of the families than crates.txt (.ci/papers.py --picture prints it)")
if table not in readme:
    faults.append("README.md has another table of what contracts rest on (.ci/papers.py --rests prints it)")
for crate in uses:
    if not re.search(rf"^\|.*`{crate}`.*\|$", readme, re.M):
        faults.append(f"README.md: {crate} is in no row of its table")
for name, definitions in answer.items():
    for module in sorted({m for m, _ in definitions}):
        if not re.match(r"(wire|scratch|ray_tracing)/specs/", module):
            faults.append(f"the contract of {name} rests on {module}")

for paper in ["README.md", "NOTICE", "docs/DECISIONS.md", "docs/DIFFERENCES.md", "docs/PROMISES.md"]:
    if not (root / paper).is_file():
        faults.append(f"{paper} is missing")

# ---- what the papers cite is there: `crate/folder/File.antt: name, name` names definitions of that file

DEFINES = {
    ".antt": r"^\s*(?:(?:abbrev|unfoldable) )?(?:pub )?(?:record |data |mod )?{}(?=[\s:(]|$)",
    ".rt": r"^\s*(?:pub )?(?:extern \"C\" )?(?:fn|struct|enum|const) {}(?![\w])",
}
for paper in ["docs/PROMISES.md", "docs/DECISIONS.md", "README.md", "docs/DIFFERENCES.md"]:
    for path, names in re.findall(r"`([\w./+-]+\.(?:antt|rt|edit|py|sh|txt|md))(?::\s*([^`]+))?`", read(paper)):
        file = root / "crates" / path
        if not file.is_file():
            file = root / path
        if not file.is_file():
            faults.append(f"{paper} cites {path}, which does not exist")
            continue
        text = file.read_text(encoding="utf-8")
        for name in filter(None, (n.strip() for n in (names or "").split(","))):
            form = DEFINES.get(file.suffix)
            if form and not re.search(form.replace("{}", re.escape(name)), text, re.M):
                faults.append(f"{paper} cites {name} in {path}, which does not define it")
for paper in ["README.md", "docs/PROMISES.md", "docs/DECISIONS.md"]:
    for crate in re.findall(r"`crates/(\w+)`", read(paper)):
        if crate not in uses:
            faults.append(f"{paper} names the crate {crate}, which crates.txt doesn't list")

# ---- contracts

CALLS = {
    "write_sheet": "WritesSheet",
    "to_version_2": "Converts",
    "to_version_1": "Converts",
    "open_groups": "OpensGroups",
    "build_acceleration_structures": "Builds",
    "submit": "Submits",
    "validate_acceleration_structure_actions": "Validates",
    "append_instance": "Appends",
    "append_instances": "AppendsMany",
    "read_instances": "ReadsInstances",
    "report": "Puts",
    "explain": "Puts",
    "zakvind_write_sheet": "WritesSheetAs",
    "zakvind_to_version_2": "ConvertsAs",
    "zakvind_to_version_1": "ConvertsAs",
    "zakvind_open_groups": "OpensGroupsAs",
    "zakvind_build": "BuildsAs",
    "zakvind_build_wide": "BuildsAs",
    "zakvind_submit": "Validates",
    "zakvind_append_instance": "AppendsAs",
    "zakvind_append_instances": "AppendsManyAs",
    "zakvind_read_instances": "ReadsInstancesAs",
    "zakvind_report": "PutsAs",
    "zakvind_explain": "PutsAs",
    "zakvind_words": "PutsAs",
}
for source in sorted((root / "crates").glob("*/src/**/*.rt")):
    text = source.read_text(encoding="utf-8")
    name = source.relative_to(root)
    crate = name.parts[1]
    # a conversion promises by its `from_gives`, a public trait's function by an `ensures` in the trait
    for made, block in re.findall(r"^impl(?:<[^>\n]*>)? (From<[^\n]*) \{$(.*?)^\}$", text, re.M | re.S):
        if not re.search(r"^    ghost from_gives = ", block, re.M):
            faults.append(f"{name}: {made} has no from_gives")
    for trait in re.findall(r"^pub trait .*?^\}$", text, re.M | re.S):
        for function in re.findall(r"^    fn .*?;$", trait, re.M | re.S):
            if "ensures" not in function:
                faults.append(f"{name}: {function.split('(')[0].strip()} of a trait has no ensures")
    for match in re.finditer(r'^[ \t]*pub (?:extern "C" )?fn (\w+)', text, re.M):
        function = match.group(1)
        body = re.search(r"^[ \t]*\{[ \t]*$", text[match.start() :], re.M)
        head = text[match.start() : match.start() + body.start()] if body else text[match.start() :]
        # of what the programs read and print no contract can say anything
        if "ensures" not in head and not (crate == "cases" and "rt: &impl" in head):
            faults.append(f"{name}: {function} has no ensures")
        if re.search("⊤|Unit", head):
            faults.append(f"{name}: the ensures of {function} says nothing")
        if (function in contracts.ENTRY or function.startswith("zakvind_")) and "requires" in head:
            faults.append(f"{name}: the entry point {function} has a requires")
        if function in CALLS and (contracts.ENTRY.get(function) == crate or crate == "capi"):
            # beside it only that the lent slices are still the caller's
            clauses = [it for it in re.split(r"\bensures\b", head)[1:] if not re.match(r" (names|same) \{ Same(Outputs|Buffers) ", it)]
            if len(clauses) != 1 or not re.match(rf" (\w+ )?\{{\s+{CALLS[function]}\s", clauses[0]):
                faults.append(f"{name}: the contract of {function} is not its one definition, {CALLS[function]}")

# ---- nothing is divided by a power of two: no `/` and no `%` in align_to up to where it returns past its test, nor in what is called there


def bodies(crate):
    """The bodies of a crate's functions and methods without comments, and which crate has what it uses."""
    text = re.sub(r"//.*", "", read(f"crates/{crate}/src/lib.rt"))
    functions = collections.defaultdict(str)
    for indent, name, rest in re.findall(r"^( *)(?:pub )?fn (\w+)\((.*?)^\1\}$", text, re.M | re.S):
        functions[("." if indent else "") + name] += re.split(r"(?:^| )\s*\{$", rest, maxsplit=1, flags=re.M)[-1]
    brought = {n.strip(): of for of, names in re.findall(r"^use (\w+)::\{?([\w\s,]+)\}?;", text, re.M) for n in names.split(",")}
    return functions, brought


def methods():
    """The bodies of the library's methods of u64, as the toolchain at hand has them."""
    rt = shutil.which("rt")
    folder = pathlib.Path(rt).resolve().parents[1] / "rattle" / "core" / "src" / "int" if rt else root / "no toolchain"
    found = {}
    for file in sorted(folder.rglob("u64.rt")):
        text = re.sub(r"//.*", "", file.read_text(encoding="utf-8"))
        found.update(re.findall(r"^    pub const fn (\w+)\(.*?^    \{$(.*?)^    \}$", text, re.M | re.S))
    return found


library = methods()
past = re.search(r".*?if is_power_of_two\(alignment\) \{\s*return [^;]*;\s*\}", bodies("scratch")[0].get("align_to", ""), re.S)
way = {"scratch::align_to": past and past.group()}
todo = list(way)
for at in todo:
    crate = at.split("::")[0]
    if way[at] is None:
        faults.append(f"{at} is not there to be read as a way on which nothing is divided")
        continue
    if re.search(r"[/%]", way[at]):
        faults.append(f"{at} divides on the way of a power of two")
    own, brought = ({}, {}) if crate == "u64" else bodies(crate)
    for method, path, name in re.findall(r"(\.)?(?:(\w+)::)?\b([a-z]\w*)\(", way[at]):
        # a method of a crate's own is read where it stands, any other as the library's; the compiler has this one itself, an instruction
        if method and name == "count_ones" and "." + name not in own:
            continue
        called = f"{crate}::.{name}" if method and "." + name in own else f"u64::{name}" if method else f"{path or brought.get(name, crate)}::{name}"
        if name not in {"if", "while", "match", "return"} and called not in way:
            of, own_name = called.split("::")
            way[called] = library.get(name) if of == "u64" else bodies(of)[0].get(own_name)
            todo.append(called)

# ---- definitions: a name has one meaning over all specs

defined = collections.defaultdict(set)
for file in sorted((root / "crates").glob("*/specs/*.antt")):
    for line in file.read_text(encoding="utf-8").splitlines():
        m = re.match(r"(?:(?:abbrev|unfoldable) )?pub (?:record |data )?([^\s:(]+)", line)
        if m and not line.startswith("pub mod"):
            defined[m.group(1)].add(str(file.relative_to(root / "crates")))
for name, where in sorted(defined.items()):
    if len(where) > 1:
        faults.append(f"{name} has more than one meaning: " + ", ".join(sorted(where)))

# ---- lines, and the trade's words

TRADE = {"plant", "plants", "house", "houses", "row", "rows", "station", "stations", "greenhouse", "grower", "card"}
for file in sorted((root / "crates").glob("**/*")):
    if not file.is_file() or {"target", "out"} & set(file.parts):
        continue
    if TRADE & set(re.split(r"[^a-z]+", file.name.lower())):
        faults.append(f"{file.relative_to(root)}: a word of the trade in a file name")
    # a function's own proof cites the logic's names, which are not ours
    if file.suffix not in {".rt", ".antt"} or file.name in {"Proof.antt", "Answers.antt", "Invariants.antt"}:
        continue
    for number, line in enumerate(file.read_text(encoding="utf-8").splitlines(), 1):
        code = re.split(r"//|--", line)[0]
        for word in re.findall(r"[A-Za-z]+", re.sub(r"([a-z])([A-Z])", r"\1 \2", code.replace("_", " "))):
            if word.lower() in TRADE:
                faults.append(f"{file.relative_to(root)}:{number}: a word of the trade: {word}")
        words = re.match(r"(?:ghost )?use |\s*(?://|--)", line) or 'b"' in line
        if len(line) > 132 and not words and (file.suffix == ".rt" or "specs" in file.parts):
            faults.append(f"{file.relative_to(root)}:{number}: {len(line)} columns")

for fault in faults:
    print(f"papers: {fault}")
print(f"papers: {len(faults)} faults")
sys.exit(1 if faults else 0)
