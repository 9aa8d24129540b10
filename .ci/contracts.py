#!/usr/bin/env python3
"""For each entry point, how many lines its contract rests on, and in which files: the definitions that it cites, those that they cite, and so
on, each with the comment above it. `--files` also says how many lines of each file."""
import collections
import pathlib
import re
import sys

ROOT = pathlib.Path(__file__).resolve().parent.parent
ENTRY = {
    "read_sheet": "sheet",
    "write_sheet": "sheet_write",
    "to_version_2": "sheet_convert",
    "to_version_1": "sheet_convert",
    "open_groups": "groups",
    "build_acceleration_structures": "build",
    "submit": "submit",
    "validate_acceleration_structure_actions": "submit",
    "append_instance": "instance",
    "append_instances": "instance_many",
    "read_instances": "instance_read",
    "report": "report",
    "explain": "explain",
}
# theorems of calls of `submit`; what they ask and state are definitions
CALLS = ("ray_tracing/specs/Claim.antt", "SubmitShows")
CLAIMS = {
    "submit with demand 3": [CALLS, ("ray_tracing/specs/Claim.antt", "Demand-3")],
    "submit in either order": [CALLS, ("ray_tracing/specs/EitherOrder.antt", "TwoSenders"), ("ray_tracing/specs/EitherOrder.antt", "EitherOrder")],
}
SYMBOL = r"[^\s(){}\[\],;«»⌜⌝]+"
ITEM = re.compile(r"^(?:(?:abbrev|unfoldable) )?(?:pub )?(?:(record|data) )?([^\s:(){}]+)(?= |$)")


class File:
    """The definitions of one .antt file, and the names that it brings in."""

    def __init__(self, path):
        self.path = path
        self.name = str(path.relative_to(ROOT / "crates"))
        lines = path.read_text(encoding="utf-8").split("\n")
        self.items = {}
        self.brought = {}
        self.aliases = {}
        head = re.compile(r"^(?:infix|use |pub mod |module )")
        i = 0
        text = "\n".join(lines)
        for module, names in re.findall(r"^use (\S+?)\.\{([^}]*)\}", text, re.M):
            for name in filter(None, (n.strip() for n in names.split(","))):
                self.brought[name] = module
        for module, alias in re.findall(r"^use (\S+) as ([\w-]+)$", text, re.M):
            self.aliases[alias] = module
        start, current, block = None, None, []

        def close():
            if current:
                kept = [l for l in block if l.strip()]
                if current in self.items:
                    self.items[current].extend(kept)
                else:
                    self.items[current] = kept

        comment = []
        inside_use = False
        for line in lines:
            if inside_use:
                inside_use = "}" not in line
                continue
            if line.startswith("use ") and "{" in line and "}" not in line:
                inside_use = True
            if head.match(line) or line == "}":
                close()
                current, block, comment = None, [], []
                continue
            if not line.strip():
                if current:
                    close()
                current, block, comment = None, [], []
                continue
            if line.startswith("--"):
                if current:
                    close()
                    current, block = None, []
                comment.append(line)
                continue
            if not line[0].isspace():
                m = ITEM.match(line)
                name = m.group(2) if m else None
                declares = re.match(r"^(?:(?:abbrev|unfoldable) )?(?:pub )?(?:record|data|\S+ :|\S+$)", line)
                if declares and name != current:
                    close()
                    current, block = name, comment + [line]
                    comment = []
                    continue
            block.append(line)
        close()
        # the constructors of a data type are the type's
        self.owner = {}
        for name, body in self.items.items():
            code = [l for l in body if not l.lstrip().startswith("--")]
            if code and re.match(r"(?:pub )?data ", code[0]):
                for line in code[1:]:
                    m = re.match(r"  (\S+) :", line)
                    if m:
                        self.owner[m.group(1)] = name


def file_of(module):
    m = re.fullmatch(r"Rattle\.(\w+)\.(specs|proofs)\.(\w+)", module)
    if not m:
        return None
    path = ROOT / "crates" / m.group(1) / m.group(2) / f"{m.group(3)}.antt"
    return str(path.relative_to(ROOT / "crates")) if path.is_file() else None


def load():
    files = {}
    for path in sorted((ROOT / "crates").glob("*/specs/*.antt")) + sorted((ROOT / "crates").glob("*/proofs/*.antt")):
        if path.name != "Lib.antt":
            f = File(path)
            files[f.name] = f
    return files


def cited(files, text, brought, aliases, own=None):
    """The definitions that a piece of code names."""
    code = "\n".join(re.split(r"--", line)[0] for line in text.split("\n"))
    for token in set(re.findall(SYMBOL, code)):
        token = token.strip("→λ")
        head, _, rest = token.partition(".")
        if head and rest:
            module = file_of(aliases.get(head, ""))
            if module:
                for name in (rest, f"◌{rest}◌"):
                    name = files[module].owner.get(name, name)
                    if name in files[module].items:
                        yield module, name
            if head in aliases:
                continue
            # a field of what is named
            token = head
        names = [token, f"◌{token}◌"]
        for name in names:
            if own and files[own].owner.get(name, name) in files[own].items:
                yield own, files[own].owner.get(name, name)
            elif name in brought:
                module = file_of(brought[name])
                if module:
                    name = files[module].owner.get(name, name)
                    if name in files[module].items:
                        yield module, name


def closure(files, first):
    seen, todo = set(), list(first)
    while todo:
        at = todo.pop()
        if at in seen:
            continue
        seen.add(at)
        f = files[at[0]]
        todo.extend(cited(files, "\n".join(f.items[at[1]]), f.brought, f.aliases, at[0]))
    return seen


def contract(crate, function):
    """The text of a function's `ensures`, and what its file brings in."""
    text = (ROOT / "crates" / crate / "src/lib.rt").read_text(encoding="utf-8")
    brought = {}
    for module, names in re.findall(r"^ghost use (\S+?)\.\{([^}]*)\};", text, re.M):
        for name in filter(None, (n.strip() for n in names.split(","))):
            brought[name] = module
    aliases = dict((a, m) for m, a in re.findall(r"^ghost use (\S+) as (\w+);$", text, re.M))
    m = re.search(r'^pub (?:extern "C" )?fn ' + function + r"\b.*?^\{$", text, re.M | re.S)
    return (m.group(0)[m.group(0).index("ensures") :], brought, aliases) if m and "ensures" in m.group(0) else None


def rests():
    """Entry point or claim -> the definitions that it rests on."""
    files = load()
    entries = dict(ENTRY)
    for name in re.findall(r"^pub extern \"C\" fn (\w+)", (ROOT / "crates/capi/src/lib.rt").read_text(encoding="utf-8"), re.M):
        entries[name] = "capi"
    answer = collections.OrderedDict()
    for function, crate in entries.items():
        found = contract(crate, function)
        if found:
            answer[function] = closure(files, cited(files, *found))
    for claim, at in CLAIMS.items():
        answer[claim] = closure(files, at) | answer.get("submit", set())
    return files, answer


def lines(files, definitions):
    count = collections.Counter()
    for module, name in definitions:
        count[module] += len(files[module].items[name])
    return count


if __name__ == "__main__":
    files, answer = rests()
    for name, definitions in answer.items():
        count = lines(files, definitions)
        print(f"{name}: {sum(count.values())} lines in {len(count)} files" + ("" if "--files" in sys.argv else ": " + ", ".join(sorted(count))))
        if "--files" in sys.argv:
            for module, n in sorted(count.items()):
                print(f"    {n:4} {module}")
