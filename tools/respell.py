#!/usr/bin/env python3
"""Brings this repository's own definitions and lemmas to the spelling of today's Rattle: words in snake case, types and modules in camel case, a dash
only between two names of functions. Run once at the top, after port.py, with everything committed.

usage: python3 tools/respell.py [--check]     --check prints the table and what falls together, and writes nothing

It turns names in specs/, proofs/, the clauses of src/, must-fail edits, and the code spans of README.md and docs/. Names that Rattle makes (behind `tie.`,
`goal.`, and the fields of an answer's facts), functions of src/, strings, inputs and outputs keep theirs.
"""

import collections
import glob
import os
import re
import sys

TOKEN = re.compile(r"[^\s(){}.;,@\"«»`]+")
HEAD = re.compile(r"^(?:(?:abbrev|unfoldable|opaque|pub) )*([^\s(){}:.]+) :(?= |$)", re.M)
FIELD = re.compile(r"^  (?:pub )?([^\s(){}:.]+) :(?= |$)", re.M)
COMMENT = re.compile(r"--[^\n]*")
STD = {"length", "take", "drop", "set", "sets", "get_or", "map", "append", "reverse", "sum", "min", "max", "cond", "eqb", "leb", "ltb", "replicate", "concat"}
# what falls together with another name: the new spelling is chosen here
CHOSEN = {
    "all_read": "all-read",  # the lemma; the definition takes all_read
    "one_by_one": "one-by-one",  # the lemma
    "blasOffsets": "blas_offsets_of",  # blas_offsets is a field of what a build writes
    "tlasOffsets": "tlas_offsets_of",
    "nanBits": "is_nan_bits",  # std's nan_bits, brought in under another name: nan_bits is a field of TlasInstance
    "allRead": "all_read",
    "oneByOne": "one_by_one",
    "countAt": "count_at",
    "firstRead": "first_read",
    "inOrder": "in_order",
    "itemsAt": "items_at",
    "leftBy": "left_by",
    "offsetAt": "offset_at",
}


def snake(word):
    word = re.sub(r"(?<=[a-z0-9])(?=[A-Z])", "_", word)
    word = re.sub(r"(?<=[A-Z])(?=[A-Z][a-z])", "_", word)
    return word.lower()


def part_snake(word):
    "A word of a name: its first letter decides whether it is a type."
    if not word or not word.strip("◌") or word.strip("◌")[0].isupper():
        return word
    if word == "getD":
        return "get_or"
    return snake(word)


def antt_files():
    return sorted(glob.glob("crates/*/specs/**/*.antt", recursive=True) + glob.glob("crates/*/proofs/**/*.antt", recursive=True))


def code(text):
    return COMMENT.sub("", text)


def table():
    declared = collections.defaultdict(set)  # old name -> files
    tokens = collections.defaultdict(set)
    needs = set()
    for path in antt_files():
        with open(path, encoding="utf-8") as f:
            text = code(f.read())
        # a module's path and a field fall together with nothing
        for w in TOKEN.findall(re.sub(r"^use [\w.+-]*|\.[\w-]+", " ", text, flags=re.M)):
            tokens[w].add(path)
        proof = path.endswith("/Proof.antt")
        for m in HEAD.finditer(text):
            name = m.group(1)
            after = text[m.end() : m.end() + 60]
            if proof and re.match(r"\s*(?:\{[^}]*\}\s*→\s*)?tie\.", after):
                needs.add(name)
                continue
            declared[name].add(path)
        for m in FIELD.finditer(text):
            declared[m.group(1)].add(path)
    for path in sorted(glob.glob("crates/*/src/**/*.rt", recursive=True)):
        with open(path, encoding="utf-8") as f:
            for use in re.findall(r"ghost use [^;]*;", f.read()):
                for w in TOKEN.findall(use):
                    tokens[w].add(path)
    functions = {n for n in declared if "-" not in n and n[0].islower() and any("/specs/" in p for p in declared[n])}
    functions |= {n for n in tokens if re.search(r"[a-z0-9][A-Z]", n) and n[0].islower() and "-" not in n}
    known = {part_snake(f) for f in functions} | STD
    new = {}
    for w in sorted(tokens):
        bare = w.strip("◌")
        if not bare or w in needs and w not in declared:
            continue
        if "::" in w:
            continue
        if "-" in w and bare != "-" and not re.fullmatch(r"[\d-]+", w):
            if w not in declared or bare[0].isupper():
                continue
            if w in CHOSEN:
                new[w] = CHOSEN[w]
                continue
            head = ""
            body = w
            if body.startswith("+"):
                continue
            if w.endswith("-spec"):
                new[w] = "_".join(part_snake(p) for p in w.split("-"))
                continue
            parts = [part_snake(p) for p in body.split("-")]
            best = None
            for i in range(len(parts) - 1, 0, -1):
                a, b = "_".join(parts[:i]), "_".join(parts[i:])
                if a in known and b in known:
                    best = a + "-" + b
                    break
            new[w] = head + (best or "_".join(parts))
        elif w in CHOSEN:
            new[w] = CHOSEN[w]
        elif re.search(r"[a-z0-9][A-Z]", bare) and bare[0].islower() and re.fullmatch(r"[◌A-Za-z0-9']+", w):
            new[w] = CHOSEN.get(w, part_snake(w))
    return new, declared, tokens


def settle(new, declared, tokens):
    "Names that would fall together: of a lemma the dash stays; what is left is shown."
    left = []
    taken = collections.defaultdict(list)
    for w, n in new.items():
        taken[n].append(w)
    for w in list(new):
        n = new[w]
        others = [o for o in taken[n] if o != w]
        there = n in tokens and n != w
        if not (others or there):
            continue
        files = tokens[w]
        clash = [o for o in others if tokens[o] & files or (o in declared and w in declared)]
        local = there and (tokens[n] & files)
        decl = there and n in declared
        if not (clash or local or decl):
            continue
        if "-" in w and w not in CHOSEN:
            new[w] = "-".join(part_snake(p) for p in w.split("-"))
        elif w not in CHOSEN and ([o for o in clash if "-" not in o] or local or decl):
            left.append((w, n, clash, sorted(local or [])[:3], decl))
    return left


def turn_text(text, new):
    return TOKEN.sub(lambda m: new.get(m.group(0), m.group(0)), text)


def turn_antt(text, new, proof):
    out = []
    kebab_free = {k: v for k, v in new.items() if "-" not in k}
    for line in text.split("\n"):
        i = line.find("--")
        while i > 0 and not line[i - 1].isspace():
            i = line.find("--", i + 2)
        body, comment = (line, "") if i < 0 else (line[:i], line[i:])
        # what stands behind a dot, where the head is not a module of ours, is a field: kebab fields are Rattle's
        def one(m):
            w = m.group(0)
            if w not in new:
                return w
            before = body[: m.start()]
            if before.endswith(".") and "-" in w and proof:
                return w
            if re.search(r"(?:tie|goal)\.$", before):
                return w
            return new[w]
        body = TOKEN.sub(one, body)
        comment = TOKEN.sub(lambda m: kebab_free.get(m.group(0), m.group(0)), comment)
        comment = re.sub(r"`([^`]+)`", lambda m: "`" + turn_text(m.group(1), new) + "`", comment)
        out.append(body + comment)
    return "\n".join(out)


def turn_rt(text, new):
    kebab_free = {k: v for k, v in new.items() if "-" not in k}
    out = []
    for line in text.split("\n"):
        pieces = re.split(r'("(?:[^"\\]|\\.)*")', line)
        out.append("".join(p if p.startswith('"') else turn_text(p, kebab_free) for p in pieces))
    return "\n".join(out)


def turn_page(text, new):
    "Code spans and fenced blocks that are not shell."
    return re.sub(r"(`+)([^`]+)\1", lambda m: m.group(1) + turn_text(m.group(2), new) + m.group(1), text)


def main():
    new, declared, tokens = table()
    left = settle(new, declared, tokens)
    new = {k: v for k, v in new.items() if k != v}
    if "--check" in sys.argv:
        for k, v in sorted(new.items()):
            print(k, v)
        for row in left:
            print("LEFT", row)
        seen = collections.defaultdict(list)
        for k, v in new.items():
            if k in declared:
                seen[v].append(k)
        for v, ks in seen.items():
            if len(ks) > 1:
                print("SAME", v, ks)
        return 0
    if left:
        for row in left:
            print("LEFT", row)
        return 1
    changed = 0

    def write(path, turned, text):
        nonlocal changed
        if turned != text:
            with open(path, "w", encoding="utf-8") as f:
                f.write(turned)
            changed += 1

    for path in antt_files():
        with open(path, encoding="utf-8") as f:
            text = f.read()
        write(path, turn_antt(text, new, path.endswith("/Proof.antt")), text)
    for path in sorted(glob.glob("crates/*/src/**/*.rt", recursive=True)):
        with open(path, encoding="utf-8") as f:
            text = f.read()
        write(path, turn_rt(text, new), text)
    for path in sorted(glob.glob("crates/*/must-fail/*.edit")):
        with open(path, encoding="utf-8") as f:
            text = f.read()
        write(path, turn_text(text, new), text)
    for path in ["crates/ray_tracing/specs/Instances.antt", "crates/instance_bytes/src/lib.rt"]:
        with open(path, encoding="utf-8") as f:
            text = f.read()
        write(path, re.sub(r"(Ieee\.\{[^}]*)\bis_nan_bits\b", r"\1nan_bits as is_nan_bits", text), text)
    for path in ["README.md", *sorted(glob.glob("docs/**/*.md", recursive=True))]:
        with open(path, encoding="utf-8") as f:
            text = f.read()
        write(path, turn_page(text, new), text)
    print(f"respell: {len(new)} names, {changed} files")
    return 0


if __name__ == "__main__":
    sys.exit(main())
