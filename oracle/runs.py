#!/usr/bin/env python3
"""runs.py compare|orders|robust COMMAND: takes what a run printed from standard input, passes it on, and writes its part of docs/RUNS.md."""
import pathlib
import re
import sys

TITLES = {"compare": "## Against the Rust", "orders": "## In either order", "robust": "## At the boundary"}
HEAD = """# Runs

What long runs of the static library gave, each as the run printed it: written by `oracle/compare N SEED --write`,
`oracle/compare orders N SEED --write` and `oracle/robust SECONDS`.
`docs/DIFFERENCES.md` says what is compared and what could not be, `docs/ROBUSTNESS.md` how the boundary is tried.
"""
NAMES = """Of version 2: `sheet_2` reads a sheet, `wide` builds with all offsets below 2^32, `above` with one from 2^32 on, of which the Rust says nothing;
`to_2` and `to_1` convert a sheet. `back` reads instances back from their records, of a case or as `append` or `many` wrote them. `mark_5` are the marks
that name their Blases, each that a `submit` reached, by what the Rust answers to a Build of the same lists."""
file = pathlib.Path(__file__).resolve().parent.parent / "docs/RUNS.md"


def number(text):
    return f"{int(text):,}"


def said(lines, start):
    return next(line for line in lines if line.startswith(start)).capitalize() + "."


def compare(command, lines):
    out = [TITLES["compare"], "", f"`{command}`: " + re.sub(r", [\d.]+ s:", ":", lines[-1]) + "."]
    marks = "the Rust's own | a stand-in's | the paper's |"
    out += ["", NAMES]
    rows = [re.fullmatch(r"  (\w+) +(\d+) +(\d+) +(\d+) +(\d+)", line) for line in lines]
    parts = [re.fullmatch(r"  (.+?) +(\d+) +(\d+) +(\d+)", line) for line, row in zip(lines, rows) if not row]
    out += ["", f"| Call | No. | {marks}", "|---|---|---|---|---|"]
    out += ["| " + " | ".join((r[1], r[2], *map(number, r.groups()[2:]))) + " |" for r in rows if r]
    out += ["", f"| Of accepted answers, of 37, of 39 and of 50 | {marks}", "|---|---|---|---|"]
    out += ["| " + " | ".join((p[1], *map(number, p.groups()[1:]))) + " |" for p in parts if p]
    out += ["", said(lines, "not reached")]
    return "\n".join(out) + "\n"


def orders(command, lines):
    out = [TITLES["orders"], "", f"`{command}`: " + re.sub(r", [\d.]+ s:", ":", lines[-1]) + "."]
    out += ["", "| Number | Lists with every premise met | refused after their first action |", "|---|---|---|"]
    rows = [re.fullmatch(r" +(\d+) +(\d+) +(\d+)", line) for line in lines]
    out += ["| " + " | ".join((r[1], number(r[2]), number(r[3]))) + " |" for r in rows if r]
    out += ["", '| Premise failed, alone | Lists | the answers differ | "newer" alone differs |', "|---|---|---|---|"]
    rows = [re.fullmatch(r"  (.+?) {2,}(\d+) +(\d+) +(\d+)", line) for line in lines]
    out += ["| " + " | ".join((r[1], *map(number, r.groups()[1:]))) + " |" for r in rows if r]
    out += ["", said(lines, "lists with several"), "", said(lines, "not reached")]
    return "\n".join(out) + "\n"


def robust(command, lines):
    return "\n".join([TITLES["robust"], "", f"`{command}`:", ""] + [f"- {line}" for line in lines if re.match(r"valgrind: |libFuzzer: ", line)]) + "\n"


kind, command = sys.argv[1:]
lines = []
for line in sys.stdin:
    sys.stdout.write(line)
    lines.append(line.rstrip("\n"))
text = file.read_text(encoding="utf-8") if file.is_file() else ""
found = {part.split("\n", 1)[0]: part for part in re.findall(r"^## .*?(?=^## |\Z)", text, re.M | re.S)}
parts = {name: found.get(title, title + "\n\nNot run.") for name, title in TITLES.items()}
parts[kind] = {"compare": compare, "orders": orders, "robust": robust}[kind](command, lines)
file.write_text(HEAD + "\n" + "\n".join(part.rstrip("\n") + "\n" for part in parts.values()), encoding="utf-8")
