#!/usr/bin/env python3
"""Makes everything that is generated anew, in a temporary place, and says what differs from what is there; with --write it is put there.

Generated are the cases of crates/cases_*, by tests/make_*_cases.py; the sheets; what crates/zakvind is run on; docs/FORMAT.md and whatever
else format/generate*.py make; the picture in docs/.
"""
import concurrent.futures
import pathlib
import shutil
import subprocess
import sys
import tempfile

sys.dont_write_bytecode = True
root = pathlib.Path(__file__).resolve().parent.parent
sys.path[:0] = [str(root / "format"), str(root / "tests")]

from picture import picture  # noqa: E402
from printed import explained  # noqa: E402
from verdict import Verdict  # noqa: E402
from walk import Walked  # noqa: E402


def run(where, script, *words):
    """What a script says, if it fails."""
    done = subprocess.run([sys.executable, "-B", where / script, *words], stdout=subprocess.PIPE, stderr=subprocess.STDOUT)
    return f"{script} failed:\n{done.stdout.decode()}" if done.returncode else ""


def of_sheet(name):
    """What is made of a shipped sheet and its answer."""
    data = (root / f"sheets/{name}.sheet").read_bytes()
    walked = Walked(data)
    return data, explained(data), picture(walked, Verdict(walked, explained(data)), f"{name}.sheet")


def small():
    """The path and the bytes of what is made here."""
    data, answer, _ = of_sheet("rebuilt")
    yield "crates/zakvind/stdin", data
    yield "crates/zakvind/stdout", answer.encode()
    yield "crates/zakvind/args", b"explain\n"
    yield "docs/collection.svg", of_sheet("collection")[2].encode()


def made(place):
    """The paths and bytes of the cases that the scripts make, in a copy of what they need; and what went wrong."""
    for folder in ("tests", "format"):
        shutil.copytree(root / folder, place / folder, ignore=shutil.ignore_patterns("__pycache__"))
    for crate in (root / "crates").iterdir():
        (place / "crates" / crate.name).mkdir(parents=True)
    scripts = sorted(f"tests/{f.name}" for f in (root / "tests").glob("make_*_cases.py"))
    with concurrent.futures.ThreadPoolExecutor(2) as pool:
        faults = list(filter(None, pool.map(lambda s: run(place, s), scripts)))
    files = [f for f in sorted((place / "crates").rglob("*")) if f.is_file()]
    if len(files) != 2 * len(scripts):
        faults.append(f"{len(scripts)} scripts made {len(files)} files")
    return {str(f.relative_to(place)): f.read_bytes() for f in files}, faults


def main():
    write = sys.argv[1:] == ["--write"]
    if sys.argv[1:] and not write:
        sys.exit("usage: generated.py [--write]")
    own = () if write else ("--check",)
    others = ["sheets/make.py", *sorted(f"format/{f.name}" for f in (root / "format").glob("generate*.py"))]
    faults = list(filter(None, (run(root, s, *own) for s in others)))
    with tempfile.TemporaryDirectory() as place:
        files, wrong = made(pathlib.Path(place))
    files |= dict(small())
    for path, data in files.items():
        file = root / path
        if write:
            file.write_bytes(data)
        elif not file.is_file() or file.read_bytes() != data:
            wrong.append(f"{path} is not what is made")
    for fault in faults + wrong:
        print(f"generated: {fault}")
    print(f"generated: {len(files)} files and {len(others)} scripts, {len(faults + wrong)} faults")
    sys.exit(1 if faults or wrong else 0)


if __name__ == "__main__":
    main()
