#!/usr/bin/env python3
"""edges.py [PROGRAM]: tries ./zakvind and format/ at the edges. PROGRAM is the proved program, target/bin/zakvind if none is named.

The script is run in copies of the checkout with a stand-in for `rt`, so that a first run takes no minutes: its `try` and `run` hand out
PROGRAM, or what a test asks for. Where the real `rt` is at hand, its `try` is used once, so that what the script reads of it is tried too.
"""
import concurrent.futures
import os
import pathlib
import pty
import random
import re
import shutil
import struct
import subprocess
import sys
import tempfile
import time
import xml.dom.minidom

sys.dont_write_bytecode = True
root = pathlib.Path(__file__).resolve().parent.parent
sys.path[:0] = [str(root / "format"), str(root / "tests")]

import make_build_cases as builds  # noqa: E402
import make_convert_cases as converts  # noqa: E402
import make_groups_cases as nested  # noqa: E402
import make_read_cases as reads  # noqa: E402
import make_report_cases as reports  # noqa: E402
import make_write_cases as writes  # noqa: E402
from canonical import canonical, meaning  # noqa: E402
from convert import convert, converted, offsets  # noqa: E402
from generate import EXAMPLE, Accepted  # noqa: E402
from groups import open_groups  # noqa: E402
from layout import VERSIONS, longest, sections, single  # noqa: E402
from picture import picture  # noqa: E402
from printed import explained, words as words_for  # noqa: E402
from text import BadText, make, show  # noqa: E402
from verdict import Verdict  # noqa: E402
from walk import Walked  # noqa: E402

PROGRAM = pathlib.Path(sys.argv[1] if len(sys.argv) > 1 else root / "target/bin/zakvind").resolve()
SHEETS = root / "sheets"
room = box = None  # the folder of a run, and in it a copy of the checkout whose program is proved

RT = """#!/bin/bash
# stands in for rt, in the folder crates/zakvind that it is called in
case $1 in
try)
    [ -z "${TRY_FAILS-}" ] || exit 2
    [ -z "${TRIES-}" ] || echo x >>"$TRIES"
    "${TRIED-$PROGRAM}" "${@:3}"
    status=$?
    printf 'checked: ended status=%s\\nrun=ended status=%s runners=1 proved=no\\n' $status $status >&2
    exit $status
    ;;
run)
    cd ../.. || exit 2
    mkdir -p target
    mkdir target/busy || touch target/overlap
    echo x >>target/checks
    # as long as other first runs that are awaited have not come to their own
    for _ in {1..300}; do [ -n "${TRIES-}" ] && [ "$(wc -l <"$TRIES")" -lt 3 ] || break; sleep 0.1; done
    sleep 0.4
    rmdir target/busy
    [ -z "${CHECK_FAILS-}" ] || { echo 'logic=not-proved' >&2; exit 1; }
    mkdir -p crates/zakvind/out
    cp "$PROGRAM" crates/zakvind/out/zakvind
    echo 'rt: running out/zakvind' >&2
    echo sheet 2 0
    ;;
esac
"""
TOOLS = "awk basename bash cat cmp cp dirname env find flock grep head mkdir mktemp mv readlink rm rmdir sed sha256sum sleep sort tail tee touch tr wc"


def put_program(file, text):
    """Written by a process of its own: what other tests start at the same time would hold it open, and it could not be run then."""
    subprocess.run(["sh", "-c", 'cat >"$1" && chmod 755 "$1"', "sh", file], input=text.encode(), check=True)


def copy_program(source, target):
    subprocess.run(["cp", "--", source, target], check=True)


def stand_in(folder):
    folder.mkdir(parents=True)
    put_program(folder / "rt", RT)
    return folder


def tools(folder, *more):
    """A folder with the few tools that the script needs, for a PATH that lacks others."""
    folder.mkdir(parents=True)
    for name in (*TOOLS.split(), *more):
        found = shutil.which(name)
        if found:
            (folder / name).symlink_to(found)
    return folder


def checkout():
    """A copy of what the script needs, with nothing proved."""
    box = pathlib.Path(tempfile.mkdtemp(dir=room))
    box.chmod(0o755)
    copy_program(root / "zakvind", box)
    shutil.copytree(root / "format", box / "format", ignore=shutil.ignore_patterns("__pycache__"))
    (box / "crates/zakvind/src").mkdir(parents=True)
    (box / "crates/zakvind/src/main.rt").write_text("fn main\n")
    (box / "crates.txt").write_text("zakvind:\n")
    return box


def environment(path=None, **more):
    usual = f"{room}/rt:{os.path.dirname(sys.executable)}:{os.environ['PATH']}"
    return {**os.environ, "PROGRAM": str(PROGRAM), "PATH": path or usual, **{k: str(v) for k, v in more.items()}}


class Run:
    def __init__(self, box, *words, cwd=None, env=None, **how):
        how.setdefault("input", b"")
        if "stdin" in how:
            del how["input"]
        how = {"stdout": subprocess.PIPE, "stderr": subprocess.PIPE, **how}
        done = subprocess.run([str(box / "zakvind"), *map(os.fsencode, map(str, words))], cwd=cwd, env=env or environment(), timeout=120, **how)
        self.status, self.out, self.err = done.returncode, done.stdout, (done.stderr or b"").decode()

    def __repr__(self):
        return f"status {self.status}, output {self.out!r}, said {self.err!r}"


def program(data, *words, said=b""):
    """What the program prints; and it says so much to standard error."""
    done = subprocess.run([str(PROGRAM), *words], input=data, capture_output=True, check=True)
    assert done.stderr == said, done.stderr
    return done.stdout


def one_line(run, *words):
    """Status 2, nothing printed, and one sentence with these words."""
    assert run.status == 2 and not run.out and run.err.count("\n") == 1 and all(w in run.err for w in words), run


def usage(run, *words):
    assert run.status == 2 and not run.out and "usage: zakvind" in run.err and all(w in run.err.splitlines()[0] for w in words), run


def sheet(name):
    return (SHEETS / f"{name}.sheet").read_bytes()


VERBS = ("explain", "show", "make", "picture", "canonical", "to-2", "to-1", "same", "open")
STATUS = {"collection": 0, "usable": 0, "nothing-recorded": 0, "far-boxes": 0, "damaged": 1, "refused-build": 1, "rebuilt": 1}

# ---- the proved program


def test_program_verbs():
    for name in STATUS:
        data = sheet(name)
        assert program(data, "explain") == explained(data).encode()
        assert program(data, "explain").startswith(program(data)) and program(data)
        assert program(data, "canonical") == (b"" if Walked(data).refusal else canonical(data))
        for words in ([""], ["explai"], ["explainx"], ["canonica"], ["canonicalx"], ["x" * 100], ["explain", "explain"], ["canonical", ""]):
            assert program(data, *words) == b"", words
        for words in (["to-"], ["to-3"], ["to-2x"], ["to-1", ""], ["not-to-"], ["not-to-11"], ["not-to-2", "to-2"]):
            assert program(data, *words) == b"", words
    for data in some_sheets():
        for version in VERSIONS:
            text, why = in_version(version, data)
            assert program(data, f"to-{version}", said=b"" if why else f"written {len(text)}\n".encode()) == text
            assert program(data, f"not-to-{version}") == (why or "nothing is refused\n").encode()
    for data in some_groups():
        text, why = opened_slots(data)
        assert program(data, "open", said=b"" if why else f"written {len(text)}\n".encode()) == text
        assert program(data, "unopened") == (why or "nothing is refused\n").encode()
    for words in (["ope"], ["openx"], ["open", ""], ["unopene"], ["unopenedx"], ["unopened", "open"]):
        assert program(data, *words) == b"", words
    # what fills the buffer may be longer
    whole = long_groups()
    assert program(whole, "open", said=b"written 56\n") == whole[-56:]
    for verb in ("open", "unopened"):
        assert program(whole + b"\0", verb) == program(whole + bytes(100_000), verb) == b"", verb


# ---- sheets and statuses


def test_statuses():
    for name, status in STATUS.items():
        file = SHEETS / f"{name}.sheet"
        for words, answer in ((), program(sheet(name))), (("--explain",), program(sheet(name), "explain")):
            run = Run(box, *words, file)
            assert run.status == status and run.out.startswith(answer) and not run.err, (name, run)
            assert words or run.out == answer, run
        assert Run(box, "--show", file).status == status
        assert Run(box, "--picture", file).status == status


def test_several():
    files = [SHEETS / f"{n}.sheet" for n in ("usable", "damaged")]
    run = Run(box, *files)
    assert run.status == 1 and run.out == b"".join(f"{f}:\n".encode() + program(f.read_bytes()) for f in files), run
    run = Run(box, files[0], room / "none", files[1])
    assert run.status == 2 and run.out.count(b":\n") == 2 and run.err.count("\n") == 1, run


def test_standard_input():
    for words in ((), ("-",), ("--",), ("--", "-")):
        for name, status in (("usable", 0), ("damaged", 1)):
            run = Run(box, *words, input=sheet(name))
            assert run.status == status and run.out == program(sheet(name)) and not run.err, run
    run = Run(box)
    assert run.status == 1 and run.out == b"sheet 2 0\n", run
    run = Run(box, SHEETS / "usable.sheet", "-", "--explain", input=sheet("damaged"))
    assert run.status == 1 and run.out.endswith(b"there\n") and b"standard input:\nsheet 2 1998\n" in run.out, run
    usage(Run(box, "-", "-"), "only once")
    for words in ((), ("-",)):
        one_line(Run(box, *words, stdin=None, preexec_fn=lambda: os.close(0)), "cannot be read")
    folder = os.open(SHEETS, os.O_RDONLY)
    one_line(Run(box, stdin=folder), "cannot be read")
    os.close(folder)


def test_long_input():
    run = Run(box, "--explain", input=sheet("usable") + bytes(70_000))
    assert run.status == 1 and run.out.endswith(b"byte 223: 70000 bytes are after the sheet's end\n"), run
    with open("/dev/zero", "rb") as zeros:
        assert Run(box, stdin=zeros).out == b"sheet 1 0\n"
    run = Run(box, "--explain", input=sheet("usable") + bytes(2_000_000))
    assert run.out.endswith(b"byte 223: at least 1048353 bytes are after the sheet's end\n"), run


def test_options():
    usable = SHEETS / "usable.sheet"
    for words in (("--explain", usable), (usable, "--explain"), ("--explain", "--", usable), ("--explain", "--explain", usable)):
        run = Run(box, *words)
        assert run.status == 0 and run.out == program(sheet("usable"), "explain"), run
    for word in ("--explian", "-x", "--explain=1", "--picture1", "--to", "--to-3", "--to-2=x"):
        usage(Run(box, usable, word), "no option", word)
    usage(Run(box, "--show", "--explain", usable), "--show", "--explain")
    for word in ("--make", "--picture", "--canonical", "--to-2", "--to-1", "--open"):
        usage(Run(box, word, usable, usable), "one file")
    for names in ((), (usable,), (usable, usable, usable), ("-",)):
        usage(Run(box, "--same", *names), "two files")
    both = (("--to-2", "--to-1"), ("--canonical", "--to-2"), ("--to-1", "--same"))
    for words in (("--canonical", "--explain"), ("--same", "--canonical"), ("--make", "--same"), ("--same", "--show"), ("--open", "--make"), *both):
        usage(Run(box, *words, usable, usable), *words)
    usage(Run(box, "--same", "-", "-"), "only once")
    one_line(Run(box, "--", "--explain"), "--explain: there is no such file")
    for word in ("-h", "--help"):
        run = Run(box, word)
        assert run.status == 0 and run.out.startswith(b"usage: zakvind") and not run.err, run
        assert all(f"\n  --{verb} ".encode() in run.out for verb in VERBS), run


def test_unreadable():
    one_line(Run(box, room / "none"), "no such file")
    one_line(Run(box, SHEETS), "folder")
    for verb in VERBS:
        if verb != "same":
            one_line(Run(box, f"--{verb}", room / "none"), "no such file")
    file = pathlib.Path(tempfile.mkdtemp(dir=room)) / "kept.sheet"
    file.parent.chmod(0o755)
    file.write_bytes(sheet("usable"))
    file.chmod(0)
    one_line(Run(box, file, **as_nobody()), "may not be read")


def as_nobody():
    """Root may read and write everything, so what may not is tried as another user."""
    return {"preexec_fn": lambda: (os.setgroups([]), os.setgid(65534), os.setuid(65534))} if os.getuid() == 0 else {}


def test_output_lost():
    text = room / "lost.txt"
    text.write_text(EXAMPLE)
    for words in ((SHEETS / "usable.sheet",), ("--explain", SHEETS / "damaged.sheet"), ("--show", SHEETS / "usable.sheet")):
        with open("/dev/full", "wb") as full:
            run = Run(box, *words, stdout=full)
        assert run.status == 2 and run.err.count("\n") == 1 and "standard output" in run.err, run
    usable = SHEETS / "usable.sheet"
    file = room / "lost.groups"
    file.write_bytes(nested.data_of(nested.SMALL))
    opens = ("--open", file)
    written = (("--make", text), ("--canonical", usable), ("--to-2", usable), opens)
    for words in (("--picture", usable), ("--help",), (usable, usable), ("--same", usable, usable), *written):
        with open("/dev/full", "wb") as full:
            run = Run(box, *words, stdout=full)
        assert run.status == 2 and run.err.count("\n") == 1 and "standard output" in run.err, run
    for words in ((usable,), ("--same", usable, usable), *written):
        run = Run(box, *words, stdout=None, preexec_fn=lambda: os.close(1))
        assert run.status == 2 and run.err.count("\n") == 1, run


NAMES = ("-n.sheet", "--", "a b.sheet", "a\nb.sheet", "*.sheet", "$(x).sheet", "'\".sheet", "-", " ", "\\n", "a:b", "\udcff.sheet")


def test_odd_names():
    folder = pathlib.Path(tempfile.mkdtemp(dir=room))
    for name in NAMES:
        (folder / name).write_bytes(sheet("damaged"))
        for words in (("./" + name,), ("--", name)) if name != "-" else (("./-",),):
            run = Run(box, *words, cwd=folder)
            assert run.status == 1 and run.out == b"sheet 2 1998\n" and not run.err, (name, run)
    for name in NAMES[:4] + NAMES[-1:]:
        run = Run(box, "--show", "./" + name, cwd=folder)
        assert run.status == 1 and b"REFUSED 2" in run.out and not run.err, (name, run)
        run = Run(box, "--picture", "./" + name, cwd=folder)
        xml.dom.minidom.parseString(run.out)
    run = Run(box, "-n.sheet", "a\nb.sheet", cwd=folder)
    assert run.status == 1 and run.out.splitlines()[1::2] == [b"sheet 2 1998"] * 2 and len(run.out.splitlines()) == 4, run
    run = Run(box, "no\nsuch", cwd=folder)
    one_line(run, "no such file")


# ---- terminals


def on_terminal(*words, stdin=False, stdout=False):
    """What the script writes to a terminal, with standard input or standard output being it."""
    ours, theirs = pty.openpty()
    how = {"stdin": theirs if stdin else subprocess.DEVNULL, "stdout": theirs if stdout else subprocess.PIPE}
    p = subprocess.Popen([str(box / "zakvind"), *map(str, words)], env=environment(), stderr=subprocess.PIPE, **how)
    os.close(theirs)
    got = b""
    while True:
        try:
            some = os.read(ours, 65536)
        except OSError:
            break
        if not some:
            break
        got += some
    out, err = p.communicate(timeout=60)
    os.close(ours)
    run = Run.__new__(Run)
    run.status, run.out, run.err = p.returncode, (got.replace(b"\r\n", b"\n") if stdout else out), err.decode()
    return run


def test_terminal():
    run = on_terminal(SHEETS / "rebuilt.sheet", stdout=True)
    assert run.status == 1 and run.out == program(sheet("rebuilt"), "explain"), run
    run = on_terminal(SHEETS / "damaged.sheet", stdout=True)
    assert run.out.startswith(program(sheet("damaged"), "explain")) and b"byte 1998: slot 26, transform 6" in run.out, run
    assert Run(box, SHEETS / "rebuilt.sheet").out == program(sheet("rebuilt"))
    for words in ((), ("-",), ("--show",), ("--make",), ("--canonical",), ("--to-2",), ("--to-1",), ("--same", "-", SHEETS / "usable.sheet")):
        usage(on_terminal(*words, stdin=True), "no sheet", "terminal")
    usage(on_terminal("--open", stdin=True), "no card", "terminal")
    text = room / "terminal.txt"
    text.write_text(EXAMPLE)
    one_line(on_terminal("--make", text, stdout=True), "--make writes bytes")
    for verb in ("--canonical", "--to-2", "--to-1"):
        one_line(on_terminal(verb, SHEETS / "usable.sheet", stdout=True), f"{verb} writes bytes")
    one_line(on_terminal("--open", text, stdout=True), "--open writes bytes")
    assert on_terminal("--same", SHEETS / "usable.sheet", SHEETS / "usable.sheet", stdout=True).out == b"same\n"


# ---- first runs


def test_first_run():
    verbs = ((), ("--explain",), ("--show",), ("--picture",))
    for verb in verbs:
        own = checkout()
        file = SHEETS / "damaged.sheet"
        first = Run(own, *verb, file)
        assert first.status == 1 and "before their proofs" in first.err and "answers the same" in first.err, first
        later = Run(own, *verb, file)
        assert later.status == 1 and later.out == first.out and not later.err, later
    # one build serves all verbs
    assert not any(Run(own, *verb, file).err for verb in verbs) and (own / "target/checks").read_text() == "x\n"


def test_first_run_inputs():
    folder = pathlib.Path(tempfile.mkdtemp(dir=room))
    for name in ("-n.sheet", "a\nb.sheet"):
        (folder / name).write_bytes(sheet("damaged"))
        own = checkout()
        run = Run(own, name, cwd=folder)
        assert run.status == 1 and run.out == b"sheet 2 1998\n" and "answers the same" in run.err, run
    run = Run(checkout(), input=sheet("usable"))
    assert run.status == 0 and run.out == program(sheet("usable")) and "standard input: the proved program answers the same" in run.err, run


def test_two_first_runs():
    own = checkout()
    env = environment(TRIES=own / "tries")
    files = [SHEETS / "usable.sheet", SHEETS / "rebuilt.sheet", SHEETS / "usable.sheet"]
    started = [subprocess.Popen([own / "zakvind", f], env=env, stdout=subprocess.PIPE, stderr=subprocess.PIPE) for f in files]
    ended = [p.communicate(timeout=60) + (p.returncode,) for p in started]
    for f, (out, err, status) in zip(files, ended):
        assert out == program(f.read_bytes()) and status == STATUS[f.stem] and b"answers the same" in err, (out, err, status)
    assert not (own / "target/overlap").exists() and (own / "target/checks").read_text() == "x\n"
    assert not Run(own, files[0]).err


def test_broken_first_runs():
    usable = SHEETS / "usable.sheet"
    own = checkout()
    # the proofs fail: what was printed is not confirmed, and the next run does not take it for proved
    run = Run(own, usable, env=environment(CHECK_FAILS=1))
    assert run.status == 2 and "could not be proved" in run.err and "answers the same" not in run.err, run
    assert "before their proofs" in Run(own, usable).err and not Run(own, usable).err
    # sources changed since
    (own / "crates/zakvind/src/main.rt").write_text("fn main \n")
    assert "before their proofs" in Run(own, usable).err
    # another program in its place
    shutil.copy(shutil.which("true"), own / "target/bin/zakvind")
    assert "before their proofs" in Run(own, usable).err
    # what was proved elsewhere
    other = checkout()
    shutil.copytree(own / "target", other / "target")
    assert "before their proofs" in Run(other, usable).err
    # no answer before the proofs: the proved one is printed
    run = Run(checkout(), SHEETS / "damaged.sheet", env=environment(TRY_FAILS=1))
    assert run.status == 1 and run.out == b"sheet 2 1998\n" and "no answer before the proofs" in run.err, run
    # another answer before the proofs
    liar = room / "liar"
    put_program(liar, "#!/bin/sh\necho sheet 2 7\n")
    run = Run(checkout(), SHEETS / "damaged.sheet", env=environment(TRIED=liar))
    assert run.status == 2 and run.out.endswith(b"sheet 2 1998\n") and "answers otherwise" in run.err, run


def test_program_cut_short():
    own = checkout()
    cut = room / "cut"
    for text in ("", "build 0 0 0 0 0 0\\n", "sheet 2", "build 0 0 0 0 0 0\\nscratch 512\\nsubmit 0 0 0 0\\nnext 2", "nonsense\\n"):
        put_program(cut, f"#!/bin/sh\nprintf '{text}'\n")
        run = Run(own, SHEETS / "usable.sheet", env=environment(PROGRAM=cut, TRY_FAILS=1))
        assert run.status == 2 and not run.out and "no whole answer" in run.err, (text, run)
        shutil.rmtree(own / "target")


def test_nothing_to_prove_with():
    lacking = tools(room / "lacking", "python3")
    usable = SHEETS / "usable.sheet"
    one_line(Run(checkout(), usable, env=environment(path=str(lacking))), "rt, the Rattle toolchain")
    own = checkout()
    for folder in [own, *own.rglob("*")]:
        folder.chmod(0o555 if folder.is_dir() or folder.name == "zakvind" else 0o444)
    one_line(Run(own, usable, **as_nobody()), "may not be written")
    # proved before, it is only read
    own = checkout()
    Run(own, usable)
    for folder in [own, *own.rglob("*")]:
        folder.chmod(0o555 if folder.is_dir() or folder.name == "zakvind" else 0o444)
    run = Run(own, usable, env=environment(path=str(lacking)), **as_nobody())
    assert run.status == 0 and run.out == program(sheet("usable")) and not run.err, run
    # installed: no sources, the program beside the script
    own = checkout()
    shutil.rmtree(own / "crates")
    one_line(Run(own, usable), "the program is not there")
    (own / "bin").mkdir()
    copy_program(PROGRAM, own / "bin/zakvind")
    link = room / "link"
    link.symlink_to(own / "zakvind")
    done = subprocess.run([link, usable], stdout=subprocess.PIPE, check=True)
    assert done.stdout == program(sheet("usable"))


def test_no_python():
    lacking = environment(path=str(tools(room / "nopython")))
    run = Run(box, "--explain", SHEETS / "damaged.sheet", env=lacking)
    assert run.status == 1 and run.out == program(sheet("damaged"), "explain") and run.err.count("\n") == 1 and "Python 3" in run.err, run
    assert not Run(box, "--explain", SHEETS / "rebuilt.sheet", env=lacking).err
    assert not Run(box, SHEETS / "damaged.sheet", env=lacking).err
    for verb in ("--show", "--make", "--picture"):
        one_line(Run(box, verb, SHEETS / "usable.sheet", env=lacking), "Python 3", verb)


def really_tried(name):
    """A checkout whose program is tried by the real `rt`, and proved by the stand-in; none where `rt` is not at hand."""
    real = shutil.which("rt")
    if real is None:
        print("edges: rt is not at hand, so its `try` was not tried")
        return None
    own = checkout()
    shutil.rmtree(own / "crates")
    shutil.copytree(root / "crates", own / "crates", ignore=shutil.ignore_patterns("proofs", "must-fail", "stdin", "stdout", "out"))
    shutil.copy(root / "crates.txt", own)
    (room / name).mkdir()
    wrapper = room / name / "rt"
    put_program(wrapper, f'#!/bin/sh\n[ "$1" != try ] || exec {real} "$@"\nexec {room}/rt/rt "$@"\n')
    return own, environment(path=f"{room}/{name}:{os.environ['PATH']}")


def test_real_try():
    """What the real `rt try` prints is read as the program's answer, for the longest text."""
    began = time.monotonic()
    if tried := really_tried("real"):
        own, env = tried
        file = room / "largest.sheet"
        file.write_bytes(reports.largest())
        run = Run(own, "--explain", file, env=env)
        assert run.status == 0 and run.out == program(reports.largest(), "explain") and "answers the same" in run.err, run
        print(f"edges: a first answer by the real `rt try` took {time.monotonic() - began:.1f} s")


def test_real_try_of_slots():
    """And for opened slots, as many as there may be."""
    if tried := really_tried("real-slots"):
        own, env = tried
        data = nested.data_of(nested.doubled(10, [nested.slot(7)]))
        run = Run(own, "--open", env=env, input=data)
        assert run.status == 0 and run.out == opened_slots(data)[0] and len(run.out) == nested.FULL and "answers the same" in run.err, run


def test_real_try_of_bytes():
    """And for the bytes of the longest sheet."""
    if tried := really_tried("real-bytes"):
        own, env = tried
        data = writes.some_sheet(random.Random(14), writes.LIMITS).data()
        run = Run(own, "--canonical", env=env, input=data)
        assert run.status == 0 and run.out == canonical(data) and "answers the same" in run.err, run


def test_real_try_of_converted():
    """And for the bytes of the longest sheet in the other version."""
    if tried := really_tried("real-converted"):
        own, env = tried
        data = converted(writes.some_sheet(random.Random(15), writes.LIMITS).data())
        run = Run(own, "--to-1", env=env, input=data)
        assert run.status == 0 and run.out == converted(data) and "answers the same" in run.err, run


# ---- canonical sheets


def refused_line(run, status, *words):
    """Nothing printed, and for each refused sheet one line of these words."""
    lines = run.err.splitlines()
    assert run.status == status and not run.out and len(lines) == len(words) and all(w in line for w, line in zip(words, lines)), run


def refused_sheets():
    """A sheet of each refusal, and its words."""
    whole = sheet("usable")
    wide = reads.worked(2)
    return (
        (put(whole, 0, 1, 3), "refused 1: version neither 1 nor 2, byte 0: version is 3, may be 1 or 2"),
        (put(wide, 0, 1, 0), "refused 1: version neither 1 nor 2, byte 0: version is 0, may be 1 or 2"),
        (wide[:115], "refused 2: sheet ends early, byte 112: geometry 0, first has 8 bytes, of which 3 bytes are there"),
        (wide + b"\0", "refused 3: bytes after the sheet, byte 227: 1 byte is after the sheet's end"),
        (reads.at_limit(6, 257, 2), "refused 4: count above its limit, byte 56: count of geometries is 257, may be 0 to 256"),
        (put(wide, 128, 2, 65535), "refused 5: value outside its field, byte 128: geometry 0, buffer is 65535, may be 0 to 65534"),
        (b"", "refused 2: sheet ends early, byte 0: version has 1 byte, of which 0 bytes are there"),
        (whole[:20], "refused 2: sheet ends early, byte 15: buffer 0, size has 8 bytes, of which 5 bytes are there"),
        (whole + b"\0", "refused 3: bytes after the sheet, byte 223: 1 byte is after the sheet's end"),
        (reads.at_limit(1, 257), "refused 4: count above its limit, byte 13: count of buffers is 257, may be 0 to 256"),
        (put(whole, 23, 1, 9), "refused 5: value outside its field, byte 23: buffer 0, marks is 9, may be 0 to 3"),
    )


def test_canonical():
    choose = random.Random(12)
    for name in STATUS:
        run = Run(box, "--canonical", SHEETS / f"{name}.sheet")
        if name == "damaged":
            refused_line(run, 1, f"{name}.sheet: refused 2: sheet ends early, byte 1998: slot 26, transform 6")
        else:
            assert run.status == 0 and run.out == canonical(sheet(name)) and not run.err, run
    largest = [writes.some_sheet(choose, writes.LIMITS, version).data() for version in VERSIONS]
    for data in (*(random_sheet(choose, version) for version in VERSIONS for _ in range(15)), *largest):
        for words in ((), ("-",)):
            run = Run(box, "--canonical", *words, input=data)
            assert run.status == 0 and run.out == canonical(data) and not run.err, run
        assert Run(box, "--canonical", input=run.out).out == run.out
    for data, words in refused_sheets():
        refused_line(Run(box, "--canonical", input=data), 1, "standard input: " + words)
    # no part of a longer input is taken for a sheet
    for data in largest:
        for more in (1, 65_536 - len(data), 65_537 - len(data), 2_000_000):
            refused_line(Run(box, "--canonical", input=data + bytes(more)), 1, f"refused 3: bytes after the sheet, byte {longest(data[0])}")
    with open("/dev/zero", "rb") as zeros:
        refused_line(Run(box, "--canonical", stdin=zeros), 1, "refused 1")
    lacking = environment(path=str(tools(room / "plain")))
    refused_line(Run(box, "--canonical", input=sheet("damaged"), env=lacking), 1, "standard input: refused 2: sheet ends early, byte 1998")
    assert Run(box, "--canonical", SHEETS / "usable.sheet", env=lacking).out == canonical(sheet("usable"))
    one_line(Run(box, "--canonical", SHEETS), "folder")
    one_line(Run(box, "--canonical", stdin=None, preexec_fn=lambda: os.close(0)), "cannot be read")


def same(a, b, **how):
    """What --same says of two sheets in files, the first of which has an odd name."""
    folder = pathlib.Path(tempfile.mkdtemp(dir=room))
    (folder / "-a\nb.sheet").write_bytes(a)
    (folder / "b.sheet").write_bytes(b)
    return Run(how.pop("box", box), "--same", "./-a\nb.sheet", "b.sheet", cwd=folder, **how)


def test_same():
    choose = random.Random(13)
    some = [*writes.random_pairs(choose)][:60] + [*writes.order_pairs(choose)][:30] + [*writes.nan_pairs()][::5] + [*writes.draw_pairs()][::3]
    some += [*writes.random_pairs(choose, 2)][:30] + [*writes.first_pairs()][::4] + [*writes.version_pairs()]
    told = [0, 0]
    with concurrent.futures.ThreadPoolExecutor(2) as pool:
        for (a, b), run in zip(some, pool.map(lambda pair: same(*pair), some)):
            alike = meaning(a) == meaning(b)
            told[alike] += 1
            assert run.status == 1 - alike and run.out == (b"same\n" if alike else b"different\n") and not run.err, (a, b, run)
    assert min(told) > 20, told
    usable, damaged = SHEETS / "usable.sheet", SHEETS / "damaged.sheet"
    # a sheet and itself in the other version
    for name in ("usable", "collection", "nothing-recorded"):
        run = Run(box, "--same", SHEETS / f"{name}.sheet", "-", input=Run(box, "--to-2", SHEETS / f"{name}.sheet").out)
        assert run.status == 1 and run.out == b"different\n" and not run.err, run
    for words in ((usable, usable), (usable, "-"), ("-", usable), ("--", "-", usable)):
        run = Run(box, "--same", *words, input=sheet("usable"))
        assert run.status == 0 and run.out == b"same\n" and not run.err, run
    run = Run(box, usable, "--same", "-", input=sheet("collection"))
    assert run.status == 1 and run.out == b"different\n" and not run.err, run
    for data, words in refused_sheets():
        refused_line(Run(box, "--same", usable, "-", input=data), 2, "standard input: " + words)
        refused_line(Run(box, "--same", "-", usable, input=data), 2, "standard input: " + words)
        # two that are refused are not the same, whatever their bytes
        refused_line(Run(box, "--same", "-", damaged, input=data), 2, "standard input: " + words, "damaged.sheet: refused 2")
    refused_line(Run(box, "--same", damaged, damaged), 2, "refused 2", "refused 2")
    one_line(Run(box, "--same", usable, room / "none"), "no such file")
    one_line(Run(box, "--same", room / "none", usable), "no such file")
    refused_line(Run(box, "--same", SHEETS, room / "none"), 2, "folder", "no such file")
    refused_line(Run(box, "--same", room / "none", damaged), 2, "no such file", "refused 2")


def test_same_by_hand():
    """Leftovers and the order across Blases don't count, what is used and the order within a Blas does."""
    tables = reads.rich()
    whole = reads.sheet(tables)

    def with_declared(*order):
        return reads.sheet([*tables[:2], [tables[2][i] for i in order], *tables[3:]])

    def leftovers(data):
        for t in Walked(data).tables:
            for r in t.records:
                for f, at, name in single(t.section.fields):
                    if name in r.unused:
                        data = put(data, r.place + at, f.width, ~r.values[name])
        return data

    # rich has Blases 0, 1, 0
    for other, status in (
        (leftovers(whole), 0),
        (leftovers(with_declared(1, 0, 2)), 0),
        (with_declared(0, 2, 1), 0),
        (with_declared(2, 1, 0), 1),
        (put(leftovers(whole), 15, 1, whole[15] ^ 1), 1),
    ):
        run = same(whole, other)
        assert other != whole and run.status == status and run.out == (b"different\n" if status else b"same\n") and not run.err, run


def test_first_canonical():
    """Before the proofs, and what becomes of that answer."""
    usable, collection, damaged = (SHEETS / f"{n}.sheet" for n in ("usable", "collection", "damaged"))
    for words, status, out in (
        (("--canonical", collection), 0, canonical(sheet("collection"))),
        (("--canonical", damaged), 1, b""),
        (("--same", usable, usable), 0, b"same\n"),
        (("--same", usable, collection), 1, b"different\n"),
        (("--same", usable, damaged), 2, b""),
    ):
        own = checkout()
        first = Run(own, *words)
        assert first.status == status and first.out == out and "before their proofs" in first.err and "answers the same" in first.err, first
        later = Run(own, *words)
        assert later.status == status and later.out == out and later.err.count("\n") == (damaged in words), later
        # no answer before the proofs: the proved one is given
        run = Run(checkout(), *words, env=environment(TRY_FAILS=1))
        assert run.status == status and run.out == out and "no answer before the proofs" in run.err, run
        run = Run(checkout(), *words, env=environment(CHECK_FAILS=1))
        assert run.status == 2 and "could not be proved" in run.err, run
    # bytes that the proved program does not confirm are not followed by others
    liar = room / "other_bytes"
    put_program(liar, "#!/bin/sh\nhead -c $(wc -c) /dev/zero\n")
    run = Run(checkout(), "--canonical", usable, env=environment(TRIED=liar))
    assert run.status == 2 and run.out == bytes(len(sheet("usable"))) and "are not its answer" in run.err, run
    run = Run(checkout(), "--same", usable, usable, env=environment(TRIED=liar))
    assert run.status == 2 and run.out == b"same\n" * 2 and "answers otherwise" in run.err, run
    # a refusal that it does not confirm
    refuses = room / "refuses"
    put_program(refuses, "#!/bin/sh\n[ $1 = canonical ] || printf 'sheet 2 0\\nrefused 2: sheet ends early, byte 0\\n'\n")
    for words, out in ((("--canonical", usable), canonical(sheet("usable"))), (("--same", usable, usable), b"same\n")):
        run = Run(checkout(), *words, env=environment(TRIED=refuses))
        assert run.status == 2 and run.out == out and "answers otherwise, and this is its answer" in run.err, run


def test_canonical_cut_short():
    """Fewer bytes than the sheet has, more, or none with an answer that refuses no sheet: no answer."""
    cut = room / "cut_bytes"
    usable = SHEETS / "usable.sheet"
    for text in ("true", "head -c 222 /dev/zero", "head -c 224 /dev/zero", "[ $1 = canonical ] || printf 'build 6 0 0 0 0 0\\nrefused 6: id\\n'", "echo x"):
        put_program(cut, f"#!/bin/sh\n{text}\n")
        for words in (("--canonical", usable), ("--same", usable, usable)):
            run = Run(checkout(), *words, env=environment(PROGRAM=cut, TRY_FAILS=1))
            assert run.status == 2 and not run.out and "no whole answer" in run.err, (text, run)


# ---- sheets in the other version

FAR = "refused 47: first vertex or primitive offset above 2^32 - 1, byte 310: geometry 3, first is 5760000000, may be 0 to 4294967295"


def in_version(version, data):
    """A sheet's bytes in a version, and the line that refuses it."""
    (number, place, written), left = convert(version, data, bytes(65_536))
    return left[:written], words_for({2: 8, 1: 9}[version], number, place, 0, 0, 0, 0) if number else ""


def some_sheets():
    """Sheets of each answer of both ways."""
    choose = random.Random(16)
    whole = [data for data, _ in refused_sheets()] + [sheet(name) for name in STATUS] + [*converts.early_sheets()]
    return [*whole, *[*converts.far_sheets()][::7], *(converted(sheet(name)) for name in ("usable", "collection")), *converts.full_sheets(choose)]


def test_converted():
    some, told = some_sheets(), {}
    with concurrent.futures.ThreadPoolExecutor(2) as pool:
        for version in VERSIONS:
            for data, run in zip(some, pool.map(lambda data: Run(box, f"--to-{version}", input=data), some)):
                text, why = in_version(version, data)
                told.setdefault(version, set()).add(why.split(":")[0])
                if not why:
                    assert run.status == 0 and run.out == text and not run.err, run
                    back = Run(box, f"--to-{3 - version}", input=text)
                    assert back.status == 0 and back.out == data and not back.err, back
                    # what is printed is the same
                    assert program(text) == program(data) and program(text, "explain") == program(data, "explain")
                else:
                    # and the field is named behind the place
                    refused_line(run, 1, f"zakvind: standard input: {why[:-1]}: ")
    assert told == {2: {"", *(f"refused {n}" for n in range(1, 6))}, 1: {"", *(f"refused {n}" for n in (*range(1, 6), 47))}}, told


def test_converted_words():
    usable, far = SHEETS / "usable.sheet", SHEETS / "far-boxes.sheet"
    refused_line(Run(box, "--to-1", far), 1, f"zakvind: {far}: {FAR}")
    # the other way's version, whatever follows it, and versions that there are not
    for verb, data, words in (
        ("--to-2", far.read_bytes(), "refused 1: version not 1, byte 0: version is 2, may be 1"),
        ("--to-1", usable.read_bytes(), "refused 1: version not 2, byte 0: version is 1, may be 2"),
        ("--to-2", b"\2", "refused 1: version not 1, byte 0: version is 2, may be 1"),
        ("--to-1", b"\1\0\0", "refused 1: version not 2, byte 0: version is 1, may be 2"),
        ("--to-2", b"\3", "refused 1: version not 1, byte 0: version is 3, may be 1"),
        ("--to-1", b"\0" + far.read_bytes()[1:], "refused 1: version not 2, byte 0: version is 0, may be 2"),
        ("--to-2", b"", "refused 2: sheet ends early, byte 0: version has 1 byte, of which 0 bytes are there"),
        ("--to-1", b"", "refused 2: sheet ends early, byte 0: version has 1 byte, of which 0 bytes are there"),
        ("--to-1", far.read_bytes()[:-1], "refused 2: sheet ends early, byte 423: action 1, operand has 2 bytes, of which 1 byte is there"),
        ("--to-1", far.read_bytes() + b"\0", "refused 3: bytes after the sheet, byte 425: 1 byte is after the sheet's end"),
    ):
        refused_line(Run(box, verb, input=data), 1, f"zakvind: standard input: {words}")
    # the first that does not fit, of triangles and of boxes
    for firsts, at in (((2**32 - 1, 2**32 - 1, 2**32), 2), ((5, 2**32, 2**63), 1), ((2**64 - 1, 0, 0), 0)):
        data = reads.sheet(reads.rich(2, firsts), version=2)
        place = [place for place, _ in offsets(Walked(data))][at]
        words = f"byte {place}: geometry {at}, first is {firsts[at]}, may be 0 to 4294967295"
        refused_line(Run(box, "--to-1", input=data), 1, f"refused 47: first vertex or primitive offset above 2^32 - 1, {words}")
    # a name of two lines, a folder, nothing to read
    file = room / "a\nb.sheet"
    file.write_bytes(far.read_bytes())
    refused_line(Run(box, "--to-1", file), 1, f"\\nb.sheet': {FAR}")
    file.write_bytes(usable.read_bytes())
    for words in ((file,), ("--", file)):
        assert Run(box, "--to-2", *words).out == converted(usable.read_bytes())
    for verb in ("--to-2", "--to-1"):
        one_line(Run(box, verb, SHEETS), "folder")
        one_line(Run(box, verb, stdin=None, preexec_fn=lambda: os.close(0)), "cannot be read")
        with open("/dev/zero", "rb") as zeros:
            refused_line(Run(box, verb, stdin=zeros), 1, "refused 1: version not ")
    # no part of a longer input is taken for a sheet
    for data in converts.full_sheets(random.Random(17))[0:3:2]:
        for more in (1, 65_536 - len(data), 65_537 - len(data), 2_000_000):
            refused_line(Run(box, f"--to-{3 - data[0]}", input=data + bytes(more)), 1, f"refused 3: bytes after the sheet, byte {longest(data[0])}")
    # without Python the field is not named
    lacking = environment(path=str(tools(room / "convert-plain")))
    refused_line(Run(box, "--to-1", far, env=lacking), 1, f"zakvind: {far}: {FAR.rsplit(':', 1)[0]}")
    assert Run(box, "--to-1", far, env=lacking).err.endswith(" byte 310\n")
    assert Run(box, "--to-2", usable, env=lacking).out == converted(usable.read_bytes())


def test_first_converted():
    """Before the proofs, and what becomes of that answer."""
    usable, far = SHEETS / "usable.sheet", SHEETS / "far-boxes.sheet"
    for words, status, out in ((("--to-2", usable), 0, converted(sheet("usable"))), (("--to-1", far), 1, b""), (("--to-2", far), 1, b"")):
        own = checkout()
        first = Run(own, *words)
        assert first.status == status and first.out == out and "before their proofs" in first.err and "answers the same" in first.err, first
        later = Run(own, *words)
        assert later.status == status and later.out == out and later.err.count("\n") == status, later
        run = Run(checkout(), *words, env=environment(TRY_FAILS=1))
        assert run.status == status and run.out == out and "no answer before the proofs" in run.err, run
        run = Run(checkout(), *words, env=environment(CHECK_FAILS=1))
        assert run.status == 2 and "could not be proved" in run.err, run
    # bytes that the proved program does not confirm are not followed by others, a refusal is
    liar = room / "other_version"
    put_program(liar, "#!/bin/sh\nhead -c 227 /dev/zero\necho written 227 >&2\n")
    for words in (("--to-2", usable), ("--to-1", far)):
        run = Run(checkout(), *words, env=environment(TRIED=liar))
        assert run.status == 2 and run.out == bytes(227) and "are not its answer" in run.err, run
    put_program(liar, "#!/bin/sh\n[ $1 = to-2 ] || echo 'refused 2: sheet ends early, byte 0'\n")
    run = Run(checkout(), "--to-2", usable, env=environment(TRIED=liar))
    assert run.status == 2 and run.out == converted(sheet("usable")) and "answers otherwise, and this is its answer" in run.err, run
    # nor is one that the format does not find
    assert "program and format differ" in run.err, run


def test_converted_cut_short():
    """Other bytes than are said, bytes or a refusal without a word, words that refuse nothing: no answer."""
    cut = room / "cut_version"
    texts = ("true", "head -c 227 /dev/zero", "echo written 227 >&2", "echo written 0 >&2", "head -c 226 /dev/zero; echo written 227 >&2", "echo x >&2")
    words = ("printf 'refused 47: x'", "printf 'refused 2: x\nrefused 3: x\n'", "echo nothing is refused", "echo refused")
    for text in (*texts, *(f"[ $1 = to-2 ] || {w}" for w in words), "echo refused 2: x >&2", "head -c 227 /dev/zero; echo refused 2: x >&2"):
        put_program(cut, f"#!/bin/sh\n{text}\n")
        for env in (environment(PROGRAM=cut, TRY_FAILS=1), environment(PROGRAM=cut)):
            run = Run(checkout(), "--to-2", SHEETS / "usable.sheet", env=env)
            assert run.status == 2 and not run.out and "no whole answer" in run.err, (text, run)


# ---- groups of slots


def opened_slots(data):
    """The slots that a card opens to, and the line that refuses it."""
    (number, place, group, item, written), left = open_groups(data, bytes(nested.FULL))
    return left[:written], words_for(6, number, group if number > 44 else place, item, 0, 0, 0) if number else ""


def some_groups():
    """Cards of each answer, small and large."""
    small = nested.data_of(nested.SMALL)
    whole = [nested.data_of(groups) for groups in nested.whole()]
    return [*whole, b"", small[:1], small[:70], small[:-1], small + b"\0", nested.number(65), nested.number(0), *[*nested.damaged()][-40:]]


def long_groups(length=1048575):
    """A card so long, by default as long as one may be here: the last of three groups is a slot, and the one before is never named."""
    left = length - len(nested.data_of([[nested.slot(1)], [], [nested.slot(3)]]))
    slots = next(n for n in range(left // 56, 0, -1) if (left - 56 * n) % 3 == 0)
    data = nested.data_of([[nested.slot(1)], [nested.slot(2)] * slots + [0] * ((left - 56 * slots) // 3), [nested.slot(3)]])
    assert len(data) == length
    return data


def test_open():
    told = {}
    some = some_groups()
    with concurrent.futures.ThreadPoolExecutor(2) as pool:
        for data, run in zip(some, pool.map(lambda data: Run(box, "--open", input=data), some)):
            text, why = opened_slots(data)
            told[why.split(":")[0]] = told.get(why.split(":")[0], 0) + 1
            if why:
                refused_line(run, 1, f"zakvind: standard input: {why[:-1]}")
            else:
                assert run.status == 0 and run.out == text and not run.err, run
    assert sorted(told) == ["", *(f"refused {n}" for n in (2, 3, 4, 45, 46, 5))], told
    shipped = SHEETS / "nested.groups"
    run = Run(box, "--open", shipped)
    assert run.status == 0 and run.out == opened_slots(shipped.read_bytes())[0] and len(run.out) == 1064 and not run.err, run
    file = room / "a\nb.groups"
    file.write_bytes(nested.data_of(nested.NESTED))
    for words in ((file,), ("--", file)):
        run = Run(box, "--open", *words)
        assert run.status == 0 and run.out == opened_slots(file.read_bytes())[0] and not run.err, run
    file.write_bytes(nested.data_of(nested.SMALL)[:-1])
    refused_line(Run(box, "--open", file), 1, "\\nb.groups': refused 2: sheet ends early, byte ")
    one_line(Run(box, "--open", SHEETS), "folder")
    one_line(Run(box, "--open", stdin=None, preexec_fn=lambda: os.close(0)), "cannot be read")
    # neither Python nor a sheet is needed
    lacking = environment(path=str(tools(room / "open-plain")))
    run = Run(box, "--open", input=nested.data_of(nested.SMALL), env=lacking)
    assert run.status == 0 and run.out == opened_slots(nested.data_of(nested.SMALL))[0] and not run.err, run
    refused_line(Run(box, "--open", SHEETS / "usable.sheet", env=lacking), 1, "usable.sheet: refused 5: value outside its field, byte 4")


def test_open_long():
    """A card may be longer than any sheet; one that is longer than what is kept is not judged at all, and never by a part of it."""
    for n in (56_415, 56_416, 65_535, 65_536, 65_537, 100_000, 1_048_575):
        whole = long_groups(n)
        run = Run(box, "--open", input=whole)
        assert run.status == 0 and run.out == whole[-56:] and not run.err, run
        refused_line(Run(box, "--open", input=whole[:-1]), 1, f"refused 2: sheet ends early, byte {n - 4}")
        if n < 1_048_575:
            refused_line(Run(box, "--open", input=whole + b"\0"), 1, f"refused 3: bytes after the sheet, byte {n}")
    for data in (whole + b"\0", whole + bytes(1000), whole[:-56] + whole):
        one_line(Run(box, "--open", input=data), "standard input: is longer than the 1048575 bytes that this command takes", "the library takes any length")
        one_line(Run(checkout(), "--open", input=data), "is longer than the 1048575 bytes")
    with open("/dev/zero", "rb") as zeros:
        one_line(Run(box, "--open", stdin=zeros), "is longer than")


def test_first_open():
    """Before the proofs, and what becomes of that answer."""
    good, bad = room / "first.groups", room / "first-refused.groups"
    good.write_bytes(nested.data_of(nested.NESTED))
    bad.write_bytes(nested.data_of([[nested.slot(1)], [1]]))
    text = opened_slots(good.read_bytes())[0]
    for file, status, out in ((good, 0, text), (bad, 1, b"")):
        own = checkout()
        first = Run(own, "--open", file)
        assert first.status == status and first.out == out and "before their proofs" in first.err and "answers the same" in first.err, first
        assert ("refused 45: count 0, or a group that is not an earlier one, group 1, item 0\n" in first.err) == (file == bad), first
        later = Run(own, "--open", file)
        assert later.status == status and later.out == out and later.err.count("\n") == status, later
        run = Run(checkout(), "--open", file, env=environment(TRY_FAILS=1))
        assert run.status == status and run.out == out and "no answer before the proofs" in run.err, run
        run = Run(checkout(), "--open", file, env=environment(CHECK_FAILS=1))
        assert run.status == 2 and "could not be proved" in run.err, run
    # bytes that the proved program does not confirm are not followed by others, a refusal is
    liar = room / "other_slots"
    put_program(liar, "#!/bin/sh\nhead -c 112 /dev/zero\necho written 112 >&2\n")
    for file in (good, bad):
        run = Run(checkout(), "--open", file, env=environment(TRIED=liar))
        assert run.status == 2 and run.out == bytes(112) and "are not its answer" in run.err, run
    put_program(liar, "#!/bin/sh\n[ $1 = open ] || echo 'refused 2: sheet ends early, byte 0'\n")
    run = Run(checkout(), "--open", good, env=environment(TRIED=liar))
    assert run.status == 2 and run.out == text and "answers otherwise, and this is its answer" in run.err, run


def test_open_cut_short():
    """Other bytes than are said, bytes or a refusal without a word, words that refuse nothing: no answer."""
    cut, file = room / "cut_slots", room / "cut.groups"
    file.write_bytes(nested.data_of(nested.SMALL))
    texts = ("true", "head -c 56 /dev/zero", "echo written 56 >&2", "echo written 0 >&2", "head -c 56 /dev/zero; echo written 112 >&2", "echo x >&2")
    words = ("printf 'refused 2: x'", "printf 'refused 2: x\nrefused 3: x\n'", "echo nothing is refused", "echo refused")
    for text in (*texts, *(f"[ $1 = open ] || {w}" for w in words), "echo refused 2: x >&2", "head -c 56 /dev/zero; echo refused 2: x >&2"):
        put_program(cut, f"#!/bin/sh\n{text}\n")
        for env in (environment(PROGRAM=cut, TRY_FAILS=1), environment(PROGRAM=cut)):
            run = Run(checkout(), "--open", file, env=env)
            assert run.status == 2 and not run.out and "no whole answer" in run.err, (text, run)


# ---- words that name the field and the id


def put(data, at, width, value):
    return reads.put(data, at, width, value)


def words_of(data):
    run = Run(box, "--explain", input=data)
    assert run.status == 1 and not run.err, run
    lines = run.out.decode().splitlines()
    assert "\n".join(lines[:-1]) + "\n" == program(data, "explain").decode(), run
    return lines[-1]


def build_of(*edits):
    return reports.of(builds.changed(*edits), reports.ALL)


def wide_build(*edits):
    return reports.of(builds.as_version(2, builds.changed(*edits)), reports.ALL)


def test_field_words():
    whole = sheet("usable")
    wide = reads.worked(2)
    expected = (
        (put(whole, 0, 1, 3), "byte 0: version is 3, may be 1 or 2"),
        # its index buffer, none, stands where version 2 has the buffer
        (put(whole, 0, 1, 2), "byte 128: geometry 0, buffer is 65535, may be 0 to 65534"),
        (wide[:119], "byte 112: geometry 0, first has 8 bytes, of which 7 bytes are there"),
        (put(wide, 131, 1, 3), "byte 131: geometry 0, index format is 3, may be 0 to 2"),
        (put(wide, 163, 1, 2), "byte 163: slot 0, present is 2, may be 0 or 1"),
        (wide + b"\0", "byte 227: 1 byte is after the sheet's end"),
        (b"", "byte 0: version has 1 byte, of which 0 bytes are there"),
        (whole[:3], "byte 1: alignment has 4 bytes, of which 2 bytes are there"),
        (whole[:14], "byte 13: count of buffers has 2 bytes, of which 1 byte is there"),
        (whole[:20], "byte 15: buffer 0, size has 8 bytes, of which 5 bytes are there"),
        (whole + b"\0", "byte 223: 1 byte is after the sheet's end"),
        (whole + b"\0\0\0", "byte 223: 3 bytes are after the sheet's end"),
        (reads.at_limit(1, 257), "byte 13: count of buffers is 257, may be 0 to 256"),
        (reads.at_limit(9, 65), None),
        (put(whole, 1, 4, 0), "byte 1: alignment is 0, may be 1 to 4294967295"),
        (put(whole, 23, 1, 9), "byte 23: buffer 0, marks is 9, may be 0 to 3"),
        (put(whole, 26, 1, 2), "byte 26: blas 0, kind is 2, may be 0 or 1"),
        (put(whole, 56, 2, 7), "byte 56: declared 0, blas is 7, may be 0 only"),
        (put(whole, 66, 2, 0), "byte 66: declared 0, stride alignment is 0, may be 1 to 65535"),
        (put(whole, 76, 1, 1), "byte 76: tlas 0, flags is 1, may be 0 or 2"),
        (put(whole, 103, 2, 2), "byte 105: count of geometries is 1, the entries draw 2"),
        (put(whole, 124, 2, 65535), "byte 124: geometry 0, buffer is 65535, may be 0 to 65534"),
        (put(whole, 159, 1, 2), "byte 159: slot 0, present is 2, may be 0 or 1"),
        (put(whole, 217, 1, 5), "byte 217: action 0, kind is 5, may be 1 to 4"),
    )
    for data, words in expected:
        said = words_of(data)
        assert words is None or said == words, (said, words)
    no_blas = reads.sheet([[], [], [reads.record(3, 0, 0, 0, 0, 0, 1, 0, 0, 0)], [], [], [], [], [], []])
    assert words_of(no_blas) == "byte 19: declared 0, blas is 0, may be nothing, as there are no blases"


def test_id_words():
    expected = (
        (build_of(("geometries", 1, 4, 99)), "entry 0, geometry 1: buffer is 99, there are 4 buffers"),
        (build_of(("geometries", 0, 7, 4)), "entry 0, geometry 0: index buffer is 4, there are 4 buffers"),
        (build_of(("geometries", 2, 12, 7)), "entry 1, geometry 0: transform buffer is 7, there are 4 buffers"),
        (build_of(("entries", 1, 0, 3)), "entry 1: blas is 3, there are 3 blases"),
        (build_of(("slots", 2, 1, 7)), "package 0, slot 2: blas is 7, there are 3 blases"),
        (build_of(("packages", 1, 0, 2)), "package 1: tlas is 2, there are 2 tlases"),
        (reports.of(builds.base(), [(2, 65535)]), "action 0: its tlas is 65535, there are 2 tlases"),
        (reports.of(builds.base(), [(1, 0), (3, 9)]), "action 1: its blas is 9, there are 3 blases"),
        (wide_build(("geometries", 3, 4, 99), ("geometries", 3, 2, 2**40)), "entry 2, geometry 0: buffer is 99, there are 4 buffers"),
        (reports.of(dict({n: [] for n in builds.SECTIONS}, version=1, alignment=1), [(4, 0)]), "action 0: its tlas is 0, there are no tlases"),
    )
    for data, words in expected:
        assert words_of(data) == words, (words_of(data), words)


def sized(blas_sizes, tlas_sizes, alignment=1):
    """The sheet of a text: entries without geometries, each of a Blas of its own with such a scratch size, and so of packages and Tlases,
    each of which has one slot, of Blas 0. The ids run the other way, so that none is taken for the entry or the package."""
    lines = [f"alignment {alignment}", "counter 1"]
    lines += [f"blas: scratch {n}" for n in blas_sizes[::-1]] + [f"tlas: scratch {n}, most_instances 1" for n in tlas_sizes[::-1]]
    lines += [f"entry: blas {i}" for i in reversed(range(len(blas_sizes)))]
    lines += [line for i in reversed(range(len(tlas_sizes))) for line in (f"package: tlas {i}", f"    slot: blas 0, at {i} 0 0")]
    run = Run(box, "--make", input="\n".join([*lines, "action: kind build", ""]).encode())
    assert run.status == 0 and not run.err, run
    return run.out


TOP = 2**64 - 1
# what reaches 2^64 - 1: sizes of Blases and Tlases, the alignment, and what is named
REACHED = (
    (([TOP], [], 1), "entry 0"),
    (([7, TOP - 254, 0], [1], 256), "entry 1"),
    (([2**63, 5, 2**63 - 6, 9], [1, 1], 1), "entry 2"),
    (([2**63, 2**63], [TOP], 1), "entry 1"),
    (([2**58] * 64, [1], 256), "entry 63"),
    (([TOP - 1], [TOP - 1, 1], 1), "package 1"),
    (([0], [2**63, 2**63, 3], 1), "package 1"),
    (([3], [2**59] * 32, 1), "package 31"),
)


def test_scratch_words():
    """A build's 37 says at which entry or package, in numbers and in words; one less is accepted."""
    for sizes, named in REACHED:
        data = sized(*sizes)
        what, i = named.split()
        line = f"build 37 {i} 0 {1 if what == 'entry' else 2} 0 0\n"
        words = f"{line}refused 37: scratch 2^64 - 1, {named}\n"
        for verb, out in (((), line), (("--explain",), words)):
            run = Run(box, *verb, input=data)
            assert run.status == 1 and run.out.decode() == out and not run.err, (named, run)
        assert explained(data) == words
    run = Run(box, input=sized([2**63, 5, 2**63 - 7], [2**63, 2**63 - 2]))
    assert run.status == 0 and run.out.startswith(b"build 0 0 0 0 0 0\nscratch 18446744073709551614\nblas 2 0\n") and not run.err, run


def test_words_agree():
    """For recorded sheets and at random the format finds the field that the program refuses: Verdict raises where it does not."""
    named = 0
    for data in {*reads.cases(), *reports.cases()}:
        walked = Walked(data)
        verdict = Verdict(walked, explained(data))
        assert bool(verdict.named) == (1 <= verdict.number <= 6)
        named += bool(verdict.named)
    assert named > 1000
    choose = random.Random(5)
    for i in range(400):
        data = bytearray((build_of(), wide_build())[i % 2])
        for _ in range(choose.randint(1, 3)):
            data[choose.randrange(len(data))] = choose.choice((0, 1, 2, 3, 255))
        data = bytes(data[: choose.choice((len(data), len(data), choose.randrange(len(data)))) :])
        verdict = Verdict(Walked(data), program(data, "explain").decode())
        assert bool(verdict.named) == (1 <= verdict.number <= 6)


# ---- showing and making


def recorded():
    """Every sheet that is recorded in the crates' cases, and those that are shipped."""
    out = {f.read_bytes() for f in SHEETS.glob("*.sheet")} | set(reads.cases()) | set(reports.cases())
    (replayed,) = (root / "crates").glob("*replay*/stdin")
    data, at = replayed.read_bytes(), 0
    while struct.unpack_from("<I", data, at)[0] == 1:
        n = struct.unpack_from("<I", data, at + 4)[0]
        out.add(data[at + 8 : at + 8 + n])
        at += 8 + n
    return sorted(out, key=len)


def random_sheet(choose, version):
    """A sheet that is read, with every field random: whatever is unused has leftovers, floats are any bits."""

    def value(f, width, boxes):
        top = 256**width - 1
        what, *n = f.allowed
        if what == "any" or (boxes and f.used):
            return choose.choice((0, 1, top, choose.randint(0, top), choose.randint(0, 9)))
        return {
            "range": lambda: choose.randint(n[0], min(n[-1], top)),
            "at least": lambda: choose.randint(n[0], top),
            "one of": lambda: choose.choice(n),
            "except": lambda: choose.randint(0, 65534),
            "inside": lambda: choose.randrange(blases),
        }[what]()

    blases = choose.randint(1, 4)
    counts = {1: choose.randrange(4), 2: blases, 3: choose.randrange(5), 4: choose.randrange(3), 5: choose.randrange(4), 7: choose.randrange(4), 9: choose.randrange(5)}
    drawn = {5: [choose.randrange(3) for _ in range(counts[5])], 7: [choose.randrange(4) for _ in range(counts[7])]}
    counts[6], counts[8] = sum(drawn[5]), sum(drawn[7])
    tables, kinds = [], []
    for s in sections(version):
        rows = []
        for i in range(counts[s.number]):
            values = []
            boxes = False
            if s.number == 6:
                boxes = [r[1] == 1 for r, n in zip(tables[4], drawn[5]) for _ in range(n)][i]
            for f in s.fields:
                own = [value(f, f.width, boxes) for _ in range(f.times)]
                if f.draws:
                    own = [drawn[s.number][i]]
                values += own
                if s.number == 3 and f.name == "blas":
                    boxes = kinds[own[0]] == 1
            rows.append(values)
        if s.number == 2:
            kinds = [r[0] for r in rows]
        tables.append(rows)
    rows = [[reads.record(k, *r, version=version) for r in rows] for k, rows in enumerate(tables, 1)]
    return reads.sheet(rows, choose.randint(1, 2**32 - 1), choose.randint(0, 2**64 - 1), version)


def round_trip(data):
    """Whether a sheet is read, after it was shown and made again."""
    walked = Walked(data)
    text = show(walked, Accepted())
    if walked.refusal:
        return False
    made, refused = make(text)
    assert made == data and refused is None, text
    return True


def trips(part):
    sheets = recorded()[part::2]
    choose = random.Random(part)
    sheets += [random_sheet(choose, version) for version in VERSIONS for _ in range(100)]
    return sum(map(round_trip, sheets)), len(sheets)


def test_round_trips():
    with concurrent.futures.ProcessPoolExecutor(2) as pool:
        read, of = map(sum, zip(*pool.map(trips, range(2))))
    assert read > 3500, read
    print(f"edges: {of} sheets shown, {read} of them read, and made again byte for byte")


def test_show_and_make_by_script():
    for name, status in STATUS.items():
        shown = Run(box, "--show", SHEETS / f"{name}.sheet")
        assert shown.status == status and not shown.err, shown
        made = Run(box, "--make", input=shown.out)
        assert made.status == (name == "damaged") and (made.out == sheet(name) or name == "damaged"), made
    shown = Run(box, "--show", SHEETS / "usable.sheet", SHEETS / "usable.sheet")
    assert shown.out.count(b"# " + os.fsencode(SHEETS)) == 2


def shown(data):
    return show(Walked(data), Verdict(Walked(data), explained(data)))


def test_show_marks():
    whole = sheet("usable")
    assert "marks 9 (REFUSED 5: value outside its field, byte 23: buffer 0, marks is 9, may be 0 to 3)" in shown(put(whole, 23, 1, 9))
    assert "version 3 (REFUSED 1: version neither 1 nor 2, byte 0: version is 3, may be 1 or 2)" in shown(put(whole, 0, 1, 3))
    far = shown(sheet("far-boxes"))
    assert far.startswith("version 2\n") and "geometry 3: flags 1, count 80000000, first 5760000000, stride 24," in far and "REFUSED" not in far
    wide = wide_build(("geometries", 3, 2, 2**32), ("buffers", 2, 0, 2**32 + 479))
    assert "    # REFUSED 23: region overruns buffer, entry 2, geometry 0, offset 4294967296, region 480, size 4294967775\n    geometry 0:" in shown(wide)
    assert "marks 9 (REFUSED 5" in shown(put(wide, 23, 1, 9))
    assert "# REFUSED 4: byte 13: count of buffers is 257" in shown(reads.at_limit(1, 257))
    assert "# REFUSED 5: byte 105: count of geometries is 1, the entries draw 2" in shown(put(whole, 103, 2, 2))
    assert "# REFUSED 3: byte 223: 1 byte is after" in shown(whole + b"\0")
    assert "blas 7 (REFUSED 6: id outside its table, package 0, slot 2: blas is 7, there are 3 blases)" in shown(build_of(("slots", 2, 1, 7)))
    text = shown(sheet("refused-build")).splitlines()
    at = next(i for i, line in enumerate(text) if "# REFUSED 23: region overruns buffer, entry 0, geometry 0" in line)
    assert text[at + 1].lstrip().startswith("geometry 0:") and text[at - 1].startswith("entry 0:")
    text = shown(sheet("rebuilt")).splitlines()
    at = next(i for i, line in enumerate(text) if "# REFUSED 44" in line)
    assert text[at + 1].startswith("action 4:")
    for sizes, named in REACHED:
        data = sized(*sizes)
        run = Run(box, "--show", input=data)
        assert run.status == 1 and run.out.decode() == shown(data) and not run.err, run
        text = shown(data).splitlines()
        at = text.index(f"# REFUSED 37: scratch 2^64 - 1, {named}")
        assert text[at + 1].startswith(f"{named}:") and shown(data).count("REFUSED") == 1, (named, text)
    # words that leave open which it is mark the sheet, and no record
    verdict = Verdict(Walked(data), "build 37 1 0 0 0 0\nrefused 37: scratch 2^64 - 1, entry or package 1\n")
    assert show(Walked(data), verdict).startswith("# REFUSED 37: scratch 2^64 - 1, entry or package 1\n")
    assert show(Walked(data), verdict).count("REFUSED") == 1
    assert "blas 9 (outside: there are 3 blases)" in shown(build_of(("entries", 1, 0, 9), ("slots", 2, 1, 9)))
    assert "(unused)" in shown(build_of())
    # every record of every refused sheet that is marked is marked once
    for data in (whole[:n] for n in range(0, len(whole), 7)):
        assert shown(data).count("REFUSED 2") == 1, shown(data)


WRONG = (
    ("alignment 1\nbuffer: size 2, sise 3", "line 2: buffer has no field sise"),
    ("buffer: size 18446744073709551616", "line 1: size: 18446744073709551616 does not fit 8 bytes"),
    ("buffer: marks 256", "line 1: marks: 256 does not fit 1 byte,"),
    ("\n\nbuffer: size -1", "line 3: size: -1 is no number"),
    ("buffer: size 1.5", "line 1: size: 1.5 is no number"),
    ("buffer: marks BLAS", "line 1: marks: BLAS is no number, and none of BLAS_INPUT, destroyed"),
    ("blas: kind cubes", "line 1: kind: cubes is no number, and none of triangles, boxes"),
    ("buffer: size 1, size 1", "line 1: size is given twice"),
    ("counter 1\ncounter 1", "line 2: counter is given twice"),
    ("buffer: size", "line 1: size has 1 value, and 0 are given"),
    ("buffer 1: size 1", "line 1: buffer 1 stands where buffer 0 does"),
    ("entry: blas 0\ngeometry: count 1\ngeometry 2: count 1", "line 3: geometry 2 stands where geometry 1 does"),
    ("bufer: size 1", "line 1: bufer: begins no line"),
    ("buffer size 1", "line 1: buffer begins no line"),
    ("package: tlas 0\nslot: transform 1 2 3", "line 2: transform has 12 values, and 3 are given"),
    ("package: tlas 0\nslot: at 1 2", "line 2: at has 3 values, and 2 are given"),
    ("package: tlas 0\nslot: at 1 2 1e39", "line 2: transform: 1e39 is too large for a float32"),
    ("package: tlas 0\nslot: at 1 2 nan", "line 2: transform: nan is no number"),
    ("package: tlas 0\nslot: at 1 2 nan:3f800000", "line 2: transform: nan:3f800000 is no NaN"),
    ("buffer: size 1,\n", "line 2: the text ends after a comma"),
    ("buffer:\nbuffer: size 1, # more\n\n  marks 300", "line 4: marks: 300 does not fit 1 byte"),
    ("buffer: size 1,, marks 1", "line 1: nothing stands before a comma"),
    ("alignment 1, counter 1", "line 1: alignment has 1 value, and 3 are given"),
    (": size 1", "line 1: : begins no line"),
    ("buffer: size 1 (a (b))", "line 1: a remark"),
    ("geometry: buffer none", "line 1: buffer: none is no number"),
    ("declared: blas 65536", "line 1: blas: 65536 does not fit 2 bytes"),
    ("entry: kind boxes\ngeometry: count 1,\n  first 4294967296", "line 3: first: 4294967296 does not fit 4 bytes, which hold 0 to 4294967295; in version 2 there are 8"),
    ("entry:\ngeometry: first 0x100000000\nversion 1", "line 2: first: 4294967296 does not fit 4 bytes"),
    ("version 2\nentry:\ngeometry: first 18446744073709551616", "line 3: first: 18446744073709551616 does not fit 8 bytes, which hold 0 to 18446744073709551615"),
    ("version 256", "line 1: version: 256 does not fit 1 byte"),
    ("version 2\nversion 2", "line 2: version is given twice"),
    ("version two", "line 1: version: two is no number"),
)


def test_make_errors():
    for text, words in WRONG:
        try:
            made = make(text)
        except BadText as e:
            line, what = e.args
            assert f"line {line}: {what}".startswith(words), (e.args, words)
        else:
            raise AssertionError((text, made))
    run = Run(box, "--make", input=WRONG[0][0].encode())
    one_line(run, "standard input: line 2: buffer has no field sise")
    one_line(Run(box, "--make", input=b"\xff"), "byte 0 is not text")
    one_line(Run(box, "--make", input=b"alignment 1\n" + b"# long\n" * 200_000), "longer than")
    # what the reader refuses is made, and said
    run = Run(box, "--make", input=b"alignment 1\nbuffer: size 36,\n  marks 9\n")
    assert run.status == 1 and Walked(run.out).refusal[:2] == (5, 23) and "line 3: marks is 9, may be 0 to 3: the sheet is made, and is refused by 5" in run.err, run
    run = Run(box, "--make", input=b"counter 1\n")
    assert run.status == 1 and "alignment is 0" in run.err, run
    run = Run(box, "--make", input=b"alignment 1\nversion 3\n")
    assert run.status == 1 and run.out[0] == 3 and "line 2: version is 3, may be 1 or 2: the sheet is made, and is refused by 1" in run.err, run


def test_make_of_anything():
    """Whatever the text, it is made or what is wrong with it has a line."""
    choose = random.Random(8)
    pieces = list("abcxyz019 :,()#/+-._\n\t") + ["buffer", "slot:", "none", "nan:", "0x", "1e5", "transform", "at", "\u00b2", "\0", "65536", "index_buffer"]
    made = 0
    for _ in range(1500):
        text = EXAMPLE
        for _ in range(choose.randint(1, 4)):
            at = choose.randrange(len(text))
            text = text[:at] + choose.choice(pieces) + text[at + choose.choice((0, 1, 1, 5)) :]
        try:
            data, refused = make(text)
        except BadText as e:
            assert 1 <= e.args[0] <= text.count("\n") + 1, text
        else:
            made += 1
            assert (Walked(data).refusal is None) == (refused is None), text
    assert 30 < made < 1400, made


def test_make_by_hand():
    data, refused = make(EXAMPLE)
    assert refused is None and program(data) == program(sheet("usable"))
    same = "version 1\nalignment 0x100 # a comment\ncounter 1\n" + EXAMPLE.split("counter 1\n")[1].replace("size 36", "size 3_6 (a remark)").replace("BLAS_INPUT", "1")
    assert make(same)[0] == data
    # either version, wherever it says so
    for text in (f"version 2\n{EXAMPLE}", f"{EXAMPLE}version 2\n"):
        assert make(text) == (converted(data), None)
    far = make(f"version 2\n{EXAMPLE}".replace("stride 12, buffer", "stride 12, first 18446744073709551615, buffer"))[0]
    assert Walked(far).tables[5].records[0].values["first"] == 2**64 - 1 and len(far) == len(data) + 4
    # present bytes follow from what is given, and can be given
    base = "alignment 1\nblas: kind triangles\n"
    for text, expected in (("index_count 0", (1, 0)), ("", (0, 0)), ("index_count_present 0, index_count 7", (0, 7))):
        walked = Walked(make(base + f"declared: blas 0, {text + ',' if text else ''} stride_alignment 1")[0])
        values = walked.tables[2].records[0].values
        assert (values["index_count_present"], values["index_count"]) == expected and walked.refusal is None, (text, values)
    slots = Walked(make("alignment 1\npackage: tlas 0\nslot:\nslot: blas 0\nslot: present 0, mask 7")[0]).tables[7].records
    assert [r.values["present"] for r in slots] == [0, 1, 0]
    geometries = Walked(make("alignment 1\nentry: kind boxes\ngeometry: count 1\nentry: kind triangles\ngeometry: count 1")[0]).tables[5].records
    assert [r.values["index_buffer"] for r in geometries] == [0, 65535]


# ---- pictures


def drawing(data):
    walked = Walked(data)
    text = picture(walked, Verdict(walked, explained(data)), "a <b>&.sheet")
    dom = xml.dom.minidom.parseString(text)
    for node in dom.getElementsByTagName("*"):
        for name, value in node.attributes.items() if node.attributes else ():
            assert not re.search(r"\bnan\b|\binf\b", value), (name, value)
            if name in ("points", "x", "y", "x1", "x2", "y1", "y2", "cx", "cy", "width", "height"):
                assert all(abs(float(n)) <= 2e5 for n in re.findall(r"-?\d[\d.e+-]*", value)), (name, value)
    return text


def bits(x):
    return struct.unpack("<I", struct.pack("<f", x))[0]


def test_pictures():
    text = drawing(sheet("collection"))
    assert text.count("<polygon") == 37 and "Blas 3: boxes, 2 instances" in text and "nothing is refused" in text and "#c62828" not in text
    text = drawing(sheet("rebuilt"))
    assert "refused 44: Blas newer" in text and "Tlas 1 (package 1), 4 instances, refused" in text and text.count('stroke="#c62828"') == 2
    assert "refused 23" in drawing(sheet("refused-build")) and "Blas 0: triangles, 16 instances, refused" in drawing(sheet("refused-build"))
    assert "byte 1998: slot 26" in drawing(sheet("damaged"))
    for sizes, named in REACHED:
        data = sized(*sizes)
        run = Run(box, "--picture", input=data)
        assert run.status == 1 and f"scratch 2^64 - 1, {named}<".encode() in run.out and not run.err, run
        text = drawing(data)
        what, i = named.split()
        id = len(sizes[what == "package"]) - 1 - int(i)
        red = f"Blas {id}: triangles, {0 if id else len(sizes[1])} instances" if what == "entry" else f"Tlas {id} (package {i}), 1 instances"
        assert f"refused 37: scratch 2^64 - 1, {named}<" in text and text.count(", refused<") == 1 and f"{red}, refused<" in text, (named, text)
    text = drawing(build_of(("slots", 2, 1, 7)))
    assert "package 0, slot 2: blas is 7" in text and "Blas 7: outside the table" in text and "#c62828" in text
    assert "far off" not in text
    # a refused count names no Blas
    assert "Blas -1" not in drawing(reads.at_limit(2, 129)) and "Blas -1" not in drawing(reads.at_limit(2, 1)[:16])
    assert "refused 1: version neither" in drawing(put(sheet("usable"), 0, 1, 3))
    assert drawing(sheet("far-boxes")).count("<polygon") == 1 and drawing(converted(sheet("collection"))) == drawing(sheet("collection"))
    assert "refused 23" in drawing(wide_build(("geometries", 3, 2, 2**63)))
    # transforms that are no numbers, or far from all others
    x = builds.base()
    odd = (0x7FC00001, 0x7F800000, 0xFF800000, bits(3e38), bits(-3e38), 1, 0x80000000)
    for k, value in enumerate(odd):
        for field in range(4, 16):
            x["slots"] = [[1, 0, k, 255, *map(bits, (1, 0, 0, n, 0, 1, 0, 2 * n, 0, 0, 1, 0))] for n in range(4)]
            x["slots"][2][field] = value
            x["packages"], x["tlases"][0][3] = [[0, 4]], 9
            text = drawing(reports.of(x, reports.ALL))
            seen = text.count("<polygon") + text.count("not drawn")
            assert seen == 4, (k, field, text)
    choose = random.Random(3)
    for i in range(80):
        drawing(random_sheet(choose, VERSIONS[i % 2]))
    for data in recorded()[::40]:
        drawing(data)


def main():
    global box
    began = time.monotonic()
    room.chmod(0o755)
    stand_in(room / "rt")
    box = checkout()
    first = Run(box, SHEETS / "usable.sheet")
    assert first.status == 0 and first.out == program(sheet("usable")), first
    tests = [(name, test) for name, test in globals().items() if name.startswith("test_")]
    failed = 0
    with concurrent.futures.ThreadPoolExecutor(4) as pool:
        for name, done in [(name, pool.submit(test)) for name, test in tests]:
            if done.exception():
                failed += 1
                print(f"edges: {name} FAILED: {type(done.exception()).__name__}: {str(done.exception())[:2000]}")
    print(f"edges: {len(tests) - failed} passed, {failed} failed ({time.monotonic() - began:.1f} s)")
    return 1 if failed else 0


if __name__ == "__main__":
    if not PROGRAM.is_file():
        sys.exit(f"edges: {PROGRAM} is not there: ./zakvind of a sheet makes it")
    room = pathlib.Path(tempfile.mkdtemp(prefix="edges."))
    try:
        status = main()
    finally:
        subprocess.run(["chmod", "-R", "u+w", room], check=False)
        shutil.rmtree(room, ignore_errors=True)
    sys.exit(status)
