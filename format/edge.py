#!/usr/bin/env python3
"""What ./zakvind asks of Python, over kept files:

    edge.py words       SHEET ANSWER NAME           the line that names the refused field or id, for a refusal of 1 to 6
    edge.py unconverted SHEET ANSWER NAME VERSION   the same of a sheet that is not converted to VERSION, for 1 to 5 and 47
    edge.py show        SHEET ANSWER NAME           the sheet as text
    edge.py picture     SHEET ANSWER NAME           the sheet from above, as SVG
    edge.py make        TEXT OUT NAME               the sheet of a text

ANSWER has what the program printed for the sheet with its words; of `unconverted` those words alone. NAME is what to call the file. Status 0;
1: `make` made a sheet that its reader refuses; 2: what is wrong is said in one line on standard error.
"""
import sys

sys.dont_write_bytecode = True

from text import BadText, make, show  # noqa: E402
from verdict import Disagreement, Verdict, unconverted  # noqa: E402
from walk import Walked  # noqa: E402


MOST = 1_048_576  # bytes that ./zakvind keeps of an input


def content(path):
    with open(path, "rb") as file:
        return file.read()


def say(name, words):
    printable = "".join(c if c.isprintable() else repr(c)[1:-1] for c in name)
    print(f"zakvind: {printable}: {words}", file=sys.stderr)


def make_sheet(text_file, out, name):
    try:
        text = content(text_file).decode("utf-8")
    except UnicodeDecodeError as e:
        say(name, f"byte {e.start} is not text in UTF-8")
        return 2
    try:
        data, refused = make(text)
    except BadText as e:
        line, words = e.args
        say(name, f"line {line}: {words}")
        return 2
    with open(out, "wb") as file:
        file.write(data)
    if refused is None:
        return 0
    line, number, words = refused
    say(name, (f"line {line}: " if line else "") + f"{words}: the sheet is made, and is refused by {number}")
    return 1


def looked_at(verb, walked, answer, name, *version):
    if verb == "unconverted":
        return unconverted(walked, int(*version), answer) + "\n"
    verdict = Verdict(walked, answer)
    if verb == "words":
        return verdict.named + "\n" if verdict.named else ""
    if verb == "show":
        return show(walked, verdict)
    from picture import picture

    return picture(walked, verdict, name)


def look(verb, sheet, answer, name, *version):
    data = content(sheet)
    try:
        text = looked_at(verb, Walked(data, is_cut=len(data) >= MOST), content(answer).decode(), name, *version)
    except Disagreement as e:
        say(name, f"program and format differ: {e}")
        return 2
    sys.stdout.buffer.write(text.encode("utf-8"))
    sys.stdout.buffer.flush()
    return 0


def main():
    verb, *rest = sys.argv[1:]
    if verb == "make":
        return make_sheet(*rest)
    if verb in ("words", "unconverted", "show", "picture"):
        return look(verb, *rest)
    print(__doc__, file=sys.stderr)
    return 2


if __name__ == "__main__":
    try:
        sys.exit(main())
    except Exception as e:  # whatever it is, there is no answer, and one line says so
        say("format/edge.py", f"{type(e).__name__}: {e}")
        sys.exit(2)
