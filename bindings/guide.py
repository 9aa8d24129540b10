#!/usr/bin/env python3
"""guide.py LANGUAGE FILE: writes the program that the pieces of one language in docs/GUIDE.md are, one after the other."""
import pathlib
import re
import sys

GUIDE = pathlib.Path(__file__).resolve().parent.parent / "docs" / "GUIDE.md"
AROUND = {
    "rust": ("use zakvind::*;\n\nfn main() -> Result<(), Box<dyn std::error::Error>> {\n", "Ok(())\n}\n"),
    "c": ("#include <zakvind.h>\n\n#include <assert.h>\n#include <stdio.h>\n\nint main(void)\n{\n", "return 0;\n}\n"),
}


def main():
    if len(sys.argv) != 3 or sys.argv[1] not in AROUND:
        print(__doc__, file=sys.stderr)
        return 2
    language, file = sys.argv[1:]
    pieces = re.findall(rf"^```{language}\n(.*?)^```$", GUIDE.read_text(encoding="utf-8"), re.M | re.S)
    before, after = AROUND[language]
    pathlib.Path(file).write_text(before + "\n".join(pieces) + after, encoding="utf-8")
    return 0 if pieces else 1


if __name__ == "__main__":
    sys.exit(main())
