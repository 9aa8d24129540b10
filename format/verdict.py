"""What the proved program said of a sheet, joined with the format: which record and field a refusal is about, and the words for them."""
import re

from refusals import CAUSES
from walk import conversion_refusal, missing_of_action, missing_of_build, missing_words, refusal_words


class Disagreement(Exception):
    """The format reads the sheet otherwise than the program did."""


def unconverted(walked, version, words):
    """The words with the field's name for a sheet that the program does not convert to a version, by the program's own words."""
    own = conversion_refusal(walked, version)
    said = re.fullmatch(r"refused (\d+): .*, byte (\d+)", words.strip())
    if not said or not own or (int(said[1]), int(said[2])) != (own.number, own.place):
        raise Disagreement(f"the program says {words.strip()}, the format {own and refusal_words(own)}")
    return refusal_words(own)


class Verdict:
    """The program's lines with its words (`explain`), over the sheet as it was walked."""

    def __init__(self, walked, text):
        self.walked, self.lines = walked, text.splitlines()
        self.words = self.lines[-1] if self.lines else ""
        self.what, self.number, self.figures = self.refused_line()
        self.place = None  # (section, record, field or nothing) of what is refused
        self.named = ""  # the words with the field's or the id's name, for 1 to 6
        self.find()

    def refused_line(self):
        for line in self.lines:
            what, *numbers = line.split()
            if what in ("sheet", "build", "submit") and numbers[0] != "0":
                return what, int(numbers[0]), [int(n) for n in numbers[1:]]
        return "", 0, []

    def find(self):
        own = self.walked.refusal
        said = (self.number, self.figures[0]) if self.what == "sheet" else None
        if said != (own and (own.number, own.place)):
            raise Disagreement(f"the program says {self.lines[:1]}, the format {own and refusal_words(own)}")
        if own:
            self.place, self.named = (own.section, own.record, own.name), refusal_words(own)
        elif self.number == 6:
            self.find_id()
        elif self.what == "build":
            self.place = self.build_place()
        elif self.what == "submit":
            self.place = (9, self.figures[0], "")

    def find_id(self):
        action = self.what == "submit"
        missing = missing_of_action(self.walked, self.figures[0]) if action else missing_of_build(self.walked)
        if missing is None or (not action and missing.e != tuple(self.figures[:2])):
            raise Disagreement(f"the program says {' '.join(self.lines[:1])}, the format finds {missing}")
        self.place = (missing.section, missing.record, missing.name)
        self.named = missing_words(missing, self.walked.count_of(missing.of))

    def build_place(self):
        """The record that the program's words name, counted in its section; none where they leave open which of two it is."""
        found = re.search(r"(?<!or )(entry|package) (\d+)(?:, (geometry|slot) (\d+))?", self.words)
        if not found:
            return (0, -1, "")
        number, i = (5, int(found[2])) if found[1] == "entry" else (7, int(found[2]))
        if not found[3]:
            return (number, i, "")
        name = "geometry_count" if number == 5 else "slot_count"
        before = sum(r.values[name] for r in self.walked.tables[number - 1].records[:i])
        return (number + 1, before + int(found[4]), "")

    def is_of_field(self):
        """Whether a field that can be shown is refused: 2 is of one that is not whole, 3 of none, 4 of a count."""
        section, record, name = self.place
        return self.number in (1, 5, 6) and name != "" and (record >= 0 or section == 0)

    def mark_of(self, section, record, name):
        """What is refused of this field, if it is."""
        if self.number == 0 or not self.is_of_field() or self.place != (section, record, name):
            return ""
        return f"{self.number}: {CAUSES[self.number].words}, {self.named}"

    def marks_of(self, section, record):
        """What is refused of this record as a whole, or with record -1 of this section's count or the sheet, if it is."""
        if self.number and not self.is_of_field() and self.place[:2] == (section, record):
            yield f"{self.number}: {self.named or self.words.partition(': ')[2]}"

    def named_ids(self):
        """The Blases and Tlases that the program's words for a refused action name."""
        return re.findall(r", (Blas|Tlas) (\d+)", self.words)
