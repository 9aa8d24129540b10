"""A sheet from above, as SVG: for each package its Tlas with the instances where their transforms put them, x to the right and y up.

A sheet has no extents, so each instance is drawn as a square of one size, by the part of its transform that stays on the floor; a line
from its middle points where its own x does. What is refused is said at the top and drawn in red.
"""
import math
from collections import Counter
from statistics import median
from xml.sax.saxutils import escape

import floats
from layout import KINDS

WIDE, TALL, MARGIN, LINE = 860, 400, 24, 18
SQUARE = 34  # the most that a square's side is drawn at
RED = "#c62828"
INK = "#263238"
FAR = 50  # times as far off as half of the others are: not drawn
LIMIT = 1e5  # of a place on the page


class Instance:
    def __init__(self, slot, i, r):
        m = [floats.value_of(r.values[f"transform_{k}"]) for k in range(12)]
        self.slot, self.record, self.blas = slot, i, r.values["blas"]
        self.x, self.y = m[3], m[7]
        self.across, self.up = (m[0], m[4]), (m[1], m[5])
        self.is_finite = all(map(math.isfinite, (m[0], m[1], m[3], m[4], m[5], m[7])))


def instances(walked, i):
    """The present slots of package i that are whole, by their positions in it."""
    packages, slots = records(walked, 7), records(walked, 8)
    start = sum(r.values.get("slot_count", 0) for r in packages[:i])
    own = slots[start : start + packages[i].values.get("slot_count", 0)]
    return [Instance(j, start + j, r) for j, r in enumerate(own) if "transform_11" in r.values and r.values["present"]]


def near(drawn):
    """Those that are not far from the rest, and those that are."""
    if not drawn:
        return [], []
    x, y = median(d.x for d in drawn), median(d.y for d in drawn)
    off = [max(abs(d.x - x), abs(d.y - y)) for d in drawn]
    most = FAR * max(median(off), 1.0)
    return [d for d, o in zip(drawn, off) if o <= most], [d for d, o in zip(drawn, off) if o > most]


def footprint(drawn):
    """A size of the squares at which neighbours stay apart, one unit at most, if they can then still be seen."""
    places = sorted({(d.x, d.y) for d in drawn})
    gaps = [max(abs(a[0] - b[0]), abs(a[1] - b[1])) for k, a in enumerate(places) for b in places[k + 1 : k + 40]]
    spread = max(max(ends) - min(ends) for ends in zip(*places))
    return max(min(1.0, 0.8 * min(gaps)), spread / 80) if gaps else 1.0


def colour(blas):
    return f"hsl({(blas * 137 + 140) % 360}, 55%, {(42, 60, 33)[blas // 12 % 3]}%)"


def number(x):
    return f"{x:.2f}".rstrip("0").rstrip(".") if abs(x) < 1e5 else f"{x:.3g}"


def text(words, x, y, fill=INK, bold=False, size=14):
    weight = ' font-weight="bold"' if bold else ""
    return f'<text x="{number(x)}" y="{number(y)}" fill="{fill}" font-size="{size}"{weight}>{escape(words)}</text>'


def lines(words, most=100):
    """Words over as many lines as they need."""
    out = [""]
    for word in words.split():
        if out[-1] and len(out[-1]) + len(word) > most:
            out.append("")
        out[-1] += f" {word}" if out[-1] else word
    return out


class Block:
    """A part of the page: what is drawn, from 0, 0 on, and how large it is."""

    def __init__(self):
        self.parts, self.width, self.height = [], 0, 0

    def text(self, words, x=0, **how):
        self.height += LINE
        self.width = max(self.width, x + 0.6 * how.get("size", 14) * len(words))
        self.parts.append(text(words, x, self.height - 4, **how))

    def at(self, x, y):
        return f'<g transform="translate({number(x)}, {number(y)})">\n' + "\n".join(self.parts) + "\n</g>"


class Plan:
    """How places on the floor come to places in a block."""

    def __init__(self, drawn, size, top):
        self.size, self.top = size, top
        xs, ys = [d.x for d in drawn], [d.y for d in drawn]
        edge = size
        wide, tall = max(xs) - min(xs) + 2 * edge, max(ys) - min(ys) + 2 * edge
        self.scale = min(WIDE / wide, TALL / tall, SQUARE / size)
        self.width, self.height = wide * self.scale, tall * self.scale
        self.left, self.foot = min(xs) - edge, min(ys) - edge

    def at(self, x, y):
        across, up = (x - self.left) * self.scale, (y - self.foot) * self.scale
        return max(-LIMIT, min(LIMIT, across)), self.top + self.height - max(-LIMIT, min(LIMIT, up))

    def draw(self, d, is_refused):
        h = self.size / 2
        corners = [(d.x + h * (a * d.across[0] + b * d.up[0]), d.y + h * (a * d.across[1] + b * d.up[1])) for a, b in ((-1, -1), (1, -1), (1, 1), (-1, 1))]
        points = " ".join(f"{number(x)},{number(y)}" for x, y in (self.at(*c) for c in corners))
        stroke = f'stroke="{RED}" stroke-width="3"' if is_refused else f'stroke="{INK}" stroke-width="0.7"'
        (x, y), tip = self.at(d.x, d.y), self.at(d.x + h * d.across[0], d.y + h * d.across[1])
        yield f"<g><title>slot {d.slot}: blas {d.blas} at {number(d.x)}, {number(d.y)}</title>"
        yield f'<polygon points="{points}" fill="{colour(d.blas)}" fill-opacity="0.8" {stroke}/>'
        yield f'<line x1="{number(x)}" y1="{number(y)}" x2="{number(tip[0])}" y2="{number(tip[1])}" stroke="{INK}" stroke-width="0.7"/>'
        yield f'<circle cx="{number(x)}" cy="{number(y)}" r="{4 if is_refused else 1.5}" fill="{RED if is_refused else INK}"/></g>'


def panel(walked, refused, i):
    """One package: its Tlas's name, the plan, and what the plan cannot have."""
    tlas, present = walked.tables[6].records[i].values.get("tlas", 0), instances(walked, i)
    is_refused = (7, i) in refused or (4, tlas) in refused

    def red(d):
        return (8, d.record) in refused or ((4, tlas) in refused and (2, d.blas) in refused)

    block = Block()
    block.text(f"Tlas {tlas} (package {i}), {len(present)} instances" + ", refused" * is_refused, fill=RED if is_refused else INK, bold=True)
    drawn, far = near([d for d in present if d.is_finite])
    if drawn:
        put_plan(block, i, drawn, red)
    for d in [d for d in present if not d.is_finite] + far:
        words = f"far off at {number(d.x)}, {number(d.y)}" if d.is_finite else "its transform is not finite"
        block.text(f"slot {d.slot}, blas {d.blas}: {words}; not drawn", fill=RED if red(d) else INK, size=12)
    return block


def put_plan(block, i, drawn, red):
    size = footprint(drawn)
    plan = Plan(drawn, size, block.height + 4)
    frame = f'x="0" y="{number(plan.top)}" width="{number(plan.width)}" height="{number(plan.height)}"'
    block.parts += [f'<clipPath id="plan{i}"><rect {frame}/></clipPath>', f'<rect {frame} fill="#f4f6f4" stroke="#b0bec5"/>', f'<g clip-path="url(#plan{i})">']
    for d in sorted(drawn, key=red):
        block.parts += plan.draw(d, red(d))
    block.parts.append("</g>")
    block.width, block.height = max(block.width, plan.width), math.ceil(plan.top + plan.height) + 2
    x, y = [d.x for d in drawn], [d.y for d in drawn]
    block.text(f"x {min(x):.4g} to {max(x):.4g}, y {min(y):.4g} to {max(y):.4g}; squares of {size:.3g}", size=12)


def legend(walked, refused):
    block = Block()
    counts = Counter(d.blas for i in range(len(records(walked, 7))) for d in instances(walked, i))
    blases = records(walked, 2)
    for blas in sorted(set(counts) | {k for s, k in refused if s == 2}):
        kind = KINDS.get(blases[blas].values.get("kind"), "of no kind") if blas < len(blases) else "outside the table"
        is_refused = (2, blas) in refused
        block.text(f"Blas {blas}: {kind}, {counts[blas]} instances" + ", refused" * is_refused, x=20, fill=RED if is_refused else INK)
        block.parts.append(f'<rect y="{block.height - 15}" width="13" height="13" fill="{colour(blas)}" stroke="{INK}" stroke-width="0.7"/>')
    return block


def records(walked, number):
    """Of a section; of one that the sheet ends before there are none."""
    return walked.tables[number - 1].records if len(walked.tables) >= number else []


def refused_records(walked, verdict):
    """(section, record) of all that a refusal names: where it is, and the Blases and Tlases that are meant."""
    if not verdict.number or not verdict.place:
        return set()
    number, i, _ = verdict.place
    out = {(number, i)} if i >= 0 else set()  # a count is no record
    if verdict.what == "build" and number in (5, 6):
        out.add((2, records(walked, 5)[verdict.figures[0]].values["blas"]))
    if verdict.what == "submit":
        out |= {(2 if name == "Blas" else 4, int(n)) for name, n in verdict.named_ids()}
    return out


def heading(verdict, name):
    block = Block()
    shown = "".join(c if c.isprintable() else "?" for c in name.rsplit("/", 1)[-1])
    block.text(f"{shown}, from above", bold=True, size=18)
    if not verdict.number:
        block.text("nothing is refused")
    for words in lines(verdict.words) if verdict.number else ():
        block.text(words, fill=RED, bold=True)
    for words in lines(verdict.named) if verdict.named else ():
        block.text(words, fill=RED)
    return block


def without_package(walked):
    block = Block()
    tlases = {f"Tlas {t}" for t in range(len(records(walked, 4)))} - {f"Tlas {r.values.get('tlas')}" for r in records(walked, 7)}
    if tlases:
        for words in lines("without a package: " + ", ".join(sorted(tlases, key=lambda t: int(t[5:])))):
            block.text(words)
    return block


def picture(walked, verdict, name):
    refused = refused_records(walked, verdict)
    panels = [panel(walked, refused, i) for i in range(len(records(walked, 7)))]
    parts, x, y, tall, width = [], MARGIN, MARGIN, 0, 0
    for block in (heading(verdict, name), legend(walked, refused), *panels, without_package(walked)):
        # panels stand side by side as far as there is room
        if block not in panels or x + block.width > WIDE + MARGIN:
            x, y, tall = MARGIN, y + tall + (LINE if tall else 0), 0
        if block.parts:
            parts.append(block.at(x, y))
            width = max(width, x + block.width)
            x, tall = x + block.width + LINE, max(tall, block.height)
        if block not in panels:
            x, y, tall = MARGIN, y + tall + (LINE // 2 if tall else 0), 0
    width, height = math.ceil(width + MARGIN), math.ceil(y + tall + MARGIN)
    head = f'<svg xmlns="http://www.w3.org/2000/svg" width="{width}" height="{height}" viewBox="0 0 {width} {height}" font-family="sans-serif">'
    return "\n".join([head, '<rect width="100%" height="100%" fill="white"/>', *parts, "</svg>"]) + "\n"
