#!/usr/bin/env python3
"""Writes crates/cases_submit/stdin and stdout: submissions over lent tables, and the answers of paper.py.

A case: seven u32, 0 for new tables or 1 to go on with what the case before left, then how many bytes of Blases and Tlases, cells of
counts and lists of dependencies, cells of actions and of their lists follow; the counter as a u64; and these bytes and cells. With 1 no
tables follow and the counter is the one left. Its line: number, action, two figures, the counter after it, and a hash of each of the four
buffers.
"""
import pathlib
import random
import struct

from make_read_cases import record
from paper import submit

M = 4294967291
U64 = 2**64 - 1


def blas(state=0, destroyed=0, number=0, kind=0, flags=7):
    return record(2, kind, flags, state, destroyed, 300, 77, number)


def tlas(number=0, destroyed=0, flags=2):
    return record(4, flags, destroyed, 1000, 5, number)


class Start:
    def __init__(self, counter=5, blases=None, tlases=None, dependencies=None, counts=None, cells=None):
        self.counter = counter
        self.blases = b"".join(blases if blases is not None else [blas(), blas(), blas(number=3)])
        tlases = tlases if tlases is not None else [tlas(), tlas(number=4)]
        self.tlases = b"".join(tlases)
        lists = dependencies or [[] for _ in tlases]
        self.counts = counts if counts is not None else [len(d) for d in lists]
        self.cells = cells if cells is not None else [c for d in lists for c in d + [9] * (512 - len(d))]


class Lists:
    """Builds' lists in one run of cells, and the actions that name them."""

    def __init__(self):
        self.cells = [7]
        self.actions = []

    def build(self, blases, packages=(), kind=1):
        self.actions += [kind, len(self.cells), len(blases), len(packages)]
        self.cells += blases
        for t, d in packages:
            self.cells += [t, len(d), *d]
        return self

    def act(self, *cells):
        self.actions += cells
        return self

    def use(self, t):
        return self.act(2, t, 9, 9)

    def mark(self, b):
        return self.act(3, b, 9, 9)

    def mark_tlas(self, t):
        return self.act(4, t, 9, 9)

    def mark_built(self, blases, packages=()):
        return self.build(blases, packages, 5)


def directed():
    # example 7, example 8
    yield Start(), Lists().build([0], [(0, [0])]).use(0).mark(0).use(0)
    yield Start(U64), Lists().build([0], [(0, [0])]).build([0])
    yield Start(0), Lists().use(1).mark(0)
    # 43, 42, 44, 21 of a use, in that order
    yield Start(), Lists().use(0)
    yield Start(dependencies=[[], [2, 0]]), Lists().use(1)
    yield Start(blases=[blas(number=9, destroyed=1), blas(), blas(number=3)], dependencies=[[], [2, 0]]), Lists().use(1)
    yield Start(blases=[blas(number=4, destroyed=1), blas(), blas(number=3)], dependencies=[[], [2, 0]]), Lists().use(1)
    yield Start(blases=[blas(number=4), blas(), blas(number=3)], dependencies=[[], [2, 0]]), Lists().use(1)
    yield Start(tlases=[tlas(), tlas(number=4, destroyed=1)]), Lists().use(1)
    # marks empty a list; starting numbers above the counter
    yield Start(dependencies=[[], [2, 0]]), Lists().mark_tlas(1).use(1)
    yield Start(blases=[blas(number=50), blas(), blas()], tlases=[tlas(number=60)], dependencies=[[0]]), Lists().mark(0).use(0)
    # kinds and operands as whole numbers
    for kind in (0, 6, 7, 255, 256, 257, 261, 2**16 + 5, 2**31 + 5, 2**32 - 1):
        yield Start(), Lists().mark(0).act(kind, 0, 0, 0).mark(1)
    for kind in (2, 3, 4):
        for operand in (2, 3, 65535, 65536, 65537, 2**32 - 1):
            yield Start(), Lists().mark(0).act(kind, operand, 0, 0)
    # parts of an action at the end
    for kind in (1, 5):
        for n in (1, 2, 3):
            yield Start(), Lists().mark(0).act(*[kind] * n)
    # of a Build, and of a mark that names each Tlas's Blases
    for kind in (1, 5):
        yield from listed(kind)
    # example 7 with such a mark in place of the first Build; the old marks draw over a Blas rebuilt since, and the Tlas that one built, marked
    # without lists, draws again
    yield Start(), Lists().mark_built([0], [(0, [0])]).use(0).mark(0).use(0)
    yield Start(), Lists().mark(0).mark_tlas(0).use(0).mark(0).use(0)
    yield Start(), Lists().mark_built([0], [(0, [0])]).mark(0).mark_tlas(0).use(0)
    # its Blases before its Tlases; Blases alone, Tlases alone, neither; after a Build of the same, and before one
    yield Start(), Lists().mark_built([0, 1]).mark_built([], [(0, [0, 1, 2]), (1, [])]).use(0).use(1).mark_built([]).mark(2).use(1).use(0)
    yield Start(), Lists().build([0], [(0, [0])]).mark_built([0], [(0, [0])]).use(0).mark_built([0]).use(0)
    yield Start(), Lists().mark_built([0], [(0, [0])]).build([0], [(0, [0])]).use(0).build([0]).use(0)
    yield Start(U64), Lists().mark_built([0], [(0, [0])]).mark_built([0])
    yield Start(blases=[blas(state=2), blas(state=1), blas(number=3, destroyed=1)]), Lists().mark_built([0, 1], [(0, [0, 1]), (1, [2])]).use(0).use(1)
    # the start: 4, 5, 39, 4, 6, also without actions
    for actions in (Lists(), Lists().mark(0)):
        yield Start(blases=[blas()] * 129), actions
        yield Start(blases=[blas()] * 128, tlases=[tlas()] * 32), actions
        yield Start(tlases=[tlas()] * 33), actions
        yield Start(blases=[blas(kind=2)]), actions
        yield Start(blases=[blas(flags=8)]), actions
        yield Start(blases=[blas(state=4)]), actions
        yield Start(blases=[blas(destroyed=2)]), actions
        yield Start(blases=[blas(), b"\0"]), actions
        yield Start(tlases=[tlas(flags=1)], counts=[], cells=[]), actions
        yield Start(tlases=[tlas(), b"\0\0"]), actions
        yield Start(counts=[0]), actions
        yield Start(cells=[0] * 1023), actions
        yield Start(cells=[0] * 1100, counts=[0, 0, 65535]), actions
        yield Start(counts=[513, 0]), actions
        yield Start(counts=[1, 513], cells=[3] + [0] * 1023), actions
        yield Start(counts=[0, 512], cells=[65535] * 512 + [2] * 512), actions
        yield Start(counts=[0, 512], cells=[0] * 1023 + [3]), actions
        yield Start(blases=[], tlases=[]), actions


def listed(kind):
    """Of a kind whose action names lists: what is refused, in its order, and what is left."""
    # 42: its step, its Blases and its earlier Tlases stand; duplicates; a Tlas listed twice keeps the later list, and the first if the
    # second meets 42
    yield Start(), Lists().build([0], [(0, [0, 2]), (1, [0, 1]), (0, [])], kind)
    yield Start(), Lists().build([0, 0, 1], [(0, [0, 0, 1]), (0, [1])], kind).use(0)
    yield Start(), Lists().build([0], [(0, [0]), (0, [1])], kind).mark(0).use(0)
    # lists past what is lent
    for first, n, m in ((0, 2, 0), (2, 0, 0), (1, 0, 0), (1, 0, 1), (2**32 - 1, 0, 0), (0, 2**32 - 1, 0), (0, 0, 2**32 - 1), (0, 1, 1)):
        yield Start(), Lists().mark(0).act(kind, first, n, m)
    # 5 over the whole action before 4, 4 before 6, 6 before 40, 40 before 41
    yield Start(), Lists().build([0] * 65, [(9, [9])], kind)
    yield Start(), Lists().build([9] * 64, [(0, [0] * 513)], kind)
    yield Start(0, blases=[blas(state=3)]), Lists().build([0], [(9, [])], kind)
    yield Start(0, blases=[blas(state=3)]), Lists().build([0], (), kind)
    yield Start(5, blases=[blas(), blas(state=3), blas(state=3)]), Lists().mark(0).build([0, 1, 2], (), kind)
    # 64 and 65 Blases, 32 and 33 Tlases, 512 and 513 dependencies
    for n in (64, 65):
        yield Start(), Lists().build([0] * n, (), kind)
    for n in (32, 33):
        yield Start(), Lists().build([0], [(0, [0])] * n, kind)
    for n in (512, 513):
        yield Start(), Lists().build([0], [(1, [0] * n)], kind)
    yield Start(), Lists().build([0], [(0, [0]), (2, [])], kind)
    yield Start(), Lists().build([0], [(0, [0, 3])], kind)


def random_case(choose):
    nb, nt = choose.randint(1, 4), choose.randint(1, 3)
    counter = choose.choice((0, 1, 5, 5, 5, U64, U64 - 1, 2**32))

    def number():
        return choose.choice((0, 0, 1, 3, 4, 5, 6, U64))

    start = Start(
        counter,
        [blas(choose.choice((0, 1, 2, 2, 3)), choose.random() < 0.1, number()) for _ in range(nb)],
        [tlas(number(), choose.random() < 0.2) for _ in range(nt)],
        [[choose.randrange(nb) for _ in range(choose.randint(0, 3))] for _ in range(nt)],
    )
    lists = Lists()
    for _ in range(choose.randint(0, 8)):
        what = choose.random()
        b, t = choose.randrange(nb + (choose.random() < 0.05)), choose.randrange(nt + (choose.random() < 0.05))
        if what < 0.35:
            lists.build(
                [choose.randrange(nb) for _ in range(choose.randint(0, 3))],
                [(choose.randrange(nt), [choose.randrange(nb) for _ in range(choose.randint(0, 3))]) for _ in range(choose.randint(0, 2))],
                choose.choice((1, 5)),
            )
        elif what < 0.75:
            lists.use(t)
        elif what < 0.85:
            lists.mark(b)
        elif what < 0.95:
            lists.mark_tlas(t)
        else:
            lists.act(*(choose.choice((0, 1, 2, 3, 5, 6, 9)) for _ in range(4)))
    return start, lists


class Out:
    def __init__(self, file):
        self.file, self.lines, self.seen = file, [], {}

    def send(self, start, actions, lists, state=None):
        """One submission, on new tables or on what the one before left; what it answers and leaves."""
        lent = state or (start.counter, start.blases, start.tlases, start.counts, start.cells)
        tables = (b"", b"", [], []) if state else lent[1:]
        head = (1 if state else 0, *map(len, tables), len(actions), len(lists))
        self.file.write(struct.pack("<7IQ", *head, lent[0]) + bytes(tables[0]) + bytes(tables[1]))
        self.file.write(struct.pack(f"<{len(tables[2])}H{len(tables[3])}H{len(actions)}I{len(lists)}H", *tables[2], *tables[3], *actions, *lists))
        answer, *left = submit(*lent, actions, lists)
        self.seen[answer[0]] = self.seen.get(answer[0], 0) + 1
        self.lines.append(" ".join(map(str, (*answer, left[0], *map(hashed, left[1:])))))
        return answer, tuple(left)


def hashed(values):
    h = 0
    for v in values:
        h = (h * 31 + v + 7) % M
    return h


def cut(out, start, lists):
    """The list uncut, and cut at every place: the same answer, counted through, and the same tables."""
    whole, left = out.send(start, lists.actions, lists.cells)
    for k in range(0, len(lists.actions) + 1, 4):
        answer, state = out.send(start, lists.actions[:k], lists.cells)
        if answer[0] == 0:
            answer, state = out.send(start, lists.actions[k:], lists.cells, state)
            if answer[0]:
                answer = (answer[0], answer[1] + k // 4, *answer[2:])
        assert (answer, state) == (whole, left), (whole, answer)


def as_builds(out, choose):
    """Random lists, and the same with each 5 as a Build: the same answer, and the same is left."""
    for _ in range(40):
        start, lists = random_case(choose)
        cells = [1 if i % 4 == 0 and c == 5 else c for i, c in enumerate(lists.actions)]
        assert out.send(start, lists.actions, lists.cells) == out.send(start, cells, lists.cells), lists.actions


def main():
    folder = pathlib.Path(__file__).resolve().parent.parent / "crates/cases_submit"
    choose = random.Random(11)
    with open(folder / "stdin", "wb") as file:
        out = Out(file)
        for start, lists in directed():
            out.send(start, lists.actions, lists.cells)
        for _ in range(150):
            start, lists = random_case(choose)
            _, state = out.send(start, lists.actions, lists.cells)
            # what a submission leaves, refused or not, is a start again
            out.send(start, Lists().use(0).mark(0).actions, [], state)
        # of all five kinds, all of it accepted; and with a use at its end that a rebuilt Blas refuses
        long = Lists()
        for i in range(6):
            long.build([i % 3], [(i % 2, [i % 3, 2])]).use(i % 2).mark(2).mark_tlas((i + 1) % 2).use((i + 1) % 2)
            long.mark_built([i % 3, 1], [(i % 2, [i % 3]), ((i + 1) % 2, [1])]).use(i % 2).use((i + 1) % 2)
        cut(out, Start(), long)
        cut(out, Start(), long.mark(1).use(0).use(1))
        for _ in range(6):
            cut(out, *random_case(choose))
        as_builds(out, choose)
    (folder / "stdout").write_text("".join(line + "\n" for line in out.lines))
    print(f"{len(out.lines)} submissions; " + ", ".join(f"{n} of {k}" for k, n in sorted(out.seen.items())))


if __name__ == "__main__":
    main()
