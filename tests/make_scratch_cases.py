#!/usr/bin/env python3
"""Writes crates/cases_scratch/stdin, roundings each as a u32 1 and three u64s (total, size, alignment), and crates/cases_scratch/stdout, the
answers of rounding.py: every power of two and what is beside it, sizes about multiples of each and about 2^64 - 1, sums that come to 2^64 - 2,
2^64 - 1 and 2^64; then random ones. What comes to a number is written as 1 and the number, what passed 2^64 - 1 as 0 and 0.

The reading is held to itself: a number is a power of two where one bit of it is set; a size that is rounded is a multiple of the alignment, not
below the size and less than an alignment above it; a sum passed where the rounding did, or where it leaves less room than the total needs."""
import pathlib
import random
import struct

from paper import U64
from rounding import added, has_passed, is_power, rounded

EDGES = (U64 - 1, U64, U64 + 1)


def alignments():
    """Each power of two, the numbers beside it, and those with a second bit: the next, the lowest and the highest; and some that divide 2^64 - 1,
    as 3, 5 and 255 do."""
    for k in range(64):
        yield from {2**k, 2**k - 1, 2**k + 1, 2**k | 2**k >> 1, 2**63 | 2**k}
    yield from (6, 10, 12, 100, 2**32 - 2, U64 - 1, U64)
    yield from (641, 6700417, U64 // 3, U64 // 255)


def sizes(a):
    """About multiples of a, and about the last that a u64 holds."""
    top = (U64 + 1) // a * a
    near = {0, 1, a - 1, a, a + 1, 2 * a - 1, 2 * a, 300, 2**63, top - a - 1, top - a, top - a + 1, top - 1, top, top + 1, U64 - a, U64 - 1, U64}
    return sorted(n for n in near if 0 <= n <= U64)


def sums(a):
    """Totals that a size brings to each edge; a full one with nothing; and a small and a full one where the rounding may have passed."""
    for size in sorted({1, a + 1, U64 // a * a}):
        yield from ((n - rounded(size, a), size) for n in EDGES)
    yield from ((U64, 0), (1, U64), (U64, U64))


def cases():
    yield from ((0, size, 0) for size in (0, 1, U64))
    for a in sorted(set(alignments()) - {0}):
        for size in sizes(a):
            yield 0, size, a
        for total, size in sums(a):
            if 0 < total <= U64 and size <= U64:
                yield total, size, a
    rng = random.Random(4)
    for _ in range(1500):
        k = rng.randrange(64)
        a = rng.choice((2**k, 2**k | 1 << rng.randrange(64), rng.randrange(1, 2**k + 1)))
        size = rng.randrange(2 ** rng.randrange(65))
        room = max(0, U64 - rounded(size, a))
        yield rng.choice((0, room, max(0, room - 1), min(U64, room + 1), rng.randrange(U64 + 1))), size, a


def agrees(total, size, a):
    if a == 0:
        return not is_power(a)
    up = rounded(size, a)
    fits = up % a == 0 and size <= up < size + a
    return is_power(a) == (bin(a).count("1") == 1) and fits and has_passed(added(total, size, a)) == (has_passed(up) or U64 - up < total)


def told(n):
    return "0 0" if has_passed(n) else f"1 {n}"


def line(total, size, a):
    power = int(is_power(a))
    return f"{power}\n" if a == 0 else f"{power} {told(rounded(size, a))} {told(added(total, size, a))}\n"


def main():
    folder = pathlib.Path(__file__).resolve().parent.parent / "crates/cases_scratch"
    some = list(cases())
    for case in some:
        if not agrees(*case):
            raise SystemExit(f"the reading is at odds with itself: total, size, alignment {case}")
    ups = [rounded(size, a) for _, size, a in some if a]
    # those that add to a total what has not passed by itself
    totals = [added(*case) for case in some if case[2] and 0 < case[0] and not has_passed(rounded(*case[1:]))]
    assert set(EDGES) <= set(ups) and set(EDGES) <= set(totals)
    (folder / "stdin").write_bytes(b"".join(struct.pack("<I3Q", 1, *case) for case in some))
    (folder / "stdout").write_text("".join(line(*case) for case in some))
    powers = sum(is_power(a) for _, _, a in some)
    said = (f"of {of} {sum(map(has_passed, n))} pass 2^64 - 1, {n.count(U64)} come to it" for of, n in (("the roundings", ups), ("sums", totals)))
    print(f"{len(some)} roundings, {powers} by a power of two; " + "; ".join(said))


if __name__ == "__main__":
    main()
