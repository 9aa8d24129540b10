#!/usr/bin/env python3
"""Writes crates/cases_words/stdin, refusals each as a u32 1 and seven u64s, and crates/cases_words/stdout, the words that printed.py has for
them: every call and number up to a few past the last, with each sort of 21, 22 and 37 and each kind, positions, small numbers and the largest."""
import pathlib
import random
import struct

from paper import U64
from printed import CALLS, words


def cases():
    for call in (*range(13), U64):
        for number in (*range(53), U64 - 1, U64):
            yield call, number, 1, 2, 3, 4, 5
            yield call, number, U64, U64, U64, U64, U64
    for f0 in (*range(6), U64):
        for number in (21, 22):
            yield 2, number, 7, 8, f0, 9, 10
    for f0 in (*range(5), 2**32, U64):
        for e0 in (0, 1, 31, 63, 64, 65535, 2**32, U64):
            yield from ((2, 37, e0, e1, f0, 19, 20) for e1 in (0, 21))
    for kind in (*range(7), U64):
        for number in CALLS[3]:
            yield 3, number, 11, kind, 12, 13, 14
    for position in (0, 1, 2, 511, 512, 2**32, U64):
        for number in CALLS[7]:
            yield from ((7, number, e0, position, 15, 16, 17) for e0 in (0, 18))
    for place in (0, 1, 30, 56415, 57439, 2**32 - 1, 2**32, U64):
        for call in (1, 5, 8, 9):
            yield from ((call, number, place, 22, 23, 24, 25) for number in (*range(1, 6), 39, 46, 47, 48))
    for e0 in (0, 1, 2, 63, 64, 511, 2**32 - 1, 2**32, U64 - 1, U64):
        for number in (0, *CALLS[10]):
            yield from ((10, number, e0, e1, 26, 27, 28) for e1 in (0, U64))
    rng = random.Random(27)
    for _ in range(300):
        call = rng.choice(list(CALLS))
        yield call, rng.choice(CALLS[call]), *(rng.choice((rng.randrange(5), rng.randrange(U64 + 1))) for _ in range(5))


def main():
    folder = pathlib.Path(__file__).resolve().parent.parent / "crates/cases_words"
    some = list(cases())
    (folder / "stdin").write_bytes(b"".join(struct.pack("<I7Q", 1, *case) for case in some))
    texts = [words(*case) for case in some]
    (folder / "stdout").write_text("".join(texts))
    print(f"{len(texts)} refusals, of up to {max(map(len, texts))} bytes of text")


if __name__ == "__main__":
    main()
