#!/usr/bin/env python3
"""Writes the list that the program crates/boundaries compares utf8::check with:

    python3 tools/utf8_boundaries.py > crates/boundaries/data/answers

Boundary bytes are, of each range of bytes in RFC 3629, section 4, both ends, one below and one above. The inputs are, in this order, and
each kind in lexicographic order:
  - every string of 1 and of 2 bytes;
  - every string of 3 boundary bytes;
  - every string of 4 bytes whose first is EF to F5 (the first bytes of 4, one below and one above), whose second and third are boundary
    bytes, and whose fourth is 7F, 80, BF or C0;
  - every string of 3 bytes whose first is E0 to F4, whose second is 80 to BF, and whose third is 7F or C0, which fit nowhere;
  - every string of 3 bytes whose first is F0 to F4, and whose others are 80 to BF;
  - the same followed by 7F or C0.
So all proper beginnings of all characters are there, each alone and followed by bytes that do not fit.

The answer to each is one character: the length of the longest well-formed text that the input starts with, as a digit; or, where what is
left is the beginning of a character, a letter, `a` for 0, `b` for 1 and so on. Both are told by Python's strict utf-8 codec, which shares
nothing with crates/utf8: where it stops, and whether for an unexpected end. (Its incremental decoder is no judge of that: it waits for
more after ED A0, with which no character begins.) A line has 100 answers.
"""

import itertools
import sys

# RFC 3629, section 4: all bytes, then the first bytes of a character, then the second ones
RANGES = [
    (0x00, 0xFF),
    (0x00, 0x7F), (0xC2, 0xDF), (0xE0, 0xE0), (0xE1, 0xEC), (0xED, 0xED), (0xEE, 0xEF), (0xF0, 0xF0), (0xF1, 0xF3), (0xF4, 0xF4),
    (0x80, 0xBF), (0xA0, 0xBF), (0x80, 0x9F), (0x90, 0xBF), (0x80, 0x8F),
]
EDGES = sorted({b for ends in RANGES for end in ends for b in (end - 1, end, end + 1) if 0 <= b <= 0xFF})
ALL = range(0x100)
TAILS = range(0x80, 0xC0)
UNFIT = [0x7F, 0xC0]
FIRST_OF_THREE = range(0xE0, 0xF5)
FIRST_OF_FOUR = range(0xF0, 0xF5)
LINE = 100


def inputs():
    yield from itertools.product(ALL)
    yield from itertools.product(ALL, ALL)
    yield from itertools.product(EDGES, EDGES, EDGES)
    yield from itertools.product(range(0xEF, 0xF6), EDGES, EDGES, [0x7F, 0x80, 0xBF, 0xC0])
    yield from itertools.product(FIRST_OF_THREE, TAILS, UNFIT)
    yield from itertools.product(FIRST_OF_FOUR, TAILS, TAILS)
    yield from itertools.product(FIRST_OF_FOUR, TAILS, TAILS, UNFIT)


def answer(data):
    try:
        data.decode("utf-8", "strict")
    except UnicodeDecodeError as error:
        return "abcd"[error.start] if error.reason == "unexpected end of data" else str(error.start)
    return str(len(data))


answers = "".join(answer(bytes(data)) for data in inputs())
for at in range(0, len(answers), LINE):
    sys.stdout.write(answers[at:at + LINE] + "\n")
