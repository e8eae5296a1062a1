#!/usr/bin/env python3
"""streams.py FOLDER: writes the streams of bench/run, each of 1,048,576 bytes.

Prints a line for each: its file, a tab, and what it is. The same streams come
every time. Rows are those of a real page (tests/vectors/corpus/expect), laid side
by side to the width of 4,800 dots, as each method writes them.
"""

import itertools
import lzma
import os
import random
import re
import sys

LENGTH = 1048576
ESC = b"\x1b"
WIDE = 4800
# A page is ended before its last line, so that every row is drawn.
LINES = 6000
CORPUS = os.path.join(os.path.dirname(os.path.abspath(__file__)), "..", "tests", "vectors", "corpus")


def until_full(pieces):
    """The pieces one after the other, cut at the length."""
    parts, length = [], 0
    for piece in pieces:
        parts.append(piece)
        length += len(piece)
        if length >= LENGTH:
            return b"".join(parts)[:LENGTH]
    raise ValueError("too few pieces")


# ---- text and commands

def words(chance):
    while True:
        yield bytes(chance.randrange(33, 127) for _ in range(chance.randrange(2, 9))) + b" "


def lines(chance):
    text = words(chance)
    while True:
        line = b""
        while len(line) < 78:
            line += next(text)
        yield line[:78] + b"\r\n"


def positions(chance):
    between = chance.randint
    forms = (
        lambda: b"&a%dC" % between(0, 150), lambda: b"&a%d.%dR" % (between(0, 90), between(0, 99)),
        lambda: b"&a%dh%dV" % (between(0, 9000), between(0, 9000)), lambda: b"*p%dx%dY" % (between(0, 4000), between(0, 6000)),
        lambda: b"*p+%dX" % between(0, 300), lambda: b"*p-%dY" % between(0, 300), lambda: b"&a+%d.5c-%dR" % (between(0, 9), between(0, 9)),
        lambda: b"&a%dL" % between(0, 9),
    )
    while True:
        yield ESC + chance.choice(forms)()


def all_valued(chance):
    """Every command with a value, none with a finding: margins in an order that is allowed, raster started and ended."""
    between = chance.randint
    while True:
        yield from (
            ESC + b"&k%d.%dH" % (between(5, 20), between(0, 9999)), ESC + b"&k%dG" % between(0, 3),
            ESC + b"&l%dd%dE" % (chance.choice((2, 3, 4, 6, 8, 12)), between(0, 5)), ESC + b"&l%d.5C" % between(4, 48),
            ESC + b"&a0l%dm%dL" % (between(20, 150), between(1, 9)), ESC + b"&a%dc%dR" % (between(0, 150), between(0, 60)),
            ESC + b"&f0S", ESC + b"&a%d.%dh%dV" % (between(0, 9000), between(0, 9), between(0, 9000)),
            ESC + b"*p+%dx-%dY" % (between(0, 500), between(0, 500)), ESC + b"&f1S",
            ESC + b"*t%dR" % chance.choice((75, 100, 150, 300)), ESC + b"*r%dA" % between(0, 1),
            ESC + b"*b%dm%dY" % (between(0, 3), between(0, 20)), ESC + b"*r" + chance.choice((b"B", b"C")),
        )


# ---- rows

def bitmap(name, width):
    """The rows of a picture, side by side until they have this many bytes."""
    with lzma.open(os.path.join(CORPUS, "expect", name), "rb") as packed:
        picture = packed.read()
    head = re.match(rb"P4\s(?:#[^\n]*\n)*(\d+) (\d+)\n", picture)
    own = (int(head[1]) + 7) // 8
    body = picture[head.end():]
    rows = [body[at:at + own] for at in range(0, own * int(head[2]), own)]
    return [(row * (width // own + 1))[:width] for row in rows]


def as_is(row, _seed):
    return row.rstrip(b"\0")


def pairs(row, _seed):
    return b"".join([bytes((len(run[0]) - 1, run[0][0])) for run in re.finditer(rb"(?s)(.)\1{0,255}", row.rstrip(b"\0"))])


def packed(row, _seed):
    parts = []
    for run in re.finditer(rb"(?s)(.)\1{2,127}|(?:(.)(?!\2\2)){1,128}", row.rstrip(b"\0")):
        piece = run[0]
        parts.append(bytes((257 - len(piece), piece[0])) if run[1] is not None else bytes((len(piece) - 1,)) + piece)
    return b"".join(parts)


def delta(row, seed):
    parts, place = [], 0
    changed = [at for at, (new, old) in enumerate(zip(row, seed)) if new != old]
    while changed:
        start = changed[0]
        count = 1
        while count < 8 and count < len(changed) and changed[count] == start + count:
            count += 1
        changed = changed[count:]
        offset = start - place
        if offset < 31:
            parts.append(bytes(((count - 1) << 5 | offset,)))
        else:
            full, more = divmod(offset - 31, 255)
            parts.append(bytes(((count - 1) << 5 | 31,)) + b"\xff" * full + bytes((more,)))
        parts.append(row[start:start + count])
        place = start + count
    return b"".join(parts)


def page_of(method, resolution):
    write = (as_is, pairs, packed, delta)[method]
    width = WIDE * resolution // 300 // 8
    picture = bitmap("letter-%d.pbm.xz" % resolution, width)
    parts = [ESC + b"*t%dR" % resolution + ESC + b"*r0A" + ESC + b"*b%dM" % method]
    seed = bytes(width)
    for line in range(LINES * resolution // 300):
        row = picture[line % len(picture)]
        payload = write(row, seed)
        parts.append(ESC + b"*b%dW" % len(payload) + payload)
        seed = row
    parts.append(ESC + b"*rB\f")
    return b"".join(parts)


def corpus_job(name):
    with open(os.path.join(CORPUS, name), "rb") as stream:
        return stream.read()


def workloads():
    chance = random.Random(1)
    yield "text", words(chance)
    yield "text, CR LF every 80 bytes", lines(chance)
    yield "cursor positions", positions(chance)
    yield "all valued commands", all_valued(chance)
    for resolution in (300, 75):
        for method in range(4):
            yield f"rows, method {method}, {resolution} dots an inch", itertools.repeat(page_of(method, resolution))
    yield "a job of the corpus again and again", itertools.repeat(corpus_job("gm-letter-300.pcl"))


def main(arguments):
    if len(arguments) != 1:
        print("usage: streams.py FOLDER", file=sys.stderr)
        return 1
    for number, (name, pieces) in enumerate(workloads()):
        path = os.path.join(arguments[0], f"stream{number}.pcl")
        with open(path, "wb") as out:
            out.write(until_full(pieces))
        print(path, name, sep="\t")
    return 0


if __name__ == "__main__":
    sys.exit(main(sys.argv[1:]))
