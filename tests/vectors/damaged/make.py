#!/usr/bin/env python3
"""Makes damaged-curve.pcl: the curve of ../corpus/gnuplot-hpdj-75.pcl with its rows packed by method 2, and nine of them damaged.

    make.py            writes the file beside this script
    make.py --check    exit status 1 if the file there is another

The rows of the corpus' stream are sent as they are (method 0), and such a row is never damaged by the rules. So each is packed first. The
rows of DAMAGE then lose their last bytes, and their counts are those of the bytes that are left: no payload is short.
"""

import os
import re
import sys

HERE = os.path.dirname(os.path.abspath(__file__))
SOURCE = os.path.join(HERE, "..", "corpus", "gnuplot-hpdj-75.pcl")
MADE = os.path.join(HERE, "damaged-curve.pcl")
ROW = re.compile(rb"\x1b\*b(\d+)W")


def packed(row):
    """Method 2: runs of two bytes and more, and what lies between them."""
    out, literal, at = b"", b"", 0
    while at < len(row):
        run = len(row[at:]) - len(row[at:].lstrip(row[at : at + 1]))
        if run < 2:
            literal, at = literal + row[at : at + 1], at + 1
            continue
        out += whole(literal) + bytes((257 - run, row[at]))
        literal, at = b"", at + run
    return out + whole(literal)


def whole(literal):
    return bytes((len(literal) - 1,)) + literal if literal else b""


def cut(payload):
    """The last control byte stays, the data that it counts is lost."""
    return payload[: last_control(payload) + 1]


def beyond(payload):
    """The whole row, then 384 zero bytes, which reach beyond the right edge of a page of up to 3,552 dots, then five bytes of which two are there."""
    return payload + b"\x81\x00" * 3 + b"\x04\xff\xff"


def last_control(payload):
    at = last = 0
    while at < len(payload):
        last = at
        at += payload[at] + 2 if payload[at] < 128 else 2
    return last


# row of the picture, from 0: what is done to it
DAMAGE = {
    64: cut,  # the curve's flat top
    132: cut,  # five rows one after the other: a gap in both curves
    133: cut,
    134: cut,
    135: cut,
    136: cut,
    211: beyond,  # damaged beyond the page's right edge
    300: cut,
    424: cut,  # the legend
}


def made(source):
    out, at, number = b"", 0, 0
    for row in iter(lambda: ROW.search(source, at), None):
        start, end = row.end(), row.end() + int(row[1])
        payload = DAMAGE.get(number, bytes)(packed(source[start:end]))
        out += source[at : row.start()] + b"\x1b*b%dW" % len(payload) + payload
        at, number = end, number + 1
    return (out + source[at:]).replace(b"\x1b*b0M", b"\x1b*b2M", 1)


def kept(path, stream, words):
    """Writes the stream, or with --check only compares it; the exit status."""
    if words == ["--check"]:
        with open(path, "rb") as there:
            return 0 if there.read() == stream else 1
    with open(path, "wb") as there:
        there.write(stream)
    return 0


if __name__ == "__main__":
    with open(SOURCE, "rb") as file:
        sys.exit(kept(MADE, made(file.read()), sys.argv[1:]))
