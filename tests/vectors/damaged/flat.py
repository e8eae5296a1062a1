#!/usr/bin/env python3
"""Makes flat-curve.pcl, the curve of ../corpus/netpbm-pbmtolj-curve-150-packbits.pcl with a stretch of its rows damaged, and
flat-curve-before.pcl, a stream of what the reader before this one made of it.

    flat.py            writes both beside this script
    flat.py --check    exit status 1 if one there is another

The curve lies on its side on the page, as its driver sends it: a row of dots is a line along the stress axis, and the strain falls from row to
row. Each row of the stretch loses the data of its last control byte, and its count is that of the bytes that are left. The old reader
saw the damage and drew the row buffer all the same, which still held the last good row: so in flat-curve-before.pcl that row is sent again
for each damaged one, and the stress stays the same over the stretch.
"""

import os
import sys

from make import HERE, ROW, cut, kept

SOURCE = os.path.join(HERE, "..", "corpus", "netpbm-pbmtolj-curve-150-packbits.pcl")
STRETCH = range(1112, 1342)  # strain 0.08 to 0.007


def made(source, instead):
    """The source with another payload for each row of the stretch, made of its own and the last good one."""
    out, at, number, good = b"", 0, 0, b""
    for row in iter(lambda: ROW.search(source, at), None):
        start, end = row.end(), row.end() + int(row[1])
        payload = source[start:end]
        if number in STRETCH:
            payload = instead(payload, good)
        else:
            good = payload
        out += source[at : row.start()] + b"\x1b*b%dW" % len(payload) + payload
        at, number = end, number + 1
    return out + source[at:]


def main(words):
    with open(SOURCE, "rb") as file:
        source = file.read()
    damaged = kept(os.path.join(HERE, "flat-curve.pcl"), made(source, lambda payload, good: cut(payload)), words)
    before = kept(os.path.join(HERE, "flat-curve-before.pcl"), made(source, lambda payload, good: good), words)
    return max(damaged, before)


if __name__ == "__main__":
    sys.exit(main(sys.argv[1:]))
