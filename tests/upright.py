#!/usr/bin/env python3
"""upright.py PAGES JOB PICTURE: the first page of a job as a picture, turned upright, a grey point for two dots by two.

PAGES is the proved program `pages`. For curves that lie on their side on the page, as some drivers send them: what was the left edge is the top.
"""
import os
import subprocess
import sys

sys.path.insert(0, os.path.join(os.path.dirname(os.path.abspath(__file__)), "..", "tools"))
import png  # noqa: E402

WIDTH, HEIGHT = 2552, 3304
BITS = [bytes(48 + (byte >> 7 - bit & 1) for bit in range(8)) for byte in range(256)]


def upright(page):
    """A quarter turn to the right: the columns from the left are the rows, each from the bottom up."""
    wide = WIDTH // 8
    rows = [b"".join(BITS[byte] for byte in page[at:at + wide]) for at in range(0, wide * HEIGHT, wide)]
    return b"".join(int(bytes(column), 2).to_bytes(HEIGHT // 8, "big") for column in zip(*reversed(rows)))


def main(program, job, picture):
    with open(job, "rb") as given:
        drawn = subprocess.run([program, str(WIDTH), str(HEIGHT)], stdin=given, stdout=subprocess.PIPE, stderr=subprocess.DEVNULL, check=True)
    head = b"P4\n%d %d\n" % (WIDTH, HEIGHT)
    page = drawn.stdout[len(head):len(head) + WIDTH // 8 * HEIGHT]
    with open(picture, "wb") as out:
        out.write(png.reduced(HEIGHT, WIDTH, upright(page), 2))


main(*sys.argv[1:])
