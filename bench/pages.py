#!/usr/bin/env python3
"""pages.py FOLDER BEFORE AFTER [EMULATOR]: two versions of the program `pages` on the same streams, as a table.

The streams are real ones (tests/vectors/corpus), each again and again, in whole
copies, up to 1,048,576 bytes. Both programs take turns, and the least time of
each counts: what the processor did for that process, as others may work beside
it. Pages, by SHA-256, and lines must be the same; MARK lines are set aside: an
earlier version may have none. FOLDER is for the streams.
"""

import hashlib
import lzma
import os
import subprocess
import sys

LONGEST = 1048576
TURNS = 25
PAGE = ("2552", "3304")
CORPUS = os.path.join(os.path.dirname(os.path.abspath(__file__)), "..", "tests", "vectors", "corpus")
# From each program that draws with rows at least one, so that every resolution and every method is there at least twice; and one of text.
STREAMS = (
    "gm-letter-300.pcl",  # GraphicsMagick: methods 1, 2 and 3
    "gm-pic-100.pcl",  # methods 0, 2 and 3
    "im-letter-300-rle.pcl.xz",  # ImageMagick: method 2
    "gnuplot-hp500c-75-m1.pcl",  # gnuplot: method 1
    "gnuplot-hpljii-150.pcl.xz",  # method 0
    "hp2xx-300-pcl3gui.pcl.xz",  # hp2xx: method 0
    "netpbm-pbmtolj-curve-100-delta.pcl",  # netpbm: method 3
    "netpbm-pbmtolj-curve-150-packbits.pcl",  # method 2
    "netpbm-pbmtolj-pic-75-compress.pcl",  # methods 0, 2 and 3
    "groff-lj4-letter.pcl",  # groff: text and positions
)


class Different(Exception):
    """Both programs did not do the same."""


def repeated(name):
    """A stream of the corpus, as many whole copies as there is room for."""
    path = os.path.join(CORPUS, name)
    with lzma.open(path) if name.endswith(".xz") else open(path, "rb") as stream:
        once = stream.read()
    return once * (LONGEST // len(once))


def unmarked(lines):
    return [line for line in lines.splitlines() if not line.startswith(b"MARK\t")]


def outcome(command, path):
    """The SHA-256 of a program's pages, and its lines."""
    with open(path, "rb") as job:
        done = subprocess.run([*command, *PAGE], stdin=job, capture_output=True, check=True)
    return hashlib.sha256(done.stdout).digest(), unmarked(done.stderr)


def time_of(command, path, expected):
    """The processor's time for one run, in seconds. Its lines must be those expected."""
    with open(path, "rb") as job, open(path + ".lines", "w+b") as lines:
        child = subprocess.Popen([*command, *PAGE], stdin=job, stdout=subprocess.DEVNULL, stderr=lines)
        _, status, usage = os.wait4(child.pid, 0)
        child.returncode = os.waitstatus_to_exitcode(status)
        lines.seek(0)
        if child.returncode != 0 or unmarked(lines.read()) != expected:
            raise Different
    return usage.ru_utime + usage.ru_stime


def line_of(name, path, before, after):
    job = repeated(name)
    with open(path, "wb") as stream:
        stream.write(job)
    digest, lines = outcome(before, path)
    if outcome(after, path) != (digest, lines):
        raise Different
    times = [(time_of(before, path, lines), time_of(after, path, lines)) for _ in range(TURNS)]
    pages = sum(line.startswith(b"PAGE\t") for line in lines)
    ratio = min(first for first, _ in times) / min(second for _, second in times)
    return f"| {name.removesuffix('.xz')} | {len(job)} | {pages} | {ratio:.2f} |"


def main(arguments):
    if len(arguments) not in (3, 4):
        print("usage: pages.py FOLDER BEFORE AFTER [EMULATOR]", file=sys.stderr)
        return 1
    folder, before, after, *emulator = arguments
    print("| Stream | Bytes | Pages | Before / after |\n|---|---|---|---|", flush=True)
    for name in STREAMS:
        try:
            print(line_of(name, os.path.join(folder, "job"), [*emulator, before], [*emulator, after]), flush=True)
        except Different:
            print(f"pages: {name}: DIFFERENT RESULTS", file=sys.stderr)
            return 1
    return 0


if __name__ == "__main__":
    sys.exit(main(sys.argv[1:]))
