#!/usr/bin/env python3
"""Compares programs with the stored plain streams of the corpus.

    plains.py FOLDER PROGRAM WORDS..     the program, run as `PROGRAM WORDS.. W H`, standard input to standard output; status 1 with words
                                         on standard error, whose last line has the stream's length, is a stream with findings
    plains.py FOLDER write PROGRAM WORDS..     writes the table anew, by this program

FOLDER holds PLAIN.tsv and the streams it names, plain or packed as .xz. A line for
each difference, then the count. Exit status 1 on any difference, or if the folder
has not the streams of the table.

The columns:
  file, width, height    the stream and the page it is translated for
  bytes, plain_bytes     length of the unpacked stream, and of its plain stream
  sha256_16              the first 16 hexadecimal digits of SHA-256 over the plain stream
"""

import hashlib
import os
import subprocess
import sys

import corpus

COLUMNS = ("file", "width", "height", "bytes", "plain_bytes", "sha256_16")
# The report's page, and that of the corpus' table: rows are cut on the first.
PAGES = ((640, 800), (2552, 3304))


def streams_in(folder):
    return sorted(name for name in os.listdir(folder) if name.endswith((".pcl", ".pcl.xz")))


def line_of(program, folder, name, width, height):
    """The line that the table has of this stream; None if the program refused it or failed."""
    stream = corpus.read_stream(folder, name)
    done = subprocess.run([*program, str(width), str(height)], input=stream, stdout=subprocess.PIPE, stderr=subprocess.PIPE)
    told = done.stderr.endswith(b": passed on as %d bytes\n" % len(done.stdout))
    if (done.returncode, bool(done.stderr), told) not in ((0, False, False), (1, True, True)):
        return None
    digest = hashlib.sha256(done.stdout).hexdigest()[:16]
    return "\t".join(map(str, (name, width, height, len(stream), len(done.stdout), digest)))


def lines_by(program, folder):
    return {(name, page): line_of(program, folder, name, *page) for name in streams_in(folder) for page in PAGES}


def compare(program, folder):
    """The differences, and how many lines were compared."""
    with open(os.path.join(folder, "PLAIN.tsv"), encoding="ascii") as table:
        stored = table.read().splitlines()
    differences = [] if stored[:1] == ["\t".join(COLUMNS)] else ["the first line names other columns"]
    given = lines_by(program, folder)
    for (name, page), line in given.items():
        if line is None:
            differences.append("%s, %d x %d: refused, or it failed" % (name, *page))
        elif line not in stored[1:]:
            differences.append("not in the table: " + line)
    if len(stored) - 1 != len(given) or len(given) != corpus.STREAMS * len(PAGES):
        differences.append("the table has %d lines, there are %d streams" % (len(stored) - 1, len(given) // len(PAGES)))
    return differences, len(given)


def write(program, folder):
    lines = lines_by(program, folder)
    if None in lines.values():
        print("a stream was refused: nothing is written", file=sys.stderr)
        return 1
    with open(os.path.join(folder, "PLAIN.tsv"), "w", encoding="ascii") as table:
        table.write("\n".join(("\t".join(COLUMNS), *lines.values(), "")))
    return 0


def main(words):
    if len(words) < 2 or words[1:] == ["write"]:
        print("usage: plains.py FOLDER [write] PROGRAM WORDS..", file=sys.stderr)
        return 1
    if words[1] == "write":
        return write(words[2:], words[0])
    differences, count = compare(words[1:], words[0])
    for line in differences:
        print(line)
    print(f"plains: {' '.join(os.path.basename(word) for word in words[1:])}: {count} plain streams, {len(differences)} differences")
    return 1 if differences else 0


if __name__ == "__main__":
    sys.exit(main(sys.argv[1:]))
