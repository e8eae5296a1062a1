#!/usr/bin/env python3
"""Compares a program with the table of the corpus, page by page.

    corpus.py PROGRAM FOLDER

FOLDER holds TABLE.tsv and the streams it names, plain or packed as .xz. The
program is run as `pages 2552 3304` and `trace 2552 3304` on each stream.

A line for each difference, then the count. Exit status 1 on any difference, or
if the folder has not the streams of the table.

The columns, as this check reads them:
  bytes       length of the unpacked stream
  pages_base  pages handed over and a used last page: blank ones count too
  findings    findings in the whole stream
  page, dots_base, sha256_base16
              one page of those, its dots, and the first 16 hexadecimal digits
              of SHA-256 over its buffer
A page that no line names has no dots. A line with `-` as its page names none.
"""

import hashlib
import lzma
import os
import subprocess
import sys

WIDTH, HEIGHT = 2552, 3304
PAGE_BYTES = WIDTH // 8 * HEIGHT
HEADER = b"P4\n%d %d\n" % (WIDTH, HEIGHT)
# How many streams the table has; a line lost from the table must not pass.
STREAMS = 59
BITS = bytes(bin(byte).count("1") for byte in range(256))


def read_table(folder):
    """The table's lines by stream, in the table's order."""
    path = os.path.join(folder, "TABLE.tsv")
    with open(path, encoding="utf-8") as table:
        lines = [line.rstrip("\n").split("\t") for line in table]
    names, rows = lines[0], lines[1:]
    streams = {}
    for row in rows:
        line = dict(zip(names, row))
        streams.setdefault(line["file"], []).append(line)
    return streams


def read_stream(folder, name):
    path = os.path.join(folder, name)
    opener = lzma.open if name.endswith(".xz") else open
    with opener(path, "rb") as stream:
        return stream.read()


def run(program, word, stream):
    """Standard output of the program; None if it did not end with 0."""
    command = [program, word, str(WIDTH), str(HEIGHT)]
    done = subprocess.run(
        command, input=stream, stdout=subprocess.PIPE, stderr=subprocess.DEVNULL
    )
    return done.stdout if done.returncode == 0 else None


def split_pages(output):
    """The page buffers of a row of PBM pictures; None if they are not such."""
    pages, place = [], 0
    while place < len(output):
        end = place + len(HEADER) + PAGE_BYTES
        if output[place : place + len(HEADER)] != HEADER or end > len(output):
            return None
        pages.append(output[place + len(HEADER) : end])
        place = end
    return pages


def count_dots(page):
    return sum(page.translate(BITS))


def read_trace(output):
    """Dots of each page, findings of the ITEM lines, and those of COUNT."""
    dots, listed, counted = [], 0, None
    for line in output.decode("ascii", "replace").splitlines():
        fields = line.split("\t")
        if fields[0] == "ITEM" and fields[3] != "0":
            listed += 1
        elif fields[0] == "PAGE":
            dots.append(int(fields[2]))
            if int(fields[1]) != len(dots):
                return None
        elif fields[0] == "COUNT":
            counted = int(fields[2])
    return dots, listed, counted


def compare(program, folder, name, lines, differ):
    """Compares one stream; gives how many pages it has."""

    def check(what, table, program_has):
        if str(table) != str(program_has):
            differ(f"{name}: {what}: table {table}, program {program_has}")

    stream = read_stream(folder, name)
    pages_output = run(program, "pages", stream)
    trace_output = run(program, "trace", stream)
    if pages_output is None or trace_output is None:
        differ(f"{name}: the program did not end with status 0")
        return 0
    pages = split_pages(pages_output)
    trace = read_trace(trace_output)
    if pages is None or trace is None:
        differ(f"{name}: the program's output is not of the form")
        return 0
    trace_dots, listed, counted = trace
    dots = [count_dots(page) for page in pages]
    check("dots of the pages, here by trace", dots, trace_dots)
    check("findings, here those of the items", counted, listed)
    named = set()
    for line in lines:
        check("bytes", line["bytes"], len(stream))
        check("pages", line["pages_base"], len(pages))
        check("findings", line["findings"], counted)
        if line["page"] == "-":
            check("dots of no page", "-", line["dots_base"])
            continue
        number = int(line["page"])
        named.add(number)
        if not 1 <= number <= len(pages):
            differ(f"{name}: page {number} of the table is not there")
            continue
        page = pages[number - 1]
        digest = hashlib.sha256(page).hexdigest()[:16]
        check(f"dots of page {number}", line["dots_base"], dots[number - 1])
        check(f"hash of page {number}", line["sha256_base16"], digest)
    for number, count in enumerate(dots, 1):
        if number not in named and count != 0:
            differ(f"{name}: page {number} has {count} dots and no line")
    return len(pages)


def main(words):
    if len(words) != 3:
        print("usage: corpus.py PROGRAM FOLDER", file=sys.stderr)
        return 1
    program, folder = os.path.abspath(words[1]), words[2]
    if not (os.path.isfile(program) and os.access(program, os.X_OK)):
        print("the program cannot be run", file=sys.stderr)
        return 1
    differences = []

    def differ(text):
        differences.append(text)
        print(text)

    try:
        streams = read_table(folder)
        there = {name for name in os.listdir(folder) if name.endswith((".pcl", ".pcl.xz"))}
    except OSError as error:
        print(f"cannot read the folder: {error}", file=sys.stderr)
        return 1
    if len(streams) != STREAMS:
        differ(f"the table names {len(streams)} streams, not {STREAMS}")
    for name in sorted(set(streams) ^ there):
        where = "the folder" if name in streams else "the table"
        differ(f"{name}: not in {where}")
    pages, compared = 0, 0
    for name, lines in streams.items():
        if name in there:
            pages += compare(program, folder, name, lines, differ)
            compared += 1
    print(f"corpus: {compared} streams, {pages} pages, {len(differences)} differences")
    return 1 if differences else 0


if __name__ == "__main__":
    sys.exit(main(sys.argv))
