#!/usr/bin/env python3
"""Draws the corpus by the command and compares the pictures with the table of the corpus, and what is said with the second program.

    drawn.py FOLDER COMMAND SECOND PAGES..    COMMAND is rovinuset, SECOND the second program, PAGES runs the proved program `pages`

The PNG files are decoded here, by other lines than those that write them, and must be the pages that the program itself gives; findings.txt must have
the lines that it says. Each line that the command prints is made anew from the table and the second program's trace: kinds of findings, text bytes, blank
pages. A line for each difference, then the count. Exit status 1 on any difference, if the folder has not the streams of the table, or if a line that is
said of some jobs alone was said of none.
"""

import hashlib
import os
import struct
import subprocess
import sys
import tempfile
import zlib

import corpus
import texts

ROW = corpus.WIDTH // 8 + 1  # a filter byte first
NOT_DRAWN = "nothing was drawn: no page has a dot"
DEFAULT = "page 2552 by 3304 dots, the default: a paper (a4, letter, legal, a5) or W H chooses another"
KINDS = {
    1: "the job ends inside a sequence, or payload is short",
    2: "a byte that can't stand there",
    3: "command not carried",
    4: "value not allowed",
    5: "push when full, pop when empty",
    6: "not allowed at this moment",
    7: "damaged row",
}


def chunks(data):
    """The chunks of a PNG by name; a wrong check sum is an error."""
    if data[:8] != b"\x89PNG\r\n\x1a\n":
        raise ValueError("no PNG")
    found, at = {}, 8
    while at < len(data):
        (length,) = struct.unpack_from(">I", data, at)
        name, inside = data[at + 4 : at + 8], data[at + 8 : at + 8 + length]
        if struct.unpack_from(">I", data, at + 8 + length)[0] != zlib.crc32(name + inside):
            raise ValueError(f"the sum of {name}")
        found[name] = inside
        at += 12 + length
    return found


def decoded(path):
    """The page buffer of a PNG of one bit a dot, white set, rows as they are."""
    with open(path, "rb") as file:
        parts = chunks(file.read())
    rows = zlib.decompress(parts[b"IDAT"])
    forms = struct.unpack(">IIBBBBB", parts[b"IHDR"]), struct.unpack(">IIB", parts[b"pHYs"]), len(rows), any(rows[::ROW]), parts[b"IEND"]
    if forms != ((corpus.WIDTH, corpus.HEIGHT, 1, 0, 0, 0, 0), (11811, 11811, 1), ROW * corpus.HEIGHT, False, b""):
        raise ValueError("another form")
    white = int.from_bytes(b"".join(rows[at + 1 : at + ROW] for at in range(0, len(rows), ROW)), "big")
    return (white ^ ((1 << 8 * corpus.PAGE_BYTES) - 1)).to_bytes(corpus.PAGE_BYTES, "big")


def wanted_lines(second, stream, lines, folder):
    """What the terminal says, and the exit status, by the table and the second program."""
    pages, found = int(lines[0]["pages_base"]), int(lines[0]["findings"])
    dots = sum(int(line["dots_base"]) for line in lines if line["page"] != "-")
    said = (pages, "page"), (found, "finding"), (dots, "dot")
    trace = texts.trace(second, stream, corpus.WIDTH, corpus.HEIGHT)
    notices = [NOT_DRAWN] if dots == 0 else []
    notices += texts.told(texts.text_bytes(stream, trace))
    last = ", ".join(f"{n} {noun}{'' if n == 1 else 's'}" for n, noun in said) + f": {folder}"
    return [*kinds(trace), *notices, DEFAULT, last], 1 if found else 0


def kinds(trace):
    """A line for each kind of finding, with the place of the first."""
    places = {}
    for _, place, _, number in texts.items(trace):
        places.setdefault(number, []).append(place)
    return [f"finding {number}, {name}: {len(places[number])}, the first at place {places[number][0]}" for number, name in KINDS.items() if number in places]


def drawn(command, second, program, stream, lines, room):
    """What is wrong with the pictures of a stream, how many there are, and what was said of it."""
    job, folder = os.path.join(room, "job.pcl"), os.path.join(room, "drawn")
    with open(job, "wb") as file:
        file.write(stream)
    done = subprocess.run([command, "draw", job, "-o", folder], stdin=subprocess.DEVNULL, stdout=subprocess.PIPE)
    end = done.stdout.decode().splitlines(), done.returncode
    if end != wanted_lines(second, stream, lines, folder):
        return [f"ended by {end}, not by {wanted_lines(second, stream, lines, folder)}"], 0, []
    count = int(lines[0]["pages_base"])
    names = [f"page-{number}.png" for number in range(1, count + 1)]
    if sorted(os.listdir(folder)) != sorted([*names, "findings.txt"]):
        return ["the folder has other files"], 0, []
    pages = [decoded(os.path.join(folder, name)) for name in names]
    with open(os.path.join(folder, "findings.txt"), encoding="utf-8") as file:
        text = file.read()
    return [*by_table(pages, lines), *by_program(program, stream, pages, text), *told(text.splitlines(), lines)], count, end[0]


def by_table(pages, lines):
    table = {int(line["page"]): (line["dots_base"], line["sha256_base16"]) for line in lines if line["page"] != "-"}
    for number, page in enumerate(pages, 1):
        dots, digest = corpus.count_dots(page), hashlib.sha256(page).hexdigest()[:16]
        if (str(dots), digest) != table.get(number, ("0", digest)):
            yield f"page {number}: {dots} dots, hash {digest}, not the table's"


def by_program(program, stream, pages, text):
    words = [*program, str(corpus.WIDTH), str(corpus.HEIGHT)]
    given = subprocess.run(words, input=stream, stdout=subprocess.PIPE, stderr=subprocess.PIPE)
    if given.stdout != b"".join(corpus.HEADER + page for page in pages):
        yield "the pictures are not the program's pages"
    if text.partition("The program's own lines:\n")[2] != given.stderr.decode():
        yield "findings.txt has not the program's own lines"


def told(text, lines):
    """findings.txt names each finding once in words, and once by each of the program's two lines."""
    words = tuple(sum(line.startswith(word) for line in text) for word in ("place ", "FAULT\t", "MARK\t"))
    if words != (int(lines[0]["findings"]),) * 3:
        yield f"findings.txt has {words} findings"


def main(words):
    folder, command, second, *program = words
    streams, differences, pages, said = corpus.read_table(folder), [], 0, ""
    with tempfile.TemporaryDirectory() as room:
        for name, lines in streams.items():
            wrong, count, printed = drawn(command, second, program, corpus.read_stream(folder, name), lines, room)
            differences += [f"{name}: {line}" for line in wrong]
            pages += count
            said += "\n".join(printed)
    if len(streams) != corpus.STREAMS:
        differences.append(f"the table names {len(streams)} streams, not {corpus.STREAMS}")
    for notice in (NOT_DRAWN, " text bytes moved the cursor and were not drawn", "finding 3, "):
        if notice not in said:
            differences.append(f"of no stream is said: {notice}")
    print(*differences, f"drawn: {len(streams)} streams, {pages} pages, {len(differences)} differences", sep="\n")
    return 1 if differences else 0


if __name__ == "__main__":
    sys.exit(main(sys.argv[1:]))
