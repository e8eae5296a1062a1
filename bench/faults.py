#!/usr/bin/env python3
"""faults.py FOLDER PROGRAM BEFORE [EMULATOR]: the program `pages` on jobs of 1,048,576 bytes that are all faults, as tables.

Named jobs first, each finding that can be repeated among them; BEFORE ('-': none) is an earlier version, which runs beside it on those. Then every
byte, and every two of the bytes that the rules tell apart, in turns. The time is what the processor did for that process. Pages go nowhere, lines to a file
of FOLDER. A byte that marks the page used and FF in turns is not run: half a million pages of a megabyte must be written. Exit status 1 where a job takes
more than LIMIT seconds and has not more than MANY pages to be written.
"""

import os
import subprocess
import sys

LONGEST = 1048576
LIMIT = 2.0
MANY = 1000
PAGE = ("2552", "3304")
FORM_FEED = 12
# A beginning, and what is repeated behind it up to the limit.
NAMED = (
    ("ESC", b"", b"\x1b"),
    ("finding 2: a byte that cannot stand, in a sequence that is begun", b"", b"\x1b&"),
    ("finding 3: a two-byte command", b"", b"\x1bA"),
    ("finding 3: a letter of an open sequence", b"\x1b&a", b"z"),
    ("finding 4: a value, in an open sequence", b"\x1b&k", b"9g"),
    ("finding 5: a pop, in an open sequence", b"\x1b&f", b"1s"),
    ("finding 5: a pop, each by itself", b"", b"\x1b&f1S"),
    ("finding 6: a start of raster that is started", b"\x1b*r1a", b"1a"),
    ("finding 7: a damaged row by method 2", b"\x1b*b2m", b"1w\x05"),
    ("finding 7: a damaged row by method 3", b"\x1b*b3m", b"1w\xff"),
    ("FF: a page for each", b"", b"\f"),
    ("text, for comparison", b"", b"A"),
)
# One of each kind that the rules tell apart: codes, ESC, space, what begins a sequence, groups, letters, signs, digits, and what has no meaning.
APART = bytes(range(7, 16)) + b'\x00\x1b !"#$%&()*+,-./059:=?@AEWX_`abfklmprstwyz{~\x7f\x80\xff'


class Different(Exception):
    """The program did not come to its end."""


def job_of(head, again):
    return (head + again * (LONGEST // len(again)))[:LONGEST]


def run(command, folder, job):
    """The processor's time in seconds, and how many findings and pages there are."""
    path = os.path.join(folder, "job")
    with open(path, "wb") as file:
        file.write(job)
    with open(path, "rb") as given, open(path + ".lines", "w+b") as lines:
        child = subprocess.Popen([*command, *PAGE], stdin=given, stdout=subprocess.DEVNULL, stderr=lines)
        _, status, usage = os.wait4(child.pid, 0)
        child.returncode = os.waitstatus_to_exitcode(status)
        lines.seek(0)
        text = lines.read()
    if child.returncode != 0 or not text.splitlines()[-1].startswith(b"END\t"):
        raise Different
    return usage.ru_utime + usage.ru_stime, text.count(b"FAULT\t"), text.count(b"PAGE\t")


def named(now, before, folder):
    head = "| Job of 1 MB | Findings | Pages | Seconds |"
    print(head + (" Before, seconds |\n|---|---|---|---|---|" if before else "\n|---|---|---|---|"))
    for name, begin, again in NAMED:
        job = job_of(begin, again)
        seconds, findings, pages = run(now, folder, job)
        line = f"| {name} | {findings:,} | {pages:,} | {seconds:.2f} |"
        print(line + (f" {run(before, folder, job)[0]:.2f} |" if before else ""), flush=True)
        if pages <= MANY:
            yield seconds, name


def shown(job):
    return " ".join(f"{byte:02X}" for byte in job)


def marks_used(byte):
    """Text marks the page used; a space and the codes do not."""
    return byte > 32 and byte != 127


def bytes_alone():
    for byte in range(256):
        yield [byte]


def in_turns():
    for first in APART:
        for second in APART:
            if first != second and not (FORM_FEED in (first, second) and marks_used(max(first, second))):
                yield [first, second]


def slowest(title, now, folder, jobs):
    """A line with the slowest jobs that have few pages, and the slowest of those with many; how many of the first are above the limit."""
    few, many = [], []
    for job in jobs:
        seconds, _, pages = run(now, folder, job_of(b"", bytes(job)))
        (few if pages <= MANY else many).append((seconds, shown(job)))
    few.sort(reverse=True)
    said = [", ".join(f"{name} {seconds:.2f}" for seconds, name in times) for times in (few[:3], sorted(many)[-1:])]
    print(f"| {title} | {len(few):,} | {said[0]} | {len(many)} | {said[1]} |", flush=True)
    return sum(seconds > LIMIT for seconds, _ in few)


def main(folder, program, before, *emulator):
    now = [*emulator, program]
    print("## Jobs that are all faults\n")
    slow = sum(seconds > LIMIT for seconds, _ in named(now, [*emulator, before] if before != "-" else None, folder))
    print("\n| Bytes repeated up to 1 MB | Jobs | The slowest, seconds | Jobs of many pages | The slowest, seconds |\n|---|---|---|---|---|")
    slow += slowest("one byte", now, folder, bytes_alone())
    slow += slowest("two bytes in turns", now, folder, in_turns())
    return 1 if slow else 0


if __name__ == "__main__":
    sys.exit(main(*sys.argv[1:]))
