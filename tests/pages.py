#!/usr/bin/env python3
"""pages.py PROGRAM SECOND [COUNT [SEED]]: the program `pages` against the second program, byte for byte: the pages, and the lines.

Both read the streams of tests/reports.py, COUNT (200) of them generated, each on one of several pages, the largest and the least among them, and streams of
lengths around the limit. The second program's lines come from its `trace` and, behind each finding, from its `marks`. Each job is run without AT and with it, by
a third word. One line for each difference, last a line with the counts; exit status 1 on any difference, or where a kind of line never came up.
"""
import subprocess
import sys

import reports

LIMIT = 1048576
SECONDS = 300
MEASURES = ["640 800", "2552 3304", "8 1", "8 6800", "4800 1", "1000 151", "4800 6800"]
REFUSED = ["0 1", "8 0", "12 10", "4808 10", "8 6801", "a 1", "8 -1", "99999999999999999999 8"]
# third words that ask for AT, and others
ASKING = ["1", "01", "10", "1000000", "99999999999999999999"]
NOT_ASKING = ["0", "00", "", "a", "1a", "-1", " 1", "1" * 21]


def output(words, given):
    done = subprocess.run(words, input=given, timeout=SECONDS, stdout=subprocess.PIPE, stderr=subprocess.PIPE)
    return done.stdout, done.stderr


def lines_of(trace, marks, width, height):
    """The lines, from the items, pages and end of a trace, and a mark for each finding. A mark without a finding is a line at the end. AT has the place behind
    the item that ended the page; a used last page was ended by none."""
    lines, findings, behind = [b"SIZE\t%d\t%d" % (width, height)], 0, 0
    marks = iter(b"MARK\t" + mark for mark in marks.splitlines() if not mark.startswith(b"REFUSED"))
    for line in trace.splitlines():
        word, *fields = line.split(b"\t")
        if word == b"ITEM":
            behind = int(fields[0]) + int(fields[1])
            if fields[2] != b"0":
                findings += 1
                lines += [b"FAULT\t" + fields[0] + b"\t" + fields[2], next(marks, b"no mark")]
        elif word == b"PAGE":
            lines += [line, b"AT\t%d" % behind]
        elif word == b"REFUSED":
            lines.append(line)
        elif word == b"END":
            if fields[12] == b"1":
                lines.pop()
            lines.append(b"\t".join([b"END", fields[0], fields[1], fields[13], b"%d" % findings]))
    return b"".join(line + b"\n" for line in [*lines, *marks])


def without_at(lines):
    return b"".join(line for line in lines.splitlines(True) if not line.startswith(b"AT\t"))


def expected(second, measure, given):
    pages, trace, marks = (output([second, mode] + measure.split(), given)[0] for mode in ("pages", "trace", "marks"))
    return pages, lines_of(trace, marks, *map(int, measure.split()))


def refusals(program):
    """Measures that are not allowed: no page, and a last line that says 10, before 12."""
    for measure in REFUSED:
        for job in (b"A", b"A" * (LIMIT + 1)):
            pages, lines = output([program] + measure.split(), job)
            if pages or lines.splitlines()[-1:] != [b"REFUSED\t10"] or not lines.startswith(b"SIZE\t"):
                yield measure


def third_words(program):
    """Those that do not what they should, on a job of one page, which its last byte ends."""
    plain = output([program, "8", "1"], b"A\f")[1]
    asked = plain.replace(b"END", b"AT\t2\nEND")
    for word in ASKING + NOT_ASKING:
        if output([program, "8", "1", word], b"A\f")[1] != (asked if word in ASKING else plain):
            yield word


def jobs(count, seed):
    for number, (name, job) in enumerate(reports.streams(count, seed)):
        yield name, job, MEASURES[number % len(MEASURES)]
    for length in (LIMIT - 1, LIMIT, LIMIT + 1):
        yield "text of %d bytes" % length, b"A" * length, MEASURES[0]
    yield "200 form feeds", b"\f" * 200, MEASURES[1]


def main():
    if len(sys.argv) not in (3, 4, 5):
        sys.exit("usage: pages.py PROGRAM SECOND [COUNT [SEED]]")
    count = int(sys.argv[3]) if len(sys.argv) > 3 else 200
    seed = int(sys.argv[4]) if len(sys.argv) > 4 else 1
    done = differ = 0
    missing = reports.WANTED | {b"MARK", b"AT"}
    for name, job, measure in jobs(count, seed):
        pages, lines = expected(sys.argv[2], measure, job)
        missing -= reports.kinds(lines)
        done += 1
        for words, wanted in ((measure, without_at(lines)), (measure + " 1", lines)):
            if output([sys.argv[1]] + words.split(), job) != (pages, wanted):
                differ += 1
                print("pages: %s on %s: the two differ" % (name, words))
    for measure in refusals(sys.argv[1]):
        differ += 1
        print("pages: %s: not refused with 10" % measure)
    for word in third_words(sys.argv[1]):
        differ += 1
        print("pages: third word '%s': AT or not, wrongly" % word)
    for kind in sorted(missing):
        print("pages: no stream has brought about %s" % kind.decode())
    print("pages: %d jobs, %d measures refused, %d differences" % (done, len(REFUSED), differ))
    sys.exit(1 if differ or missing or done < count + 60 else 0)


main()
