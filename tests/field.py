#!/usr/bin/env python3
"""field.py SECOND CORPUS [FILE]: what the streams of the corpus send and the paper does not carry or allow, and what no finding tells of.

SECOND is the second program, CORPUS the folder of streams with their table and the pictures they were made from. Rows of four Markdown
tables, on a page of 2552 by 3304 dots:

commands  command, finding, how often it stands in the streams, and in how many of them;
texts     stream, its text bytes, dots of all its pages, findings of the stream;
pages     stream, page, findings of the stream, dots, dots of its picture: where the two are not the same;
skips     stream, how many *b#Y it carries out, how many of them while the seed row is not zero, findings of the stream.

With FILE, the rows must stand in it in this order, and no other of their form: exit status 1 if not.
"""
import collections
import csv
import glob
import lzma
import os
import re
import subprocess
import sys

ESC = b"\33"
PARAMETERS = rb"[-+]?[0-9]*\.?[0-9]*(.)"
PICTURE = re.compile(rb"P4\n(#.*\n)*[0-9]+ [0-9]+\n")
SKIP = re.compile(rb"\x1b\*b[0-9]+Y")
TEXT = re.compile(rb"[!-~\x80-\xff]")
# Three skips, two of them while the seed row is not zero: where the corpus has none such, a count that is always 0 must not pass. By P5 it is one.
SKIPS = b"\33*b1W\377\33*b2y0Y\33*rB\33*r0A\33*b1Y", (3, 2)


def bytes_of(path):
    return lzma.open(path).read() if path.endswith(".xz") else open(path, "rb").read()


def streams_of(corpus):
    return {os.path.basename(path): bytes_of(path) for path in sorted(glob.glob(os.path.join(corpus, "*.pcl*")))}


def said(second, word, job):
    return subprocess.run([second, word, "2552", "3304"], input=job, stdout=subprocess.PIPE, check=True).stdout


def traced(second, job, name):
    """The fields of each line of the trace that has the name."""
    lines = (line.split("\t") for line in said(second, "trace", job).decode().splitlines())
    return [fields[1:] for fields in lines if fields[0] == name]


def findings(second, job):
    """Place and finding of each item that has one."""
    return [(int(place), int(finding)) for place, _, finding in traced(second, job, "ITEM") if finding != "0"]


def command(job, place):
    """The command at a place, as the manuals write it: its value is #."""
    begins = place if job[place:place + 1] == ESC else job.rindex(ESC, 0, place)
    two = re.match(rb"\x1b([0-~])", job[begins:begins + 2])
    if two:
        return "ESC " + two[1].decode()
    head = re.match(rb"\x1b([!-/][`-~]?)", job[begins:begins + 3])[1]
    value = place if begins != place else begins + 1 + len(head)
    letter = re.match(PARAMETERS, job[value:value + 40], re.S)[1]
    return (head + b"#" + letter.upper()).decode()


def commands(second, streams):
    times, found = collections.Counter(), collections.defaultdict(set)
    for name, job in streams.items():
        for place, finding in findings(second, job):
            key = finding, command(job, place)
            times[key] += 1
            found[key].add(name)
    for (finding, name), count in sorted(times.items(), key=lambda row: (row[0][0], -row[1], row[0][1])):
        yield "| `%s` | %d | %d | %d |" % (name, finding, count, len(found[finding, name]))


def carried(second, job, form):
    """The plain stream, and the places of its items of a form.

    There each command that is carried out stands as a sequence of its own, and the rows before it leave the same seed row as in the job.
    """
    plain = said(second, "plain", job)
    items = [(int(place), int(size)) for place, size, _ in traced(second, plain, "ITEM")]
    return plain, [place for place, size in items if form.fullmatch(plain, place, place + size)]


def texts(second, streams):
    for name, job in streams.items():
        count = len(carried(second, job, TEXT)[1])
        if count:
            dots = sum(int(dots) for _, dots in traced(second, job, "PAGE"))
            yield "| `%s` | %d | %d | %d |" % (name, count, dots, len(findings(second, job)))


def picture_dots(path, scale):
    """The dots of a picture, each of them a square of SCALE dots."""
    picture = bytes_of(path)
    bits = picture[PICTURE.match(picture).end():]
    return bin(int.from_bytes(bits, "big")).count("1") * scale * scale


def pages(second, corpus, streams):
    """The table names the picture of each page; one that is on no page has the page - and no dots."""
    for line in csv.DictReader(open(os.path.join(corpus, "TABLE.tsv"), encoding="utf-8"), delimiter="\t"):
        if line["source"] == "-":
            continue
        job = streams[line["file"]]
        dots = dict(traced(second, job, "PAGE")).get(line["page"], "0")
        sent = picture_dots(os.path.join(corpus, "expect", line["source"] + ".xz"), int(line["scale"]))
        if int(dots) != sent:
            yield "| `%s` | %s | %d | %s | %d |" % (line["file"], line["page"], len(findings(second, job)), dots, sent)


def skipped(second, job):
    """How many *b#Y are carried out, and how many of them while the seed row is not zero."""
    plain, places = carried(second, job, SKIP)
    return len(places), sum(traced(second, plain[:place], "SEED")[0][0].strip("0") != "" for place in places)


def skips(second, streams):
    for name, job in streams.items():
        count, dirty = skipped(second, job)
        if count:
            yield "| `%s` | %d | %d | %d |" % (name, count, dirty, len(findings(second, job)))


def main():
    second, corpus = sys.argv[1:3]
    job, counts = SKIPS
    if skipped(second, job) != counts:
        print("field: *b#Y is not counted as it should be")
        return 1
    streams = streams_of(corpus)
    tables = [list(table) for table in (commands(second, streams), texts(second, streams), pages(second, corpus, streams), skips(second, streams))]
    if len(sys.argv) == 3:
        print("\n\n".join("\n".join(table) for table in tables))
        return 0
    made = [line for table in tables for line in table]
    row = re.compile(r"\| `[^`]+`( \| [-0-9]+){3,4} \|$")
    stand = [line for line in open(sys.argv[3], encoding="utf-8").read().splitlines() if row.match(line)]
    wrong = sorted(set(made) ^ set(stand))
    for line in wrong:
        print("field: %s: %s" % ("missing" if line in made else "not so", line))
    if made != stand and not wrong:
        print("field: a row stands twice, or out of its order")
    print("field: %d rows, %d wrong" % (len(made), len(wrong)))
    return 1 if made != stand or not all(tables) else 0


sys.exit(main())
