#!/usr/bin/env python3
"""vectors.py PROGRAM FOLDER.. : compares a program with tables of streams.

For each line of each FOLDER/TABLE.tsv the stream named there is given to
`PROGRAM trace W H` (and to `pages W H` or `plain W H` where a check needs it),
and x, y, depth, findings and each check of the line are compared. A folder that
has report.pcl and report.stdout is also compared with `PROGRAM report`.

One line for each difference, last a line with the counts. Exit status 1 on any
difference, on an empty table, on a line whose file is missing and on a .pcl
file that no line names; 0 otherwise.
"""

import os
import subprocess
import sys

HEADINGS = ["file", "document", "page", "W", "H", "shows",
            "x", "y", "depth", "findings", "checks"]
END = ["x", "y", "L", "R", "T", "HMI", "VMI", "termination", "resolution",
       "method", "started", "gm", "used", "depth"]
NUMBERS = ("L", "R", "T", "HMI", "VMI")
SECONDS = 60


class Wrong(Exception):
    """What was expected cannot even be compared."""


def run(program, words, stream):
    try:
        done = subprocess.run([program] + words, input=stream, timeout=SECONDS,
                              stdout=subprocess.PIPE, stderr=subprocess.PIPE)
    except subprocess.TimeoutExpired:
        raise Wrong("%s: no end within %d seconds" % (" ".join(words), SECONDS))
    except OSError as error:
        raise Wrong("%s: %s" % (program, error))
    if done.returncode != 0:
        said = (done.stderr or done.stdout).decode("latin-1").strip()
        raise Wrong("%s: exit status %d: %s" % (" ".join(words), done.returncode, said))
    return done.stdout


def number(text):
    if not (text.isascii() and text.isdigit()):
        raise Wrong("not a decimal number: %r" % text)
    return int(text)


class Trace:
    """The lines of `trace W H`, read strictly."""

    def __init__(self, output):
        self.items, self.pages, self.stack = [], [], []
        self.end = self.seed = self.count = None
        text = output.decode("latin-1")
        if not text.endswith("\n"):
            raise Wrong("trace: last line without its end")
        for line in text[:-1].split("\n"):
            word, *fields = line.split("\t")
            if word == "ITEM" and len(fields) == 3:
                self.items.append(tuple(number(f) for f in fields))
            elif word == "PAGE" and len(fields) == 2:
                self.pages.append(tuple(number(f) for f in fields))
            elif word == "END" and len(fields) == len(END) and self.end is None:
                self.end = dict(zip(END, (number(f) for f in fields)))
            elif word == "STACK" and len(fields) == 2:
                self.stack.append(tuple(number(f) for f in fields))
            elif word == "SEED" and len(fields) == 1 and self.seed is None:
                self.seed = fields[0]
            elif word == "COUNT" and len(fields) == 2 and self.count is None:
                self.count = tuple(number(f) for f in fields)
            else:
                raise Wrong("trace: a line that is not of the form: %r" % line)
        if self.end is None or self.seed is None or self.count is None:
            raise Wrong("trace: END, SEED or COUNT is missing")
        found = sum(1 for item in self.items if item[2] != 0)
        if self.count != (len(self.items), found):
            raise Wrong("trace: COUNT %d %d, but %d items with %d findings are listed"
                        % (self.count + (len(self.items), found)))
        if [page[0] for page in self.pages] != list(range(1, len(self.pages) + 1)):
            raise Wrong("trace: page numbers do not run from 1")
        if len(self.stack) != self.end["depth"]:
            raise Wrong("trace: depth %d, but %d STACK lines"
                        % (self.end["depth"], len(self.stack)))


def bitmaps(output, width, height):
    """The pages of `pages W H`: for each the number of dots in each row."""
    head = b"P4\n%d %d\n" % (width, height)
    row = width // 8
    size = len(head) + row * height
    if len(output) % size != 0:
        raise Wrong("pages: %d bytes are not pages of %d" % (len(output), size))
    pages = []
    for start in range(0, len(output), size):
        if output[start:start + len(head)] != head:
            raise Wrong("pages: a page without its head")
        body = output[start + len(head):start + size]
        pages.append([bin(int.from_bytes(body[r * row:(r + 1) * row], "big")).count("1")
                      for r in range(height)])
    return pages


class Line:
    """One line of a table and what the program made of its stream."""

    def __init__(self, program, fields, stream):
        self.program, self.stream = program, stream
        self.fields = dict(zip(HEADINGS, fields))
        self.width, self.height = number(self.fields["W"]), number(self.fields["H"])
        self.measure = [self.fields["W"], self.fields["H"]]
        self.trace = Trace(run(program, ["trace"] + self.measure, stream))
        self.drawn = None

    def rows(self):
        if self.drawn is None:
            self.drawn = bitmaps(run(self.program, ["pages"] + self.measure, self.stream),
                                 self.width, self.height)
            listed = [page[1] for page in self.trace.pages]
            if [sum(page) for page in self.drawn] != listed:
                raise Wrong("pages have %s dots, but trace lists %s"
                            % ([sum(page) for page in self.drawn], listed))
        return self.drawn

    def compare(self):
        """Yields (what, expected, found) for each thing compared."""
        trace = self.trace
        for name in ("x", "y", "depth"):
            yield name, number(self.fields[name]), trace.end[name]
        yield "findings", number(self.fields["findings"]), trace.count[1]
        for check in self.fields["checks"].split(";"):
            check = check.strip()
            if check:
                yield self.check(check)

    def check(self, check):
        word, equals, value = check.partition("=")
        trace = self.trace
        if not equals:
            raise Wrong("a check without a value: %r" % check)
        if word in NUMBERS:
            return word, number(value), trace.end[word]
        if word == "seed":
            whole = value + "0" * (2 * (self.width // 8) - len(value))
            return word, whole, trace.seed
        if word == "dots":
            return word, number(value), sum(sum(page) for page in self.rows())
        if word == "pages":
            return word, number(value), len(trace.pages)
        if word == "rows":
            first, _, last = value.partition("-")
            first, last = number(first), number(last)
            filled = sorted({r for page in self.rows() for r, dots in enumerate(page) if dots})
            return word, list(range(first, last + 1)), filled
        if word == "finding":
            place, _, what = value.partition(":")
            wanted = (number(place), number(what))
            there = [(item[0], item[2]) for item in trace.items if item[2] != 0]
            return check, wanted, wanted if wanted in there else there
        if word == "plain":
            made = run(self.program, ["plain"] + self.measure, self.stream)
            return word, value, made.hex().upper()
        raise Wrong("unknown check: %r" % check)


def read_table(path):
    with open(path, encoding="utf-8", newline="") as file:
        lines = file.read().split("\n")
    if lines and lines[-1] == "":
        lines.pop()
    if not lines or lines[0].split("\t") != HEADINGS:
        raise Wrong("the headings are not: " + " ".join(HEADINGS))
    if len(lines) == 1:
        raise Wrong("the table is empty")
    return [line.split("\t") for line in lines[1:]]


def main(arguments):
    if len(arguments) < 2:
        print("usage: vectors.py PROGRAM FOLDER..", file=sys.stderr)
        return 1
    program, folders = arguments[0], arguments[1:]
    if os.sep in program:
        program = os.path.abspath(program)
    streams = checks = differences = 0

    def differ(folder, name, text):
        nonlocal differences
        differences += 1
        print("%s: %s: %s" % (folder, name, text))

    for folder in folders:
        table = os.path.join(folder, "TABLE.tsv")
        try:
            lines = read_table(table)
        except (OSError, UnicodeDecodeError, Wrong) as error:
            differ(folder, "TABLE.tsv", error)
            continue
        named = set()
        for at, fields in enumerate(lines, 2):
            if len(fields) != len(HEADINGS):
                differ(folder, "TABLE.tsv", "line %d has %d fields, not %d"
                       % (at, len(fields), len(HEADINGS)))
                continue
            name = fields[0]
            named.add(name)
            try:
                with open(os.path.join(folder, name), "rb") as file:
                    stream = file.read()
            except OSError as error:
                differ(folder, name, "line %d: %s" % (at, error.strerror))
                continue
            streams += 1
            try:
                for what, expected, found in Line(program, fields, stream).compare():
                    checks += 1
                    if expected != found:
                        differ(folder, name, "%s: expected %s, found %s"
                               % (what, expected, found))
            except Wrong as error:
                differ(folder, name, error)
        for name in sorted(os.listdir(folder)):
            if name.endswith(".pcl") and name not in named:
                differ(folder, name, "no line of the table names it")
        report = [os.path.join(folder, n) for n in ("report.pcl", "report.stdout")]
        if all(os.path.exists(path) for path in report):
            with open(report[0], "rb") as file:
                stream = file.read()
            with open(report[1], "rb") as file:
                expected = file.read()
            try:
                found = run(program, ["report"], stream)
                checks += 1
                if found != expected:
                    differ(folder, "report.stdout", "expected %r, found %r" % (expected, found))
            except Wrong as error:
                differ(folder, "report.stdout", error)

    print("vectors: %d streams, %d checks, %d differences" % (streams, checks, differences))
    return 1 if differences else 0


if __name__ == "__main__":
    sys.exit(main(sys.argv[1:]))
