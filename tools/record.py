"""Writes the record of a job: one HTML page with everything in it, for the laboratory's file. The same job gives the same record.

A refused job has a record too, which says so; one that cannot be read has none.
"""

import hashlib
import os
from collections import Counter
from contextlib import closing

import files
import findings
import pages
import png
import progress
import recordhtml
import telling
from programs import ROOT

TAKES = {"-o": "where to write", "--all": ""}
# What a record holds at most, if not all is asked for. What it leaves out, it says.
PICTURES = 40
LISTED = 500  # findings in the table, the first ones
ROWS_LISTED = 2000  # and damaged rows, the first ones
FORM_FEED = b"\f"
# The widest picture, in dots of the screen, in a wide window and in one of 400.
ROOM = {"fit": 1050, "narrow": 330}


class Facts:
    """All that the record says of a job."""

    def __init__(self, call, programs):
        self.name, self.width, self.height, self.job = files.shown(call.name), call.width, call.height, call.job
        self.call, self.programs, self.all = call, programs, "--all" in call.options
        self.version, self.sources = version()
        self.lines, self.letters = findings.Lines(), None
        self.digests, self.all_pages = [], hashlib.sha256()
        self.damaged = Counter()  # damaged rows by page number
        self.pictures = {}  # by page number: for each use, what it is reduced by and the PNG
        self.listed = set()  # findings in the table
        self.last_page_ended = None  # None: not known

    def notices(self):
        return () if self.lines.refused is not None else tuple(telling.of_job(self.call, self.lines, self.letters))

    def left_out(self):
        """What the record has no room for, if not all is asked for."""
        pages_there, found = len(self.digests), len(self.lines.places)
        if len(self.pictures) < pages_there or len(self.listed) < found:
            shown = f"{len(self.pictures):,} of {findings.counted(pages_there, 'page', 'pages', ',')}"
            listed = f"{len(self.listed):,} of {findings.counted(found, 'finding', 'findings', ',')}"
            yield f"the record shows {shown} and lists {listed}: record --all has all"


def version():
    """The version, and the SHA-256 over all sources of the proved program with their names."""
    with open(os.path.join(ROOT, "VERSION"), encoding="ascii") as file:
        said = file.read().strip()
    digest = hashlib.sha256()
    for path in sorted(sources()):
        with open(os.path.join(ROOT, path), "rb") as file:
            digest.update(b"%s\0%s\n" % (path.encode(), hashlib.sha256(file.read()).hexdigest().encode()))
    return said, digest.hexdigest()


def sources():
    yield "crates.txt"
    for folder, _, names in os.walk(os.path.join(ROOT, "crates")):
        inside = os.path.relpath(folder, ROOT)
        if inside.split(os.sep)[2:3] in (["src"], ["specs"], ["proofs"]):
            yield from (os.path.join(inside, name) for name in names)


def hash_pages(facts):
    for page, _ in facts.programs.pages(facts.lines):
        facts.digests.append(pages.digest(facts.width, facts.height, page))
        facts.all_pages.update(page)


def pictures(width, height, page):
    """The picture for each use. A browser that reduces a picture may lose thin lines, so each is shown dot for dot."""
    uses = {"full": 1}
    for use, room in ROOM.items():
        uses[use] = next((by for by in (1, 2, 4) if width <= room * by), 8)
    made = {by: png.reduced(width, height, page, by) if by > 1 else png.png(width, height, page) for by in set(uses.values())}
    return {use: (by, made[by]) for use, by in uses.items()}


def draw_pages(facts):
    """Pictures of the pages with damaged rows first, then of the others, as many as a record holds. The job is run again for them."""
    facts.damaged.update(facts.lines.page_of(index) for index in facts.lines.damaged())
    most = len(facts.digests) if facts.all else PICTURES
    wanted = set(list(dict.fromkeys([*facts.damaged, *range(1, most + 1)]))[:most])
    wanted &= {*range(1, len(facts.digests) + 1)}
    with closing(facts.programs.pages(findings.Lines())) as again:
        for number in range(1, max(wanted, default=0) + 1):
            page, _ = next(again)
            if number in wanted:
                facts.pictures[number] = pictures(facts.width, facts.height, page)


def list_findings(facts):
    """The table has the first findings and the first damaged rows. So of the rows that share a mark the first is in it, if any is."""
    found = len(facts.lines.places)
    facts.listed = {*range(found if facts.all else min(LISTED, found)), *facts.lines.damaged()[:ROWS_LISTED]}


def last_page(facts):
    """Whether the job ended its last page itself. With a form feed more it has a page more, if it did."""
    lines, job = facts.lines, facts.job
    if lines.numbers[-1:] == b"\1":
        job = job[: lines.places[-1]]  # a command that the end cut off would take the form feed as its own
    if len(job) < pages.LONGEST:
        longer = findings.Lines()
        facts.programs.take(longer, job + FORM_FEED)
        facts.last_page_ended = len(longer.dots) > len(lines.dots)


def gathered(facts):
    hash_pages(facts)
    if facts.lines.refused is None:
        draw_pages(facts)
        list_findings(facts)
        last_page(facts)
        facts.letters = facts.programs.letters()


def record(call, programs, goal):
    facts = Facts(call, programs)
    with progress.Progress(lambda: telling.so_far(call, facts.lines)):
        gathered(facts)
        goal.write(recordhtml.record(facts).encode("utf-8"))
    lines = facts.lines
    if lines.refused is not None:
        return telling.refused("record", lines.refused)
    goal.summary("record", telling.summary(lines, (*facts.notices(), *telling.of_page(call), *facts.left_out()), goal.said()))
    return lines.status()
