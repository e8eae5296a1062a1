#!/usr/bin/env python3
"""Opens records in a browser and checks what it shows.

    recorded.py shown BROWSER ROVINUSET SECOND FOLDER   the records go to this folder; SECOND is the second program
    recorded.py pictures BROWSER RECORD FOLDER          a picture of a record at each of the two widths goes to this folder

The browser has a copy of each record with a script at its end that says what is on the page: pictures as the browser decoded them, rows, marks
and where they lie, links and what they lead to, and everything that would be fetched. The copy is in a frame of the width that is asked for, as a
browser's own window has a least width; the page around it takes what the copy says as its title. A line for each failed check, then the count;
exit status 1 on any.
"""

import base64
import html
import json
import lzma
import os
import re
import struct
import subprocess
import sys
import tempfile
import zlib

HERE = os.path.dirname(os.path.abspath(__file__))
VECTORS = os.path.join(HERE, "vectors")
sys.path.insert(0, os.path.join(VECTORS, "damaged"))
import drawn  # noqa: E402
import make  # noqa: E402
import marked  # noqa: E402

WIDTHS = (400, 1400)
LEFT_OUT = "the record shows {} and lists {}: record --all has all"
PROBE = """<script>
addEventListener('load', () => {
  const all = found => [...document.querySelectorAll(found)];
  const box = one => one.getBoundingClientRect();
  const links = all('a[href]').map(one => one.getAttribute('href'));
  const ids = all('[id]').map(one => one.id);
  parent.postMessage(JSON.stringify({
    width: innerWidth,
    scrolled: document.documentElement.scrollWidth,
    text: document.body.innerText,
    notices: all('header .notice').map(one => one.innerText),
    pictures: all('img').map(one => [one.complete, one.naturalWidth, one.naturalHeight]),
    seen: all('img').filter(one => box(one).width > 0).map(one => [one.className, Math.round(box(one).width), Math.round(box(one).height)]),
    rows: all('#list tbody tr').map(one => one.id),
    places: all('#list tbody tr').map(one => [one.cells[3].innerText, one.cells[3].querySelector('a')?.getAttribute('href') ?? null]),
    kinds: all('#kinds tbody tr').map(one => Number(one.cells[2].innerText.replace(/[^0-9]/g, ''))),
    marks: all('.mark').map(one => {
      const picture = box(one.parentNode.querySelector('.picture'));
      const leads = [one.closest('figure').id, one.id, one.getAttribute('href'), one.title, one.getAttribute('aria-label')];
      return [...leads, (box(one).top - picture.top) / picture.height, picture.left - box(one).right];
    }),
    cut: all('.mark span').filter(one => box(one).left < box(one.closest('.sheet')).left).map(one => one.innerText),
    links: links.length,
    lost: links.filter(one => !/^#./.test(one) || !document.getElementById(one.slice(1))),
    twice: ids.filter((one, at) => ids.indexOf(one) !== at),
    outside: all('*').flatMap(one => [...one.attributes]).filter(one => /^(src|href|srcset|data|action|poster|background)$/.test(one.name))
      .map(one => one.value.slice(0, 30)).filter(one => !/^(#|data:image\\/png;base64,)/.test(one)),
    fetched: performance.getEntriesByType('resource').map(one => one.name.slice(0, 30)).filter(one => !one.startsWith('data:')),
    scripts: all('script, link, iframe, object, embed, style').map(one => one.tagName).join(' '),
  }), '*');
});
</script>
</body>"""
FRAME = """<!DOCTYPE html><title>nothing</title><script>addEventListener('message', said => { document.title = said.data; });</script>
<iframe src="copy.html%s" style="border:0;width:%dpx;height:1600px"></iframe>"""


class Checks:
    def __init__(self):
        self.done, self.failed = 0, 0

    def right(self, what, wanted, given):
        self.done += 1
        if wanted != given:
            self.failed += 1
            print(f"record: {what}: wanted {wanted}, given {given}")

    def same(self, what, wanted, given):
        """Two lists, which may be long: only the first difference is told."""
        at = next((at for at, (one, other) in enumerate(zip(wanted, given)) if one != other), min(len(wanted), len(given)))
        self.right(f"{what}, from {at} on", [len(wanted), wanted[at : at + 1]], [len(given), given[at : at + 1]])


class Records:
    """Records made by the command, and what a browser shows of them."""

    def __init__(self, browser, command, second, folder):
        self.browser, self.command, self.second, self.folder = browser, command, second, folder
        self.checks = Checks()
        self.printed = []  # what was said of the last one

    def path(self, name):
        return os.path.join(self.folder, name)

    def make(self, name, job, status, *words):
        """The record of these bytes, as text."""
        with open(self.path(name), "wb") as file:
            file.write(job)
        goal = self.path(name + ".html")
        nothing = subprocess.DEVNULL
        done = subprocess.run([self.command, "record", *words, self.path(name), "-o", goal], stdin=nothing, stdout=subprocess.PIPE, stderr=nothing)
        self.printed = done.stdout.decode().splitlines()
        self.checks.right(f"{name}: status", status, done.returncode)
        with open(goal, encoding="utf-8") as file:
            return file.read()

    def shown(self, name, text, width, anchor=""):
        """What the browser shows of this record, opened at this width."""
        with open(self.path("copy.html"), "w", encoding="utf-8") as file:
            file.write(text.replace("default-src 'none';", "default-src 'none'; script-src 'unsafe-inline';", 1).replace("</body>", PROBE))
        with open(self.path("frame.html"), "w", encoding="utf-8") as file:
            file.write(FRAME % (anchor, width))
        dump = browse(self.browser, "--dump-dom", "--virtual-time-budget=10000", "file://" + self.path("frame.html"))
        facts = json.loads(html.unescape(re.search(r"<title>(.*?)</title>", dump, re.DOTALL)[1]))
        self.alone(f"{name}, {width} wide", text, facts, width)
        return facts

    def alone(self, what, text, facts, width):
        """It is whole in itself, fits the window, and its links lead somewhere."""
        right = self.checks.right
        right(f"{what}: the window's width", width, facts["width"])
        right(f"{what}: scrolls sideways", False, facts["scrolled"] > width)
        right(f"{what}: links that lead nowhere", [], facts["lost"])
        right(f"{what}: numbers of marks that are cut", [], facts["cut"])
        right(f"{what}: names given twice", [], facts["twice"])
        right(f"{what}: from outside", [], facts["outside"] + facts["fetched"])
        right(f"{what}: scripts and styles", "STYLE SCRIPT", facts["scripts"])  # the script is the probe's
        right(f"{what}: words in the text", [], re.findall(r"<script|@import|url\(|http:|https:| on\w+=", text))
        right(f"{what}: the policy", 1, text.count("content=\"default-src 'none'; img-src data:; style-src 'unsafe-inline'\""))
        pictures = [(whole, wide > 0, high > 0) for whole, wide, high in facts["pictures"]]
        right(f"{what}: pictures", [(True, True, True)] * text.count("<img "), pictures)


def browse(browser, *words):
    """Standard output of the browser without a window and without a network."""
    room = ["--headless", "--disable-gpu", "--hide-scrollbars", "--no-first-run", "--host-resolver-rules=MAP * ~NOTFOUND"]
    sandbox = ["--no-sandbox"] if os.getuid() == 0 else []
    with tempfile.TemporaryDirectory() as profile:
        command = [browser, *room, *sandbox, f"--user-data-dir={profile}", *words]
        done = subprocess.run(command, stdout=subprocess.PIPE, stderr=subprocess.DEVNULL)
    return done.stdout.decode("utf-8", "replace")


def vector(*names):
    path = os.path.join(VECTORS, *names)
    with (lzma.open if path.endswith(".xz") else open)(path, "rb") as file:
        return file.read()


def damaged_curve(records):
    """Each damaged row is marked where it is blank, and mark and line lead to each other."""
    right, name = records.checks.right, "damaged-curve.pcl"
    job = vector("damaged", name)
    text = records.make(name, job, 1)
    right("the same job, the same record", text, records.make(name, job, 1))
    rows = [187 + 4 * row for row in make.DAMAGE]  # the page's dot rows: from 187 on, four to a row of 75 an inch
    for width in WIDTHS:
        facts = records.shown(name, text, width)
        right("verdict", True, "This job has 9 findings: 9 damaged rows. The damaged rows are blank on the page." in facts["text"])
        right("pictures", [[True, 2552, 3304], [True, 638, 826], [True, 319, 413]], facts["pictures"])
        right("the picture that is seen, dot for dot", [["narrow", 319, 413] if width == 400 else ["fit", 638, 826]], facts["seen"])
        right("as many rows as findings", [f"finding-{number}" for number in range(1, 10)], facts["rows"])
        right("links: four to the parts, three of the page, a mark and a line for each finding", 4 + 3 + 9 + 9, facts["links"])
        right("counts by number", [0, 0, 0, 0, 0, 0, 9], facts["kinds"])
        names = [f"page-1-row-{row}" for row in rows]
        right("marks and what they lead to", [[name, f"#finding-{n}"] for n, name in enumerate(names, 1)], [one[1:3] for one in facts["marks"]])
        right("links back", [f"#{name}" for name in names], [leads for _, leads in facts["places"]])
        right("rows said", rows, [int(row.replace(",", "")) for row in re.findall(r'">page 1, dot row ([\d,]+)', text)])
        by_second(records, name, job, facts)
    for width in WIDTHS:
        full = records.shown(name, text, width, "#page-1-full")
        right("full size", [["full", 2552, 3304]], full["seen"])
    no_dot_lost(right, text)


def by_second(records, name, job, facts, width=2552, height=3304, limits=marked.LIMITS):
    """Each damaged row of a shown page is marked once, on its page and where the second program says; and so says the table of each finding."""
    right, same, told = records.checks.right, records.checks.same, marked.Marked(records.second, job, width, height, limits)
    listed, marks = told.listed(), told.marks()
    in_table = {one.number for one in listed}
    same(f"{name}: rows of the table", [f"finding-{one.number}" for one in listed], facts["rows"])
    same(f"{name}: places", [list(told.where(one)) for one in listed], facts["places"])
    wanted = []
    for page, row, group in marks:
        first, said = group[0], told.title(group)
        leads = [f"page-{page}-row-{row}", f"#finding-{first.number}", said, said] if first.number in in_table else ["", None, said, None]
        wanted.append([f"page-{page}", *leads])
    same(f"{name}: marks", wanted, [one[:5] for one in facts["marks"]])
    dot = max(high for _, _, high in facts["seen"]) / height  # dots of the screen to one of the page
    apart = [abs(one[5] * height - row) * dot for one, (_, row, _) in zip(facts["marks"], marks)]
    right(f"{name}: marks lie beside their rows", True, max(apart, default=0) < 1.5)
    right(f"{name}: marks lie in the margin", True, all(-2 <= one[6] <= 2 for one in facts["marks"]))


def no_dot_lost(right, text):
    """Where the page has a dot, its reduced pictures are not white; where it has none, they are."""
    full, fit, narrow = (greys(base64.b64decode(one)) for one in re.findall(r'src="data:image/png;base64,([^"]*)"', text))
    for by, small in ((4, fit), (8, narrow)):
        inked = {(x // by, y // by) for y, row in enumerate(full) for x, grey in enumerate(row) if not grey}
        right(f"reduced by {by}", inked, {(x, y) for y, row in enumerate(small) for x, grey in enumerate(row) if grey < 255})


def greys(picture):
    """The rows of a PNG of one or eight bits of grey."""
    parts = drawn.chunks(picture)
    width, height, bits = struct.unpack(">IIB", parts[b"IHDR"][:9])
    data, wide = zlib.decompress(parts[b"IDAT"]), width * bits // 8
    rows = (data[at + 1 : at + 1 + wide] for at in range(0, height * (wide + 1), wide + 1))
    return [[byte >> shift & (1 << bits) - 1 for byte in row for shift in range(8 - bits, -1, -bits)] for row in rows]


def rows_elsewhere(records):
    """Damaged rows in an open sequence, on the next page, moved there by a command, and below the foot: where they lie is said of each; and of other
    findings, one of them behind the last page."""
    job = b"\x1b*b2m1w\x051W\x05\f\x1b*p300Y\x1b*b1W\x05\x1b*p9999Y\x1b*b1W\x05\x1b&f1S\f\x1b&f1S"
    text = records.make("elsewhere.pcl", job, 1)
    said = re.findall(r'<a href="#page-\d-row-\d+">(.*?)</a>', text)
    where = ["page 1, dot row 187, 15.9 mm from the top", "page 1, dot row 191, 16.2 mm from the top"]
    where += ["page 2, dot row 450, 38.1 mm from the top", "page 2, below the page's foot"]
    records.checks.right("elsewhere: rows", where, said)
    by_second(records, "elsewhere", job, records.shown("elsewhere", text, 400))


def flat_curve(records):
    """The curve of the incident: 230 damaged rows, one after the other."""
    job = vector("damaged", "flat-curve.pcl")
    facts = records.shown("flat", records.make("flat.pcl", job, 1), 1400)
    records.checks.right("flat: marks", 230, len(facts["marks"]))
    by_second(records, "flat", job, facts)


def end_states(records):
    """What is said of the end, and a clean job."""
    right = records.checks.right
    clean = records.shown("clean", records.make("clean.pcl", vector("corpus", "gnuplot-hpdj-75.pcl"), 0), 1400)
    right("clean: verdict", True, "This job has no findings." in clean["text"])
    right("clean: notices", [], clean["notices"])
    right("clean: end", True, "The job ended its last page itself and began no other." in clean["text"])
    for name, job, said in (
        ("empty", b"", "No page was used."),
        ("used", b"A", "The job did not end its last page. The page was used, so it is page 1 here."),
        ("pushed", b"\x1b&f0s0SA\f", "2 positions left on it"),
        ("short", b"A\x1b*b5Wab", "The job did not end its last page."),
        ("open", b"A\f\x1b&a5c", "The job ended its last page itself"),
        ("longest", b"\f" + b" " * 1048575, "Not known whether the job ended its last page"),
    ):
        text = records.make(name, job, 1 if name in ("short", "open") else 0)
        right(f"{name}: end", True, said in text)


def notices(records):
    """What is no finding and is said all the same: in the record as in the line that is printed."""
    right, moved = records.checks.right, "text bytes moved the cursor and were not drawn"
    for name, job, said in (
        ("nothing.pcl", b"Hello world", ["nothing was drawn: no page has a dot", f"10 {moved}"]),
        ("letters.pcl", b"\x1b*b1W\xff" + b"A" * 1234, [f"1,234 {moved}"]),
        ("blank.pcl", b"\f", ["nothing was drawn: no page has a dot"]),
        ("row.pcl", b"\x1b*b1W\xff", []),
    ):
        text = records.make(name, job, 0, "640", "800")
        right(f"{name}: printed", said, records.printed[:-1])
        right(f"{name}: notices", [line[0].upper() + line[1:] + "." for line in said], records.shown(name, text, 400)["notices"])
    text = records.make("empty.pcl", b"", 0, "a5")
    facts = records.shown("empty", text, 400)
    right("empty: printed", ["the job is empty: it has no bytes"], records.printed[:-1])
    right("empty: said", True, "This job is empty: it has no bytes." in facts["text"])
    right("empty: said to be clean", False, "This job has no findings." in facts["text"])
    right("empty: the page", True, "1,752 by 2,480 dots, 300 an inch (148.3 mm by 210.0 mm), a5" in facts["text"])
    right("empty: no page", True, "The job has no page." in facts["text"])


def many_findings(records):
    """A long list is cut and says so; the counts are whole."""
    right = records.checks.right
    text = records.make("many.pcl", vector("corpus", "gnuplot-hppj-180.pcl.xz"), 1)
    facts = records.shown("many", text, 400)
    right("many: rows", 500, len(facts["rows"]))
    right("many: counts", 3461, sum(facts["kinds"]))
    right("many: said", True, "2,961 of 3,461 findings are not in this list. ./rovinuset record --all lists them all" in facts["text"])
    right("many: printed", LEFT_OUT.format("1 of 1 page", "500 of 3,461 findings"), records.printed[-2])


def many_pages(records):
    """Damaged rows on a late page: its picture is there, each row is marked, and those below the foot share a mark."""
    right = records.checks.right
    job = b"A\x1b&f1S\f" * 60 + b"\x1b*b2M" + b"\x1b*b1W\x05" * 350 + b"\f"
    text = records.make("pages.pcl", job, 1, "640", "800")
    facts = records.shown("pages", text, 1400)
    records.shown("pages", text, 400)
    right("pages: pictures", 40, len(facts["seen"]))
    right("pages: the damaged page", True, 'id="page-61"' in text)
    right("pages: marks", 154 + 1, len(facts["marks"]))  # dot rows 187, 191, .. 799, and the foot
    right("pages: the last mark", ["findings 215 to 410, damaged rows, below the page's foot"], [one[3] for one in facts["marks"][-1:]])
    right("pages: rows", 410, len(facts["rows"]))
    right("pages: one that is not shown", ["page 60, dot row 187, 15.9 mm from the top", None], facts["places"][59])
    right("pages: printed", LEFT_OUT.format("40 of 61 pages", "410 of 410 findings"), records.printed[-2])
    for said in ("Of 61 pages 40 are shown here", "./rovinuset record --all shows them all", "350 damaged rows, marked in the margin by the number of the finding"):
        right("pages: said", True, said in facts["text"])
    by_second(records, "pages", job, facts, 640, 800)


def many_rows(records):
    """More damaged rows than the table holds, on more pages than are shown: each row of these pages is marked. Some share a dot row: they lie a part of
    a dot apart, or the cursor went back there behind another finding."""
    right, row = records.checks.right, b"\x1b*b1W\x05"
    page = b"\x1b*rC\x1b*t300R\x1b*b2M" + row * 400 + b"\x1b&f1S" + (b"\x1b&a-44V" + row * 2) * 3 + b"\x1b*p300Y" + row * 360 + b"\f"
    found = 45 * (766 + 1)
    text = records.make("rows.pcl", page * 45, 1, "640", "800")
    for width in WIDTHS:
        facts = records.shown("rows", text, width)
        by_second(records, "rows", page * 45, facts, 640, 800)
        right("rows: the dot rows from 187 on and the foot of each page", 40 * (800 - 187 + 1), len(facts["marks"]))
        right("rows: in the table", 2000 + 1, len(facts["rows"]))
        right("rows: counts", [45, 0, 45 * 766], facts["kinds"][4:])
        right("rows: said", True, f"{found - 2001:,} of {found:,} findings are not in this list." in facts["text"])
        right("rows: nothing is said to be left out of the margins", False, "in the margins" in facts["text"])


def all_of_it(records):
    """More pages, findings and damaged rows than a record holds, and all of them asked for: nothing is left out, and nothing is said to be."""
    right, row = records.checks.right, b"\x1b*b1W\x05"
    page = b"\x1b*rC\x1b*t300R\x1b*b2M" + b"\x1b&f1S" * 13 + row * 50 + b"\f"
    job = page * 45  # 585 findings and 2,250 damaged rows
    text = records.make("all.pcl", job, 1, "640", "800")
    right("not all: printed", LEFT_OUT.format("40 of 45 pages", "2,104 of 2,835 findings"), records.printed[-2])
    by_second(records, "not all", job, records.shown("not all", text, 1400), 640, 800)
    text = records.make("all.pcl", job, 1, "640", "800", "--all")
    kinds = "finding 5, push when full, pop when empty: 585, the first at place 16", "finding 7, damaged row: 2250, the first at place 81"
    end = f"45 pages, 2835 findings, 0 dots: {records.path('all.pcl.html')}"
    right("all: printed", [*kinds, "nothing was drawn: no page has a dot", end], records.printed)
    for width in WIDTHS:
        facts = records.shown("all", text, width)
        by_second(records, "all", job, facts, 640, 800, marked.NO_LIMITS)
        right("all: pictures", 45, len(facts["seen"]))
        right("all: rows", 2835, len(facts["rows"]))
        right("all: said to be left out", [], [said for said in ("are shown here", "not in this list", "--all") if said in facts["text"]])


def refused_and_named(records):
    right = records.checks.right
    facts = records.shown("refused", records.make("refused.pcl", b"\f" * 1048577, 2), 400)
    right("refused: verdict", True, "This job was refused, number 12: job longer than 1,048,576 bytes. Nothing was drawn." in facts["text"])
    name = "<b>&amp;\"'.pcl"
    facts = records.shown("named", records.make(name, b"\x1b&l1<X", 1), 400)
    right("a name with signs of HTML", True, f"Record of {name}" in facts["text"])


def shown(browser, command, second, folder):
    records = Records(browser, command, second, folder)
    for each in (damaged_curve, rows_elsewhere, flat_curve, end_states, notices, many_findings, many_pages, many_rows, all_of_it, refused_and_named):
        each(records)
    print(f"record: {records.checks.done} checks in the browser, {records.checks.failed} failed")
    return 1 if records.checks.failed else 0


def pictures(browser, record, folder):
    for width, height in zip(WIDTHS, (1500, 1700)):
        goal = os.path.abspath(os.path.join(folder, f"record-{width}.png"))
        browse(browser, f"--window-size={width},{height}", f"--screenshot={goal}", "file://" + os.path.abspath(record))
    return 0


if __name__ == "__main__":
    sys.exit({"shown": shown, "pictures": pictures}[sys.argv[1]](*sys.argv[2:]))
