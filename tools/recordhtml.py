"""The record as HTML: one file, with no script and nothing from outside."""

import base64
import hashlib
import os
from html import escape

import findings
import words
from findings import DAMAGED_ROW, FINDINGS, REFUSALS

BYTES_SHOWN = 16
UNITS_A_DOT = 24
LABEL = 0.045  # the height of a mark's number on a narrow screen, in page widths
POLICY = "default-src 'none'; img-src data:; style-src 'unsafe-inline'"  # a browser fetches nothing and runs nothing
READING = """<p>Text in a job moves the cursor and is not drawn. A picture that is reduced loses no dot: where the page has one, it is never white.
Full size shows each dot.</p>
<p>A finding lies on the dot row where the cursor stood as its command began. Damaged rows on the same dot row of a page share a mark, and so do all
below its foot.</p>
"""
STYLE = os.path.join(os.path.dirname(os.path.abspath(__file__)), "record.css")


def counted(count, one, more):
    return findings.counted(count, one, more, ",")


def millimetres(units):
    return f"{units / 7200 * 25.4:.1f} mm"


def verdict(lines, job):
    """What a clerk has to know, in a sentence or two."""
    if lines.refused is not None:
        return f"This job was refused, number {lines.refused}: {REFUSALS[lines.refused]}. Nothing was drawn."
    if not job:
        return "This job is empty: it has no bytes."
    if not lines.places:
        return "This job has no findings."
    counts = dict(sorted(lines.counts().items(), key=lambda kind: (kind[0] != DAMAGED_ROW, -kind[1])))  # damaged rows first
    kinds = ", ".join(counted(count, *FINDINGS[number][1]) for number, count in counts.items())
    said = f"This job has {counted(len(lines.places), 'finding', 'findings')}: {kinds}."
    damaged = counts.pop(DAMAGED_ROW, 0)
    on_page = "on the page" if len(lines.dots) == 1 else "on its page" if damaged == 1 else "on their pages"
    if damaged:
        said += f" The damaged {'row is' if damaged == 1 else 'rows are'} blank {on_page}."
    if counts:
        said += f" What has {'another' if damaged else 'a'} finding was left out, and nothing was put in its place."
    return said


def notices(facts):
    """What is no finding and a clerk has to know all the same."""
    said = (line[0].upper() + line[1:] for line in facts.notices() if facts.job)
    return "".join(f'<p class="notice">{line}.</p>\n' for line in said)


def definitions(pairs):
    """A list of names and values; the values are HTML."""
    return "<dl>\n%s</dl>\n" % "".join(f"<dt>{name}</dt><dd>{value}</dd>\n" for name, value in pairs)


def digest(hexadecimal):
    return f"<code>{hexadecimal}</code>"


def heading(facts):
    lines = facts.lines
    pairs = [("Job", escape(facts.name))]
    if lines.refused != 12:  # of a longer job only the beginning was read
        pairs += [
            ("Length", counted(len(facts.job), "byte", "bytes")),
            ("SHA-256 of the job", digest(hashlib.sha256(facts.job).hexdigest())),
        ]
    pairs.append(("Page measure", page_measure(facts)))
    if lines.refused is None:
        pairs += [
            ("Pages", f"{counted(len(lines.dots), 'page', 'pages')}, {counted(sum(lines.dots), 'dot', 'dots')}"),
            ("SHA-256 over all pages", digest(facts.all_pages.hexdigest()) + " (their dots, one page after the other)"),
        ]
    pairs.append(("Program", f"Rovinuset {escape(facts.version)}, sources {digest(facts.sources)} (SHA-256)"))
    return definitions(pairs)


def page_measure(facts):
    width, height = facts.width, facts.height
    if facts.lines.refused == 10:  # no paper has it
        return " by ".join(f"{number:,}" if number < words.MILLION else "a million or more" for number in (width, height)) + " dots"
    size = f"{millimetres(width * UNITS_A_DOT)} by {millimetres(height * UNITS_A_DOT)}"
    return f"{width:,} by {height:,} dots, 300 an inch ({size}){facts.call.page()}"


def marks_of(facts, number):
    """The page's damaged rows by the dot row that they lie on, from its top on; those below its foot are together."""
    lines, rows = facts.lines, {}
    for index in lines.on_page(number):
        if lines.numbers[index] == DAMAGED_ROW:
            rows.setdefault(dot_row(facts, index), []).append(index)
    return sorted(rows.items())


def dot_row(facts, index):
    """The dot row of its page on which the finding's item began; the page's height if that is below its foot."""
    return min(facts.lines.y[index] // UNITS_A_DOT, facts.height)


def labels(marks, width):
    """Marks that lie too close for a number each have one together, at the first of them."""
    groups = []
    for row, group in marks:
        if groups and row - groups[-1][0] < LABEL * width:
            groups[-1][1].extend(group)
        else:
            groups.append((row, group[:]))
    return {row: from_to(sorted(group)) for row, group in groups}


def gapless(group):
    return group[-1] - group[0] + 1 == len(group)


def from_to(group):
    """The numbers of these findings: 4, or 4–6 if none is left out, else 4…9. A narrow window has room for the first."""
    first, last = group[0] + 1, group[-1] + 1
    return f"{first}<i>{'–' if gapless(group) else '…'}{last}</i>" if last > first else str(first)


def named(group):
    """The same in words."""
    first, last = f"{group[0] + 1:,}", f"{group[-1] + 1:,}"
    if len(group) == 1:
        return f"finding {first}, damaged row"
    if len(group) == 2:
        return f"findings {first} and {last}, damaged rows"
    return f"{'' if gapless(group) else f'{len(group):,} of the '}findings {first} to {last}, damaged rows"


def mark(facts, number, row, group, label):
    """The mark of the damaged rows on this dot row. It leads to the first of them in the table, if that is there."""
    said = f"{named(group)}, {place_on_page(facts, group[0])}"
    leads = f'id="{mark_name(number, row)}" href="#finding-{group[0] + 1}" aria-label="{said}" ' if group[0] in facts.listed else ""
    inside = f"<span>{label}</span>" if label else ""
    return f'<a class="mark" {leads}style="top:{row / facts.height * 100:.2f}%" title="{said}">{inside}</a>\n'


def mark_name(number, row):
    return f"page-{number}-row-{row}"


def place_on_page(facts, index):
    row = dot_row(facts, index)
    return f"dot row {row:,}, {millimetres(facts.lines.y[index])} from the top" if row < facts.height else "below the page's foot"


def caption(facts, number):
    damaged = facts.damaged[number]
    said = [f"Page {number} of {len(facts.digests):,}", counted(facts.lines.dots[number - 1], "dot", "dots")]
    if damaged:
        said.append(f'<strong>{counted(damaged, "damaged row", "damaged rows")}</strong>, marked in the margin by the number of the finding')
    return ", ".join(said)


def images(facts, number):
    """The page's picture in each size that is used; the style shows one of them."""
    sizes = dict(facts.pictures[number].values())
    for by, picture in sorted(sizes.items()):
        uses = " ".join(use for use, (its, _) in facts.pictures[number].items() if its == by)
        source = base64.b64encode(picture).decode()
        size = f'width="{facts.width // by}" height="{-(-facts.height // by)}"'
        yield f'<img class="{uses}" src="data:image/png;base64,{source}" {size} alt="Page {number} of the job">'


def page(facts, number):
    """A page's picture, its marks in the margin, and its hash. It is shown in full size when it is the target of its own link."""
    width, height = facts.width, facts.height
    rows = marks_of(facts, number)
    label = labels(rows, width)
    marks, newline = "".join(mark(facts, number, row, group, label.get(row)) for row, group in rows), "\n"
    digits = len(str(facts.lines.on_page(number).stop))  # of its highest finding: the margin has room for them
    return f"""<figure id="page-{number}">
<figcaption>{caption(facts, number)}</figcaption>
<div class="sheet" id="page-{number}-full" style="--wide:{width};--high:{height};--digits:{digits}">
<p class="back"><a href="#page-{number}">Fit page {number} to the window</a></p>
<div class="frame">
<a class="picture" href="#page-{number}-full" title="Full size">
{newline.join(images(facts, number))}
</a>
{marks}</div>
</div>
<p class="hash">SHA-256 of the page as PBM: {digest(facts.digests[number - 1].hex())} <a href="#page-{number}-full">Full size</a></p>
</figure>
"""


def all_pages(facts):
    count, shown = len(facts.digests), len(facts.pictures)
    if count == 0:
        return "<p>The job has no page.</p>\n"
    said = ""
    if shown < count:
        said = (
            f"<p>Of {count:,} pages {shown} are shown here: those with damaged rows first, then the others from page 1 on. "
            "<code>./rovinuset record --all</code> shows them all.</p>\n"
        )
    return said + "".join(page(facts, number) for number in sorted(facts.pictures))


def kinds(lines):
    """How many of each finding there are, and what each number means."""
    rows = "".join(
        f'<tr{"" if number in lines.numbers else " class=none"}><td data-label="Number">{number}</td><td data-label="Finding">{name}</td>'
        f'<td data-label="Count">{lines.numbers.count(number):,}</td><td data-label="What is done">{done}</td></tr>\n'
        for number, (name, _, done) in FINDINGS.items()
    )
    head = "<tr><th>Number</th><th>Finding</th><th>Count</th><th>What is done</th></tr>"
    return f'<table id="kinds">\n<thead>{head}</thead>\n<tbody>\n{rows}</tbody>\n</table>\n'


def bytes_at(job, place):
    """The bytes in hexadecimal, and as signs below them."""
    part = job[place : place + BYTES_SHOWN]
    if not part:
        return "the end of the job"
    signs = "".join("ESC" if byte == 27 else chr(byte) if 32 < byte < 127 else "·" for byte in part)
    more = " …" if place + BYTES_SHOWN < len(job) else ""
    return f"<code>{part.hex(' ').upper()}{more}</code> <code class=signs>{escape(signs)}</code>"


def where(facts, index):
    """The page and the dot row on which the finding's item began. A damaged row leads to its mark, another finding to its page."""
    number, count = facts.lines.page_of(index), len(facts.digests)
    if number > count:
        return "after the last page" if count else "no page"
    page_said, place = f"page {number}", place_on_page(facts, index)
    if number not in facts.pictures:
        return f"{page_said}, {place}"
    if facts.lines.numbers[index] != DAMAGED_ROW:
        return f'<a href="#page-{number}">{page_said}</a>, {place}'
    return f'<a href="#{mark_name(number, dot_row(facts, index))}">{page_said}, {place}</a>'


def finding(facts, index):
    place, number = facts.lines.places[index], facts.lines.numbers[index]
    name, _, done = FINDINGS[number]
    cells = (
        ("No.", f"{index + 1:,}"),
        ("Finding", f"{number}, {name}"),
        ("Place", f"{place:,}"),
        ("On the page", where(facts, index)),
        ("Bytes from there on", bytes_at(facts.job, place)),
        ("What was done", done),
    )
    inside = "".join(f'<td data-label="{label}">{text}</td>' for label, text in cells)
    return f'<tr id="finding-{index + 1}">{inside}</tr>\n'


def not_listed(facts):
    """What the table leaves out."""
    found, left = len(facts.lines.places), len(facts.lines.places) - len(facts.listed)
    if not left:
        return ""
    return (
        f"<p>{left:,} of {found:,} findings are not in this list. "
        "<code>./rovinuset record --all</code> lists them all, and so does the findings.txt of <code>./rovinuset draw</code>.</p>\n"
    )


def listed(facts):
    if not facts.lines.places:
        return "<p>None.</p>\n"
    names = ("No.", "Finding", "Place", "On the page", "Bytes from there on", "What was done")
    head = "".join(f"<th>{name}</th>" for name in names)
    rows = "".join(finding(facts, index) for index in sorted(facts.listed))
    text = "<p>The place is counted in bytes from 0, the job's first byte.</p>\n"
    return f'{text}{not_listed(facts)}<table id="list">\n<thead><tr>{head}</tr></thead>\n<tbody>\n{rows}</tbody>\n</table>\n'


def last_page(facts):
    if facts.last_page_ended is None:
        return "Not known whether the job ended its last page: it is as long as a job may be."
    if not facts.last_page_ended:
        return f"The job did not end its last page. The page was used, so it is page {len(facts.digests):,} here."
    return "The job ended its last page itself and began no other." if facts.digests else "No page was used."


def end(facts):
    x, y, depth, _ = facts.lines.end
    return definitions(
        (
            ("Cursor", f"x {x:,}, y {y:,} in 1/7200 inch: {millimetres(x)} from the left, {millimetres(y)} from the top"),
            ("Position stack", counted(depth, "position", "positions") + " left on it" if depth else "empty"),
            ("Last page", last_page(facts)),
        )
    )


def section(name, title, inside):
    return f'<section id="{name}">\n<h2>{title}</h2>\n{inside}</section>\n'


def body(facts):
    if facts.lines.refused is not None:
        return ""
    links = (("pages", "Pages"), ("findings", "Findings"), ("end", "End of the job"), ("reading", "How to read this record"))
    nav = "<nav>%s</nav>\n" % " ".join(f'<a href="#{name}">{title}</a>' for name, title in links)
    return nav + "".join(
        (
            section("pages", "Pages", all_pages(facts)),
            section("findings", "Findings", listed(facts)),
            section("end", "End of the job", end(facts)),
            section("reading", "How to read this record", READING + kinds(facts.lines)),
        )
    )


def record(facts):
    with open(STYLE, encoding="utf-8") as file:
        style = file.read()
    kind = ("clean", "found", "refused")[facts.lines.status()]
    return f"""<!DOCTYPE html>
<html lang="en">
<head>
<meta charset="utf-8">
<meta name="viewport" content="width=device-width, initial-scale=1">
<meta http-equiv="Content-Security-Policy" content="{POLICY}">
<title>Record of {escape(facts.name)}</title>
<style>
{style}</style>
</head>
<body>
<header>
<h1>Record of {escape(facts.name)}</h1>
<p class="verdict {kind}">{verdict(facts.lines, facts.job)}</p>
{notices(facts)}{heading(facts)}</header>
{body(facts)}</body>
</html>
"""
