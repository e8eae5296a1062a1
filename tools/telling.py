"""What is said of a job besides its findings: its refusal, and notices in the summary, in findings.txt and in the record."""

import ending
import findings
import words

EMPTY = "the job is empty: it has no bytes"


def refused(word, number, refusals=findings.REFUSALS):
    """The refusal in words, and the exit status."""
    ending.notice(f"{word}: refused, number {number}: {refusals[number]}")
    return ending.WRONG


def of_empty(call):
    """Says that the job is empty, if it is, where there is no summary that does."""
    if not call.job:
        ending.notice(EMPTY)


def ended(call, lines):
    """The exit status of a job that was not refused."""
    of_empty(call)
    return lines.status()


def of_job(call, lines, letters):
    """Whether the job is empty, whether anything was drawn, and what was passed over: until letters are drawn, text leaves no dot and gives no finding."""
    if not call.job:
        yield EMPTY
        return
    if not any(lines.dots):
        yield "nothing was drawn: no page has a dot"
    if letters is None:
        yield "text bytes were not counted: the plain stream is longer than 1,048,576 bytes"
    elif letters:
        moved = findings.counted(letters, "text byte", "text bytes", ",")
        yield f"{moved} moved the cursor and {'was' if letters == 1 else 'were'} not drawn"


def of_page(call):
    if not call.measured:
        yield "page %d by %d dots, the default: a paper (%s) or W H chooses another" % (call.width, call.height, ", ".join(words.PAPERS))


def summary(lines, notices, end):
    """The lines of the terminal: each kind of finding, the notices, the counts with where it is written."""
    *kinds, counts = findings.summary(lines)
    return [*kinds, *notices, f"{counts}: {end}"]


def so_far(call, lines):
    """The line of progress: pages, findings and bytes."""
    counts = findings.counted(len(lines.dots), "page", "pages", ","), findings.counted(len(lines.places), "finding", "findings", ",")
    return f"{', '.join(counts)}, {lines.place:,} of {len(call.job):,} bytes so far"
