"""The lines of a job: by the paper's report program, or, where a page is given, by the program `pages`, whose pages go nowhere."""

import ending
import findings
import pages
import programs
import telling

TAKES = {}
PAPER_LIMIT = "job longer than 65,536 bytes, which is the report's limit where no page is given"


def report(call, command):
    """The paper's report, as its program writes it."""
    text, strange, _ = programs.answer(command, call.job)
    lines = findings.Lines(marked=False)
    for line in text.decode("ascii", "replace").splitlines():
        lines.take(line)
    if strange or not lines.whole():
        raise pages.Broken(strange or lines.strange or "no last line")
    ending.write_all(1, text)
    if lines.refused is not None:
        return telling.refused("report", lines.refused, {12: PAPER_LIMIT})
    return telling.ended(call, lines)


def report_on(call, run):
    """The same lines for any page."""
    lines = findings.Lines()
    run.take(lines)
    ending.print_lines(1, (line for line in findings.raw(call.width, call.height, lines) if not line.startswith("MARK")))
    return telling.ended(call, lines) if lines.refused is None else telling.refused("report", lines.refused)
