"""The pages of a job as PBM on standard output, one after the other, and the program's lines on standard error: what other tools read."""

import subprocess

import ending
import files
import findings
import pages
import programs
import telling

TAKES = {}


def write_pages(call, command):
    """The program writes its pages itself; its lines are looked at on their way. Where these cannot be written the pages are still whole: the program is not
    stopped in one."""
    lines, unwritten = findings.Lines(), None
    with programs.fed([*command, str(call.width), str(call.height)], call.job, stdout=1, stderr=subprocess.PIPE) as process:
        for line in process.stderr:
            lines.take(line.decode("ascii", "replace"))
            if lines.strange is None and unwritten is None:
                unwritten = not_written(line)
    if lines.strange == "UNWRITTEN":
        raise ending.Quiet if ending.unread(1) else ending.Wrong("pages: the pages could not be written")
    pages.agreed(lines, [])
    if unwritten is not None:
        raise unwritten
    return telling.ended(call, lines) if lines.refused is None else telling.refused("pages", lines.refused)


def not_written(line):
    """Writes a line to standard error; what kept it from that, or None."""
    try:
        ending.write_all(2, line)
    except OSError as error:
        return ending.Wrong(f"pages: its lines could not be written: {files.reason(error)}")
    except ending.Quiet as gone:
        return gone
    return None
