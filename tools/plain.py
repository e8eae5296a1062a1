"""Passes a job on: its plain stream, and its findings on standard error in the words of draw.

`pages` says what is found in the job, its pages go nowhere; `plain` gives the stream. Nothing is passed on of a job that could not be read or is refused.
"""

import findings
import telling

TAKES = {"-o": "the file to write"}


def plain(call, programs, goal):
    lines = findings.Lines()
    programs.take(lines)
    stream, refused = programs.plain() if lines.refused is None else (b"", lines.refused)
    if refused is not None:
        return telling.refused("plain", refused)
    goal.write(stream)
    if lines.places:
        goal.summary("plain", telling.summary(lines, telling.of_page(call), f"passed on as {len(stream)} bytes"), 2)
    return telling.ended(call, lines)
