"""How the command ends: its exit status, and what it says."""

import os
import select
import stat

import files

CLEAN, WRONG = 0, 2  # 1 means findings and nothing else: Lines.status in findings.py alone gives it


class Wrong(Exception):
    """Ends the command with 2. The text is the line that says why."""


class Quiet(Exception):
    """Ends the command with 2 without a word: who reads its output has had enough."""


def write_all(number, data):
    """All bytes to this descriptor. A failed write is seen, and one that would block is waited for."""
    left = memoryview(data)
    while left:
        try:
            left = left[os.write(number, left) :]
        except BlockingIOError:
            select.select([], [number], [])
        except BrokenPipeError as error:
            raise Quiet from error


def unread(number):
    """Whether this is a pipe or a connection whose reader has gone away. A program of the kit is not ended by that: its write fails as any other."""
    kind = os.fstat(number).st_mode
    if not stat.S_ISFIFO(kind) and not stat.S_ISSOCK(kind):
        return False
    asked = select.poll()
    asked.register(number, 0)
    return bool(asked.poll(0))


def print_lines(number, lines):
    write_all(number, "".join(f"{line}\n" for line in lines).encode("utf-8", "surrogateescape"))


def notice(text):
    """A line on standard error, if it can be written."""
    try:
        print_lines(2, [f"rovinuset: {text}"])
    except (OSError, Quiet):
        pass


def tell(word, number, written, lines):
    """The summary of what is written already. It is not to be taken for unwritten if the summary cannot be printed."""
    try:
        print_lines(number, lines)
    except OSError as error:
        raise Wrong(f"{word}: {written} is written, its summary is not: {files.reason(error)}") from error
