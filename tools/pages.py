"""The proved programs `pages` and `plain`, run on a job: its pages one after the other, its lines, its plain stream."""

import hashlib
import os
import re
import subprocess
import threading

import files
import findings
import programs
import progress

LONGEST = 1048576
BITS = bytes(bin(byte).count("1") for byte in range(256))
# A plain command: two bytes, or a sequence of one command, whose value may count payload.
COMMAND = re.compile(rb"\x1b(?:[&*][a-z][+-]?([0-9]*)[0-9.]*[A-Z]|[0-~])")
PAYLOAD = (b"*b", b"W"), (b"&p", b"X")
NOT_TEXT = bytes((*range(33), 127))  # codes, and the space, which is no letter
SPACE = b" "


class Broken(Exception):
    """The program did not come to its end, or its pages and lines do not agree."""


class Unread(Exception):
    """The job, or the text, could not be read to its end."""


def read_job(number, what):
    """A job to its end, or a text; of a longer one than allowed a byte more than allowed, so that the program refuses it. Read by the system's own call:
    Python's streams take a read that would block for the end."""
    parts, left = [], LONGEST + 1
    try:
        while part := os.read(number, left):
            parts.append(part)
            left -= len(part)
    except OSError as error:
        raise Unread(f"the {what} could not be read: {files.reason(error)}") from error
    return b"".join(parts)


def digest(width, height, page):
    """SHA-256 of the page as a PBM picture."""
    return hashlib.sha256(b"P4\n%d %d\n" % (width, height) + page).digest()


def listen(pipe, lines):
    for line in pipe:
        lines.take(line.decode("ascii", "replace"))


class Listener(threading.Thread):
    """Takes the program's lines while its pages are read. Where it cannot, the program is not left waiting for it."""

    def __init__(self, pipe, lines):
        super().__init__(daemon=True)
        self.pipe, self.lines, self.error = pipe, lines, None
        self.start()

    def run(self):
        try:
            listen(self.pipe, self.lines)
        except Exception as error:
            self.error = error
        self.pipe.close()

    def heard(self):
        """Waits for the last line."""
        self.join()
        if self.error is not None:
            raise self.error


def from_pipe(pipe, header, size):
    """The pictures of a pipe, one after the other, without their headers."""
    while True:
        head = pipe.read(len(header))
        if not head:
            return
        page = pipe.read(size)
        if head != header or len(page) != size:
            raise Broken("a page that it did not end")
        yield page


def agreed(lines, dots):
    """That the program came to its end, and that these pages, the first ones, have the dots that its lines say."""
    if not lines.whole():
        raise Broken(lines.strange or "no last line")
    if dots != list(lines.dots[: len(dots)]):
        raise Broken("its pages have other dots than its lines say")


class Programs:
    """The two programs on one job and one page."""

    def __init__(self, call, drawing, translating=None):
        self.width, self.height, self.job = call.width, call.height, call.job
        self.drawing, self.translating = drawing, translating
        self.measure = [str(call.width), str(call.height)]

    def pages(self, lines):
        """Yields each page's bytes and dots as the program hands it over. Its lines go to `lines`, which are whole when the last page was given."""
        size, blank, dots = self.width // 8 * self.height, None, []
        with programs.fed(self.words(), self.job, stdout=subprocess.PIPE, stderr=subprocess.PIPE) as process:
            beside = Listener(process.stderr, lines)
            try:
                for page in from_pipe(process.stdout, b"P4\n%d %d\n" % (self.width, self.height), size):
                    blank = blank or bytes(size)  # not for a measure that is refused
                    dots.append(0 if page == blank else sum(page.translate(BITS)))  # a job may have a million blank ones
                    yield page, dots[-1]
            except Broken:
                beside.heard()  # this may be why
                raise
            beside.heard()
        agreed(lines, dots)
        if len(dots) < len(lines.dots):
            raise Broken("its lines have more pages than it gave")

    def words(self):
        """On a terminal the program says after each page how far it is."""
        return [*self.drawing, *self.measure, *(["1"] if progress.on_terminal() else [])]

    def take(self, lines, job=None):
        """The lines alone, of the job or of another; the pages are thrown away."""
        with programs.fed(self.words(), self.job if job is None else job, stdout=subprocess.DEVNULL, stderr=subprocess.PIPE) as process:
            listen(process.stderr, lines)
        agreed(lines, [])

    def plain(self):
        """The plain stream, and the number by which it is refused: None, or 15 where it is too long."""
        refusal = findings.Lines()
        with programs.fed([*self.translating, *self.measure], self.job, stdout=subprocess.PIPE, stderr=subprocess.PIPE) as process:
            stream = process.stdout.read()
            listen(process.stderr, refusal)  # a line at most
        if process.returncode or refusal.strange is not None:
            raise Broken(refusal.strange or "no last line")
        return stream, refusal.refused

    def letters(self):
        """How many text bytes the job has that are no space, in payload of &p#X too; None where the plain stream, which has just these, is too long."""
        stream, refused = self.plain()
        return None if refused else letters_in(stream)


def letters_in(stream):
    """The text bytes of a plain stream: what is no command and no code, and all payload of &p#X, which moves as text. Spaces are left out."""
    count, at = 0, 0
    while True:
        escape = stream.find(b"\x1b", at)
        count += count_without(NOT_TEXT, stream[at : escape if escape >= 0 else len(stream)])
        if escape < 0:
            return count
        command = COMMAND.match(stream, escape)
        if command is None:
            raise Broken("its plain stream has another form")
        at = command.end()
        name = (command[0][1:3], command[0][-1:])
        if name in PAYLOAD:
            end = at + int(command[1] or 0)
            count += count_without(SPACE, stream[at:end]) if name == (b"&p", b"X") else 0
            at = end


def count_without(signs, part):
    return len(part.translate(None, signs))
