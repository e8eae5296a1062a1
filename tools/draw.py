"""Draws a job: a picture for each page, and its findings in words.

The folder always tells of one job. What is drawn is made in a hidden folder of its own and takes the place of an earlier drawing (page-1.png, .. and
findings.txt) when it is whole; a job that is refused or cannot be read, or a drawing that fails, leaves the earlier one as it was. Other files stay.
"""

import errno
import fcntl
import hashlib
import os
import re
import stat
from contextlib import closing

import ending
import files
import findings
import pages
import png
import progress
import stopping
import telling

TAKES = {"-o": "where to write", "--pages": "a number of pages or a range, as 20 or 3-7,"}
TRIES = 100
FASTER = (errno.ENOENT, errno.EEXIST, errno.ENOTEMPTY)  # another has removed or made a folder in between
PICTURES = 1000  # drawn if nothing else is said; all are counted
MINE = re.compile(r"page-[1-9][0-9]*\.png|findings\.txt")
RANGE = re.compile(r"(?:([1-9][0-9]{0,8})-)?([1-9][0-9]{0,8})")


def wanted_pages(call):
    """The first and the last page to be drawn."""
    said = call.options.get("--pages", str(PICTURES))
    found = RANGE.fullmatch(said)
    first, last = (int(found[1] or 1), int(found[2])) if found else (1, 0)
    if first > last:
        raise ending.Wrong(f"not a number of pages, nor a range: {files.printed(said)}")
    return first, last


class Folder:
    """The folder of a drawing. If it is there it is locked: nobody else draws in it as long as this command goes on. If not, nothing is seen of it before the
    drawing is whole. What is drawn is made in a hidden folder: in it, or beside the first of those that are missing."""

    def __init__(self, call):
        self.call, self.path, self.number = call, straight(call.goal), None
        if self.taken():
            self.hidden = self.drawn = self.room
            self.check()
        else:
            self.begin()

    def taken(self):
        """Locks it and makes a room in it, if it is there."""
        if not os.path.isdir(self.path):
            return False
        try:
            number = lock(self.path)
            self.room, _ = files.make_beside(self.path, lambda name: os.mkdir(name, 0o700))
            same = os.path.samestat(os.fstat(number), os.stat(self.path))
        except FileNotFoundError:
            return False
        except BlockingIOError:
            raise ending.Wrong(f"draw: another draw is writing in: {files.printed(self.call.goal)}") from None
        if not same:  # the one that is locked has gone, and there is another
            files.drop(self.room)
            return False
        self.number = number
        return True

    def begin(self):
        """The missing folders, the outermost with a hidden name."""
        above, self.names = split(self.path)
        try:
            self.hidden, _ = files.make_beside(above, os.mkdir)
            self.drawn = os.path.join(self.hidden, *self.names[1:])
            os.makedirs(self.drawn, exist_ok=True)
        except OSError as error:
            raise self.cannot_be_made(error.strerror) from error

    def cannot_be_made(self, why):
        return ending.Wrong(f"the folder cannot be made: {files.printed(self.call.goal)}: {why}")

    def placed(self):
        """Moves what is missing into its place, as one. If the folder is there by now it is locked instead."""
        for _ in range(TRIES):
            if self.taken():
                if self.earlier():
                    raise ending.Wrong(f"draw: another draw has written in: {files.printed(self.call.goal)}")
                return False
            above, missing = split(self.path)
            there = len(self.names) - len(missing)  # made by others since
            try:
                os.rename(os.path.join(self.hidden, *self.names[1 : there + 1]), os.path.join(above, *missing[:1]))
                return True
            except OSError as error:
                if error.errno not in FASTER:
                    raise
        raise self.cannot_be_made(os.strerror(errno.ENOENT))

    def earlier(self):
        """The files of an earlier drawing, findings.txt first."""
        return sorted(name for name in os.listdir(self.path) if MINE.fullmatch(name))

    def check(self):
        for name in self.earlier():
            path = os.path.join(self.path, name)
            if not stat.S_ISREG(os.lstat(path).st_mode) and not os.path.islink(path):
                raise ending.Wrong(f"draw: not a file, where the drawing would be written: {files.printed(path)}")
            if self.call.is_job(path):
                raise ending.Wrong(f"draw: the job lies where the drawing would be written: {files.printed(path)}")

    def write(self, name, data):
        files.write_new(os.path.join(self.drawn, name), data)

    def finish(self):
        """The drawing in its place."""
        with stopping.held(writing=self.call.goal):
            if self.number is not None or not self.placed():
                self.replace()
                files.drop(self.room)
            files.drop(self.hidden)

    def replace(self):
        """The new drawing in the place of the earlier one. findings.txt goes first and comes last, and no picture comes before the last has gone: at no moment
        are there files of both. Where one cannot be moved, all are moved back."""
        earlier, drawn, moved = os.path.join(self.room, "earlier"), sorted(os.listdir(self.drawn), reverse=True), []
        try:
            os.mkdir(earlier)
            for name in self.earlier():
                move(self.path, earlier, name, moved)
            for name in drawn:
                move(self.drawn, self.path, name, moved)
        except OSError:
            for home, there, name in reversed(moved):
                os.rename(os.path.join(there, name), os.path.join(home, name))
            raise


def move(home, there, name, moved):
    os.rename(os.path.join(home, name), os.path.join(there, name))
    moved.append((home, there, name))


def lock(path):
    """Opens the folder, and locks it as long as it is open."""
    number = os.open(path, os.O_RDONLY | os.O_DIRECTORY | os.O_CLOEXEC)
    fcntl.flock(number, fcntl.LOCK_EX | fcntl.LOCK_NB)
    return number


def split(path):
    """Of a path's folders the innermost that is there, by no name if it is the current one, and the names of those below it."""
    above = path
    while above and not os.path.lexists(above):
        above = os.path.dirname(above)
    below = os.path.normpath(path[len(above) :].strip(os.sep))
    return above, [] if below == os.curdir else below.split(os.sep)


def straight(path):
    """The path without a detour by what is not there: x/../y is y, if there is no x."""
    above, names = split(path)
    return os.path.join(above, *names) or os.curdir


def check_goal(goal):
    if goal == "-":
        raise ending.Wrong("draw writes a folder, not standard output (a folder of that name is ./-)")
    if os.path.lexists(goal) and not os.path.isdir(goal):
        raise ending.Wrong(f"not a folder: {files.printed(goal)}")
    if os.path.isdir(goal) and not os.access(goal, os.R_OK | os.W_OK | os.X_OK):
        raise ending.Wrong(f"no permission to write in: {files.printed(goal)}")


class Drawing:
    """What is drawn of a job: its lines, and the SHA-256 of each page that has a picture, as PBM."""

    def __init__(self, call, programs):
        self.call, self.programs = call, programs
        self.first, self.last = wanted_pages(call)
        self.lines, self.digests, self.letters = findings.Lines(), {}, None

    def draw(self, folder):
        """Writes the pictures. Behind the last that is wanted the program is stopped, and run again for its lines alone: that is fast."""
        width, height, dots, blank_picture = self.call.width, self.call.height, [], None
        with closing(self.programs.pages(self.lines)) as run:
            for number, (page, count) in enumerate(run, 1):
                if number > self.last:
                    break
                dots.append(count)
                if number < self.first:
                    continue
                picture = blank_picture if count == 0 and blank_picture else png.png(width, height, page)
                blank_picture = blank_picture if count else picture
                folder.write(f"page-{number}.png", picture)
                self.digests[number] = pages.digest(width, height, page)
        if not self.lines.whole():
            self.lines = findings.Lines()
            self.programs.take(self.lines)
        pages.agreed(self.lines, dots)

    def left_out(self):
        """Which pages have a picture, if not all."""
        count, drawn = len(self.lines.dots), sorted(self.digests)
        if len(drawn) < count:
            which = f"pages {drawn[0]:,} to {drawn[-1]:,} of {count:,}" if drawn else f"none of {findings.counted(count, 'page', 'pages', ',')}"
            yield f"drawn: {which}; --pages N or A-B chooses others"

    def where(self, index):
        page, count = self.lines.page_of(index), len(self.lines.dots)
        return f"page {page}" if page <= count else "after the last page" if count else "no page"

    def page(self, number, dots):
        said = findings.counted(dots, "dot", "dots")
        if number not in self.digests:
            return f"page {number}: {said}, not drawn"
        return f"page-{number}.png: {said}, SHA-256 of the page as PBM {self.digests[number].hex()}"

    def told(self):
        """findings.txt, line by line: the job, its pages, its findings, its end; then the lines as the program gave them."""
        call, lines = self.call, self.lines
        x, y, depth, found = lines.end
        yield f"Job: {files.printed(call.name)}"
        yield f"Bytes: {len(call.job)}"
        yield f"SHA-256 of the job: {hashlib.sha256(call.job).hexdigest()}"
        yield f"Page: {call.width} by {call.height} dots, 300 an inch{call.page()}"
        yield from (f"Note: {line}" for line in (*telling.of_job(call, lines, self.letters), *self.left_out()))
        yield ""
        yield f"Pages: {len(lines.dots)}"
        yield from (self.page(number, dots) for number, dots in enumerate(lines.dots, 1))
        yield ""
        yield f"Findings: {found}"
        for index, (place, number) in enumerate(zip(lines.places, lines.numbers)):
            said, _, done = findings.FINDINGS[number]
            yield f"place {place}, {self.where(index)}: finding {number}, {said}. {done}"
        yield ""
        yield f"End: x {x}, y {y} (1/7200 inch), stack depth {depth}, findings {found}"
        yield ""
        yield "The program's own lines:"
        yield from findings.raw(call.width, call.height, lines)


def draw(call, programs):
    drawing = Drawing(call, programs)
    folder = Folder(call)
    with progress.Progress(lambda: telling.so_far(call, drawing.lines)):
        drawing.draw(folder)
        lines = drawing.lines
        if lines.refused is not None:
            return telling.refused("draw", lines.refused)
        drawing.letters = programs.letters()
        folder.write("findings.txt", "".join(f"{line}\n" for line in drawing.told()).encode("utf-8", "surrogateescape"))
        folder.finish()
    notices = (*telling.of_job(call, lines, drawing.letters), *telling.of_page(call), *drawing.left_out())
    written = files.printed(call.goal)
    ending.tell("draw", 1, written, telling.summary(lines, notices, written))
    return lines.status()
