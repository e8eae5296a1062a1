"""The words of a call: options, the page's measure, the job or the text."""

import fcntl
import os
import re
import stat

import ending
import files
import pages

# At 300 dots an inch: 210 x 297 mm, 8.5 x 11 inches, 8.5 x 14 inches, 148 x 210 mm. A page's width is a multiple of 8: up to the next one.
PAPERS = {"a4": (2480, 3508), "letter": (2552, 3300), "legal": (2552, 4200), "a5": (1752, 2480)}
DEFAULT = (2552, 3304)
MILLION = 1000000
NUMBER = re.compile("[0-9]+")
STANDARD_INPUT = ("-", "/dev/stdin", "/dev/fd/0", "/proc/self/fd/0")


def listed(names):
    return ", ".join(map(files.printed, names))


def split(word, words, takes):
    """The options with their values, and the other words. `takes` says of each option what follows it, or that nothing does."""
    given, others, left = {}, [], list(words)
    while left:
        one = left.pop(0)
        if one == "--":
            return given, others + left
        if one in takes:
            if one in given or (takes[one] and not (left and left[0])):
                raise ending.Wrong(f"{word} takes {one} once{takes[one] and f', and {takes[one]} behind it'}")
            given[one] = left.pop(0) if takes[one] else one
        elif one.startswith("-") and one != "-":
            raise ending.Wrong(no_option(one))
        else:
            others.append(one)
    return given, others


def no_option(one):
    if NUMBER.fullmatch(one[1:]):
        return f"not a number of dots: {one}"
    return f"no such option: {files.printed(one)} (a file of that name is ./{files.printed(one)})"


def number(text, of, most):
    """A number of dots, or of items. To the programs all from `most` on, which is a power of ten, are as one."""
    if not NUMBER.fullmatch(text):
        raise ending.Wrong(f"not a number of {of}: {files.printed(text)}")
    digits = text.lstrip("0")
    return int(digits or "0") if len(digits) < len(str(most)) else most


def dots(text):
    return number(text, "dots", MILLION)


def too_many(word, what, names):
    return ending.Wrong(f"{word} takes one {what}, and here are {'two' if len(names) == 2 else len(names)}: {listed(names)}")


def measure(word, others):
    """Width and height, what they are called, and the words that are left. Nothing is said where nothing was given."""
    if others and others[0] in PAPERS:
        return (*PAPERS[others[0]], others[0]), others[1:]
    if len(others) < 2:
        return (None, None, None), others
    jobs = len(others) == 2 or os.path.exists(others[0])
    if jobs and not any(map(NUMBER.fullmatch, others[:2])):
        raise too_many(word, "job", others)
    return (dots(others[0]), dots(others[1]), ""), others[2:]


class Source:
    """What a command reads, from a file or from standard input: a job, or what else is said. It is opened by `open`; `read` puts its bytes into `job`."""

    def __init__(self, what, names):
        self.what = what
        self.path = names[0] if names and names[0] not in STANDARD_INPUT else None
        self.name = "standard input" if self.path is None else os.path.basename(self.path)
        self.number = self.job = None

    def open(self):
        self.number = standard_input(self.what) if self.path is None else opened(self.path, self.what)
        if stat.S_ISDIR(os.fstat(self.number).st_mode):
            raise ending.Wrong(f"a directory, not a {self.what}: {self.said()}")

    def read(self):
        self.job = pages.read_job(self.number, self.what)

    def said(self):
        return "standard input" if self.path is None else files.printed(self.path)

    def is_job(self, path):
        """Whether this name is that of the job's file, or leads there."""
        try:
            return any(os.path.samestat(found, os.fstat(self.number)) for found in (os.lstat(path), os.stat(path)))
        except FileNotFoundError:
            return False


class Text(Source):
    """A command on a text, which has its page's measure in it."""

    def __init__(self, word, words, takes):
        self.options, others = split(word, words, takes)
        if len(others) > 1:
            raise too_many(word, "text", others)
        super().__init__("text", others)


class Call(Source):
    """A command on a job: its options, its page, its job."""

    def __init__(self, word, words, takes):
        self.options, others = split(word, words, takes)
        self.goal = self.options.get("-o")
        if self.goal is None and takes.get("-o") == "where to write":
            raise ending.Wrong(f"{word} needs -o and where to write")
        (self.width, self.height, self.paper), left = measure(word, others)
        if len(left) > 1:
            raise ending.Wrong(f"{word} takes the page's measure, or nothing, and one job")
        super().__init__("job", left)
        self.measured = self.width is not None
        if not self.measured:
            self.width, self.height = DEFAULT

    def page(self):
        """What is said of the page's measure, behind its dots."""
        return ", the default" if not self.measured else f", {self.paper}" if self.paper else ""


def opened(path, what):
    try:
        return os.open(path, os.O_RDONLY | os.O_CLOEXEC)
    except (FileNotFoundError, NotADirectoryError):
        raise ending.Wrong(f"no such file: {files.printed(path)}") from None
    except PermissionError:
        raise ending.Wrong(f"no permission to read: {files.printed(path)}") from None
    except OSError as error:
        raise ending.Wrong(f"the {what} could not be read: {files.reason(error)}") from None


def standard_input(what):
    """A closed one, or a folder, is open for writing alone (./rovinuset): nothing else may take its place."""
    if os.environ.get("ROVINUSET_INPUT") == "folder":
        raise ending.Wrong(f"a directory, not a {what}: standard input")
    if fcntl.fcntl(0, fcntl.F_GETFL) & os.O_ACCMODE == os.O_WRONLY:
        raise ending.Wrong(f"the {what} could not be read: standard input is closed")
    if os.isatty(0):
        ending.notice(f"reading the {what} from the terminal, up to Ctrl-D")
    return 0
