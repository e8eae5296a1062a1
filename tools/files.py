"""Files that are whole or not there, and their names."""

import os
import secrets
import shutil
import stat

import stopping

UNMOVED = set()  # what this command made and has not moved into its place: at the end it is removed


def tidy():
    """Removes what is in progress. At the end, when no signal can come between."""
    for path in list(UNMOVED):
        drop(path)


def drop(path):
    """Removes a file or a folder of its own; it may be gone."""
    UNMOVED.discard(path)
    if os.path.isdir(path):
        shutil.rmtree(path, ignore_errors=True)
    else:
        try:
            os.unlink(path)
        except OSError:
            pass


def make_beside(folder, make):
    """A name of its own in this folder, hidden, that nobody has: `make` makes it, and fails where it is there."""
    while True:
        path = os.path.join(folder, f".rovinuset-{secrets.token_hex(4)}")
        with stopping.held():
            try:
                made = make(path)
            except FileExistsError:
                continue
            UNMOVED.add(path)
        return path, made


def create(path):
    """A new file, by its descriptor: not one that is there, and not through a link."""
    return os.open(path, os.O_WRONLY | os.O_CREAT | os.O_EXCL | os.O_NOFOLLOW | os.O_CLOEXEC, 0o666)


def write_new(path, data):
    with open(create(path), "wb") as file:
        file.write(data)


def write_whole(path, data):
    """Writes beside the file and moves it into place: under the name there is the earlier file or the whole new one. A link is followed."""
    path = os.path.realpath(path)
    try:
        part, number = make_beside(os.path.dirname(path), create)
    except OSError as error:
        error.filename = path  # the name that the user knows
        raise
    with open(number, "wb") as file:
        file.write(data)
        if os.path.exists(path):
            os.fchmod(number, stat.S_IMODE(os.stat(path).st_mode))
    with stopping.held(writing=path):
        os.replace(part, path)
        UNMOVED.discard(part)


def reason(error):
    """An OSError in a line: the file, if it has one, and why."""
    why = error.strerror or str(error)
    return f"{why}: {printed(error.filename)}" if isinstance(error.filename, (str, bytes)) else why


def escaped(sign):
    return "".join(f"\\x{byte:02x}" for byte in sign.encode("utf-8", "surrogateescape"))


def is_byte(sign):
    """Whether it stands for a byte that is no UTF-8."""
    return "\udc80" <= sign <= "\udcff"


def printed(name):
    """A file's name on the terminal: as it is, but what moves the cursor is spelt."""
    text = os.fsencode(name).decode("utf-8", "surrogateescape")
    return "".join(sign if sign.isprintable() or is_byte(sign) else escaped(sign) for sign in text)


def shown(name):
    """The same where only text can stand: bytes that are no UTF-8 are spelt too."""
    return "".join(escaped(sign) if is_byte(sign) else sign for sign in printed(name))
