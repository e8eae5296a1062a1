"""Where the command writes one file: standard output, a device as it is, or a file that is whole or not there."""

import errno
import fcntl
import os
import re
import stat

import ending
import files
import stopping

NEVER = (errno.ELOOP, errno.ENAMETOOLONG)  # nor can a file be made by such a name
DESCRIPTOR = re.compile("/(?:dev|proc/self)/fd/([0-9]+)")
STREAMS = {"/dev/stdin": 0, "/dev/stderr": 2}


class Goal:
    """Looked at before anything is done, and written once."""

    def __init__(self, path, what, call=None):
        self.path, self.what = path, what
        self.found = found(path)
        self.number = 1 if path == "-" or is_output(self.found) else descriptor(path)
        if self.number != 1:
            self.check(call)

    def check(self, call):
        name = files.printed(self.path)
        folder = os.path.dirname(os.path.realpath(self.path))
        if self.number is not None and not self.open_for_writing():
            raise ending.Wrong(f"no permission to write: {name}")
        if self.found is None:
            if self.path.endswith("/") or not os.path.isdir(folder):
                raise ending.Wrong(f"no such folder: {files.printed(os.path.dirname(self.path) or folder)}")
        elif stat.S_ISDIR(self.found.st_mode):
            raise ending.Wrong(f"a folder, not a file: {name}")
        elif stat.S_ISREG(self.found.st_mode) and call is not None and call.is_job(self.path):
            raise ending.Wrong(f"the {self.what} would be written over the job: {name}")
        elif self.number is None and not os.access(self.path, os.W_OK):
            raise ending.Wrong(f"no permission to write: {name}")
        if self.whole() and not os.access(folder, os.W_OK | os.X_OK):
            raise ending.Wrong(f"no permission to write in: {files.printed(os.path.dirname(self.path) or '.')}")

    def open_for_writing(self):
        return self.number > 0 and fcntl.fcntl(self.number, fcntl.F_GETFL) & os.O_ACCMODE != os.O_RDONLY

    def whole(self):
        """Whether it is a file that can be moved into place."""
        return self.number is None and (self.found is None or stat.S_ISREG(self.found.st_mode))

    def write(self, data):
        if self.number is not None:
            ending.write_all(self.number, data)
        elif self.whole():
            files.write_whole(self.path, data)
        else:
            number = os.open(self.path, os.O_WRONLY | os.O_CLOEXEC)
            ending.write_all(number, data)
            os.close(number)
        stopping.Asked.written = self.said()

    def summary(self, word, lines, number=1):
        """Said behind the result, on standard output or error, where that is not the result's own place."""
        ending.tell(word, 3 - number if self.number == number else number, self.said(), lines)

    def said(self):
        return "standard output" if self.number == 1 else files.printed(self.path)


def found(path):
    try:
        return os.stat(path)
    except OSError as error:
        if error.errno in NEVER:
            raise ending.Wrong(f"no file can be written: {files.printed(path)}: {error.strerror}") from error
        return None


def is_output(status):
    """Whether it is standard output, as /dev/stdout is: its file, pipe or terminal. Of a device as /dev/null everybody has his own."""
    return status is not None and os.path.samestat(status, os.fstat(1)) and (os.isatty(1) or not stat.S_ISCHR(status.st_mode))


def descriptor(path):
    """The number of what is open by this name, as /dev/fd/3 is: it is written where it stands, as its owner would."""
    match = DESCRIPTOR.fullmatch(path)
    number = int(match[1]) if match else STREAMS.get(path)
    return number if number is not None and os.path.exists(path) else None
