"""The proved programs and libraries: proved and built where they are missing or older than their sources, by one command at a time."""

import fcntl
import functools
import os
import platform
import re
import shutil
import signal
import subprocess
import threading
import time
from contextlib import contextmanager, suppress

import ending
import files
import progress
import stopping

ROOT = os.path.dirname(os.path.dirname(os.path.abspath(__file__)))
TARGET = os.path.join(ROOT, "target")
LOG = os.path.join(TARGET, "rovinuset.log")
BEGUN = re.compile(rb"^rt: chose --jobs \d+ for (\w+)$")  # rt's line as it begins to prove a crate


class Made:
    """What rt makes of a crate: its file, as rt leaves it in the crate's folder and as it is kept here, and rt's word for it."""

    def __init__(self, name, place, file, word):
        self.name, self.word = name, word
        self.path = os.path.join(TARGET, place, file)
        self.folder = os.path.join(ROOT, "crates", name)
        self.by_rt = os.path.join(self.folder, "out", file)

    def fresh(self):
        """Whether it is there and no source is newer."""
        return os.path.isfile(self.path) and newest() <= os.stat(self.path).st_mtime_ns


def program(name):
    return Made(name, "bin", name, "run")  # no word of rt builds a program and does not run it: it runs once, on no words and no input


def library(name):
    return Made(name, "staticlib", f"lib{name}.a", "lib")


@functools.lru_cache(None)
def newest():
    """When the last of the sources, or of their folders, was changed. What rt makes lies in crates/NAME/out, and changes the folder crates/NAME itself."""
    crates = os.path.join(ROOT, "crates")
    found = [os.path.join(ROOT, "crates.txt")]
    for folder, folders, names in os.walk(crates):
        if os.path.dirname(folder) == crates:
            folders[:] = [one for one in folders if one != "out"]
        else:
            found.append(folder)
        found += [os.path.join(folder, name) for name in names]
    return max(os.lstat(path).st_mtime_ns for path in found)


def can_be_had(wanted):
    """Says at once what is missing, before a job is looked at."""
    for made in wanted:
        if not made.fresh():
            can_be_built(made)
    if not native() and not shutil.which("rt"):
        raise ending.Wrong("the Rattle kit (rt) is not here: its emulator runs the programs on this machine")


def can_be_built(made):
    if not shutil.which("rt"):
        raise ending.Wrong(f"the Rattle kit (rt) is not here: {made.name} cannot be proved and built")
    places = [TARGET if os.path.lexists(TARGET) else ROOT]
    if os.path.isdir(made.folder):
        out = os.path.dirname(made.by_rt)
        places.append(out if os.path.lexists(out) else made.folder)
    for place in places:
        if not os.path.isdir(place) or not os.access(place, os.W_OK | os.X_OK):
            raise ending.Wrong(f"{made.name} cannot be proved and built: no permission to write in: {files.printed(place)}")


def build(wanted):
    """Proves and builds what is not there yet. A second command waits for the first, and then finds it done."""
    for made in wanted:
        if not made.fresh():
            try:
                build_alone(made)
            except OSError as error:
                raise ending.Wrong(f"{made.name} cannot be proved and built: {files.reason(error)}") from error


def build_alone(made):
    os.makedirs(TARGET, exist_ok=True)
    with open(os.path.join(TARGET, "rovinuset.lock"), "wb") as lock:
        try:
            fcntl.flock(lock, fcntl.LOCK_EX | fcntl.LOCK_NB)
        except BlockingIOError:
            ending.notice("waiting for another command, which is proving and building")
            fcntl.flock(lock, fcntl.LOCK_EX)
        if not made.fresh():
            build_one(made)


def build_one(made):
    ending.notice(f"proving and building {made.name}, which takes some minutes the first time")
    began = time.time_ns()
    with suppress(FileNotFoundError):
        os.remove(made.by_rt)
    run_rt(made)
    # rt run ends as the program does, and so by no status of its own: what is there now was proved and built now
    if not os.path.isfile(made.by_rt):
        raise ending.Wrong(f"{made.name} was not built: {files.printed(LOG)} says why")
    os.makedirs(os.path.dirname(made.path), exist_ok=True)
    new = made.path + ".new"
    shutil.copy(made.by_rt, new)
    os.utime(new, ns=(began, began))  # a source that was changed meanwhile is newer
    os.replace(new, made.path)


def run_rt(made):
    """Has rt prove and build it. What it says goes to the log."""
    order, begun = needed(made.name), []
    with open(LOG, "wb") as log, progress.Progress(lambda: f"{order.index(begun[-1]) if begun else 0} of {len(order)} proved"):
        if not os.path.isdir(made.folder):
            log.write(b"no folder %s\n" % os.fsencode(made.folder))
            return
        with running(
            ["rt", made.word], cwd=made.folder, env={**os.environ, "LC_ALL": "C"}, stdout=subprocess.PIPE, stderr=subprocess.STDOUT
        ) as rt:
            for line in rt.stdout:
                log.write(line)
                told = BEGUN.match(line)
                if told and told[1].decode() in order:
                    begun.append(told[1].decode())


@contextmanager
def running(command, stdin=subprocess.DEVNULL, **others):
    """A command as long as what is inside goes on; then it is waited for. It is a group of its own: where this one is stopped, nothing of it goes on."""
    process = None
    try:
        with stopping.held():
            process = subprocess.Popen(command, stdin=stdin, start_new_session=True, **others)
        yield process
        process.wait()
    finally:
        if process is not None and process.poll() is None:
            end(process)


@contextmanager
def fed(command, job, **streams):
    """The same with a job on its standard input."""
    with running(command, stdin=subprocess.PIPE, **streams) as process:
        thread = threading.Thread(target=feed, args=(process.stdin, job), daemon=True)
        thread.start()
        yield process
        thread.join()


def answer(command, job):
    """What a program prints of a job, all of it; what it says on standard error, a line at most; and its exit status."""
    with fed(command, job, stdout=subprocess.PIPE, stderr=subprocess.PIPE) as process:
        text = process.stdout.read()
        strange = process.stderr.read().decode("ascii", "replace").strip()
    return text, strange, process.returncode


def feed(pipe, job):
    try:
        pipe.write(job)
        pipe.close()
    except OSError:
        pass  # it refused the job before reading it


def end(process):
    """Stops a command and all that it started."""
    for number in (signal.SIGTERM, signal.SIGKILL):
        try:
            os.killpg(process.pid, number)
            process.wait(5)
            return
        except ProcessLookupError:
            return
        except subprocess.TimeoutExpired:
            pass


def needed(name):
    """All of crates.txt that a crate depends on, in the order in which rt proves it, and the crate last; what is not there is the kit's."""
    with open(os.path.join(ROOT, "crates.txt"), encoding="utf-8") as file:
        depends = dict(re.findall(r"^(\w+)(?: \w+)*:(.*)$", file.read(), re.M))
    found = []

    def add(one):
        if one in depends and one not in found:
            for below in depends[one].split():
                add(below)
            found.append(one)

    add(name)
    return found


def native():
    return platform.machine() in ("x86_64", "AMD64")


def command_of(made):
    """How the program is run: under the kit's emulator where the machine is another than it was built for."""
    with open(made.path, "rb") as file:
        built = file.read(4) == b"\x7fELF"
    if native() or not built:
        return [made.path]
    return [emulator(), made.path]


def emulator():
    """Where the tests find it too (tests/x86.sh)."""
    said = subprocess.run(["bash", "-c", '. "$1" && printf %s "$x86_emulator"', "-", os.path.join(ROOT, "tests/x86.sh")], stdout=subprocess.PIPE)
    return os.fsdecode(said.stdout)
