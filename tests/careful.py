#!/usr/bin/env python3
"""What tests/careful.sh needs of processes, terminals, and folders that are looked at all the time.

    careful.py stopped SIGNAL COMMAND..          the command, stopped as soon as the file $STAGE is there
    careful.py reading SIGNAL PIPE COMMAND..     the command, stopped when it has read what is in PIPE ('-': its standard input), whose end does not come
    careful.py after SECONDS SIGNAL COMMAND..    the command, stopped after so many seconds, if it has not ended
    careful.py unread COMMAND..                  the command with such a pipe for standard input: it must end by itself, and take nothing out of it
    careful.py gone STREAM COMMAND..             the command with a pipe for standard output (1) or error (2) whose reader has gone away
    careful.py keys COMMAND..                    the command on a terminal; Ctrl-C is typed when the file $STAGE is there. Prints what the terminal shows
    careful.py shown TEXT COMMAND..              the command on a terminal; the file $LET is made as soon as it shows this (a regular expression)
    careful.py draws FOLDER A B COMMAND..        `COMMAND.. A -o FOLDER` and the same for B, both again and again: no mixture may be seen in FOLDER
    careful.py records FILE A B COMMAND..        the same for a FILE: what is seen is one of both, whole
    careful.py python FLAGS.. SCRIPT WORDS..     in the place of python3: $STEP says what happens when SCRIPT moves or removes files (`stepwise`)

SIGNAL is INT, which goes to the whole process group as a terminal sends it, or TERM or HUP, which go to the command alone, or some of them, as INT+TERM, one
right behind the other. The exit status is the command's; 99 where it does not end, 98 where it leaves a process behind. A and B lie beside A.whole and B.whole, which is what each gives when it is alone.
"""

import errno
import fcntl
import os
import pty
import re
import runpy
import select
import signal
import struct
import subprocess
import sys
import termios
import threading
import time

LIMIT = 20  # seconds for whatever is waited for
LEFT = 5  # and for the end of what a command has started, when it has ended itself
TIMES = 7  # calls for each of two jobs at once
BYTES = b"\x1b*t300R\x1b*b2W\xff\x80"


def until(condition, limit=LIMIT):
    """Waits for it. Whether it came."""
    end = time.monotonic() + limit
    while time.monotonic() < end:
        if condition():
            return True
        time.sleep(0.005)
    return False


def with_mark(mark):
    """The processes whose environment has this mark: a command's children have it too, whatever group or session they are in."""
    for number in filter(str.isdigit, os.listdir("/proc")):
        try:
            with open(f"/proc/{number}/environ", "rb") as file:
                if mark in file.read().split(b"\0"):
                    yield int(number)
        except OSError:
            pass  # it has ended, or is another user's


def defaults():
    """In the background of a script Ctrl-C is ignored: here it is not."""
    for number in (signal.SIGINT, signal.SIGTERM, signal.SIGHUP):
        signal.signal(number, signal.SIG_DFL)


class Run:
    """A command in a session of its own, whose processes can be found again."""

    def __init__(self, command, **streams):
        self.mark = f"CAREFUL={os.getpid()}.{time.monotonic_ns()}"
        name, value = self.mark.split("=")
        self.process = subprocess.Popen(
            command, env={**os.environ, name: value}, start_new_session=True, preexec_fn=defaults, **streams
        )

    def ended(self):
        return self.process.poll() is not None

    def stop(self, names):
        for name in names.split("+"):
            if name == "INT":
                for _ in range(2):  # nobody types it once
                    os.killpg(self.process.pid, signal.SIGINT)
            else:
                self.process.send_signal(getattr(signal, "SIG" + name))

    def status(self):
        """Waits for the end: of the command, and of all that it started."""
        mark = self.mark.encode()
        if not until(self.ended):
            return self.cut(99, "it does not end")
        if not until(lambda: not [*with_mark(mark)], LEFT):
            return self.cut(98, "it leaves a process behind")
        status = self.process.returncode
        return status if status >= 0 else 128 - status  # as a shell has it

    def cut(self, status, text):
        print(text, file=sys.stderr)
        for number in with_mark(self.mark.encode()):
            os.kill(number, signal.SIGKILL)
        self.process.wait()
        return status


def stop_when(run, name, condition):
    """Stops it when the condition holds, and gives the exit status."""
    if not until(lambda: condition() or run.ended()) or run.ended():
        print("it did not come so far", file=sys.stderr)
    else:
        run.stop(name)
    return run.status()


def stopped(name, *command):
    stage = os.environ["STAGE"]
    return stop_when(Run(command), name, lambda: os.path.exists(stage))


def after(seconds, name, *command):
    run, end = Run(command), time.monotonic() + float(seconds)
    if until(lambda: time.monotonic() >= end) and not run.ended():
        run.stop(name)
    return run.status()


def waiting(pipe):
    """How many bytes are in the pipe."""
    return struct.unpack("i", fcntl.ioctl(pipe, termios.FIONREAD, bytes(4)))[0]


def filled(path):
    """Both ends of a pipe that has the bytes of a job in it: of a named one, or of a new one."""
    given, other = os.pipe() if path == "-" else [os.open(path, os.O_RDWR)] * 2
    os.write(other, BYTES)
    return given, other


def reading(name, path, *command):
    given, other = filled(path)
    run = Run(command, stdin=given if path == "-" else subprocess.DEVNULL)
    return stop_when(run, name, lambda: waiting(other) == 0)


def unread(*command):
    given, other = filled("-")
    status = Run(command, stdin=given).status()
    if waiting(given) != len(BYTES):
        print("it took the job", file=sys.stderr)
    return status


def gone(stream, *command):
    given, other = os.pipe()
    os.close(given)
    return Run(command, **{"1": {"stdout": other}, "2": {"stderr": other}}[stream]).status()


def on_terminal(command, condition, then):
    """The command with a terminal as a user has one. When the condition holds of what it shows, `then` is done. Gives all that is shown, and the status."""
    child, terminal = pty.fork()
    if child == 0:
        defaults()
        os.execvp(command[0], command)
    shown, end, waits = b"", time.monotonic() + LIMIT, True
    while time.monotonic() < end:
        if select.select([terminal], [], [], 0.02)[0]:
            try:
                part = os.read(terminal, 65536)
            except OSError:  # EIO: the command has closed it
                break
            shown += part
        if waits and condition(shown):
            waits = False
            then(terminal)
    else:
        os.kill(child, signal.SIGKILL)
    status = os.waitstatus_to_exitcode(os.waitpid(child, 0)[1])
    sys.stdout.buffer.write(shown)
    return status if status >= 0 else 128 - status


def keys(*command):
    stage = os.environ["STAGE"]
    return on_terminal(command, lambda shown: os.path.exists(stage), lambda terminal: os.write(terminal, b"\x03"))


def shown(text, *command):
    return on_terminal(command, re.compile(text.encode()).search, lambda terminal: open(os.environ["LET"], "x").close())


def contents(path):
    """Of a file its bytes, of a folder those of its files by name; None where it is not there."""
    try:
        if os.path.isdir(path):
            return {name: contents(os.path.join(path, name)) for name in os.listdir(path)}
        with open(path, "rb") as file:
            return file.read()
    except FileNotFoundError:
        return None


def which(path):
    status = os.stat(path)
    return status.st_ino, status.st_mtime_ns, status.st_ctime_ns


def look_at_drawing(folder):
    """findings.txt and the pictures, if findings.txt was one and the same before and after they were read: then they stand beside each other."""
    path = os.path.join(folder, "findings.txt")
    try:
        before = which(path)
        seen = {name: data for name, data in contents(folder).items() if not name.startswith(".")}
        return seen if which(path) == before else None
    except FileNotFoundError:
        return None


def again(command, job, goal, told):
    """One job, again and again. Gives what the calls ended with."""
    for _ in range(TIMES):
        done = subprocess.run([*command, job, "-o", goal], stdout=subprocess.PIPE, stderr=subprocess.PIPE)
        told.append((done.returncode, done.stderr.decode("utf-8", "replace").strip()))


def at_once(look, goal, jobs, command, *refusals):
    """Both jobs at once, with a look at the goal all the time. Whatever is wrong is a line. Besides its own status a call may end by one of the refusals."""
    whole = {job: contents(job + ".whole") for job in jobs}
    told = {job: [] for job in jobs}
    threads = [threading.Thread(target=again, args=(command, job, goal, told[job])) for job in jobs]
    seen, faults = set(), set()
    for thread in threads:
        thread.start()
    while any(thread.is_alive() for thread in threads):
        sight = look(goal)
        names = [job for job in jobs if sight == whole[job]]
        seen.update(names)
        if sight is not None and not names:
            faults.add("a mixture, or a part, is seen")
    if contents(goal) not in whole.values():
        faults.add("what is left at the end is neither of both")
    faults.update(f"{job} was never seen, so this shows little" for job in jobs if job not in seen)
    for job in jobs:
        right = {(0, ""), *((2, refusal) for refusal in refusals)}
        faults.update(f"{job} ended with {status}: {said}" for status, said in told[job] if (status, said) not in right)
    print("\n".join(sorted(faults)))
    return 1 if faults else 0


def draws(folder, first, second, *command):
    refusals = (f"rovinuset: draw: another draw {does} in: {folder}" for does in ("is writing", "has written"))
    return at_once(look_at_drawing, folder, (first, second), command, *refusals)


def records(path, first, second, *command):
    return at_once(contents, path, (first, second), command)


def aside():
    """SIGTERM, when there is no more in standard input and the rest is waited for. That call goes on: as if the signal had come right before it."""
    until(lambda: waiting(0) == 0)
    time.sleep(0.5)
    signal.pthread_sigmask(signal.SIG_UNBLOCK, [signal.SIGTERM])
    signal.pthread_kill(threading.get_ident(), signal.SIGTERM)


def no_memory(*_):
    raise MemoryError


def stepwise():
    """$STEP is `NUMBER ACTION FILE`. What this process moves, links or removes is a line in FILE; before the step of this number it gets a signal (TERM,
    KILL) or the step fails (FAIL). SLOW: before every step there is a pause. INT: Ctrl-C comes before the script's first line, as if Python still started.
    MEMORY: there is none for a program's lines. ASIDE: SIGTERM comes and interrupts nothing (`aside`)."""
    number, action, log = os.environ["STEP"].split(" ", 2)
    count = 0
    if action == "MEMORY":
        import findings  # the command's own

        findings.Lines.take = no_memory
    if action == "ASIDE":
        threading.Thread(target=aside, daemon=True).start()
    if action == "INT":
        signal.signal(signal.SIGINT, signal.default_int_handler)
        os.kill(os.getpid(), signal.SIGINT)

    def wrapped(name, system):
        def step(*words, **more):
            nonlocal count
            count += 1
            with open(log, "a", encoding="utf-8", errors="replace") as file:
                file.write(f"{name} {words}\n")
            if action == "SLOW":
                time.sleep(0.004)
            elif count == int(number) and action == "FAIL":
                raise OSError(errno.EIO, os.strerror(errno.EIO), words[0])
            elif count == int(number):
                os.kill(os.getpid(), getattr(signal, "SIG" + action))
            return system(*words, **more)

        return step

    for name in ("replace", "rename", "link", "symlink", "unlink", "remove", "rmdir"):
        system = getattr(os, name)
        setattr(os, name, wrapped(name, system))
        if system in os.supports_dir_fd:
            os.supports_dir_fd.add(getattr(os, name))


def python(*words):
    """Python's own flags do not matter here."""
    script = next(number for number, word in enumerate(words) if not word.startswith("-"))
    sys.argv, sys.path[0] = [*words[script:]], os.path.dirname(words[script])
    stepwise()
    runpy.run_path(words[script], run_name="__main__")


if __name__ == "__main__":
    kinds = {kind.__name__: kind for kind in (stopped, reading, after, unread, gone, keys, shown, draws, records, python)}
    sys.exit(kinds[sys.argv[1]](*sys.argv[2:]))
