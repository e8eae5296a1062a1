#!/usr/bin/env python3
"""documented.py FILE..: what the papers for users show is what happens.

In an indented block of a Markdown file a line that begins with '$ ' is a command, and the lines behind it are what it prints, on standard output and
standard error together; '...' stands for any lines, '$ echo $?' for the exit status before it. Each command runs in a folder that looks like the project's
root, one for each file. A line for each command that prints something else, then the counts; exit status 1 on any.
"""
import os
import re
import subprocess
import sys
import tempfile

# said only where a program is missing or older than its sources
BUILDING = re.compile(r"^rovinuset: proving and building .*\n", re.M)
ROOT = os.path.dirname(os.path.dirname(os.path.abspath(__file__)))


def blocks(text):
    """Each command with its line number and the lines it shows."""
    found, inside = [], False
    for number, line in enumerate(text.splitlines(), 1):
        if line.startswith("    $ "):
            found.append((number, line[6:], []))
            inside = True
        elif line.startswith("    ") and inside:
            found[-1][2].append(line[4:])
        else:
            inside = False
    return found


def agrees(shown, printed):
    pattern = "".join("(?:.*\n)*?" if line == "..." else re.escape(line + "\n") for line in shown)
    if printed and not printed.endswith("\n"):
        printed += "\n"
    return re.fullmatch(pattern, printed) is not None


def stand_in(folder):
    """The project's files under their names, so that what a command writes stays out of it."""
    for name in os.listdir(ROOT):
        if not name.startswith("."):
            os.symlink(os.path.join(ROOT, name), os.path.join(folder, name))


def main():
    commands = wrong = 0
    for path in sys.argv[1:]:
        with tempfile.TemporaryDirectory() as folder:
            stand_in(folder)
            status = 0
            for number, command, shown in blocks(open(path, encoding="utf-8").read()):
                run = subprocess.run(["bash", "-c", "(exit %d); %s" % (status, command)], cwd=folder, stdin=subprocess.DEVNULL,
                                     stdout=subprocess.PIPE, stderr=subprocess.STDOUT)
                status = run.returncode
                printed = BUILDING.sub("", run.stdout.decode("utf-8", "replace"))
                commands += 1
                if not agrees(shown, printed):
                    wrong += 1
                    print("documented: %s:%d: %s\n%s" % (path, number, command, printed))
    print("documented: %d commands, %d print something else" % (commands, wrong))
    return 1 if wrong or not commands else 0


sys.exit(main())
