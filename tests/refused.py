#!/usr/bin/env python3
"""refused.py [ROOT]: wrong rules that the theorems must refuse.

rt's own must-fail edits change one crate and check that crate. Here a definition of one crate is changed and the crate that
proves facts of it is checked. An edit in tests/edits has the lines

    crate: NAME         whose file is changed
    check: NAME         the crate that must no longer be proved (theorems, if the line is left out)
    file:, old:, new:   as in a must-fail edit; old stands in the file once
    error: TEXT         the first error must hold this text: the fact that fails

The crates are copied to a folder of their own and proved there first, where rt begins with what its checks on this machine kept. Edits are tried in
copies of that, side by side. A line for each edit, then the counts; exit status 1 if the copy is not proved, an edit does not apply, is not refused, or is refused for another reason.
"""
import concurrent.futures
import os
import queue
import re
import shutil
import signal
import subprocess
import sys
import tempfile

ROOT = os.path.abspath(sys.argv[1] if len(sys.argv) > 1 else ".")


def needed(name, lines):
    """The crate and the repository's crates below it."""
    found = {name}
    for dep in lines[name]:
        if dep in lines:
            found |= needed(dep, lines)
    return found


def crates():
    lines = {}
    for line in open(os.path.join(ROOT, "crates.txt"), encoding="utf-8"):
        line = line.split("#")[0].strip()
        if line:
            head, _, deps = line.partition(":")
            lines[head.split()[0]] = deps.split()
    return lines


def edit_of(path):
    parts = {"check": "theorems"}
    for line in open(path, encoding="utf-8"):
        key, colon, value = line.rstrip("\n").partition(": ")
        if colon and key in ("crate", "check", "file", "old", "new", "error"):
            parts[key] = value
    missing = [key for key in ("crate", "file", "old", "new", "error") if key not in parts]
    return parts, missing


def beside_sources(folder, _):
    """What of a crate's folder no check reads."""
    return ("must-fail", "out") if os.path.dirname(folder) == os.path.join(ROOT, "crates") else ()


def check(folder, name, *flags):
    done = subprocess.run(["rt", "check", *flags], cwd=os.path.join(folder, "crates", name), stdin=subprocess.DEVNULL,
                          stdout=subprocess.PIPE, stderr=subprocess.STDOUT, env=dict(os.environ, LC_ALL="C"))
    return done.returncode, done.stdout.decode("utf-8", "replace")


def tried(folder, parts):
    """'' if the edit is refused for its reason, else what is wrong."""
    path = os.path.join(folder, "crates", parts["crate"], parts["file"])
    text = open(path, encoding="utf-8").read()
    if text.count(parts["old"]) != 1:
        return "the old text stands %d times in %s" % (text.count(parts["old"]), parts["file"])
    open(path, "w", encoding="utf-8").write(text.replace(parts["old"], parts["new"]))
    status, said = check(folder, parts["check"], "--jobs", "1")
    open(path, "w", encoding="utf-8").write(text)
    if status == 0:
        return "NOT REFUSED"
    if status != 1 or "logic=not-proved" not in said:
        return "it did not reach the prover: " + said[-300:]
    errors = re.findall(r"^.*: error: .*$", said, re.M)
    if not errors or parts["error"] not in errors[0]:
        return "another error comes first: " + (errors[0] if errors else "none")
    return ""


def main():
    lines = crates()
    folder_of_edits = os.path.join(ROOT, "tests", "edits")
    names = sorted(name for name in os.listdir(folder_of_edits) if name.endswith(".edit"))
    failed = 0
    signal.signal(signal.SIGTERM, lambda *_: sys.exit(1))  # stopped, it leaves no copies
    with tempfile.TemporaryDirectory() as place:
        folder = os.path.join(place, "crates-as-they-are")
        checked = {edit_of(os.path.join(folder_of_edits, name))[0]["check"] for name in names}
        wanted = set().union(*(needed(name, lines) for name in checked))
        for name in wanted:
            shutil.copytree(os.path.join(ROOT, "crates", name), os.path.join(folder, "crates", name), ignore=beside_sources)
        with open(os.path.join(folder, "crates.txt"), "w", encoding="utf-8") as out:
            for name in lines:
                if name in wanted:
                    out.write("%s: %s\n" % (name, " ".join(lines[name])))
        for name in sorted(checked):
            status, said = check(folder, name)
            if status != 0:
                sys.exit("refused.py: %s is not proved before any edit:\n%s" % (name, said[-2000:]))
        copies = queue.Queue()
        for number in range(min(os.cpu_count() or 1, 4)):
            copies.put(shutil.copytree(folder, os.path.join(place, "copy%d" % number)))

        def wrong_with(name):
            parts, missing = edit_of(os.path.join(folder_of_edits, name))
            if missing:
                return parts, "no line " + ", ".join(missing)
            copy = copies.get()
            try:
                return parts, tried(copy, parts)
            finally:
                copies.put(copy)

        with concurrent.futures.ThreadPoolExecutor(copies.qsize()) as workers:
            for name, (parts, wrong) in zip(names, workers.map(wrong_with, names)):
                failed += 1 if wrong else 0
                print("%s: %s" % (name[:-5], wrong or "refused at " + parts["error"]), flush=True)
    print("refused: %d wrong rules, %d not refused" % (len(names), failed))
    sys.exit(1 if failed or not names else 0)


main()
