"""The library for firmware: where it and its header are, and how to link them."""

import os
import shlex

import ending
import files
import goal
import programs
import words

MADE = os.path.join(programs.TARGET, "librovinuset.a")


def archive(given):
    options, others = words.split("archive", given, {"-o": "the file to write"})
    if others:
        raise ending.Wrong("archive takes -o and a file, or nothing")
    door = programs.library("door")
    programs.can_be_had([door])
    to = goal.Goal(options["-o"], "archive") if options else None
    programs.build([door])
    with open(door.path, "rb") as file:
        data = file.read()
    if to is not None:
        to.write(data)
        to.summary("archive", told(to.path))
        return ending.CLEAN
    if not same(MADE, data):
        goal.Goal(MADE, "archive").write(data)
    into_it = goal.is_output(goal.found(MADE))
    ending.tell("archive", 2 if into_it else 1, files.printed(MADE), told(MADE))
    return ending.CLEAN


def same(path, data):
    """Whether the file is there already: who may not write may still ask where it is."""
    try:
        with open(path, "rb") as file:
            return file.read() == data
    except OSError:
        return False


def told(path):
    compiler = "cc" if programs.native() else "x86_64-linux-gnu-gcc -static"
    include = os.path.join(programs.ROOT, "include")
    yield f"archive: {files.printed(path)}"
    yield f"header: {files.printed(os.path.join(include, 'rovinuset.h'))}"
    yield f"link: {compiler} job.c -I{quoted(include)} {quoted(path)}"


def quoted(path):
    """The path as a word of bash, in one line."""
    if path.isprintable():
        return shlex.quote(path)
    return "$'%s'" % "".join(f"\\{sign}" if sign in "'\\" else sign if sign.isprintable() else files.escaped(sign) for sign in path)
