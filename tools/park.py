"""Parks a job: its state as text, by the program `park`; and says what such a text holds, by the program `unpark`.

A refused job, or text, is the line REFUSED on standard output, and nothing is written to a file. What a program prints is looked at before it is passed on:
it has the form of a whole text, or of such a line.
"""

import re

import ending
import findings
import pages
import programs
import telling
import words

TAKES = {"-n": "a number of items", "-o": "the file to write"}
TEXT_TAKES = {}
ALL = 10000000  # items: more than any job has
MEMBERS = b"W H x y L R T HMI VMI termination resolution method started margin used depth".split()
NUMBER = rb"(?:0|[1-9][0-9]{0,9})"
LINES = rb"(?:POS\t%b\t%b\n)*ROW\t(?:[0-9A-F]{2})+\n" % (NUMBER, NUMBER)
TEXT = re.compile(rb"JOB(?:\t%b){%d}\n" % (NUMBER, len(MEMBERS)) + LINES)
HELD = re.compile(b"".join(rb"%b\t%b\n" % (name, NUMBER) for name in MEMBERS) + LINES)
REFUSED = re.compile(rb"REFUSED\t([0-9]{2})\n")


def items(call):
    """The program's word for the number of items: none where the job is run to its end."""
    return [str(words.number(call.options["-n"], "items", ALL))] if "-n" in call.options else []


def park(call, command, goal):
    text, refused = answer([*command, str(call.width), str(call.height), *items(call)], call.job, TEXT, findings.PARKING)
    if refused is not None:
        return refuse("park", text, refused, findings.PARKING)
    goal.write(text)
    telling.of_empty(call)
    return ending.CLEAN


def unpark(call, command):
    text, refused = answer(command, call.job, HELD, findings.UNPARKING)
    if refused is not None:
        return refuse("unpark", text, refused, findings.UNPARKING)
    ending.write_all(1, text)
    return ending.CLEAN


def answer(command, job, form, refusals):
    """What the program prints, and the number if that is a refusal."""
    text, strange, status = programs.answer(command, job)
    refused = REFUSED.fullmatch(text)
    number = int(refused[1]) if refused else None
    if strange or status or not (form.fullmatch(text) or number in refusals):
        raise pages.Broken(strange or "no whole text")
    return text, number


def refuse(word, line, number, refusals):
    """The line on standard output, the refusal in words, and the exit status."""
    ending.write_all(1, line)
    return telling.refused(word, number, refusals)
