"""How many text bytes a job has that move the cursor and are not drawn, by the second program's trace alone: it says where each item begins and how long
it is, and what it is by its bytes. A space is none of them, nor is a code; but the payload of &p#X moves as text, whatever bytes it has: there all but
spaces are counted."""

import re
import subprocess

BROKEN = (1, 2)  # findings of a piece that is no whole item: it closes its sequence
# The head of a sequence, which a command in an open one has not; its value; the letter that ends it, a capital where the sequence ends too.
COMMAND = re.compile(rb"(?:\x1b([!-/])([`-~])?)?[^@-^`-~]*([@-^`-~])", re.DOTALL)


def trace(second, job, width, height):
    words = [second, "trace", str(width), str(height)]
    return subprocess.run(words, input=job, stdout=subprocess.PIPE, check=True).stdout.decode().splitlines()


def items(lines):
    """Each item of a trace: the word, its place, its length, its finding."""
    for line in lines:
        if line.startswith("ITEM\t"):
            word, *fields = line.split("\t")
            yield (word, *map(int, fields))


def is_text(byte):
    return 33 <= byte <= 126 or byte >= 128


def text_bytes(job, lines):
    count, sequence = 0, None  # the two bytes that an open sequence keeps
    for _, place, length, finding in items(lines):
        item = job[place : place + length]
        if finding in BROKEN:
            sequence = None
        elif sequence is None and item[:1] != b"\x1b":
            count += finding == 0 and is_text(item[0])
        elif sequence is not None or item[1] < 48:  # not one of two bytes
            command = COMMAND.match(item)
            head, letter = sequence or command.groups()[:2], command[3]
            if (head, letter.upper(), finding) == ((b"&", b"p"), b"X", 0):
                count += sum(byte != 32 for byte in item[command.end() :])
            sequence = head if b"`" <= letter else None
    return count


def told(count):
    """The line that says it, if there are any."""
    if not count:
        return []
    return [f"{count:,} text byte{'' if count == 1 else 's'} moved the cursor and {'was' if count == 1 else 'were'} not drawn"]
