#!/usr/bin/env python3
"""reports.py PROGRAM SECOND [COUNT [SEED]]: the report program against `SECOND report`, byte for byte.

Both read each stream of tests/vectors, streams of lengths around the limit, and COUNT (500) generated ones. PROGRAM is a program
with no words; SECOND is the second program. One line for each difference, last a line with the counts; exit status 1 on any
difference, on an exit status that is not 0, or where a kind of line never came up.
"""
import glob
import lzma
import os
import random
import subprocess
import sys

HERE = os.path.dirname(os.path.abspath(__file__))
LIMIT = 65536
SECONDS = 120
# What the streams together must bring about, so that a generator that makes nothing is noticed.
WANTED = {b"SIZE", b"PAGE", b"PAGE 2", b"END", b"REFUSED"} | {b"FAULT %d" % number for number in range(1, 8)}
COMMANDS = ["&aC", "&aH", "&aV", "&aR", "&aL", "&aM", "&lE", "&lC", "&lD", "&kH", "&kG", "&fS", "*pX", "*pY", "*tR", "*rA", "*rB",
            "*rC", "*bM", "*bY", "*bV", "*cA", "(sP", ")sB"]


def value(draw):
    """A value: often small, now and then with a sign, a point or too many digits."""
    sign = draw.choice(["", "", "", "+", "-"])
    digits = draw.choice(["", "0", "1", "2", "3", "75", "100", "300", str(draw.randrange(1000)), str(draw.randrange(100000))])
    return sign + digits + draw.choice(["", "", "", ".5", ".", ".12345"])


def row(draw):
    """*b#W with a payload that its count fits, or does not."""
    payload = bytes(draw.choice([0, 1, 31, 128, 255, draw.randrange(256)]) for _ in range(draw.randrange(12)))
    count = len(payload) + draw.choice([0, 0, 0, 0, 0, 1])
    return b"%dW" % count + payload


def sequence(draw):
    """One or more commands in one sequence; the last letter is small now and then, so that it stays open."""
    start = draw.choice(COMMANDS + ["*bW"] * 8)
    out = b"\x1b" + start[:2].encode()
    for last in [False] * draw.choice([0, 0, 0, 1, 2]) + [True]:
        if start == "*bW":
            part = row(draw)
            small = part.replace(b"W", b"w", 1)
        else:
            part = value(draw).encode() + start[2:].encode()
            small = part.lower()
        out += part if last and draw.random() < 0.95 else small
    return out


def stream(draw):
    """Some pieces, one behind another."""
    out = b""
    for _ in range(draw.randrange(1, 40)):
        kind = draw.random()
        if kind < 0.55:
            out += sequence(draw)
        elif kind < 0.75:
            out += bytes(draw.randrange(32, 256) for _ in range(draw.randrange(1, 6)))
        elif kind < 0.85:
            out += bytes([draw.choice([8, 9, 10, 12, 13, 0, 27, 127])])
        elif kind < 0.95:
            out += b"\x1b" + draw.choice([b"E", b"9", b"=", b"Y", b"&", b"&k", b"\x1b", b"&p4X\x1bE A"])
        else:
            out += bytes(draw.randrange(256) for _ in range(draw.randrange(8)))
    return out


def streams(count, seed):
    """The streams, each with a name."""
    for path in sorted(glob.glob(os.path.join(HERE, "vectors/*/*.pcl*"))):
        packed = open(path, "rb").read()
        yield os.path.relpath(path, HERE), lzma.decompress(packed) if path.endswith(".xz") else packed
    for length in (0, LIMIT - 1, LIMIT, LIMIT + 1, 3 * LIMIT):
        yield "text of %d bytes" % length, b"A" * length
    yield "findings without end", b"\x1b&f1s" + b"1s" * 20000
    draw = random.Random(seed)
    for number in range(count):
        yield "generated %d of seed %d" % (number, seed), stream(draw)


def kinds(report):
    """The kinds of its lines: the word, a finding's number, a second page."""
    found = set()
    for line in report.splitlines():
        word, *numbers = line.split(b"\t")
        found.add(word + b" " + numbers[1] if word == b"FAULT" else word)
        if word == b"PAGE" and numbers[0] == b"2":
            found.add(b"PAGE 2")
    return found


def output(words, given):
    done = subprocess.run(words, input=given, timeout=SECONDS, stdout=subprocess.PIPE, stderr=subprocess.PIPE)
    return done.stdout if done.returncode == 0 else b"exit status %d" % done.returncode


def main():
    if len(sys.argv) not in (3, 4, 5):
        sys.exit("usage: reports.py PROGRAM SECOND [COUNT [SEED]]")
    count = int(sys.argv[3]) if len(sys.argv) > 3 else 500
    seed = int(sys.argv[4]) if len(sys.argv) > 4 else 1
    done = differ = 0
    missing = set(WANTED)
    for name, given in streams(count, seed):
        ours, theirs = output([sys.argv[1]], given), output([sys.argv[2], "report"], given)
        missing -= kinds(theirs)
        done += 1
        if ours != theirs or ours.startswith(b"exit"):
            differ += 1
            print("reports: %s: the two differ" % name)
    for kind in sorted(missing):
        print("reports: no stream has brought about %s" % kind.decode())
    print("reports: %d streams, %d differences" % (done, differ))
    sys.exit(1 if differ or missing or done < count + 60 else 0)


if __name__ == "__main__":
    main()
