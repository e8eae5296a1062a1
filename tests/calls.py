#!/usr/bin/env python3
"""calls.py ARCHIVE: no function of an archive for x86-64 reaches itself by calls, or calls through a pointer: how deep the stack goes would
then hang on the data. objdump tells who calls whom. A line for each function that does; exit status 1 if there is one.
"""
import platform
import re
import subprocess
import sys


OBJDUMP = "objdump" if platform.machine() == "x86_64" else "x86_64-linux-gnu-objdump"


def calls_of(archive):
    """Each function with those that it calls or jumps to, None for a call through a pointer."""
    told = subprocess.run([OBJDUMP, "-dr", "--no-show-raw-insn", archive], check=True, capture_output=True, text=True).stdout
    calls, function, direct = {}, None, None
    for line in told.split("\n"):
        begins = re.match(r"[0-9a-f]+ <(.+)>:$", line)
        relocated = re.match(r"\s+[0-9a-f]+: R_X86_64_PLT32\s+(?:\.text\.)?(.+?)[-+]0x[0-9a-f]+$", line)
        # A direct call's own target counts where no relocation follows it.
        if direct and not relocated:
            calls[function].add(direct)
        direct = None
        if begins:
            function = begins.group(1)
            calls.setdefault(function, set())
        elif relocated:
            calls[function].add(relocated.group(1))
        elif re.search(r"\scall\s+\*", line):
            calls[function].add(None)
        elif called := re.search(r"\scall\s+[0-9a-f]+ <(.+?)(?:\+0x[0-9a-f]+)?>", line):
            direct = called.group(1)
    return calls


def reached(calls, function):
    found, left = set(), [function]
    while left:
        for other in calls.get(left.pop(), ()):
            if other not in found:
                found.add(other)
                left.append(other)
    return found


def main():
    calls = calls_of(sys.argv[1])
    faults = [f"{name} reaches itself" for name in calls if name in reached(calls, name)]
    faults += [f"{name} calls through a pointer" for name in calls if None in calls[name]]
    if not calls:
        faults.append("no function")
    for fault in sorted(faults):
        print("calls:", fault)
    return 1 if faults else 0


sys.exit(main())
