#!/usr/bin/env python3
"""Brings the repository's own definitions and lemmas to today's spelling: words in snake case, ' for a prime, and a dash only where it joins two names.

usage: respell.py [FOLDER]      rewrites crates/ and the edits of FOLDER (else of the current folder) in place; run it once, behind port.py
       respell.py --list [FOLDER]      prints the renamings, one a line, and changes nothing

What is renamed: in .antt files and in the clauses of .rt files a word such as pageBytes, which becomes page_bytes, and a name declared here with a dash, such
as or-neither, which becomes or_neither; byte_of-bit keeps its dash, since it is a lemma on byte_of and bit. Names of the libraries stay, and names that
fall together get _lem, as a lemma does that would have its function's name.
"""

import os
import re
import sys

# Lemmas that would have their function's name.
LEMMAS = {"is_digit", "no_room"}
WORD = r"[^\s(){}\[\].,;@\"«»\\:=|`]+"
TOKEN = re.compile(r"--[^\n]*|//[^\n]*|\"(?:[^\"\\\n]|\\.)*\"|" + WORD)
CAMEL = re.compile(r"^[a-z][a-z0-9]*(?:[A-Z][A-Za-z0-9]*)+(?=$|[-'′₀₁₂₃₄₅₆₇₈₉])")
DECLARED = re.compile(r"^(\s*)(?:(?:pattern|unfoldable|abbrev|pub|axiom|record|data|ruleset|field|syntax)\s+)*(" + WORD + r")((?:\s*(?:\([^()]*\)|\{[^{}]*\}))*)\s*:(?=\s)(.*)$")
IMPORT = re.compile(r"^(?:ghost |pub )*use ([\w.·-]+)\.\{([^}]*)\}")


def read(path):
    with open(path, encoding="utf-8", newline="") as f:
        return f.read()


def files(root, *ends):
    for folder, dirs, names in os.walk(root):
        dirs[:] = sorted(d for d in dirs if d not in ("out", "target", ".git"))
        for name in sorted(names):
            if name.endswith(ends):
                yield os.path.join(folder, name)


def snake(word):
    """pageBytes, page_bytes; nameVMI, name_vmi; u64At, u64_at."""
    word = re.sub(r"([A-Z]+)([A-Z][a-z])", r"\1_\2", word)
    return re.sub(r"([a-z0-9])([A-Z])", r"\1_\2", word).lower()


def own(module, crates):
    parts = module.split(".")
    return parts[0] == "Rattle" and len(parts) > 1 and parts[1] in crates


def collected(root):
    """The names that are declared here, those that are imported from a library, and every camel-case word."""
    crates = set(os.listdir(os.path.join(root, "crates")))
    declared, foreign, camels = set(), set(), set()
    for path in files(os.path.join(root, "crates"), ".antt", ".rt"):
        text = read(path)
        for line in text.split("\n"):
            m = IMPORT.match(line)
            if m and not own(m.group(1), crates):
                foreign.update(w.strip().split(" as ")[0] for w in m.group(2).split(","))
            if path.endswith(".antt") and not m and not line.lstrip().startswith("--"):
                d = DECLARED.match(line)
                if d and not re.match(r"\s*(tie|goal)\.|\s*.*→ statement M$", d.group(4)):
                    declared.add(d.group(2))
        for m in TOKEN.finditer(text):
            if CAMEL.match(m.group()):
                camels.add(m.group())
    return declared, foreign, camels


def head(word):
    m = CAMEL.match(word)
    return snake(m.group()) + word[m.end() :] if m else word


def joined(parts, known):
    """The parts of a name, a dash left only between two names."""
    out, start = parts[0], 0
    for i in range(len(parts) - 1):
        left = "_".join(parts[start : i + 1])
        right = any("_".join(parts[i + 1 : j]) in known for j in range(i + 2, len(parts) + 1))
        if left in known and right and ("_" in left or "_" in parts[i + 1]):
            out, start = out + "-" + parts[i + 1], i + 1
        else:
            out += "_" + parts[i + 1]
    return out


def renamings(root):
    declared, foreign, camels = collected(root)
    to = {w: head(w) for w in sorted(camels) if w not in foreign}
    plain = {to.get(w, w) for w in declared if "-" not in w} | {w for w in foreign if "-" not in w}
    used = {to.get(w, w) for w in declared if "-" not in w} | foreign
    # words of the library's own lemmas: length-append
    plain |= {"append", "cons", "nil", "snoc", "set", "zero"}
    for w in sorted(w for w in declared if "-" in w and w not in foreign):
        parts = [head(p) for p in w.replace("′", "'").split("-")]
        if not all(re.match(r"^\w", p) for p in parts):
            continue
        name = joined(parts, plain)
        while name != w and name in used:
            name += "_lem"
        used.add(name)
        to[w] = name
    for w in sorted(declared - set(to)):
        if "′" in w:
            to[w] = to.get(w, w).replace("′", "'")
    return {a: b for a, b in to.items() if a != b}


def respelt(text, to, lemmas):
    def each(m):
        t = m.group()
        if lemmas and t in LEMMAS:
            return t + "_lem"
        if t.startswith(("--", "//")):
            return re.sub(r"`(" + WORD + r")`", lambda q: "`" + to.get(q.group(1), q.group(1)) + "`", re.sub(r"\b[a-z][a-z0-9]*[A-Z]\w*", lambda q: to.get(q.group(), q.group()), t))
        return t if t.startswith('"') else to.get(t, t)

    return TOKEN.sub(each, text)


def main(words):
    listing = "--list" in words
    root = ([w for w in words if w != "--list"] or ["."])[0]
    to = renamings(root)
    if listing:
        for a in sorted(to):
            print(a, to[a])
        return
    changed = 0
    for path in [*files(os.path.join(root, "crates"), ".antt", ".rt", ".edit"), *files(os.path.join(root, "tests", "edits"), ".edit")]:
        text = read(path)
        new = respelt(text, to, "/proofs/" in path)
        if new != text:
            with open(path, "w", encoding="utf-8", newline="") as f:
                f.write(new)
            changed += 1
    print(f"respell: {len(to)} names, {changed} files")


main(sys.argv[1:])
