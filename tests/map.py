#!/usr/bin/env python3
"""map.py [ROOT]: docs/MAP.md shows the project as it is.

The families  An indented block. Lines between two borders are a layer, the top one first; the first word of each of its boxes is a
              family. Then a line `family → families it uses` for each family, in that order, but for the ground, which is alone in the
              lowest layer and which all may use. An arrow goes to a lower layer, and the arrows are just those that crates.txt needs.
              A crate is of the family whose name it has or begins with, and of the ground if no part of its name stands before a `_`.
              crates.txt has the families lowest first, each under one line of comment, and no crate before one that it uses.
The crates    Family, crate, sentence: every crate of crates.txt, in its order; there is a folder of crates/ for each and no other.
Where is ..   What, definition, function, wrong version or test. A definition and a function are links, each to the file that must have
              what it names: `File: name, name`, `crate::name`, or the file itself. A link `File.antt` or `crate/File.antt` goes to the file
              that docs/TRACE.md means by it. The tests are cited as in docs/TRACE.md.
              A row that begins with a code span is of what the sources call so, and what they have of each kind in WANTED has its
              row; a note in brackets behind it is free. Every theorem is cited in some definition.

README.md names the map first under 'Where to read on'. One line for each fault, then a line with the counts; exit status 1 on any fault.
"""
import os
import re
import sys

import trace  # tests/trace.py
from trace import found, text

MAP = "docs/MAP.md"
GROUND = "ground"
BORDER = set("┌┬┐├┼┤└┴┘─▼")
LINK = re.compile(r"\[`([^`]+)`\]\[([^\]]+)\]")


def under(heading):
    """The numbered lines under a heading of the map."""
    here = False
    for number, line in enumerate(text(MAP).split("\n"), 1):
        if re.match(r"##? ", line):
            here = line == "## " + heading
        elif here:
            yield number, line


def rows(heading):
    """The rows of the tables under a heading, but for their heads: number, cells."""
    last = None
    for number, line in [*under(heading), (0, "")]:
        if last and not line.startswith("|---"):
            yield last
        cells = [cell.strip() for cell in re.split(r"(?<!\\)\|", line)[1:-1]]
        last = (number, cells) if cells and not line.startswith("|---") else None


# ---- the families


def picture():
    """The layers of families, top first; for each start of an arrow its goals; the lines that are neither box nor arrow."""
    layers, arrows, wrong, boxed = [], {}, [], False
    for number, line in under("The families"):
        if not line.startswith("    "):
            continue
        line = line.strip()
        start, arrow, goals = line.partition(" → ")
        if line.startswith("│"):
            if not boxed:
                layers.append([(box.split() or [""])[0] for box in line.strip("│").split("│")])
        elif arrow and start.strip() not in arrows:
            arrows[start.strip()] = goals.split()
        elif set(line) - BORDER:
            wrong.append("%s:%d: neither a layer nor an arrow of its own" % (MAP, number))
        boxed = line.startswith("│")
    return layers, arrows, wrong


def lowest_first(layers):
    return [family for layer in reversed(layers) for family in layer]


def family_of(crate, families):
    for family in families:
        if family in (crate, crate + "_") or (family.endswith("_") and crate.startswith(family)):
            return family
    return "none" if "_" in crate else GROUND


def blocks():
    """The families of crates.txt: comment lines, and crates with what they use. The paragraph before them is the file's own head."""
    for part in re.split(r"\n\s*\n", text("crates.txt").strip())[1:]:
        lines = part.split("\n")
        crates = [line.partition(":") for line in lines if not line.startswith("#")]  # `NAME: deps`, or `NAME staticlib: deps`
        comments = [place for place, line in enumerate(lines) if line.startswith("#")]
        yield comments, {head.split()[0]: deps.split() for head, _, deps in crates}


def wrong_order(layers, arrows):
    """The picture by itself: the ground, the arrow lines and their directions."""
    depth = {family: number for number, layer in enumerate(layers) for family in layer}
    if not layers or layers[-1] != [GROUND]:
        yield "the lowest layer is not the ground alone"
    if list(arrows) != [family for layer in layers for family in layer if family != GROUND]:
        yield "the arrow lines are not one for each family but the ground, in the order of the picture"
    for start, goal in ((start, goal) for start in arrows for goal in arrows[start]):
        if goal not in depth:
            yield "no family %s, to which %s has an arrow" % (goal, start)
        elif start in depth and depth[goal] <= depth[start]:
            yield "the arrow %s → %s does not point down" % (start, goal)


def wrong_arrows(crates, families, arrows):
    """The arrows and what the crates use."""
    needed = set()
    for crate, dep in ((crate, dep) for crate in crates for dep in crates[crate] if dep in crates):
        pair = family_of(crate, families), family_of(dep, families)
        if pair[0] == pair[1] or pair[1] == GROUND:
            continue
        needed.add(pair)
        if pair[1] not in arrows.get(pair[0], ()):
            yield "crates.txt: %s uses %s, and the map has no arrow %s → %s" % (crate, dep, *pair)
    for start, goal in ((start, goal) for start in arrows for goal in arrows[start]):
        if goal != GROUND and (start, goal) not in needed:
            yield "%s: no crate needs the arrow %s → %s" % (MAP, start, goal)


def wrong_blocks(families, parts):
    """crates.txt by itself, and its order."""
    if len(parts) != len(families):
        yield "crates.txt has %d families, the picture %d" % (len(parts), len(families))
    for family, (comments, crates) in zip(families, parts):
        if comments != [0]:
            yield "crates.txt: %s has not one line of comment, above its crates" % family
        for crate in crates:
            if family_of(crate, families) != family:
                yield "crates.txt: %s stands where the crates of %s do" % (crate, family)
    crates = {crate: deps for _, crates in parts for crate, deps in crates.items()}
    for place, crate in enumerate(crates):
        for dep in set(crates[crate]) & set(list(crates)[place:]):
            yield "crates.txt: %s uses %s, which does not stand before it" % (crate, dep)


# ---- the crates


def wrong_row_of_crate(cells, family, families):
    """What is wrong with a row of a crate under its family."""
    link = re.fullmatch(r"\[`(\w+)`\]\(\.\./crates/(\w+)\)", cells[1]) if len(cells) == 3 else None
    if not link or link.group(1) != link.group(2) or not cells[2]:
        return "a row has a family or none, a crate with a link to its folder, and a sentence"
    if family_of(link.group(1), families) != family:
        return "%s is not of the family %s" % (link.group(1), family)
    return ""


def wrong_crates(crates, families):
    listed, family = [], ""
    for number, cells in rows("The crates"):
        family = cells[0] or family
        wrong = wrong_row_of_crate(cells, family, families)
        if wrong:
            yield "%s:%d: %s" % (MAP, number, wrong)
        listed += re.findall(r"^\[`(\w+)`\]", cells[1] if len(cells) > 1 else "")
    folders = {path.split(os.sep)[1] for path in found("crates/*/")}
    yield from ("%s: the crate %s is missing" % (MAP, crate) for crate in crates if crate not in listed)
    yield from ("%s: %s is no crate of crates.txt, or listed twice" % (MAP, crate) for crate in listed if crate not in crates or listed.count(crate) > 1)
    yield from ("%s is in one of crates/ and crates.txt only" % crate for crate in sorted(folders ^ set(crates)))
    if sorted(listed) == sorted(crates) and listed != list(crates):
        yield "%s: the crates are not in the order of crates.txt" % MAP


# ---- what the sources have


def numbered(function, file, form):
    """The cases of a function of the rules that gives numbers, 0 left out, each written in a form of number and case."""
    cases = re.findall(r"^%s (\w+) = (\d+)$" % function, text("crates/rules/specs", file + ".antt"), re.M)
    return {form(int(number), case) for case, number in cases if number != "0"}


def commands():
    """The commands that the rules spell and those that the code chooses, as `&a#C Column`."""
    rules, code = text("crates/rules/specs/Commands.antt"), text("crates/read_command/src/lib.rt")
    without = re.findall(r"^use_of (\w+) = ignored$", rules, re.M)
    spelled = re.findall(r"^spelled (\w+) = spelling (\d+) (\d+) (\d+)\b", rules, re.M)
    spelled += [(name.capitalize(), *bytes) for name, *bytes in re.findall(r"^(\w+)_spelled = spelling (\d+) (\d+) (\d+)\b", rules, re.M)]
    for first, group, body in re.findall(r"chosen (\d+) (\d+) letter v \}\n\{(.*?)^\}", code, re.M | re.S):
        chosen = re.findall(r"b'(.)' => Command::(?:Valued\(Kind::)?(\w+)", body)
        spelled += [(name, first, group, ord(letter)) for letter, name in chosen]
    return {"%c%c%s%c %s" % (int(f), int(g), "" if name in without else "#", int(l), name) for name, f, g, l in spelled}


def texts():
    """The bytes that are text, as `32..126, 128..255 text`."""
    ranges = re.findall(r"^is_text b = (.*)$", text("crates/rules/specs/Items.antt"), re.M)
    return {", ".join("%s..%s" % pair for pair in re.findall(r"within (\d+) (\d+) b", line)) + " text" for line in ranges}


def methods():
    rules = text("crates/rules/specs/Rows.antt")
    return {"method " + number for number in re.findall(r"\beqb method (\d+)|^abbrev pub control(\d+) :", rules, re.M) for number in number if number}


def words():
    """The words of ./rovinuset: those by which tools/rovinuset.py calls a function."""
    choice = re.search(r"^COMMANDS = \{\n(.*?)^\}", text("tools/rovinuset.py"), re.M | re.S)
    return {"./rovinuset " + word for word in re.findall(r'^    "([a-z]+)": ', choice[1] if choice else "", re.M)}


def calls():
    return {name for path in found("crates/door/src/**/*.rt") for name in trace.functions_in(path) if name.startswith("rov_")}


def theorems():
    """The statements of specs/: they begin with what they are for. A type that is but another's name does not."""
    stated = re.compile(r"^abbrev pub (\w+) : Type 0\n\1 = \(", re.M)
    return {name for path in found("crates/*/specs/*.antt") for name in stated.findall(text(path))}


WANTED = {
    "command": commands,
    "code": lambda: numbered("code_byte", "Codes", lambda number, case: "%d %s" % (number, case)),
    "text": texts,
    "two-byte command": lambda: numbered("escape_byte", "Codes", lambda number, case: "ESC %c %s" % (number, case)),
    "row method": methods,
    "finding": lambda: numbered("finding_number", "Findings", lambda number, case: "finding %d %s" % (number, case)),
    "refusal": lambda: numbered("refusal_number", "Findings", lambda number, case: "refusal %d %s" % (number, case)),
    "program": lambda: {path.split(os.sep)[1] for path in found("crates/*/src/main.rt")},
    "word of ./rovinuset": words,
    "call of the library": calls,
}


# ---- where it is


def places():
    """The files that the labels of links stand for."""
    return {label: os.path.normpath(os.path.join("docs", goal)) for label, goal in re.findall(r"^\[([^\]]+)\]: (\S+)$", text(MAP), re.M)}


def lacking(entry, path):
    """What an entry names and its file has not."""
    crate, function, name = entry.partition("::")
    file, definition, names = entry.partition(": ")
    if function:
        known = trace.functions_in(path) | set(re.findall(r"^def (\w+)\(", text(path), re.M))
        return [] if name in known and (path == "tools/%s.py" % crate or path.startswith("crates/%s/src/" % crate)) else [name]
    if definition:
        known = trace.declared_in(path) if os.path.basename(path) == file + ".antt" else ()
        return [name for name in names.split(", ") if name not in known]
    return [] if entry == path else [entry]


def wrong_links(cell, labels):
    """A cell of definitions or functions: links, each to a file that has what it names."""
    left = LINK.sub("", cell).strip(" ,")
    if left or not cell:
        yield "not a link: %s" % (left or "nothing")
    for entry, label in LINK.findall(cell):
        path = labels.get(label, "")
        if not text(path):
            yield "no file for the link %s" % label
        else:
            yield from ("%s has no %s (%s)" % (path, name, entry) for name in lacking(entry, path))


def wrong_row(cells, labels, kinds):
    if len(cells) != 4:
        return ["a row has four columns, this one %d" % len(cells)]
    _, definition, function, test = cells
    wrong = [*wrong_links(definition, labels), *([] if function == "law" else wrong_links(function, labels))]
    tests = list(trace.cited(test.replace("`", "")))
    return wrong + ["no test %s" % " ".join(filter(None, pair)) for pair in tests if pair[0] not in kinds or not kinds[pair[0]](pair[1])]


def wrong_places(table):
    """Every name that the rows cite, and every label."""
    labels, kinds = places(), trace.tests()
    for number, cells in table:
        yield from ("%s:%d: %s" % (MAP, number, what) for what in wrong_row(cells, labels, kinds))
    files = {file + ".antt": path for file, path in trace.meant().items()}
    yield from ("%s: the link %s does not go to %s" % (MAP, label, files[label]) for label in labels if labels[label] != files.get(label, labels[label]))
    used = {label for _, cells in table for cell in cells for _, label in LINK.findall(cell)}
    yield from ("%s: no row uses the link %s" % (MAP, label) for label in labels if label not in used)


def wrong_rows(table):
    """What the sources have and the rows have not, and the other way round."""
    named = [re.sub(r" \(.*\)$", "", cells[0].replace("`", "")) for _, cells in table if cells[0].startswith("`")]
    wanted = {kind: sources() for kind, sources in WANTED.items()}
    for kind, names in wanted.items():
        if not names:
            yield "map.py finds no %s in the sources: it reads them wrongly" % kind
        yield from ("%s: no row for %s, a %s of the sources" % (MAP, name, kind) for name in sorted(names) if name not in named)
    known = set().union(*wanted.values())
    yield from ("%s: a row for %s, which the sources have not, or two rows" % (MAP, name) for name in named if name not in known or named.count(name) > 1)
    if not theorems():
        yield "map.py finds no theorem in the sources: it reads them wrongly"
    cited = " ".join(cells[1] for _, cells in table if len(cells) == 4)
    yield from ("%s: no row cites the theorem %s" % (MAP, name) for name in sorted(theorems()) if not re.search(r"\b%s\b" % name, cited))


def main():
    layers, arrows, wrong = picture()
    families, parts, table = lowest_first(layers), list(blocks()), list(rows("Where is .."))
    crates = {crate: deps for _, crates in parts for crate, deps in crates.items()}
    wrong += ["%s: %s" % (MAP, what) for what in wrong_order(layers, arrows)]
    wrong += [*wrong_arrows(crates, families, arrows), *wrong_blocks(families, parts), *wrong_crates(crates, families)]
    wrong += [*wrong_places(table), *wrong_rows(table)]
    if not re.search(r"^## Where to read on\n\n.*\n.*\n.*%s" % MAP, text("README.md"), re.M):
        wrong.append("README.md: the first to read is not %s" % MAP)
    counts = len(families), sum(map(len, arrows.values())), len(crates), len(table), len(wrong)
    print("\n".join(wrong + ["map: %d families, %d arrows, %d crates, %d rows, %d faults" % counts]))
    sys.exit(1 if wrong else 0)


if __name__ == "__main__":
    main()
