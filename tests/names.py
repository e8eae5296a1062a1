#!/usr/bin/env python3
"""names.py [ROOT]: every document names only what is there, docs/CONTRACTS.md has every public function, and counts are those of the sources.

The documents are README.md, docs/*.md, docs/landings/*.md, second/README.md and tests/vectors/*/README.md. The tables of docs/TRACE.md are
left to trace.py, the links of docs/MAP.md to map.py. A code span is one of these, the first that it is by its form:

function    `crate::name`: a function of crates/crate/src, or of the script rovinuset.
edit        `crate/label`: crates/crate/must-fail/label.edit or tests/edits/beside/crate/label.edit.
path        its first word has a `/` and begins with a folder of the project, or ends as a file does (ENDINGS): a file or folder of the
            project, by its whole path or by the end of it. NAME, CRATE and FILE, as in `crates/NAME/must-fail`, stand for any name. What is
            made by a command is no file of the project: target/, *.a, and what README.md has made by `-o`.
word        `./rovinuset word`: a word of the script.
definition  `File: name, name`, or File: `name`, `name` with the file outside of the span: declared in the file that trace.py means by File.
            A kind of test in the place of File is cited as in docs/TRACE.md. In (`name`, crate), (`crate`, `name`), `name` of `crate` and the
            rules' `name` it is looked up in the crate.
crate       `crate`: `name`, `name`: each a function, a type or a definition of the crate.
name        one word: a crate, a family, a function, a type, a member, a definition, a law, an edit, a number of include/rovinuset.h, or a word
            that the programs print; or one of OTHERS, which says whose it is.
other       all else: PCL, commands of the shell, values, pieces of code. Nothing is looked up.

In prose and in indented blocks every path that begins with a folder of the project is looked up likewise; so is every link, every heading
that stands in quotes behind the document it is of, and what a change to be tried replaces: in `file` write `new` for `old`.
A landing note (docs/landings, docs/PORT.md, docs/DESIGN-PASS.md) tells what a landing moved, and names in it may be gone since: of its spans only the paths and the edits are held.

docs/CONTRACTS.md: in the table of functions the row's crate has each function as a public one and sees what its promise names; every public
function has a row, and one with a `requires` is under 'functions that ask something'; every theorem has a row; each edit in brackets is one of
the row's crate (of tests/edits, for a theorem), and every edit is in some row.
docs/DECISIONS.md: each section has the date of its landing.
Edits: what each replaces stands in the file that it changes.
Counts: those in COUNTED are the sources'; the cases of ./test in README.md and docs/ASSESSMENT.md are those of the script, and those by hand
are the same in both; README.md has the numbers of findings and refusals, and the files of the rules; docs/SPEED.md has the tables of bench/run.

A line for each fault, then the counts of what was looked up; exit status 1 on any fault, or where fewer were looked up than LEAST says.
"""
import collections
import functools
import os
import re
import sys

import map as atlas  # tests/map.py
import trace  # tests/trace.py
from trace import ROOT, found, text

LEAST = {"function": 75, "edit": 200, "path": 200, "word": 12, "definition": 130, "crate": 5, "name": 850, "link": 140, "heading": 5, "row": 95,
         "asking": 25, "count": 18, "date": 12, "change": 1, "replaced": 200}
ENDINGS = ".antt .c .edit .h .html .lock .md .pbm .pcl .png .py .rs .rt .sh .toml .tsv .txt .xz".split()
ANY = ("NAME", "CRATE", "FILE")
FORMS = {"crate::name", "rovinuset::name", "file::name", "File: name"}  # what the documents call the forms of names themselves
OTHERS = {
    "C": "memcpy memset size_t uint32_t write SIZE_MAX",
    "Rust": "unsafe x86_64-unknown-linux-gnu",
    "the kit": "rt cond const write_all Env::arg bool u8 u16 u32 u64 usize",
    "PCL": "ESC L R T",
    "trace.py": "types form",
    "the table of tests/vectors/manuals": "checks",
}
OTHERS = {word for words in OTHERS.values() for word in words.split()} | trace.FUNCTION_WORDS | trace.TEST_WORDS
TRACE = "docs/TRACE.md"
SPAN = re.compile(r"`([^`\n]+)`")
SKIPPED = {"target", "out", ".git", "__pycache__"}
faults, looked = [], collections.Counter()


# ---- what there is


def files():
    """The files and folders of the project, without what is built."""
    for folder, folders, names in os.walk(ROOT):
        folders[:] = [name for name in folders if name not in SKIPPED]
        for name in folders + names:
            yield os.path.relpath(os.path.join(folder, name), ROOT)


FILES = set(files())
TOPS = {path.split(os.sep)[0] for path in FILES}
CRATES = {path.split(os.sep)[1] for path in found("crates/*/src")}
USES = {crate: deps for _, crates in atlas.blocks() for crate, deps in crates.items()}
MEANT, DECLARED = trace.meant(), trace.declared()
KINDS = trace.tests()


@functools.lru_cache(None)
def sources(crate):
    return "".join(text(path) for path in found("crates/%s/src/**/*.rt" % crate))


@functools.lru_cache(None)
def public(crate):
    """The public functions of a crate, and its types' public methods."""
    return set(re.findall(r'^(?:    )?pub (?:extern "C" )?fn (\w+)', sources(crate), re.M))


def asking(crate):
    """The public functions of a crate that ask something of their caller."""
    return set(re.findall(r'^(?:    )?pub (?:extern "C" )?fn (\w+)(?:(?!\n(?:    )?(?:\{|fn |pub )).)*?\n\s+requires\b', sources(crate), re.M | re.S))


def of_source(source):
    """The functions, types, constants, members and cases that a source of Rattle has."""
    names = set(re.findall(r"\b(?:fn|struct|enum|const|static) (\w+)", source))
    return names | set(re.findall(r"^\s+(?:pub )?(\w+): ", source, re.M)) | set(re.findall(r"^    (\w+)(?:,|\(| \{)", source, re.M))


@functools.lru_cache(None)
def of_crate(crate):
    """All that a crate declares, in its sources, its definitions and its laws."""
    stated = found("crates/%s/specs/*.antt" % crate) + found("crates/%s/proofs/*.antt" % crate)
    return of_source(sources(crate)).union(*(trace.declared_in(path) for path in stated))


def edit(crate, label):
    return "crates/%s/must-fail/%s.edit" % (crate, label) in FILES or "tests/edits/beside/%s/%s.edit" % (crate, label) in FILES


def everything():
    """What a word by itself may name."""
    names = set(CRATES) | {os.path.basename(path)[:-5] for path in FILES if path.endswith((".edit", ".antt"))}
    names |= {family for layer in atlas.picture()[0] for family in layer}
    for path in FILES:
        if path.endswith(".rt"):
            names |= of_source(text(path))
        elif path.endswith(".antt"):
            names |= trace.declared_in(path)
        elif path.endswith((".rs", ".h")):
            names |= set(re.findall(r"\b(?:fn|struct|enum|const|mod) (\w+)", text(path)) + re.findall(r"\b(?:ROV|rov)_\w+", text(path)))
    names |= {name[4:] for name in names if name.startswith("ROV_")} | {"ROV_"}
    printed = text("second/src/report.rs") + text("rovinuset") + "".join(text(path) for path in found("tools/*.py") + found("crates/*/src/main.rt"))
    return names | set(re.findall(r"\b[A-Z]{3,}\b", printed)) | set(KINDS) | TOPS


NAMES = everything()


# ---- one span


def is_function(span):
    crate, name = span.split("::")
    tool = "tools/%s.py" % crate
    if tool in FILES and re.search(r"^def %s\(" % name, text(tool), re.M):
        return True
    return crate in CRATES and re.search(r"\bfn %s\b" % name, sources(crate))


def made(path):
    """Whether a command makes it: it is no file of the project."""
    outputs = re.findall(r" -o (\S+)$", text("README.md"), re.M)
    return path.split("/")[0] in {"target", *outputs} or "/target/" in path or path.endswith(".a")


def is_path(path, document):
    """Whether there is a file or folder of this path, or that ends so; the words of ANY stand for any name."""
    path = os.path.normpath(path)
    here = os.path.normpath(os.path.join(os.path.dirname(document), path))
    pattern = re.compile(r"\b(?:%s)\b" % "|".join(ANY)).sub("[^/]+", re.escape(path)) + r"\Z"
    if path in FILES or here in FILES:
        return True
    start = path.split("/")[0] in TOPS
    return any(re.match(pattern, file) or (not start and re.search("/" + pattern, file)) for file in FILES)


def looks_like_path(word):
    if word.startswith((".", "/", "-")) and not word.startswith("./"):
        return False
    return bool(re.fullmatch(r"[\w./-]+", word)) and ("/" in word and word.split("/")[0] in TOPS | {"src", "specs", "proofs", "expect"}
                                                      or os.path.splitext(word)[1] in ENDINGS)


def wrong_citation(head, names):
    """`File: names` or `kind: names`."""
    if head in KINDS:
        return ["no %s %s" % (head, name) for name in names if not KINDS[head](name) and name not in ("n", "name", "file::name", "crate/name")]
    if head not in DECLARED:
        return ["no one file of definitions is meant by %s" % head] if re.fullmatch(r"(\w+/)?[A-Z]\w+", head) else []
    return ["%s has no %s" % (MEANT.get(head, head), name) for name in names if name not in DECLARED[head]]


def kind_of(span):
    """What a code span is by its form."""
    first = span.split()[0]
    if span in FORMS or span in OTHERS:
        return "other"
    if re.fullmatch(r"\w+::\w+", span):
        return "function"
    if re.fullmatch(r"\w+/\w+", span) and span.split("/")[0] in CRATES and span not in FILES:
        return "edit"
    if re.fullmatch(r"\./rovinuset [a-z]+.*", span):
        return "word"
    if re.fullmatch(r"(\w+/)?\w+: [\w, :/.-]+", span):
        return "definition"
    if looks_like_path(first) and not made(first):
        return "path"
    return "name" if re.fullmatch(r"[A-Za-z_][\w-]*", span) else "other"


def wrong_span(span, document):
    """The kind of a span, and what is wrong with it."""
    kind = kind_of(span)
    if kind == "function" and not is_function(span):
        return kind, ["no function %s" % span]
    if kind == "edit" and not edit(*span.split("/")):
        return kind, ["no edit %s" % span]
    if kind == "path" and not is_path(span.split()[0], document):
        return kind, ["no file or folder %s" % span.split()[0]]
    if kind == "word" and "./rovinuset " + span.split()[1] not in atlas.words():
        return kind, ["no word of the script: %s" % span]
    if kind == "definition":
        head, _, names = span.partition(": ")
        wrong = [] if span in FORMS else wrong_citation(head, names.split(", "))
        return (kind if head in DECLARED or head in KINDS or wrong else "other"), wrong
    if kind == "name" and span not in NAMES:
        return kind, ["nothing is called %s" % span]
    return kind, []


# ---- one document

SPANS = r"(`[^`\n]+`(?:(?:, | and )`[^`\n]+`)*)"


def pairs(line):
    """The names of a paragraph that say where they are: kind, place, names."""
    for head, spans in re.findall(r"(?<![\w`/])((?:\w+/)?[A-Z]\w+): " + SPANS, line):
        if head in DECLARED or re.search(r"(?:\(|; )%s: `" % re.escape(head), line):
            yield "definition", head, SPAN.findall(spans)
    for name, head in re.findall(r"`([\w-]+)` in ([A-Z]\w+)\.antt", line):
        yield "definition", head, [name]
    for name in re.findall(r"rules' `([\w-]+)`", line):
        yield "within", "rules", [name]
    for name, crate in re.findall(r"`([\w-]+)` of `(\w+)`", line):
        if crate in CRATES and name not in CRATES:
            yield "within", crate, [name]
    for crate, spans in re.findall(r"`(\w+)`: " + SPANS, line):
        if crate in CRATES:
            yield "crate", crate, SPAN.findall(spans)
    for name, crate in re.findall(r"\(`([\w-]+)`, ([a-z_]+)\)", line):
        yield "within", crate, [name]
    for first, second in re.findall(r"\(`([\w-]+)`, `([\w-]+)`\)", line):
        if (first in CRATES) != (second in CRATES):
            yield "within", first if first in CRATES else second, [second if first in CRATES else first]


def wrong_pairs(line):
    for kind, place, spans in pairs(line):
        names = [name for name in spans if re.fullmatch(r"[\w′-]+", name)]
        looked["definition" if kind == "within" else kind] += len(names)
        if kind == "definition":
            yield from wrong_citation(place, names)
        elif place not in CRATES:
            yield "no crate %s, which is to have %s" % (place, names[0])
        else:
            yield from ("crates/%s has no %s" % (place, name) for name in names if name not in of_crate(place))


def in_words(line, document):
    """The paths that stand in words or in a block, the links, and the headings that are quoted."""
    for path in re.findall(r"(?<![\w/.`-])((?:crates|docs|tests|bench|tools|examples|include|second)/[\w./*-]*\w)", SPAN.sub(" ", line)):
        looked["path"] += 1
        if not made(path) and not is_path(path, document):
            yield "no file or folder %s" % path
    for goal in re.findall(r"\]\(([^)#:]+)\)|^\[[^\]]+\]: (\S+)|src=\"([^\"]+)\"", line):
        looked["link"] += 1
        if os.path.normpath(os.path.join(os.path.dirname(document), "".join(goal))) not in FILES:
            yield "the link %s goes nowhere" % "".join(goal)
    for name, heading in re.findall(r"(?:docs/)?\b([A-Z]{4,})(?:\.md)?`?, ['\"]([^'\"]+)['\"]", line):
        looked["heading"] += 1
        paper = "README.md" if name == "README" else "docs/%s.md" % name
        if not re.search(r"^#+ .*%s" % re.escape(heading), text(paper), re.M):
            yield "%s has no heading '%s'" % (paper, heading)


def paragraphs(path):
    """The paragraphs, entries and rows of a document, each as one line, with the number of its first."""
    part, start = "", 0
    for number, line in enumerate([*text(path).split("\n"), ""], 1):
        if not line.strip() or line.startswith(("|", "#", "- ", "    ")) or re.match(r"\d+\. ", line):
            if part:
                yield start, part
            part, start = ("" if line.startswith("    ") else line), number
        else:
            part, start = (part + " " + line.strip() if part else line), start if part else number
    if part:
        yield start, part


def document(path):
    """The names of a document that are not there."""
    past = path.startswith("docs/landings/") or path in ("docs/PORT.md", "docs/DESIGN-PASS.md")
    for number, line in enumerate(text(path).split("\n"), 1):
        if path == TRACE and line.startswith("|"):
            continue
        line = atlas.LINK.sub("", line) if path == atlas.MAP else line
        wrong = list(in_words(line, path))
        for span in [] if line.startswith("    ") else SPAN.findall(line):
            kind, what = wrong_span(span, path)
            if not past or kind in ("path", "edit"):
                looked[kind] += 1
                wrong += what
        faults.extend("%s:%d: %s" % (path, number, what) for what in wrong)
    for number, part in [] if past or path in (TRACE, atlas.MAP) else paragraphs(path):
        tried = re.findall(r"in `([^`]+)` write `[^`]+` for `([^`]+)`", part)
        looked["change"] += len(tried)
        lost = ["%s has no %s" % (file, old) for file, old in tried if old not in text(file)]
        faults.extend("%s:%d: %s" % (path, number, what) for what in [*wrong_pairs(part), *lost])


# ---- docs/CONTRACTS.md

CONTRACTS = "docs/CONTRACTS.md"


def under(path, heading):
    """The text under a heading, up to the next of its rank or a higher one."""
    rank = heading.split()[0]
    part = text(path).partition(heading + "\n")[2]
    return re.split(r"^#{1,%d} " % len(rank), part, flags=re.M)[0]


def table(part):
    """The rows of a table but for its head."""
    rows = [[cell.strip() for cell in re.split(r"(?<!\\)\|", line)[1:-1]] for line in part.split("\n") if line.startswith("|")]
    return [cells for cells in rows[1:] if set("".join(cells)) - set("-")]


def bracketed(cell):
    """The spans of a cell that stand in brackets, with nothing before them there: edits."""
    for inside in re.findall(r"\(([^()]*)\)", cell):
        if inside.startswith("`"):
            yield from SPAN.findall(inside.split(":")[0])


@functools.lru_cache(None)
def seen_from(crate):
    """All that is declared in a crate and in those that it uses, however far below."""
    return of_crate(crate).union(*(seen_from(dep) for dep in USES.get(crate, ()) if dep in CRATES))


def wrong_functions(rows):
    """The table of functions: what its rows name, and what no row names."""
    listed, edits = {}, set()
    for cells in rows:
        if len(cells) != 4 or cells[0].strip("`") not in CRATES:
            yield "a row has a crate, functions, a promise and wrong versions: %s" % " ".join(cells)[:60]
            continue
        crate, names = cells[0].strip("`"), SPAN.findall(cells[1])
        looked["row"] += 1
        listed.setdefault(crate, []).extend(names)
        yield from ("%s has no public function %s" % (crate, name) for name in names if name not in public(crate))
        promised = {name for name in SPAN.findall(cells[2]) if kind_of(name) == "name"} - CRATES
        yield from ("%s sees nothing called %s" % (crate, name) for name in sorted(promised - seen_from(crate)))
        for label in bracketed(cells[3]):
            looked["edit"] += 1
            pair = label.split("/") if "/" in label else [crate, label]
            edits.add(tuple(pair))
            if not edit(*pair):
                yield "%s: no edit %s" % (crate, label)
    for crate in sorted(CRATES):
        yield from ("no row for the public function %s::%s" % (crate, name) for name in sorted(public(crate) - set(listed.get(crate, ()))))
        yield from ("two rows for %s::%s" % (crate, name) for name in set(listed.get(crate, ())) if listed[crate].count(name) > 1)
    for path in sorted(found("crates/*/must-fail/*.edit") + found("tests/edits/beside/*/*.edit")):
        pair = path.split(os.sep)[-3 if "must-fail" in path else -2], os.path.basename(path)[:-5]
        if pair not in edits:
            yield "no row names the edit %s" % "/".join(pair)


def wrong_theorems(rows):
    named, edits = set(), set()
    for cells in rows:
        looked["row"] += 1
        named |= set(SPAN.findall(cells[0]))
        for label in bracketed(cells[-1]):
            looked["edit"] += 1
            edits.add(label)
            crate, slash, name = label.partition("/")
            if not (edit(crate, name) if slash else "tests/edits/%s.edit" % label in FILES):
                yield "no wrong rule %s" % label
    yield from ("no row for the theorem %s" % name for name in sorted(atlas.theorems() - named))
    rules = {os.path.basename(path)[:-5] for path in found("tests/edits/*.edit")}
    yield from ("no row names the wrong rule %s" % name for name in sorted(rules - edits))


def wrong_contracts():
    yield from wrong_theorems(table(under(CONTRACTS, "## Theorems on the rules")))
    yield from wrong_functions(table(under(CONTRACTS, "## Functions").partition("\n### ")[0]))
    yield from wrong_asking(under(CONTRACTS, "### Exceptions: functions that ask something"))


def wrong_asking(part):
    """The functions that ask something, `crate::name` or `crate` before a colon, and those that are said to ask nothing at all."""
    told = {name for spans in re.findall(SPANS + ":", part) for name in SPAN.findall(spans)}
    free = {name for sentence in re.findall(r"([^.]*) ask nothing at all\.", part) for name in SPAN.findall(sentence)}
    there = {crate: asking(crate) for crate in CRATES}
    asked = {crate for crate in there if there[crate]} | {"%s::%s" % (crate, name) for crate in there for name in there[crate]}
    for crate in sorted(CRATES):
        looked["asking"] += len(there[crate])
        yield from ("%s::%s asks something and is not among the exceptions" % (crate, name) for name in sorted(there[crate])
                    if crate not in told and "%s::%s" % (crate, name) not in told)
    yield from ("%s is among those that ask something and asks nothing" % name for name in sorted(told - asked))
    yield from ("%s is said to ask nothing, and asks" % name for name in sorted(free & asked))
    if not free:
        yield "names.py finds none that asks nothing at all: it reads the document wrongly"


# ---- counts and dates


def count(pattern):
    return len([path for path in FILES if re.fullmatch(pattern, path)])


COUNTED = [  # what the documents say, and how many there are
    (r"\b(\d+) (?:real streams|streams made by|streams of programs|of the corpus' streams)", lambda: count(r"tests/vectors/corpus/[^/]*\.pcl(\.xz)?")),
    (r"corpus has (\d+) streams", lambda: count(r"tests/vectors/corpus/[^/]*\.pcl(\.xz)?")),
    (r"\b(\d+) (?:worked examples|streams taken from)", lambda: count(r"tests/vectors/manuals/[^/]*\.pcl")),
    (r"paper's examples 1 to (\d+)", lambda: len(re.findall(r"^ +-- \d+\. ", text("crates/examples/specs/Table.antt"), re.M))),
    (r"\b(\w+) calls\b(?: \(|:)", lambda: len(atlas.calls())),
    (r"library of (\w+) functions", lambda: len(atlas.calls())),
    (r"on (\w+) page measures", lambda: len(re.findall(r'"[\d ]+"', re.search(r"^MEASURES = .*$", text("tests/pages.py"), re.M).group()))),
]
WORDS = "no one two three four five six seven eight nine ten eleven twelve".split()


def wrong_counts(path):
    for pattern, there in COUNTED:
        for said in re.findall(pattern, text(path)):
            looked["count"] += 1
            number = int(said) if said.isdigit() else WORDS.index(said) if said in WORDS else None
            if number is not None and number != there():
                yield "%s says %s where there are %d: %s" % (path, said, there(), pattern)


def plain_number(words):
    """The number that words begin with; a million is one."""
    words = words.replace("a million", "1000000").replace(",", "")
    return re.match(r"(\d+)", words).group(1) if re.match(r"\d+", words) else None


def wrong_cases():
    """The cases that ./test runs and those by hand, as README.md and docs/ASSESSMENT.md say them."""
    script = dict(re.findall(r"(tests/\w+\.sh) (\d+)$", text("test"), re.M))
    readme = {name: (by_hand, tested.replace(",", "")) for name, by_hand, tested in
              re.findall(r"^    (tests/\w+\.sh) (\d+)\b.*\(`\./test`: ([\d,]+)\)$", text("README.md"), re.M)}
    assessed = {cells[0].strip("`"): (plain_number(cells[3]), plain_number(cells[2])) for cells in table(under("docs/ASSESSMENT.md", "## What is tested"))}
    for name, tested in sorted(script.items()):
        looked["count"] += 1
        for paper, said in (("README.md", readme.get(name)), ("docs/ASSESSMENT.md", assessed.get(name))):
            if not said or said[1] != tested:
                yield "%s does not say that ./test runs %s of %s" % (paper, tested, name)
        if readme.get(name) != assessed.get(name):
            yield "README.md and docs/ASSESSMENT.md say different counts of %s" % name
    if not script:
        yield "names.py finds no count in the script test: it reads it wrongly"


def wrong_lists():
    """README.md: the numbers and the files of the rules. docs/SPEED.md: the tables that are printed. docs/DECISIONS.md: the dates."""
    numbers = {number for cells in table(under("README.md", "## What the numbers mean")) for number in (cells[0], cells[2]) if number}
    there = {str(int(number)) for number in re.findall(r"^(?:finding|refusal)_number \w+ = (\d+)$", text("crates/rules/specs/Findings.antt"), re.M)} - {"0"}
    if numbers != there:
        yield "README.md: the numbers %s are in one of its table and Findings.antt only" % " ".join(sorted(numbers ^ there))
    listed = re.search(r"^\| believe the rules \| `crates/rules/specs`: ([\w, ]+) \|$", text("README.md"), re.M)
    names = {os.path.basename(path)[:-5] for path in found("crates/rules/specs/*.antt")} - {"Lib"}
    if not listed or set(listed.group(1).split(", ")) != names:
        yield "README.md: the files of the rules are not those of crates/rules/specs"
    printed = re.findall(r'^ *table "([^"]+)"', text("bench/run"), re.M)
    if not printed or [heading for heading in re.findall(r"^## (.*)$", text("docs/SPEED.md"), re.M) if heading in printed] != printed:
        yield "docs/SPEED.md has not the tables of bench/run under their headings, in its order"
    for heading in re.findall(r"^## (.*)$", text("docs/DECISIONS.md"), re.M):
        looked["date"] += 1
        if not re.search(r" \(landings? of \d{4}-\d\d-\d\d(?: and \d{4}-\d\d-\d\d)?\)$", heading):
            yield "docs/DECISIONS.md: no date in '%s'" % heading


def wrong_edits():
    """Edits whose old text does not stand once in the file that they change: rt sees it too, but behind all proofs."""
    for path in found("crates/*/must-fail/*.edit") + found("tests/edits/beside/*/*.edit"):
        crate = path.split(os.sep)[-3 if "must-fail" in path else -2]
        lines = [line.partition(": ") for line in text(path).split("\n")]
        for key, _, old in lines:
            if key == "file":
                changed = text("crates", crate, old)
            elif key == "old":
                looked["replaced"] += 1
                if changed.count(old) != 1:
                    yield "%s: what it replaces stands there %d times: %s" % (path, changed.count(old), old)


def main():
    papers = ["README.md", "second/README.md", *found("docs/*.md"), *found("docs/landings/*.md"), *found("tests/vectors/*/README.md")]
    for path in papers:
        document(path)
        faults.extend(wrong_counts(path))
    faults.extend(CONTRACTS + ": " + what for what in wrong_contracts())
    faults.extend([*wrong_cases(), *wrong_lists(), *wrong_edits()])
    faults.extend("only %d of the kind %s are recognised, and not %d: names.py reads the documents wrongly" % (looked[kind], kind, least)
                  for kind, least in LEAST.items() if looked[kind] < least)
    said = ", ".join("%s %d" % pair for pair in sorted(looked.items()))
    print("\n".join(faults + ["names: %d documents; %s; %d faults" % (len(papers), said, len(faults))]))
    sys.exit(1 if faults else 0)


if __name__ == "__main__":
    main()
