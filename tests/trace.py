#!/usr/bin/env python3
"""trace.py [ROOT]: docs/TRACE.md cites only what exists, and no row is without a function and a test.

The columns behind the sentence, in each table:

Definition  entries parted by `;`: `File: name, name`, or words. File is a file of specs/ without its ending: that of the rules where they
            have one of this name, else of the theorems, else of the only crate that has one; `crate/File` is that of the crate; `types`
            are the declared types of crates/rules. A name must be declared in just that file.
Function    entries parted by `,`: `crate::name`, a function of crates/crate/src, or one of FUNCTION_WORDS.
Test        entries parted by `;`: `kind: name, name`, or one of TEST_WORDS. The kinds and what a name is:
              example   a number of the table in crates/examples      theorem   one of a crate's specs/Statements.antt
              edit      CRATE/NAME of crates/CRATE/must-fail          rule      NAME of tests/edits
              vector    a stream of a folder of tests/vectors         second    FILE::NAME, a test of second/tests
              compared  a file that ./test runs                       run       the same

Every docs/NAME.md in a row must be there. Besides, as the paper wants it, every public function must have an `ensures`.
One line for each thing that is missing, then a line with the counts; exit status 1 if one is missing or if there are fewer than
300 rows.
"""
import glob
import os
import re
import sys

ROOT = sys.argv[1] if len(sys.argv) > 1 else "."
LEAST_ROWS = 300
FIRST = ("rules", "theorems")
FUNCTION_WORDS = {"later", "law", "no rule", "all public ones"}
TEST_WORDS = {"later", "no rule", "by eye"}


def text(*parts):
    path = os.path.join(ROOT, *parts)
    if not os.path.isfile(path):
        return ""
    with open(path, encoding="utf-8") as file:
        return file.read()


def found(pattern):
    return sorted(os.path.relpath(path, ROOT) for path in glob.glob(os.path.join(ROOT, pattern), recursive=True))


def declared_in(path):
    """The names that a file of specs/ declares: signatures, records, fields, data types and their constructors."""
    words = set(re.findall(r"^\s*(?:unfoldable |abbrev |pub )*(?:record |data )?([^\s:(]+)[^\n:]*:", text(path), re.M))
    words |= {word for line in re.findall(r"^  ([^\n:=]+) :", text(path), re.M) for word in line.split()}
    return words - {"--", "pub"}


def meant():
    """The file of specs/ that each citation means, as `crate/File` or as `File`: files of one name are never taken together."""
    paths, crates = {}, {}
    for path in found("crates/*/specs/*.antt"):
        crate, file = path.split(os.sep)[1], os.path.basename(path)[:-5]
        paths["%s/%s" % (crate, file)] = path
        crates.setdefault(file, []).append(crate)
    for file, having in crates.items():
        first = [crate for crate in FIRST if crate in having] or having
        if first[0] in FIRST or len(having) == 1:
            paths[file] = paths["%s/%s" % (first[0], file)]
    return paths


def declared():
    """The names that the files of specs/ declare, by citation of the file."""
    names = {file: declared_in(path) for file, path in meant().items()}
    names["types"] = set(re.findall(r"\b(?:struct|enum) (\w+)", text("crates/rules/src/lib.rt")))
    return names


def functions_in(path):
    """The functions of a source file."""
    return set(re.findall(r'^(?:pub )?(?:extern "C" )?fn (\w+)', text(path), re.M))


def functions():
    """The functions of each crate, as crate::name."""
    return {"%s::%s" % (path.split(os.sep)[1], name) for path in found("crates/*/src/**/*.rt") for name in functions_in(path)}


def without_contract():
    """The public functions that promise nothing: no line `ensures ..` before the body."""
    for path in found("crates/*/src/**/*.rt"):
        public = None
        for line in text(path).split("\n"):
            start = re.match(r'pub (?:extern "C" )?fn (\w+)', line)
            public = start.group(1) if start else public
            if re.match(r"\s+ensures\b", line):
                public = None
            elif public and line.endswith("{"):
                yield "%s: %s has no `ensures`" % (path, public)
                public = None


def tests():
    """For each kind of test, whether there is one of a name."""
    table, whole = text("crates/examples/specs/Table.antt"), text("test").split()
    laws = "".join(text(path) for path in sorted(glob.glob("crates/*/specs/Statements.antt", root_dir=ROOT)))
    statements = re.findall(r"^(?:pub record|abbrev pub) (\w+)", laws, re.M)

    def second(name):
        file, _, test = name.partition("::")
        return re.search(r"#\[test\]\s+fn %s\(" % re.escape(test), text("second/tests", file + ".rs"))

    def edit(name):
        crate, _, label = name.partition("/")
        return text("crates", crate, "must-fail", label + ".edit")

    def run(name):
        return text(name) and name in whole

    return {
        "example": lambda name: re.search(r"^ +-- %s\. " % re.escape(name), table, re.M),
        "theorem": lambda name: name in statements,
        "edit": edit,
        "rule": lambda name: text("tests/edits", name + ".edit"),
        "vector": lambda name: found("tests/vectors/*/%s.pcl" % name) + found("tests/vectors/*/%s.pcl.xz" % name),
        "second": second,
        "compared": run,
        "run": run,
    }


def cited(cell):
    """The entries of a cell: (file or kind, name), or (None, words)."""
    for entry in cell.split(";"):
        head, colon, rest = entry.partition(":")
        if colon:
            yield from ((head.strip(), name.strip()) for name in rest.split(","))
        else:
            yield None, entry.strip()


def missing_definitions(cell, names):
    for file, name in cited(cell):
        if file is None and not name:
            yield "no definition at all"
        elif file is not None and file not in names:
            yield "no file %s" % file
        elif file is not None and name not in names[file]:
            yield "%s has no %s" % (file, name)


def missing_functions(cell, known):
    for name in (entry.strip() for entry in cell.split(",")):
        if name not in known and name not in FUNCTION_WORDS:
            yield "no function %s" % (name or "at all")


def missing_tests(cell, kinds):
    for kind, name in cited(cell):
        if kind is None and name not in TEST_WORDS:
            yield "no test %s" % (name or "at all")
        elif kind is not None and (kind not in kinds or not kinds[kind](name)):
            yield "no %s %s" % (kind, name)


def missing(cells, names, known, kinds):
    """What a row cites and is not there."""
    if len(cells) != 4:
        return ["a row has four columns, this one %d" % len(cells)]
    _, definition, function, test = cells
    lost = [*missing_definitions(definition, names), *missing_functions(function, known), *missing_tests(test, kinds)]
    return lost + ["no file " + name for name in re.findall(r"docs/\w+\.md", " ".join(cells)) if not text(name)]


def main():
    names, known, kinds = declared(), functions(), tests()
    rows = 0
    wrong = list(without_contract())
    for number, line in enumerate(text("docs/TRACE.md").split("\n"), 1):
        cells = [cell.strip() for cell in re.split(r"(?<!\\)\|", line)[1:-1]]
        if not cells or cells[0] in ("Sentence", "---"):
            continue
        rows += 1
        wrong += ["docs/TRACE.md:%d: %s" % (number, what) for what in missing(cells, names, known, kinds)]
    print("\n".join(wrong + ["trace: %d rows, %d missing" % (rows, len(wrong))]))
    sys.exit(1 if wrong or rows < LEAST_ROWS else 0)


if __name__ == "__main__":
    main()
