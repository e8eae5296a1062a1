"""The paper's findings and refusals in words, and the lines in which the programs give them."""

from array import array
from bisect import bisect_right

# number: its name, one of it and more of it in a sentence, and what was done
FINDINGS = {
    1: (
        "the job ends inside a sequence, or payload is short",
        ("end inside a command", "ends inside a command"),
        "The bytes up to the end were taken, nothing was done.",
    ),
    2: (
        "a byte that can't stand there",
        ("sequence broken by a byte that can't stand there", "sequences broken by a byte that can't stand there"),
        "The bytes before it were left out. Reading went on with the byte.",
    ),
    3: ("command not carried", ("command not carried", "commands not carried"), "The command and its payload were left out."),
    4: ("value not allowed", ("value not allowed", "values not allowed"), "The command and its payload were left out."),
    5: (
        "push when full, pop when empty",
        ("push when full or pop when empty", "pushes when full or pops when empty"),
        "The command was left out.",
    ),
    6: (
        "not allowed at this moment",
        ("command not allowed at its moment", "commands not allowed at their moment"),
        "The command was left out.",
    ),
    7: ("damaged row", ("damaged row", "damaged rows"), "A blank row was drawn in its place."),
}

REFUSALS = {
    10: "page measure not allowed (width: a multiple of 8 from 8 to 4,800 dots; height: 1 to 6,800 dots)",
    11: "page buffer shorter than the page",
    12: "job longer than 1,048,576 bytes",
    13: "the handed state is not sound",
    14: "start place after the end of the job",
    15: "translation longer than the room given, or than 1,048,576 bytes",
}
# Of a job that is run afresh and parked, and of a parked text that is read: those that can come.
PARKING = {
    10: REFUSALS[10],
    12: REFUSALS[12],
    16: "sequence open: the last of these items leaves it so (some items more, or fewer, close it)",
}
UNPARKING = {
    12: "text longer than 1,048,576 bytes",
    17: "text not of the form of a parked text",
    18: "form right, but page measure not allowed or state not sound",
}
DAMAGED_ROW = 7


def counted(count, one, more, form=""):
    """A number with its noun; with the form "," its thousands are parted."""
    return f"{count:{form}} {one if count == 1 else more}"


class Lines:
    """What the program `pages` said, line by line: FAULT with its MARK, PAGE and maybe AT, END and REFUSED. A job has up to a million findings, so arrays."""

    def __init__(self, marked=True):
        self.marked = marked  # the report has no marks
        self.places, self.numbers = array("L"), bytearray()
        self.x, self.y = array("L"), array("L")  # the cursor as the finding's item began
        self.dots, self.found_before = array("L"), array("L")  # for each page: its dots, findings up to its end
        self.end = self.refused = self.strange = None  # strange: the first line of another form, or out of place
        self.place = 0  # how far in the job it is

    def take(self, line):
        word, *fields = line.rstrip("\n").split("\t")
        numbers = [int(field) for field in fields if field.isdigit()]
        marks = self.marked and len(self.x) < len(self.places)  # behind FAULT its MARK comes, and nothing else
        if marks != (word == "MARK") or not self.taken((word, len(fields), len(numbers)), numbers):
            self.strange = line.rstrip("\n") if self.strange is None else self.strange

    def taken(self, form, numbers):
        """Whether it is a line of these forms, which is then kept."""
        if form == ("FAULT", 2, 2) and numbers[1] in FINDINGS:
            self.places.append(numbers[0])
            self.numbers.append(numbers[1])
            self.place = numbers[0]
        elif form == ("MARK", 4, 4) and numbers[:2] == [self.places[-1], self.numbers[-1]]:
            self.x.append(numbers[2])
            self.y.append(numbers[3])
        elif form == ("PAGE", 2, 2) and numbers[0] == len(self.dots) + 1:
            self.dots.append(numbers[1])
            self.found_before.append(len(self.places))
        elif form == ("AT", 1, 1):
            self.place = numbers[0]
        elif form == ("END", 4, 4):
            self.end = tuple(numbers)
        elif form == ("REFUSED", 1, 1) and numbers[0] in REFUSALS:
            self.refused = numbers[0]
        else:
            return form == ("SIZE", 2, 2)
        return True

    def whole(self):
        """Whether the program came to its end, counts as many findings as it named, and marked each."""
        if self.strange is not None or (self.marked and len(self.x) < len(self.places)):
            return False
        return self.refused is not None or (self.end is not None and self.end[3] == len(self.places))

    def page_of(self, index):
        """The page that the finding is on, counted from 1; one more than there are pages if it comes after the last."""
        return bisect_right(self.found_before, index) + 1

    def on_page(self, number):
        """The findings on this page, which is counted from 1."""
        return range(self.found_before[number - 2] if number > 1 else 0, self.found_before[number - 1])

    def counts(self):
        """How many of each finding there are, for those there are."""
        return {number: self.numbers.count(number) for number in FINDINGS if number in self.numbers}

    def damaged(self):
        """Which of the findings are damaged rows."""
        return [index for index, number in enumerate(self.numbers) if number == DAMAGED_ROW]

    def status(self):
        """The exit status: 0 clean, 1 findings, 2 refused."""
        return 2 if self.refused is not None else 1 if self.places else 0


def raw(width, height, lines):
    """The lines as the program gave them, in their order."""
    yield f"SIZE\t{width}\t{height}"
    if lines.refused is not None:
        yield f"REFUSED\t{lines.refused}"
        return
    start = 0
    for number, (dots, before) in enumerate(zip(lines.dots, lines.found_before), 1):
        yield from faults(lines, start, before)
        yield f"PAGE\t{number}\t{dots}"
        start = before
    yield from faults(lines, start, len(lines.places))
    yield "END\t%d\t%d\t%d\t%d" % lines.end


def faults(lines, start, end):
    for index in range(start, end):
        said = f"{lines.places[index]}\t{lines.numbers[index]}"
        yield f"FAULT\t{said}"
        yield f"MARK\t{said}\t{lines.x[index]}\t{lines.y[index]}"


def summary(lines):
    """What the terminal says of a job: a line for each kind of finding, then the counts."""
    for number, count in lines.counts().items():
        yield f"finding {number}, {FINDINGS[number][0]}: {count}, the first at place {lines.places[lines.numbers.index(number)]}"
    yield ", ".join(
        (
            counted(len(lines.dots), "page", "pages"),
            counted(len(lines.places), "finding", "findings"),
            counted(sum(lines.dots), "dot", "dots"),
        )
    )
