"""Where the findings of a job lie, and so what the marks and the table of its record must say, by the second program alone."""

import subprocess
from collections import namedtuple

UNITS_A_DOT = 24
DAMAGED_ROW = 7
# What a record holds at most, if not all of it is asked for: pictures, findings in its table, damaged rows there.
LIMITS = 40, 500, 2000
NO_LIMITS = None, None, None

# its number in the record, its page, the paper's number, the cursor's y as its item began
Finding = namedtuple("Finding", "number page kind y")


class Marked:
    """What the second program says of a job on such a page, for a record with these limits."""

    def __init__(self, second, job, width, height, limits=LIMITS):
        self.height, self.pages, self.findings, self.limits = height, 0, [], limits
        trace, marks = (
            subprocess.run([second, mode, str(width), str(height)], input=job, stdout=subprocess.PIPE, check=True).stdout.decode().splitlines()
            for mode in ("trace", "marks")
        )
        self.take(trace, iter(marks))
        self.damaged = [one for one in self.findings if one.kind == DAMAGED_ROW]
        self.shown = self.shown_pages()

    def take(self, trace, marks):
        """The trace says on which page each item is, the marks where it began."""
        for line in trace:
            word, *fields = line.split("\t")
            if word == "PAGE":
                self.pages += 1
            elif word == "ITEM" and fields[2] != "0":
                place, kind, _, y = next(marks).split("\t")
                if [place, kind] != [fields[0], fields[2]]:
                    raise ValueError("the second program's trace and marks differ")
                self.findings.append(Finding(len(self.findings) + 1, self.pages + 1, int(kind), int(y)))

    def shown_pages(self):
        """The pages that have a picture: those with damaged rows first."""
        first = {one.page for one in self.damaged}
        others = [page for page in range(1, self.pages + 1) if page not in first]
        return sorted([*sorted(first), *others][: self.limits[0]])

    def listed(self):
        """The findings in the table."""
        return sorted({*self.findings[: self.limits[1]], *self.damaged[: self.limits[2]]})

    def row(self, one):
        return min(one.y // UNITS_A_DOT, self.height)

    def marks(self):
        """For each mark, page by page and from the top on: its page, its dot row, the findings that share it."""
        groups = {}
        for one in self.damaged:
            if one.page in self.shown:
                groups.setdefault((one.page, self.row(one)), []).append(one)
        return [(page, row, group) for (page, row), group in sorted(groups.items())]

    def place(self, one):
        if one.y >= self.height * UNITS_A_DOT:
            return "below the page's foot"
        return f"dot row {self.row(one):,}, {one.y / 7200 * 25.4:.1f} mm from the top"

    def title(self, group):
        """What a mark says."""
        first, last = group[0].number, group[-1].number
        if len(group) == 1:
            return f"finding {first:,}, damaged row, {self.place(group[0])}"
        if len(group) == 2:
            said = f"findings {first:,} and {last:,}"
        else:
            some = f"{len(group):,} of the " if last - first >= len(group) else ""
            said = f"{some}findings {first:,} to {last:,}"
        return f"{said}, damaged rows, {self.place(group[0])}"

    def where(self, one):
        """What the table says, and what it leads to."""
        if one.page > self.pages:
            return "after the last page", None
        leads = f"#page-{one.page}" + (f"-row-{self.row(one)}" if one.kind == DAMAGED_ROW else "")
        return f"page {one.page}, {self.place(one)}", leads if one.page in self.shown else None
