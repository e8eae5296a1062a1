"""Cases of parked texts, for runcases.py: K, a state is written, and U, a text is read.

The form of the lines is in second/README.md, mode `cases`. A text that is to be read is made from a state that is sound, by a writer of
its own, and then mostly damaged in one place.
"""

MOST_HMI, MOST_VMI, STACK = 1966020, 50400, 20
ENOUGH = 2000  # bytes of a room that every text fits in
MOST = 9999999999  # of ten digits
# The fields of the line JOB.
W, H, X, Y, LEFT, RIGHT, TOP, HMI, VMI, TERMINATION, RESOLUTION, METHOD, STARTED, MARGIN, USED, DEPTH = range(16)
LENGTHS = (X, Y, LEFT, RIGHT, TOP, HMI, VMI, MARGIN)


class Text:
    """A text by its parts, each to be damaged."""

    def __init__(self, wide, high, state):
        """The state's members are in the order of runcases.py. What no text has, seed bytes behind the row and so on, is left out."""
        stack, seed = state[15:]
        self.wide, self.high = wide, high
        self.word = "JOB"
        self.fields = [str(number) for number in (wide, high, *state[:14])]
        self.positions = [["POS", str(x), str(y)] for x, y in stack[:state[13]]]
        self.row = ["ROW", seed[:wide // 8].ljust(wide // 8, b"\0").hex().upper()]

    def __bytes__(self):
        lines = [[self.word, *self.fields], *self.positions, self.row]
        return "".join("\t".join(line) + "\n" for line in lines).encode("latin-1")

    def set(self, field, value):
        self.fields[field] = str(value)

    def put_positions(self, positions):
        """These positions, and a depth that says as many."""
        self.positions = [["POS", str(x), str(y)] for x, y in positions]
        self.set(DEPTH, len(self.positions))


class Parking:
    """One case at a call; numbers, pages and states are those of `runs`, a Runs of runcases.py."""

    def __init__(self, runs):
        self.runs = runs
        self.below, self.between, self.one_of, self.share = runs.below, runs.between, runs.one_of, runs.share

    # ---- pages and states

    def measure(self):
        """Mostly small, so that lines stay short; no page is lent, so the largest cost nothing."""
        share = self.share()
        if share < 0.93:
            wide, high = self.runs.measure()
            return (wide, high) if wide <= 320 or self.share() < 0.2 else (8 * self.between(1, 12), high)
        if share < 0.98:
            return 8 * self.between(1, 30), self.between(1, 6800)
        largest = ((4800, 6800), (4800, 1), (8, 6800), (4792, 6799), (8 * self.between(1, 600), self.between(1, 6800)))
        return self.one_of(largest)

    def sound(self, wide, high):
        """A sound state with no sequence open."""
        if self.share() < 0.05:
            return self.runs.afresh(wide, high)
        state = self.runs.sound_state(wide, high)
        state[14] = None
        return state

    def open_sequence(self):
        return self.one_of(((38, 97), (42, 98), (38, 102), (33, 96), (47, 126), (self.between(33, 47), self.between(96, 126))))

    def unsound(self, wide, high):
        """Unsound in one member, in some in two; now and then with a sequence open besides."""
        state = self.sound(wide, high)
        if self.share() < 0.15:
            state[14] = self.open_sequence()
        self.runs.spoil(state, wide, high)
        if self.share() < 0.15:
            self.runs.spoil(state, wide, high)
        return state

    # ---- K

    def room(self, length):
        """A room for a text of this length: mostly enough."""
        share = self.share()
        if share < 0.45:
            return ENOUGH
        if share < 0.65:
            return length
        if share < 0.75:
            return length + self.between(1, 40)
        if share < 0.87:
            return length - 1
        return 0 if share < 0.9 else self.below(ENOUGH)

    def state(self, wide, high):
        share = self.share()
        if share < 0.7:
            return self.sound(wide, high)
        if share < 0.88:
            return self.unsound(wide, high)
        state = self.sound(wide, high)
        state[14] = self.open_sequence()
        return state

    def case_k(self):
        wide, high = self.measure()
        if self.share() < 0.06:
            state, handed = self.runs.afresh(wide, high), "-"
        else:
            state = self.state(wide, high)
            handed = self.runs.state_text(state)
        room = self.room(len(bytes(Text(wide, high, state))))
        if self.share() < 0.08:
            wide, high = self.runs.wrong_measure(wide, high)
        return f"K {wide} {high} {room} {self.runs.fill()} {handed}"

    # ---- U: texts of the form

    def text(self):
        wide, high = self.measure()
        return Text(wide, high, self.sound(wide, high))

    def stacked(self):
        """A text that has positions."""
        text = self.text()
        lw, lh = 24 * text.wide, 24 * text.high
        if not text.positions:
            text.put_positions([(self.below(lw + 1), self.below(lh + 1)) for _ in range(self.one_of((1, 1, 2, 3, 20)))])
        return text

    def good(self):
        """At its bounds, or anywhere within."""
        if self.share() < 0.7:
            return self.text()
        text = self.text()
        lw, lh = 24 * text.wide, 24 * text.high
        for field, most in ((X, lw), (Y, lh), (TOP, lh), (MARGIN, lw), (HMI, MOST_HMI), (VMI, MOST_VMI), (TERMINATION, 3), (METHOD, 3)):
            if self.share() < 0.6:
                text.set(field, self.one_of((0, most)))
        if self.share() < 0.5:
            text.set(LEFT, lw - 1)
            text.set(RIGHT, lw)
        if self.share() < 0.3:
            text.put_positions([(lw, lh)] * STACK)
        return text

    # ---- U: texts not of the form

    def place(self):
        """A text and a place in it, often in the line JOB: rows are long, and most damage would fall there."""
        text = bytes(self.stacked() if self.share() < 0.5 else self.text())
        first = text.index(b"\n") + 1
        return text, self.below(first) if self.share() < 0.5 else self.below(len(text))

    def byte_changed(self):
        text, at = self.place()
        byte = self.one_of((b"\t", b"\n", b"0", b"1", b"9", b"F", b"f", b" ", b"\r", b"+", b"-", b"/", b":", b"\0", self.runs.bytes(1)))
        return text[:at] + byte + text[at + 1:]

    def byte_out(self):
        text, at = self.place()
        return text[:at] + text[at + 1:]

    def byte_doubled(self):
        text, at = self.place()
        return text[:at + 1] + text[at:]

    def byte_in(self):
        text, at = self.place()
        return text[:at] + self.one_of((b"\t", b"\n", b"0", b"5", b"9", b"A", b" ", b"\0", self.runs.bytes(1))) + text[at:]

    def word(self):
        text = self.text()
        text.word = self.one_of(("JOC", "job", "JOB2", "JOB3", "J", "JO", "JOBS", "Job", "", " JOB", "JOB ", "\tJOB", "POS", "ROW"))
        return text

    def tab(self):
        """A tab that is something else, or two."""
        text = bytes(self.stacked() if self.share() < 0.5 else self.text())
        at = self.one_of([at for at in range(len(text)) if text[at:at + 1] == b"\t"])
        return text[:at] + self.one_of((b" ", b"\t\t", b"", b",", b"\t ", b" \t", b"\x0b", b"\n")) + text[at + 1:]

    def line_end(self):
        """An LF that is something else, or more."""
        text = bytes(self.stacked() if self.share() < 0.5 else self.text())
        at = self.one_of([at for at in range(len(text)) if text[at:at + 1] == b"\n"])
        return text[:at] + self.one_of((b"\t\n", b" \n", b"\r\n", b"\r", b"", b"\n\n", b"\0", b"\t")) + text[at + 1:]

    def returns(self):
        return bytes(self.text()).replace(b"\n", b"\r\n")

    def field(self):
        """A field that is no decimal of 1 to 10 digits."""
        text = self.text()
        at = self.below(16)
        value = text.fields[at]
        text.set(at, self.one_of((
            "0" + value, "00", "00" + value, value.rjust(11, "0"), "", "+" + value, "-" + value, "-0", " " + value, value + " ",
            value + "A", value + ".0", value + "\0", "A", "x", "\xb2", value.rjust(11, "1"), value.ljust(11, "0"), "10000000000",
            "42949672960", "99999999999", "18446744073709551616", "18446744073709551617", "1" * self.between(11, 60))))
        return text

    def ten_digits(self):
        """A zero in front of a good value, so that it has ten digits."""
        text = self.text()
        at = self.below(16)
        text.set(at, text.fields[at].rjust(10, "0"))
        return text

    def flag(self):
        text = self.text()
        text.set(self.one_of((STARTED, USED)),
                 self.one_of(("2", "01", "10", "11", "00", "", "3", "9", "256", "257", "4294967296", "4294967297", "T", "-1")))
        return text

    def fewer_fields(self):
        text = self.text()
        del text.fields[self.below(16)]
        return text

    def more_fields(self):
        text = self.text()
        text.fields.insert(self.between(0, 16), self.one_of(("0", "1", "8", "", text.fields[self.below(16)])))
        return text

    def depth(self):
        """A depth that is not the number of the lines."""
        text = self.stacked() if self.share() < 0.7 else self.text()
        lines = len(text.positions)
        others = (lines + 1, lines + 1, max(0, lines - 1), 0, STACK, STACK + 1, 255, 256 + lines, 65536 + lines, 2**32 - 1,
                  2**32 + lines, MOST)
        text.set(DEPTH, self.one_of([depth for depth in others if depth != lines]))
        return text

    def lines(self):
        """A line POS that is missing, there twice, or in another's place."""
        text = self.stacked()
        share, at = self.share(), self.below(len(text.positions))
        if share < 0.4:
            del text.positions[at]
        elif share < 0.8:
            text.positions.insert(at, text.positions[at])
        else:
            text.positions[at] = [self.one_of(("JOB", "ROW", "")), *text.positions[at][1:]]
        return text

    def position_word(self):
        text = self.stacked()
        line = self.one_of(text.positions)
        line[0] = self.one_of(("pos", "POZ", "PO", "POSS", "P", "", "Pos", " POS", "POS ", "ROW", "POS\t"))
        return text

    def position_numbers(self):
        """One number, three, or one that is no decimal."""
        text = self.stacked()
        line = self.one_of(text.positions)
        at = self.one_of((1, 2))
        share = self.share()
        if share < 0.25:
            del line[at]
        elif share < 0.5:
            line.insert(at, self.one_of(("0", "1", "")))
        else:
            line[at] = self.one_of(("", "0" + line[at], "00", "+1", "-1", "1.5", "12345678901", "00000000000", "A", line[at] + " "))
        return text

    def positions_last(self):
        """The row before the last position, or before all."""
        text = self.stacked()
        whole = bytes(text).splitlines(keepends=True)
        at = self.one_of((1, len(whole) - 2))
        return b"".join([*whole[:at], whole[-1], *whole[at:-1]])

    def row(self):
        """Pairs too few or too many, or digits that are none."""
        text = self.text()
        pairs = text.row[1]
        at = self.below(len(pairs))
        text.row[1] = self.one_of((
            pairs[2:], pairs + "00", pairs + "FF", pairs[1:], pairs + "0", "", pairs[:at] + self.one_of("abcdef") + pairs[at + 1:],
            pairs[:at] + self.one_of(("G", "g", " ", "\t", "@", "/", ":", "`", "\xff", "x")) + pairs[at + 1:], " " + pairs, pairs + " ",
            pairs + "\t", pairs + "\r", "\t" + pairs, pairs * 2, pairs[:-1] + "\n" + pairs[-1:]))
        return text

    def small_row(self):
        """All digits small; where the row has no letter, one is put there."""
        text = self.text()
        text.row[1] = "a" + text.row[1][1:].lower()
        return text

    def row_word(self):
        text = self.text()
        pairs = text.row[1]
        text.row = self.one_of((["ROW" + pairs], ["ROW " + pairs], ["row", pairs], ["ROWS", pairs], ["RO", pairs], ["POS", pairs],
                                ["", pairs], [pairs], ["ROW"], ["ROW", pairs, ""]))
        return text

    def last_end(self):
        return bytes(self.text())[:-1]

    def behind(self):
        """Something behind the last line."""
        text = bytes(self.text())
        last = text[text.rindex(b"ROW"):]
        return text + self.one_of((b"\n", b"\0", b" ", b"\t", b"J", b"0", b"\r\n", b"\x1a", last, b"POS\t0\t0\n", b"END\n",
                                   self.runs.bytes(self.between(1, 9))))

    def two(self):
        return bytes(self.text()) + bytes(self.text())

    def cut(self):
        text = bytes(self.stacked() if self.share() < 0.5 else self.text())
        first = text.index(b"\n") + 1
        return text[:self.one_of((self.below(first), self.below(len(text)), first, len(text) - 1))]

    def junk(self):
        """Nothing, a word alone, any bytes."""
        return self.one_of((b"", b"\n", b"JOB", b"JOB\t", b"JOB\n", b"ROW\t\n", b"\0" * 9, self.runs.bytes(self.between(1, 40))))

    def in_front(self):
        return self.one_of((b"\n", b" ", b"\t", b"\0", b"\xef\xbb\xbf", b"J")) + bytes(self.text())

    def unsound_and_wrong(self):
        """Not sound, and behind that not of the form: 17 comes first."""
        text = bytes(self.one_of(self.UNSOUND)(self))
        return self.one_of((text[:-1], text + b"\n", text[:-1] + b" \n", text[:-1] + b"0\n", text[:-1] + b"A0\n"))

    def wide_and_short(self):
        """A great W with a row that has not as many pairs."""
        text = self.text()
        text.set(W, self.one_of((MOST, 2**32 + text.wide, 4808, 65536 + text.wide, 2**32 - 1, text.wide + 8)))
        return text

    def narrow_and_long(self):
        """A W below 8 with a row that has a pair, or no tab."""
        text = self.text()
        text.set(W, self.below(8))
        text.row = self.one_of((["ROW", "00"], ["ROW"], text.row, ["ROW", "0"], ["ROW", " "]))
        return text

    # ---- U: texts of the form that are not allowed or not sound

    def number_beyond(self):
        """A number that is too great for 32 bits, or would be good if it were cut."""
        text = self.text()
        at = self.one_of(LENGTHS)
        good = int(text.fields[at])
        text.set(at, self.one_of((2**32 - 1, 2**32, 2**32 + good, 2**32 + good, 2 * 2**32 + good, MOST)))
        return text

    def height(self):
        text = self.text()
        text.set(H, self.one_of((0, 0, 6801, 6801, 6802, 65536 + text.high, 2**32, 2**32 + text.high, MOST, self.between(6801, 99999))))
        return text

    def width(self):
        """A W that is not allowed, with as many pairs as W/8 is."""
        text = self.text()
        wide = self.one_of((0, 1, 4, 7, 9, 12, 15, text.wide + self.between(1, 7), text.wide + self.between(1, 7), text.wide + 4))
        if self.share() < 0.08:
            wide = self.one_of((4801, 4807, 4808, 4808, 4816, 65536 + text.wide))
        text.set(W, wide)
        text.row[1] = self.runs.bytes(wide // 8).hex().upper()
        return text

    def length(self):
        """Next to its bound, or past it by more."""
        text = self.text()
        lw, lh = 24 * text.wide, 24 * text.high
        at, most = self.one_of(((X, lw), (Y, lh), (RIGHT, lw), (TOP, lh), (HMI, MOST_HMI), (VMI, MOST_VMI), (MARGIN, lw)))
        text.set(at, self.one_of((most + 1, most + 1, most + 2, self.runs.beyond(most), most + 1 + self.below(10000))))
        return text

    def margins(self):
        """L not below R."""
        text = self.text()
        lw = 24 * text.wide
        left = self.between(0, lw)
        left, right = self.one_of(((left, left), (left, max(0, left - 1)), (lw, lw), (0, 0), (lw + 1, lw + 2), (left, lw + 1),
                                   (MOST, MOST)))
        text.set(LEFT, left)
        text.set(RIGHT, right)
        return text

    def small_numbers(self):
        """Termination, resolution, method: past their bound, or good if they were cut to their size."""
        text = self.text()
        at = self.one_of((TERMINATION, RESOLUTION, METHOD))
        good = int(text.fields[at])
        if at == RESOLUTION:
            values = (0, 1, 74, 76, 76, 99, 101, 149, 151, 200, 299, 301, 600, 65536 + good, 65536 + 75, 2**32 + good, 256 + good, MOST)
        else:
            values = (4, 4, 4, 5, 255, 256, 256 + good, 259, 65536 + good, 2**32 + good, MOST)
        text.set(at, self.one_of(values))
        return text

    def deep(self):
        """More positions than there are places, and a depth that says so."""
        text = self.text()
        lines = self.one_of((STACK + 1, STACK + 1, STACK + 1, STACK + 2, 40, 256 + self.below(3)))
        text.put_positions([(self.below(24 * text.wide + 1), self.below(24 * text.high + 1)) for _ in range(lines)])
        return text

    def position_beyond(self):
        """A stacked position that is off the page or beyond 32 bits."""
        text = self.stacked()
        line = self.one_of(text.positions) if self.share() < 0.6 else text.positions[-1]
        at, most = self.one_of(((1, 24 * text.wide), (2, 24 * text.high)))
        line[at] = str(self.one_of((most + 1, most + 1, most + 24, 2**32 - 1, 2**32, 2**32 + int(line[at]), MOST)))
        return text

    def unsound_twice(self):
        """A measure not allowed and a state not sound."""
        text = self.one_of((self.length, self.margins, self.small_numbers, self.position_beyond))()
        text.set(H, self.one_of((0, 6801, MOST)))
        return text

    # ---- U

    # Not of the form after them; but a byte may be a digit that leaves it a text.
    WRONG_FORM = ([byte_changed, byte_out, byte_doubled, byte_in] * 2 + [field] * 3 + [depth, row] * 2
                  + [word, tab, line_end, returns, ten_digits, flag, fewer_fields, more_fields, lines, position_word, position_numbers,
                     positions_last, small_row, row_word, last_end, behind, two, cut, junk, in_front, unsound_and_wrong, wide_and_short,
                     narrow_and_long])
    # Of the form after them, and not allowed or not sound.
    UNSOUND = ([number_beyond, width, length, small_numbers, position_beyond] * 2 + [height, margins, deep, unsound_twice])

    def any_text(self):
        share = self.share()
        if share < 0.33:
            return bytes(self.good())
        return bytes(self.one_of(self.WRONG_FORM if share < 0.71 else self.UNSOUND)(self))

    def case_u(self):
        """A text's words; now and then one of bytes that come again and again."""
        if self.share() < 0.004:
            piece = self.one_of((bytes(self.text()), b"JOB\t", b"JOB\t1", b"POS\t0\t0\n", self.runs.bytes(self.between(1, 9))))
            length = len(piece)
            length = self.one_of((0, 1, length, length - 1, length + 1, 2 * length, self.below(5000)))
            return f"U x{length}:{piece.hex()}"
        return f"U {self.any_text().hex() or '-'}"
