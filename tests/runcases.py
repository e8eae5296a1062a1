#!/usr/bin/env python3
"""runcases.py R|S|T|K|U COUNT SEED: cases of runs, of steps, of translations, of states to be parked or of parked texts, one to a line.
runcases.py vectors: a translation of each real stream and each of the manuals' and the paper's examples.

The form of the lines is in second/README.md, mode `cases`. The streams are made
by a grammar of PCL and out of pieces of the real streams in tests/vectors; pages,
buffers, states, places, allowances, page numbers and rooms are random and at the edges. Parked
texts are in parkcases.py. One
letter and SEED give the same lines every time; a smaller COUNT gives the first of
them.
"""

import lzma
import os
import sys

import leafcases
import parkcases

LONGEST = 1048576  # the longest stream
HUGE = 2**64 - 1  # the greatest number a line may hold
MOST_COUNT = 2**32  # the greatest page number, and count of findings, of a step
MOST_HMI, MOST_VMI, STACK, SEED_ROW = 1966020, 50400, 20, 600
RESOLUTIONS = (75, 100, 150, 300)
ESC = b"\x1b"

# Numbers that a command does something with; 4 or 6 may still come of them.
PLACES = (b"0", b"1", b"2", b"3", b"5", b"7.5", b".5", b"1.0001", b"0.3333", b"12", b"40", b"150",
          b"+1", b"-1", b"+0", b"-0", b"-0.5", b"+2.25", b"-3", b"+20", b"-40", b"99999", b"-99999", b"")
USUAL = {
    (b"&", b"a", b"L"): (b"0", b"1", b"2", b"3", b"+1", b"2.9", b"-0.5"),
    (b"&", b"a", b"M"): (b"3", b"5", b"8", b"40", b"0", b"1.5", b"-0.9"),
    (b"&", b"l", b"E"): (b"0", b"1", b"2", b"3.9", b"+1", b"-0.2"),
    (b"&", b"l", b"C"): (b"0", b"1", b"6", b"8", b"7.5", b"0.01", b"336", b"335.9999", b"+4", b"-0.00009"),
    (b"&", b"l", b"D"): (b"1", b"2", b"3", b"4", b"6", b"8", b"12", b"16", b"24", b"48.9", b"+6"),
    (b"&", b"k", b"H"): (b"0", b"1", b"10", b"12", b"7.2", b"0.01", b"4.0001", b"32767", b"32767.9", b"+12", b"-0"),
    (b"&", b"k", b"G"): (b"0", b"1", b"2", b"3", b"3.9", b"+1", b"-0.9"),
    (b"&", b"f", b"S"): (b"0", b"0", b"1", b"1", b"", b"-0.5", b"+1"),
    (b"*", b"t", b"R"): (b"75", b"100", b"150", b"300", b"300.5", b"+75"),
    (b"*", b"r", b"A"): (b"0", b"1", b"", b"1.9", b"+1"),
    (b"*", b"r", b"B"): (b"", b"0", b"-3", b"1"),
    (b"*", b"r", b"C"): (b"", b"0", b"-3", b"1"),
    (b"*", b"b", b"Y"): (b"0", b"1", b"2", b"5", b"-0.5", b"32767"),
    (b"*", b"b", b"M"): (b"0", b"1", b"2", b"3", b"3.5", b"+2"),
}
# Values next to those that are allowed, and far from them.
WRONG = (b"-1", b"-2", b"-6", b"-0.0001", b"4", b"2", b"5", b"336.0001", b"337", b"7", b"49", b"74", b"76", b"299",
         b"301", b"32767", b"40000", b"-40000", b"99")
# Values on both sides of each limit.
WHOLE = (b"-1", b"-0.9999", b"-0", b"0", b"1", b"2", b"3", b"4", b"5", b"3.9999", b"1.9999")
LIMITS = {
    (b"&", b"l", b"C"): (b"336", b"336.0001", b"336.9999", b"337", b"-0.0001", b"-0.00009", b"-0", b"-1"),
    (b"&", b"k", b"H"): (b"-0.0001", b"-0.00009", b"-0", b"-1", b"32767", b"32767.9999", b"32768", b"32766.9999"),
    (b"&", b"l", b"D"): tuple(b"%d" % number for number in (*range(-1, 18), 23, 24, 25, 47, 48, 49)),
    (b"*", b"t", b"R"): (b"74", b"75", b"76", b"99", b"100", b"101", b"149", b"151", b"299", b"300", b"301", b"600", b"-75"),
}
PAYLOADS = {(b"&", b"p", b"X"), (b"*", b"b", b"W")}
VALUED = [command for command in leafcases.CARRIED if command not in PAYLOADS]
BY_PAIR = {}
for _command in VALUED:
    BY_PAIR.setdefault(_command[:2], []).append(_command)
METHOD_COMMANDS = (b"0", b"1", b"2", b"3")

WRONG_WIDTHS = (0, 1, 7, 9, 12, 4799, 4801, 4808, 65544, 2**32, 2**32 + 8, 2**63, HUGE - 7, HUGE)
WRONG_HEIGHTS = (0, 6801, 6802, 65536, 2**32, 2**32 + 1, 2**63, HUGE)


def corpus_streams():
    """The real streams and the manuals' examples."""
    base = os.path.join(os.path.dirname(os.path.abspath(__file__)), "vectors")
    streams = []
    for folder in ("corpus", "manuals", "paper"):
        for name in sorted(os.listdir(os.path.join(base, folder))):
            if name.endswith((".pcl", ".pcl.xz")):
                opener = lzma.open if name.endswith(".xz") else open
                with opener(os.path.join(base, folder, name), "rb") as stream:
                    streams.append(stream.read())
    return [stream for stream in streams if stream]


class Runs(leafcases.Cases):
    """One case at a call."""

    POOL = 600  # pieces kept; some are made anew for each case, which is faster than all

    def __init__(self, kind, seed):
        super().__init__(kind, seed)
        self.corpus = corpus_streams()
        self.jobs = [stream for stream in self.corpus if len(stream) < 65536]
        self.pool = [self.new_piece() for _ in range(self.POOL)]

    # ---- pieces of streams

    def text(self):
        share = self.share()
        if share < 0.5:
            return self.one_of((b"A", b" ", b"ab c", b"   ", b"Rm 412 MPa", b"\xe4\x80\xff", b"~!"))
        return bytes(self.between(32, 255) for _ in range(self.between(1, 8))).replace(b"\x7f", b"x")

    def code(self):
        share = self.share()
        if share < 0.8:
            return self.one_of((b"\r", b"\n", b"\r\n", b"\b", b"\b\b", b"\t", b"\t\t", b"\x7f"))
        if share < 0.93:
            return bytes((self.one_of((0, 1, 7, 11, 14, 15, 28, 31, 127)),))
        return b"\f"

    def two_bytes(self):
        share = self.share()
        if share < 0.9:
            return ESC + self.one_of((b"=", b"=", b"9", b"9", b"9", b"E"))
        if share < 0.96:
            return ESC + bytes((self.between(48, 126),))
        return ESC + bytes((self.byte(),))

    def number_for(self, command):
        share = self.share()
        if share < 0.9:
            return self.one_of(USUAL.get(command, PLACES))
        if share < 0.95:
            return self.one_of(WRONG)
        return b"%d" % self.below(50) if share < 0.97 else self.value()

    def command(self):
        """A sequence of one command or of some of one group."""
        first, group, capital = self.one_of(VALUED)
        parts = [ESC, first, group]
        known = BY_PAIR[first, group]
        while self.share() < 0.3:
            one = self.one_of(known)
            parts += self.number_for(one), one[2].lower()
        parts += self.number_for((first, group, capital)), capital
        return b"".join(parts)

    def edge(self):
        """One thing alone at its limit."""
        share = self.share()
        if share < 0.6:
            command = self.one_of(VALUED)
            first, group, capital = command
            return ESC + first + group + self.one_of(LIMITS.get(command, WHOLE)) + capital
        return self.without_group() if share < 0.8 else ESC + bytes((self.byte(),))

    def stacked(self):
        return ESC + self.one_of((b"&f0S", b"&f0S", b"&f1S", b"&f0s1S", b"&f1s0S", b"&f0s0S", b"&fs1s1S", b"&f2S"))

    def count(self, number):
        """A count as it may be written."""
        share = self.share()
        if share < 0.85:
            return b"%d" % number
        if share < 0.9:
            return b"+%d" % number
        if share < 0.97:
            return b"%d.%d" % (number, self.below(100))
        return self.one_of((b"-1", b"-0.5", b"-%d" % number))

    def letter(self, capital, small):
        return capital.lower() if self.share() < small else capital

    def row(self):
        """Some rows, mostly of one method and with the command that sets it."""
        method = self.below(4)
        wide = self.between(1, 12) if self.share() < 0.9 else self.wide()
        parts = []
        if self.share() < 0.3:
            parts.append(ESC + b"*t" + self.one_of((b"75", b"100", b"150", b"300")) + b"R")
        if self.share() < 0.25:
            parts.append(ESC + b"*r" + self.one_of((b"0", b"1")) + b"A")
        opened = self.share() < 0.7
        parts.append(ESC + b"*b")
        if opened:
            parts.append(METHOD_COMMANDS[method] + b"m")
        for _ in range(self.below(3)):
            payload = self.payload(method, wide)
            parts.append(self.count(len(payload)) + b"w" + payload)
        payload = self.payload(method, wide)
        parts.append(self.count(len(payload)) + self.letter(b"W", 0.1) + payload)
        return b"".join(parts)

    def transparent(self):
        payload = self.one_of((b"", b"A", b" ", b"  ", b"\x1bEA", b"\x1b*b1W", b"\f\r\n", b"\x1b", b"a b\x00\xff"))
        if self.share() < 0.3:
            payload = self.bytes(self.below(20))
        return ESC + b"&p" + self.count(len(payload)) + self.letter(b"X", 0.2) + payload

    def without_group(self):
        """Only a capital may end it; and beside a group's range there is none."""
        first = bytes((self.between(33, 47),))
        if self.share() < 0.3:
            return ESC + first + self.one_of((b"_", b"\x7f", b"\x80", b"`", b"~", b"@", b"^")) + self.text()
        return ESC + first + self.number_for(None) + bytes((self.between(64, 126),)) + self.text()

    def not_carried(self):
        if self.share() < 0.2:
            return self.without_group()
        first, group, capital = self.one_of(leafcases.NOT_CARRIED)
        if capital in (b"W", b"V"):
            payload = self.bytes(self.below(6))
            return ESC + first + group + self.count(len(payload)) + self.letter(capital, 0.2) + payload
        if self.share() < 0.2:
            return self.sequence()
        return ESC + first + group + self.number() + self.letter(capital, 0.2)

    def from_corpus(self):
        """Some hundred bytes of a real stream, from an ESC on where there is one."""
        stream = self.one_of(self.corpus)
        start = self.below(len(stream))
        at = stream.find(ESC, start, start + 300)
        start = at if at >= 0 and self.share() < 0.9 else start
        piece = stream[start:start + self.one_of((3, 10, 30, 100, 400))]
        while self.share() < 0.35:
            piece = self.mutated(piece)
        if self.share() < 0.1:
            place = self.below(len(piece) + 1)
            piece = piece[:place] + piece[max(0, place - self.below(20)):]
        return piece

    MAKERS = ([text] * 18 + [code] * 18 + [two_bytes] * 5 + [command] * 30 + [stacked] * 3 + [row] * 16
              + [transparent] * 5 + [not_carried] + [from_corpus] * 4)

    def new_piece(self):
        piece = self.one_of(self.MAKERS)(self)
        if self.share() < 0.03:
            piece = self.mutated(piece)
        return piece

    def pieces(self, most):
        pool = self.pool
        for _ in range(2):
            pool[self.below(self.POOL)] = self.new_piece()
        return b"".join([self.one_of(pool) for _ in range(self.between(0, most))])

    def body(self):
        share = self.share()
        if share < 0.06:
            return self.one_of((b"", self.sequence(), self.piece()))
        if share < 0.26:
            # First, so that it is the first finding of the run.
            return self.one_of((self.not_carried, self.transparent, self.stacked, self.row, self.edge, self.edge,
                                self.edge))() + self.pieces(2)
        if share < 0.34:
            stream = self.from_corpus() + self.pieces(2)
        else:
            stream = self.pieces(4 if share < 0.65 else 12)
        if stream and self.share() < 0.12:
            stream = stream[:-self.between(1, min(len(stream), 6))]
        return stream

    # ---- pages and buffers

    def measure(self):
        share = self.share()
        if share < 0.7:
            return 8 * self.between(1, 12), self.between(1, 40)
        if share < 0.82:
            return 8 * self.between(1, 10), self.between(1, 260)
        if share < 0.93:
            return self.one_of((8, 16, 24, 64, 96)), self.one_of((1, 2, 149, 150, 151, 152, 187, 188, 300))
        if share < 0.985:
            return 8 * self.between(1, 600), self.between(1, 8)
        if share < 0.9995:
            return self.one_of(((8, 6800), (8, 6799), (16, 6800), (4800, 1), (4800, 2), (4792, 3), (640, 160)))
        return self.one_of(((640, 800), (640, 800), (2552, 3304), (4800, 6800)))

    def wrong_measure(self, wide, high):
        share = self.share()
        if share < 0.45:
            return self.one_of(WRONG_WIDTHS), high
        if share < 0.9:
            return wide, self.one_of(WRONG_HEIGHTS)
        return self.one_of(WRONG_WIDTHS), self.one_of(WRONG_HEIGHTS)

    def length(self, size):
        """A buffer that is long enough."""
        share = self.share()
        if share < 0.6:
            return size
        if share < 0.75:
            return size + 1
        return size + self.between(2, 40)

    def short_length(self, size):
        return self.one_of((size - 1, size - 1, 0, self.below(size)))

    # ---- states

    def in_range(self, most):
        share = self.share()
        if share < 0.2:
            return 0
        if share < 0.35:
            return most
        if share < 0.45:
            return max(0, most - self.below(25))
        if share < 0.6:
            return min(most, self.below(1500))
        return self.between(0, most)

    def beyond(self, most, last=2**32 - 1):
        return self.one_of((most + 1, most + 1, most + 2, most + 24, last, min(last, most + 1 + self.below(most + 9))))

    def margins(self, wide):
        """0 <= L < R <= LW."""
        share = self.share()
        if share < 0.4:
            return 0, 24 * wide
        left = self.in_range(24 * wide - 1)
        if share < 0.5:
            return left, left + 1
        return left, self.between(left + 1, 24 * wide)

    def sound_state(self, wide, high):
        """The members in the order of their text; the last three as sequence, stack and seed row."""
        lw, lh = 24 * wide, 24 * high
        left, right = self.margins(wide)
        hmi = self.one_of((0, 1, 60, 720, 720, 720, 600, 630, MOST_HMI, self.in_range(MOST_HMI), self.below(2000)))
        vmi = self.one_of((0, 1, 150, 1200, 1200, 1201, 900, MOST_VMI, self.in_range(MOST_VMI), self.below(3000)))
        if hmi and self.share() < 0.3:
            # Margins that a column reaches exactly.
            right = max(left + 1, min(24 * wide, hmi * self.between(1, 5)))
        depth = self.one_of((0, 0, 0, 1, 2, 19, STACK, STACK, self.between(0, STACK)))
        margin = 0 if self.share() < 0.4 else self.in_range(lw)
        stack = [(self.in_range(lw), self.in_range(lh)) for _ in range(depth)]
        share = self.share()
        seed = b"" if share < 0.3 else self.bytes(wide // 8) if share < 0.9 else self.bytes(self.below(wide // 8 + 1))
        return [self.in_range(lw), self.in_range(lh), left, right, self.in_range(lh), hmi, vmi, self.below(4),
                self.one_of(RESOLUTIONS), self.below(4), self.below(2), margin, self.below(2), depth,
                self.open_sequence(), stack, seed]

    @staticmethod
    def afresh(wide, high):
        lw, lh, top = 24 * wide, 24 * high, 3600 if high > 150 else 0
        return [0, min(lh, top + 900), 0, lw, top, 720, 1200, 0, 75, 0, 0, 0, 0, 0, None, [], b""]

    def open_sequence(self):
        share = self.share()
        if share < 0.65:
            return None
        if share < 0.95:
            (first,), (group,), _ = self.one_of(leafcases.CARRIED)
            return first, group
        return self.between(33, 47), self.between(96, 126)

    def spoil(self, state, wide, high):
        """One member made unsound."""
        lw, lh = 24 * wide, 24 * high
        member = self.one_of(UNSOUND)
        if member in ("x", "gm"):
            state[0 if member == "x" else 11] = self.beyond(lw)
        elif member == "margins":
            left = self.between(0, lw)
            state[2], state[3] = self.one_of(((left, left), (left, max(0, left - 1)), (0, lw + 1), (lw, lw),
                                              (lw + 1, lw + 2), (0, 0), (left, self.beyond(lw))))
        elif member in ("y", "T"):
            state[1 if member == "y" else 4] = self.beyond(lh)
        elif member == "HMI":
            state[5] = self.beyond(MOST_HMI)
        elif member == "VMI":
            state[6] = self.beyond(MOST_VMI)
        elif member == "bytes":
            at, first = self.one_of(((7, 4), (9, 4)))
            state[at] = self.one_of((first, first, self.between(first, 255), 255))
        elif member == "resolution":
            state[8] = self.one_of((0, 1, 74, 76, 99, 101, 149, 151, 200, 299, 301, 331, 600, 65535))
        elif member == "depth":
            state[13] = self.one_of((21, 21, 22, 255, 256, 2**32, 2**32 + 1, 2**63, HUGE, self.between(21, 99)))
        elif member == "sequence":
            state[14] = self.one_of(((32, 97), (48, 97), (38, 95), (38, 127), (0, 97), (38, 0), (255, 255), (1, 1),
                                     (42, 64), (97, 38)))
        elif member == "stack":
            self.spoil_stack(state, lw, lh)
        else:
            self.spoil_seed(state, wide)
        return state

    def spoil_stack(self, state, lw, lh):
        """A stacked position off the page, or a free place that is not 0, 0."""
        stack = state[15]
        depth = min(state[13], len(stack))
        if depth and (depth == STACK or self.share() < 0.5):
            at = self.one_of((0, depth - 1, self.below(depth)))
            x, y = stack[at]
            stack[at] = self.one_of(((self.beyond(lw), y), (x, self.beyond(lh))))
        else:
            at = self.one_of((depth, STACK - 1, self.between(depth, STACK - 1)))
            stack += [(0, 0)] * (at + 1 - len(stack))
            stack[at] = self.one_of(((1, 0), (0, 1), (lw, lh)))

    def spoil_seed(self, state, wide):
        """A byte behind the row that is not zero; a page of the full width has none."""
        if wide // 8 >= SEED_ROW:
            state[0] = 24 * wide + 1
            return
        at = self.one_of((wide // 8, SEED_ROW - 1, self.between(wide // 8, SEED_ROW - 1)))
        state[16] = state[16][:at].ljust(at, b"\0") + bytes((self.between(1, 255),))

    @staticmethod
    def state_text(state):
        sequence, stack, seed = state[14:]
        return ",".join([*map(str, state[:14]), "%d:%d" % sequence if sequence else "-",
                         ";".join(["%d:%d" % place for place in stack]) or "-", seed.hex() or "-"])

    # ---- places, allowances, streams that are too long

    def allowance(self):
        share = self.share()
        if share < 0.35:
            return self.below(6)
        if share < 0.5:
            return self.below(30)
        return self.one_of((1000, 65536, 2**32, 2**63, HUGE, HUGE))

    def wrong_place(self, length):
        return self.one_of((length + 1, length + 1, length + 2, length + 1000, 2**32 + length, 2**63, HUGE))

    def long_stream(self, length):
        piece = self.one_of((b"A", b" ", b"\r\n", b"\x1b&a", b"\x1b*b1W\x80", b"\0")) if self.share() < 0.5 else self.body()
        return f"x{length}:{(piece or b'a').hex()}"

    def faults(self, known):
        """Which refusals the case is to have: mostly none, else one or two."""
        share = self.share()
        if share < 0.86:
            return ()
        one = self.one_of(known)
        return (one,) if share < 0.95 else (one, self.one_of(known))

    def start(self):
        """What stands before the run's place: mostly nothing."""
        share = self.share()
        if share < 0.7:
            return b""
        return self.one_of(self.pool) if share < 0.95 else self.pieces(3)

    def handed(self, afresh, body):
        """What is handed to a run or to a step, before its own numbers, and the stream. A state afresh is written by `afresh`; what
        stands from the place on is mostly by `body`."""
        faults = self.faults(FAULTS)
        wide, high = self.measure()
        state = None
        if 13 in faults or self.share() < 0.6:
            state = self.sound_state(wide, high)
        before, body = self.start(), body()
        if state and state[14] and self.share() < 0.85:
            body = self.continued(state[14]) + body
        stream = before + body
        place, length = len(before), len(stream)
        text = stream.hex() or "-"
        if 12 in faults:
            length = LONGEST + self.one_of((1, 1, 2, 4000))
            text = self.long_stream(length)
        elif self.share() < 0.0003:
            length = LONGEST
            text = self.long_stream(length)
            place = self.one_of((0, LONGEST, LONGEST - 1, LONGEST - self.below(3000)))
        elif self.share() < 0.06:
            place = self.one_of((length, self.between(0, length)))
        if 14 in faults:
            place = self.wrong_place(length)
        if 13 in faults:
            self.spoil(state, wide, high)
            if self.share() < 0.2:
                self.spoil(state, wide, high)
        size = wide // 8 * high
        buffer = self.short_length(size) if 11 in faults else self.length(size)
        handed = self.state_text(state) if state else afresh(wide, high)
        if 10 in faults:
            wide, high = self.wrong_measure(wide, high)
        return f"{wide} {high} {buffer} {self.fill()} {handed} {place}", text

    def case_r(self):
        handed, text = self.handed(lambda wide, high: "-", self.body)
        return f"R {handed} {self.allowance()} {text}"

    def case_s(self):
        """The state is always written out: the library of steps has none to ask for."""
        handed, text = self.handed(lambda wide, high: self.state_text(self.afresh(wide, high)), self.step_body)
        return f"S {handed} {self.step_count()} {self.step_count()} {self.step_room()} {text}"

    def step_body(self):
        """Now and then rows without a finding, and mostly the end of their page: else few steps get so far."""
        if self.share() < 0.85:
            return self.body()
        parts = [ESC + b"*p%dx%dY" % (self.below(60), self.below(20))]
        for _ in range(self.between(1, 4)):
            row = self.bytes(self.between(1, 6))
            parts += ESC + b"*b0m%dW" % len(row), row
        return b"".join(parts) + self.one_of((b"\f", b"A\r\f", b"\x1bE", b"\x1b&k2G\f", b"")) + self.pieces(2)

    def step_count(self):
        """A page number or a count of findings."""
        share = self.share()
        if share < 0.6:
            return self.below(13)
        if share < 0.8:
            return self.one_of((99, 100, 999, 1000, self.below(1000000)))
        return self.one_of((MOST_COUNT, MOST_COUNT - 1, MOST_COUNT - self.below(100), 10**9 - 1, self.between(0, MOST_COUNT)))

    def step_room(self):
        """The room for a step's lines: mostly long enough."""
        share = self.share()
        if share < 0.7:
            return self.one_of((184, 184, 185, 200, 4096, self.between(184, 1000)))
        if share < 0.95:
            return self.between(0, 75)
        return self.below(5)

    def continued(self, sequence):
        """The rest of a command in this open sequence, and a few more."""
        pair = bytes(sequence[:1]), bytes(sequence[1:])
        known = BY_PAIR.get(pair)
        parts = []
        while known and self.share() < 0.4:
            one = self.one_of(known)
            parts += self.number_for(one), one[2].lower()
        capital = self.ending_in(*pair)
        if known and (*pair, capital) not in PAYLOADS and capital != b"W":
            parts += self.number_for((*pair, capital)), self.letter(capital, 0.3)
        else:
            payload = self.payload(self.below(4), self.between(1, 12))
            parts += self.count(len(payload)), self.letter(capital, 0.3), payload
        return b"".join(parts)

    def fill(self):
        return self.one_of(("00", "FF", "5a", "01", "%02x" % self.below(256)))

    # ---- translations

    def near_longest(self, more):
        """A stream whose plain stream is so much longer than the longest: one kind of piece that grows, the rest text."""
        piece, grown = self.one_of(GROWING)
        text = self.one_of((b"A", b" ", b"\n", b"\xe4", b"\b"))
        while True:
            period = self.between(40, 4000)
            pieces = -(-(LONGEST + more) // (period + grown))
            length = LONGEST + more - grown * pieces
            if length - (pieces - 1) * period in range(len(piece), period + 1):
                return f"x{length}:{piece.ljust(period, text).hex()}"

    def long_case(self, kind):
        """Streams and plain streams about the longest, on a small page: each kind comes in its turn."""
        wide, high = 8 * self.between(6, 12), self.between(1, 40)
        room = self.one_of((LONGEST, LONGEST + 1, 2 * LONGEST))
        if kind == 0:
            text = self.near_longest(0)
        elif kind == 1:
            text = self.near_longest(self.one_of((1, 1, 2, self.between(3, 99))))
        elif kind == 2:
            text = self.long_stream(LONGEST)
        else:
            piece = self.one_of((b"\x1b&acC", b"\x1b*b3m3w\x1f\x00\x77" + b"w" * 40 + b"W", b"\x1b*p+x-xY", self.body() or b"a"))
            text = f"x{LONGEST - self.below(1000)}:{piece.hex()}"
        return f"T {wide} {high} {room} {self.fill()} {text}"

    def job(self):
        """A whole stream of the corpus, changed here and there or as it is."""
        stream = self.one_of(self.jobs)
        while self.share() < 0.7:
            stream = self.mutated(stream)
        return stream

    def translated(self):
        share = self.share()
        if share < 0.001:
            return self.job()
        if share < 0.1:
            return self.from_corpus() + self.from_corpus()
        return self.pieces(12) if share < 0.75 else self.body()

    def room(self, length, wide):
        """Mostly one that is long enough, so that the whole plain stream is compared."""
        share = self.share()
        if share < 0.7:
            return min(length * (wide // 8 + 16), LONGEST + self.below(3))
        if share < 0.8:
            return 2 * length + 40
        return self.one_of((length, length + 1, self.between(0, length), self.between(0, 2 * length)))

    def case_t(self, number):
        if number % EACH_LONG == 0:
            return self.long_case(number // EACH_LONG % 4)
        faults = self.faults(ROOM_FAULTS)
        wide, high = self.measure()
        stream = self.translated()
        length, text = len(stream), stream.hex() or "-"
        room = self.room(length, wide)
        if 12 in faults:
            text = self.long_stream(LONGEST + self.one_of((1, 1, 2, 4000)))
        if 15 in faults:
            room = self.one_of((0, 0, self.between(0, length // 4)))
        if 10 in faults:
            wide, high = self.wrong_measure(wide, high)
        return f"T {wide} {high} {room} {self.fill()} {text}"


UNSOUND = ("x", "y", "margins", "margins", "T", "HMI", "VMI", "bytes", "bytes", "resolution", "gm", "depth", "sequence",
           "stack", "stack", "seed")
FAULTS = (10, 10, 10, 11, 11, 11, 12, 13, 13, 13, 13, 13, 14, 14, 14)
ROOM_FAULTS = (10, 10, 10, 12, 15, 15, 15)
EACH_LONG = 1250  # of so many translations one is about the longest
# Pieces, and by how much their plain stream is longer, on a page of 48 dots and more.
GROWING = ((b"\x1b&a1c1C", 3), (b"\x1b*p+1x+1Y", 3), (b"\x1b&a.5c.5H", 5), (b"\x1b*b2m2W\xfb\xff", 2), (b"\x1b&f0s1S", 3))


def vectors():
    """On the pages of the report and of the corpus' table."""
    for number, stream in enumerate(corpus_streams()):
        wide, high = ((640, 800), (2552, 3304))[number % 2]
        yield f"T {wide} {high} {LONGEST} 5a {stream.hex()}"


def lines(words):
    """None if the words are wrong."""
    if words == ["vectors"]:
        return vectors()
    if len(words) != 3 or words[0] not in ("R", "S", "T", "K", "U") or not (words[1].isascii() and words[1].isdigit()):
        return None
    kind, count, seed = words
    cases = Runs(kind, seed)
    if kind == "T":
        return (cases.case_t(number) for number in range(int(count)))
    if kind in ("K", "U"):
        parking = parkcases.Parking(cases)
        case = parking.case_k if kind == "K" else parking.case_u
    else:
        case = cases.case_r if kind == "R" else cases.case_s
    return (case() for _ in range(int(count)))


def main(words):
    cases = lines(words)
    if cases is None:
        print("usage: runcases.py R|S|T|K|U COUNT SEED, or runcases.py vectors", file=sys.stderr)
        return 1
    for line in cases:
        sys.stdout.write(line + "\n")
    sys.stdout.flush()
    return 0


if __name__ == "__main__":
    sys.exit(leafcases.told(main))
