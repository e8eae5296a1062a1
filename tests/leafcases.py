#!/usr/bin/env python3
"""leafcases.py KIND COUNT SEED: cases for the parts alone, one to a line.

KIND is V (a value), I (an item), D (a row), P (the dots of a row) or N (the
plain form of a value); the form of the lines is in second/README.md. The cases
are random by grammar and at the edges. One KIND and SEED give the same lines
every time; a smaller COUNT gives the first of them.
"""

import os
import random
import sys

LAST = 2**32 - 1  # the greatest number a line may hold

# Commands that are carried: first byte, group, the ending's capital.
CARRIED = [
    (b"&", b"a", b"C"), (b"&", b"a", b"H"), (b"*", b"p", b"X"), (b"&", b"a", b"V"),
    (b"*", b"p", b"Y"), (b"&", b"a", b"R"), (b"&", b"a", b"L"), (b"&", b"a", b"M"),
    (b"&", b"l", b"E"), (b"&", b"l", b"C"), (b"&", b"l", b"D"), (b"&", b"k", b"H"),
    (b"&", b"k", b"G"), (b"&", b"f", b"S"), (b"*", b"t", b"R"), (b"*", b"r", b"A"),
    (b"*", b"r", b"B"), (b"*", b"r", b"C"), (b"*", b"b", b"Y"), (b"*", b"b", b"M"),
    (b"&", b"p", b"X"), (b"*", b"b", b"W"),
]
# Not carried, with payload and without, and near to those that are.
NOT_CARRIED = [
    (b"*", b"b", b"V"), (b"(", b"s", b"W"), (b"&", b"p", b"W"), (b"*", b"c", b"W"),
    (b"&", b"b", b"V"), (b"&", b"p", b"V"), (b"*", b"p", b"V"), (b"*", b"b", b"X"),
    (b"&", b"a", b"X"), (b"*", b"a", b"C"), (b"(", b"s", b"B"), (b"&", b"l", b"H"),
    (b"*", b"b", b"@"), (b"*", b"b", b"^"), (b"!", b"`", b"A"), (b"/", b"~", b"Z"),
]
PAIRS = sorted({(first, group) for first, group, _ in CARRIED + NOT_CARRIED})

# Numbers at the edges of what is kept.
EDGE_NUMBERS = [
    b"", b".", b"0", b"00", b"0.", b".0", b"5", b"5.", b".5", b"0.5", b"0.0001", b"0.00009",
    b".99999", b"9.9999", b"9.99999", b"1", b"1.0000", b"2.5000000", b"32766", b"32766.9999",
    b"32766.99999", b"32767", b"32767.", b"32767.0", b"32767.0000", b"32767.00009",
    b"32767.0001", b"32767.5", b"32767.9999", b"32768", b"32769", b"39999", b"40000", b"65535",
    b"65536", b"65537", b"99999", b"327670000", b"429496", b"429497", b"999999", b"1000000",
    b"1000001", b"2147483647", b"2147483648", b"4294967295", b"4294967296", b"4294967297",
    b"9223372036854775807", b"9223372036854775808", b"18446744073709551615",
    b"18446744073709551616", b"340282366920938463463374607431768211456", b"000000032767.0001",
    b"00000000000000000000000000000001.5",
]
# Bytes beside the ranges of the reader.
EDGE_BYTES = bytes([
    0, 8, 9, 10, 12, 13, 26, 27, 28, 31, 32, 33, 38, 42, 43, 44, 45, 46, 47, 48, 57, 58, 63, 64,
    65, 87, 90, 94, 95, 96, 97, 119, 122, 126, 127, 128, 159, 160, 254, 255,
])
SIGNS = [b"", b"", b"", b"+", b"-"]


class Cases:
    """One case of each kind at a call."""

    def __init__(self, kind, seed):
        # A text is a seed of its own kind: no two kinds share their numbers.
        self.random = random.Random(f"{kind} {seed}")
        self.share = self.random.random

    # ---- small choices

    def below(self, end):
        return int(self.share() * end)

    def between(self, low, high):
        return low + int(self.share() * (high + 1 - low))

    def one_of(self, members):
        return members[int(self.share() * len(members))]

    def bytes(self, count):
        return self.random.getrandbits(8 * count).to_bytes(count, "big") if count else b""

    def byte(self):
        """A byte at an edge, or any."""
        if self.share() < 0.6:
            return self.one_of(EDGE_BYTES)
        return self.below(256)

    def digits(self, count):
        if not count:
            return b""
        return b"%0*d" % (count, self.below(10**count) if count < 16 else
                          self.random.randrange(10**count))

    def place(self, length):
        """A place in bytes of this length: inside, at the end, or beyond."""
        share = self.share()
        if share < 0.55:
            return self.between(0, length)
        if share < 0.85:
            return max(0, length + self.between(-3, 3))
        if share < 0.95:
            return length + self.below(1000)
        return self.one_of((LAST, LAST - 1, 2**31, 2**31 - 1, 65536, length))

    # ---- V: a value

    def number(self):
        """Digits with or without a point, no sign."""
        share = self.share()
        if share < 0.25:
            return self.one_of(EDGE_NUMBERS)
        if share < 0.45:
            return b"%d" % self.below(self.one_of((10, 100, 1000, 32768, 40000)))
        if share < 0.55:
            # About where numbers are lowered.
            return b"%d.%s" % (self.between(32765, 32768), self.digits(self.below(7)))
        if share < 0.57:
            whole, places = self.below(400), self.below(400)
        elif share < 0.67:
            whole, places = self.below(24), self.below(24)
        else:
            whole, places = self.below(7), self.below(7)
        digits = self.digits(whole)
        if self.share() < 0.1:
            digits = b"0" * self.one_of((1, 2, 5, 20, 200)) + digits
        if self.share() < 0.3:
            return digits
        places = self.digits(places)
        if self.share() < 0.2:
            places = b"0" * self.below(6) + places
        return digits + b"." + places

    def value(self):
        return self.one_of(SIGNS) + self.number()

    def junk(self):
        share = self.share()
        if share < 0.3:
            return b""
        if share < 0.5:
            return self.one_of((b"C", b"c", b"W", b"\x1b", b".", b"-", b"+", b"..5", b".5C",
                                b"+1", b"-1", b" 1", b",5", b"e5", b"/1", b":1", b"\xb1"))
        if share < 0.8:
            return bytes((self.byte(),))
        return bytes(self.byte() for _ in range(self.below(6)))

    def case_v(self):
        value = self.value()
        if self.share() < 0.05:
            value = self.mutated(value)
        share = self.share()
        if share < 0.5:
            before = b""
        elif share < 0.8:
            before = b"\x1b" + b"".join(self.one_of(PAIRS))
        else:
            before = bytes(self.byte() for _ in range(self.below(5)))
        stream = before + value + self.junk()
        share = self.share()
        if share < 0.75:
            at = len(before)
        elif share < 0.85:
            at = max(0, len(before) + self.between(-2, 3))
        else:
            at = self.place(len(stream))
        return f"V {at} {stream.hex() or '-'}"

    # ---- I: an item

    def mutated(self, stream):
        """One byte changed, left out or put in; or the end cut off."""
        if not stream:
            return bytes((self.byte(),))
        share = self.share()
        place = self.below(len(stream))
        if share < 0.4:
            return stream[:place] + bytes((self.byte(),)) + stream[place + 1:]
        if share < 0.6:
            return stream[:place] + stream[place + 1:]
        if share < 0.8:
            return stream[:place] + bytes((self.byte(),)) + stream[place:]
        return stream[:place]

    def any_command(self):
        share = self.share()
        if share < 0.75:
            return self.one_of(CARRIED)
        if share < 0.9:
            return self.one_of(NOT_CARRIED)
        return (bytes((self.between(33, 47),)), bytes((self.between(96, 126),)),
                bytes((self.between(64, 94),)))

    def ended(self, first, group, capital, small):
        """The rest of a command: value, ending, and payload if it has some."""
        ending = bytes((capital[0] + 32,)) if small else capital
        has_payload = (capital == b"W" or (first, group, capital) == (b"&", b"p", b"X")
                       or (first, group, capital) == (b"*", b"b", b"V"))
        if not has_payload or self.share() < 0.15:
            return self.value() + ending + (self.bytes(self.below(4)) if has_payload else b"")
        if self.share() < 0.001:
            # A lowered count; the stream may be one byte short or long.
            number = self.one_of((b"32767", b"32768", b"32767.5", b"+40000", b"65536"))
            return number + ending + b"\x1bE" + self.bytes(32765 + self.between(-1, 1))
        count = self.below(9) if self.share() < 0.9 else self.below(60)
        number = b"%d" % count
        share = self.share()
        if share < 0.1:
            number = b"+" + number
        elif share < 0.2:
            number = b"-" + number
        if self.share() < 0.15:
            number += b"." + self.digits(self.below(6))
        # Right, short, or long by a little.
        share = self.share()
        if share < 0.55:
            length = count
        elif share < 0.8:
            length = max(0, count - 1 - self.below(3))
        else:
            length = count + 1 + self.below(3)
        payload = self.bytes(length)
        if payload and self.share() < 0.3:
            payload = b"\x1b" + payload[1:]
        return number + ending + payload

    def sequence(self):
        """A sequence of one command or some, with a group or without."""
        first, group, capital = self.any_command()
        if self.share() < 0.1:
            # No group: only a capital may end it.
            return b"\x1b" + first + self.ended(first, None, capital, self.share() < 0.3)
        parts = [b"\x1b", first, group]
        while self.share() < 0.35:
            parts.append(self.ended(first, group, self.ending_in(first, group), True))
        parts.append(self.ended(first, group, capital, self.share() < 0.4))
        return b"".join(parts)

    def ending_in(self, first, group):
        """An ending that the group knows, or any."""
        known = ENDINGS.get((first, group))
        if known and self.share() < 0.8:
            return self.one_of(known)
        return bytes((self.between(64, 94),))

    def piece(self):
        share = self.share()
        if share < 0.55:
            return self.sequence()
        if share < 0.65:
            return b"\x1b" + bytes((self.between(48, 126),))
        if share < 0.7:
            return b"\x1b" + bytes((self.byte(),))
        if share < 0.75:
            return b"\x1b"
        if share < 0.9:
            return bytes((self.byte(),))
        return bytes((self.below(256),))

    def case_i(self):
        share = self.share()
        before = self.piece() if self.share() < 0.3 else b""
        first = group = 0
        if share < 0.35:
            # A sequence is open.
            command = self.any_command()
            (first,), (group,), _ = command
            share = self.share()
            if share < 0.75:
                piece = self.ended(*command, self.share() < 0.5)
            elif share < 0.9:
                piece = (self.value() if self.share() < 0.5 else b"") + bytes((self.byte(),))
            else:
                piece = self.piece()
        elif share < 0.8:
            piece = self.sequence()
        else:
            piece = self.piece()
        if self.share() < 0.25:
            piece = self.mutated(piece)
        after = self.piece() if self.share() < 0.3 else b""
        stream = before + piece + after
        share = self.share()
        if share < 0.85:
            at = len(before)
        elif share < 0.9:
            at = self.below(len(stream) + 1)
        else:
            at = self.place(len(stream))
        return f"I {first} {group} {at} {stream.hex() or '-'}"

    # ---- D: a row

    def wide(self):
        share = self.share()
        if share < 0.6:
            return self.between(1, 12)
        if share < 0.85:
            return self.between(1, 80)
        if share < 0.9:
            return self.one_of((1, 31, 32, 33, 80, 127, 128, 129, 255, 256, 257, 285, 286, 287,
                                541, 599, 600))
        return self.between(1, 600)

    def data(self, count):
        """Bytes of a row: any, or many of them zero."""
        if self.share() < 0.7:
            return self.bytes(count)
        if self.share() < 0.5:
            return bytes(count)
        return bytes((self.one_of((0, 0, 0, 1, 128, 255)),)) * count

    def pairs(self, wide):
        parts = []
        place = 0
        end = self.reach(wide)
        while place < end:
            times = self.below(256) if self.share() < 0.15 else self.below(max(1, wide // 2))
            parts.append(bytes((min(times, 255), self.below(256))))
            place += times + 1
        return b"".join(parts)

    def packed(self, wide):
        parts = []
        place = 0
        end = self.reach(wide)
        while place < end:
            share = self.share()
            if share < 0.1:
                parts.append(b"\x80")
                place += 1  # no byte of the row, but it must end
                continue
            if share < 0.2:
                count = self.one_of((1, 2, 127, 128))
            else:
                count = 1 + self.below(min(127, max(1, wide // 2)))
            if self.share() < 0.5:
                parts.append(bytes((count - 1,)) + self.data(count))
            else:
                count = max(2, count)
                parts.append(bytes((257 - count, self.below(256))))
            place += count
        if self.share() < 0.1:
            parts.append(b"\x80")
        return b"".join(parts)

    def delta(self, wide):
        parts = []
        place = 0
        end = self.reach(wide)
        while place < end:
            share = self.share()
            if share < 0.6:
                offset = self.below(min(31, max(1, wide // 3)))
            elif share < 0.75:
                offset = self.between(28, 34)
            elif share < 0.9:
                offset = self.below(max(1, wide))
            else:
                offset = self.one_of((30, 31, 32, 285, 286, 287, 540, 541, 542, 796, 797))
            count = self.between(1, 8)
            if offset < 31:
                parts.append(bytes(((count - 1) << 5 | offset,)))
            else:
                full, more = divmod(offset - 31, 255)
                parts.append(bytes(((count - 1) << 5 | 31,)) + b"\xff" * full + bytes((more,)))
            parts.append(self.data(count))
            place += offset + count
        return b"".join(parts)

    def reach(self, wide):
        """How far the payload goes: within the row, all of it, or beyond."""
        share = self.share()
        if share < 0.05:
            return 0
        if share < 0.4:
            return self.between(1, wide)
        if share < 0.8:
            return wide
        return wide + self.between(1, 40)

    def payload(self, method, wide):
        if self.share() < 0.12:
            # Any bytes: damaged or not.
            return self.bytes(self.below(min(wide, 40) + 4))
        if method == 0:
            payload = self.data(self.reach(wide))
        elif method == 1:
            payload = self.pairs(wide)
        elif method == 2:
            payload = self.packed(wide)
        else:
            payload = self.delta(wide)
        share = self.share()
        if share < 0.12:
            # The last byte is missing.
            payload = payload[:-1]
        elif share < 0.18 and payload:
            # Another one is.
            place = self.below(len(payload))
            payload = payload[:place] + payload[place + 1:]
        elif share < 0.24:
            # A control byte behind the rest, with too little after it.
            payload += self.one_of((b"\x00", b"\x01\x00", b"\x7f\x00", b"\x81", b"\xff", b"\xfe",
                                    b"\x1f", b"\x1f\x00", b"\x1f\xff", b"\x1f\xff\xff",
                                    b"\x1f\xff\x00", b"\x3f\x05\x01", b"\xe0\x01\x02", b"\x80"))
        elif share < 0.28:
            payload = self.mutated(payload)
        elif share < 0.30:
            # Far beyond the row, and on.
            payload += b"\x1f" + b"\xff" * self.below(8) + self.bytes(self.below(5))
        return payload

    def case_d(self):
        share = self.share()
        if share < 0.97:
            method = self.one_of((0, 1, 1, 2, 2, 2, 3, 3, 3, 3))
        else:
            method = self.between(4, 255)
        wide = self.wide()
        share = self.share()
        if share < 0.25:
            seed = b""
        elif share < 0.8:
            seed = self.bytes(wide)
        elif share < 0.9:
            seed = self.bytes(self.below(wide + 1))
        else:
            seed = self.data(wide)
        payload = self.payload(method, wide)
        return f"D {method} {wide} {seed.hex() or '-'} {payload.hex() or '-'}"

    # ---- P: the dots of a row

    def start(self, end, step):
        """A dot to begin from: inside, at the edge, or far beyond."""
        share = self.share()
        if share < 0.25:
            return 0
        if share < 0.65:
            return self.below(end + 1)
        if share < 0.9:
            return max(0, end + self.between(-2 * step, step))
        if share < 0.95:
            return end + self.below(5000)
        return self.one_of((LAST, LAST - 1, LAST - 7, LAST - 8, 2**31, 2**31 - 1, 2**30,
                            2**29, self.random.getrandbits(32)))

    def case_p(self):
        share = self.share()
        if share < 0.03:
            wide = 0
        elif share < 0.7:
            wide = self.between(1, 8)
        elif share < 0.98:
            wide = self.between(1, 40)
        else:
            wide = self.between(1, 600)
        high = self.below(31) if self.share() < 0.5 else self.below(7)
        dots = 0 if self.share() < 0.03 else self.between(1, 4)
        from_dot = self.start(8 * wide, 5)
        line = self.start(high, 2)
        share = self.share()
        if share < 0.05:
            length = 0
        elif share < 0.3:
            length = wide
        elif share < 0.6:
            # As long as the page is wide, in squares.
            length = max(1, wide // max(1, dots) + self.between(-1, 1))
        elif share < 0.85:
            length = 1 + self.below(wide + 3)
        else:
            length = self.below(91)
        length = min(length, 90)
        share = self.share()
        if share < 0.5:
            row = self.bytes(length)
        elif share < 0.65:
            row = b"\xff" * length
        elif share < 0.75:
            row = bytes(length)
        else:
            # One bit alone, or one at each end of a byte.
            row = bytearray(length)
            if length:
                row[self.below(length)] = self.one_of((1, 2, 4, 8, 16, 32, 64, 128, 129))
        fill = self.one_of((0, 0, 255, self.below(256)))
        return f"P {wide} {high} {dots} {from_dot} {line} {row.hex() or '-'} {fill:02X}"

    # ---- N: the plain form of a value

    def case_n(self):
        sign = self.below(3)
        share = self.share()
        if share < 0.25:
            size = self.one_of((0, 1, 9, 10, 11, 99, 100, 101, 999, 1000, 1001, 5000, 9000, 9990,
                                9999, 10000, 10001, 10010, 10100, 11000, 12500, 19999, 20000,
                                99999, 100000, 100001, 327669999, 327670000, 327670001, LAST,
                                LAST - 1, 2**31, 2**31 - 1, 4294960000, 4294967290))
        elif share < 0.5:
            size = self.random.getrandbits(self.between(1, 32))
        elif share < 0.75:
            # Zeros at the end of the fraction, or no fraction.
            step = 10 ** self.between(1, 5)
            size = self.below(LAST // step) * step
        elif share < 0.9:
            size = self.below(327670001)
        else:
            size = max(0, 10 ** self.between(0, 9) * self.below(5) + self.between(-2, 2))
        return f"N {sign} {size}"


ENDINGS = {}
for _first, _group, _capital in CARRIED + NOT_CARRIED:
    ENDINGS.setdefault((_first, _group), []).append(_capital)

KINDS = {"V": Cases.case_v, "I": Cases.case_i, "D": Cases.case_d, "P": Cases.case_p,
         "N": Cases.case_n}


def main(words):
    if len(words) != 3 or words[0] not in KINDS or not (words[1].isascii() and words[1].isdigit()):
        print("usage: leafcases.py V|I|D|P|N COUNT SEED", file=sys.stderr)
        return 1
    kind, count, seed = words[0], int(words[1]), words[2]
    cases = Cases(kind, seed)
    one_case = KINDS[kind]
    out = sys.stdout
    while count > 0:
        part = min(count, 1000)
        out.write("".join([one_case(cases) + "\n" for _ in range(part)]))
        count -= part
    out.flush()
    return 0


def told(main):
    """main's exit status; a failed write is told in one line, with status 1."""
    try:
        return main(sys.argv[1:])
    except OSError as error:
        # Who reads the lines may stop before their end.
        print(f"{os.path.basename(sys.argv[0])}: {error.strerror}", file=sys.stderr)
        sys.stderr.flush()
        # No second try to write what is left.
        sys.stdout = None
        return 1


if __name__ == "__main__":
    sys.exit(told(main))
