"""A page of dots as PNG, by the standard library alone."""

import struct
import zlib

# In PBM a set bit is black, in PNG a grey of 0 is.
TURNED = bytes(255 - byte for byte in range(256))
DOTS_A_METRE = 11811  # 300 dots an inch


def chunk(name, data):
    return struct.pack(">I", len(data)) + name + data + struct.pack(">I", zlib.crc32(name + data))


def grey(width, height, bits, dots_a_metre, rows):
    """A picture of so many bits of grey to a dot, from its rows."""
    return b"".join(
        (
            b"\x89PNG\r\n\x1a\n",
            chunk(b"IHDR", struct.pack(">IIBBBBB", width, height, bits, 0, 0, 0, 0)),
            chunk(b"pHYs", struct.pack(">IIB", dots_a_metre, dots_a_metre, 1)),
            chunk(b"IDAT", zlib.compress(b"".join(b"\0" + row for row in rows), 6)),
            chunk(b"IEND", b""),
        )
    )


def png(width, height, page):
    """One bit to a dot. `page` has `height` rows of `width` / 8 bytes, high bit leftmost, as in PBM."""
    wide = width // 8
    turned = page.translate(TURNED)
    return grey(width, height, 1, DOTS_A_METRE, (turned[at : at + wide] for at in range(0, wide * height, wide)))


def reduced(width, height, page, by):
    """The page with a grey for each square of `by` by `by` dots: 2, 4 or 8. A square with a dot is never white: no thin line is lost."""
    wide = width // 8
    shades = bytes(255 - round(255 * (min(count, by * by) / (by * by)) ** 0.5) for count in range(256))
    squares = [bytes(bin(byte << by * at & 255 & -1 << 8 - by).count("1") for byte in range(256)) for at in range(8 // by)]
    rows = []
    for top in range(0, wide * height, wide * by):
        band = [page[at : at + wide] for at in range(top, min(top + wide * by, wide * height), wide)]
        rows.append(reduced_row(band, squares, shades))
    return grey(width // by, len(rows), 8, DOTS_A_METRE // by, rows)


def reduced_row(band, squares, shades):
    """`squares` counts the dots of each square of a byte. Whole rows are added as numbers: no byte of a sum is above 64."""
    row = bytearray(len(band[0]) * len(squares))
    for at, square in enumerate(squares):
        counts = sum(int.from_bytes(line.translate(square), "big") for line in band)
        row[at :: len(squares)] = counts.to_bytes(len(band[0]), "big").translate(shades)
    return bytes(row)
