"""What the programs print as picture files. Of `plate`, 256 by 224 pixels: a binary Portable Pixmap (P6) or a PNG; words become eight bits a
part by the gamma ramp of `crates/colour`. Of `page`, 160 by 144 pixels: the binary Portable Graymap (P5) that it prints, or a PNG."""

import os
import re
import struct
import sys
import zlib

sys.path.insert(1, os.path.join(os.path.dirname(os.path.realpath(__file__)), "..", "sample"))

from colours import rgb8

WIDTH, HEIGHT = 256, 224
# The bytes of a plate's text.
PLATE = HEIGHT * (4 * WIDTH + 1)
# A screen's pixels, and how a graymap of it begins.
ACROSS, DOWN = 160, 144
GRAYMAP = b"P5\n%d %d\n255\n" % (ACROSS, DOWN)


class Unlike(Exception):
    """It is not what the program prints, and what it is not."""


def of_plate(text, form):
    """The bytes of the file. form: "ppm" or "png"."""
    rows = list(rows_of(text))
    return png(rows, 3) if form == "png" else b"P6\n%d %d\n255\n" % (WIDTH, HEIGHT) + b"".join(rows)


def rows_of(text):
    """The plate's rows as bytes, three a pixel."""
    lines = text.split(b"\n")
    if len(lines) != HEIGHT + 1 or lines[-1] or not all(re.fullmatch(rb"[0-9A-F]{%d}" % (4 * WIDTH), l) for l in lines[:-1]):
        raise Unlike(f"no plate: it is not {HEIGHT} lines of {4 * WIDTH:,} hexadecimal digits")
    colours = {}
    for line in lines[:-1]:
        words = [line[at : at + 4] for at in range(0, 4 * WIDTH, 4)]
        for word in set(words) - colours.keys():
            colours[word] = bytes(rgb8(int(word, 16)))
        yield b"".join(colours[word] for word in words)


def of_graymap(data, form):
    """The bytes of the file. form: "pgm" or "png"."""
    if not data.startswith(GRAYMAP) or len(data) != len(GRAYMAP) + ACROSS * DOWN:
        raise Unlike(f"no graymap of {ACROSS} by {DOWN} pixels")
    return png([data[at : at + ACROSS] for at in range(len(GRAYMAP), len(data), ACROSS)], 1) if form == "png" else data


def png(rows, parts):
    """parts: how many bytes a pixel has, three for a colour and one for a grey."""

    def chunk(kind, body):
        return struct.pack(">I", len(body)) + kind + body + struct.pack(">I", zlib.crc32(kind + body))

    # eight bits a part; each row goes unfiltered
    header = struct.pack(">IIBBBBB", len(rows[0]) // parts, len(rows), 8, {1: 0, 3: 2}[parts], 0, 0, 0)
    body = zlib.compress(b"".join(b"\0" + row for row in rows), 9)
    return b"\x89PNG\r\n\x1a\n" + chunk(b"IHDR", header) + chunk(b"IDAT", body) + chunk(b"IEND", b"")
