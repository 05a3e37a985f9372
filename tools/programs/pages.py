"""Suites on pages: the program page on pages worked by hand and made by chance, and bin/page, which draws a file as bin/draw does. The pictures
that are due are written down here from RULES 5.6 and 8.8, and `graymap` is a second reading of them."""

import functools
import os
import random
import tempfile

import commands
from answers import decoded
from checks import fed
from commands import at_desk, devices, descriptors, endings, failing, folders, links, names, older, read, sample, write
from pictures import of_graymap

SIZE = 4096
HEAD = b"P5\n160 144\n255\n"
WHITE, BLACK = b"\xff", b"\0"

# The bytes of a page that are not zero, and the pixels that are not white for it, each by column and row.
DOTS = (
    ({}, {}),
    ({0: 0x80}, {(0, 0): 170}),
    ({0: 0x01}, {(7, 0): 170}),
    ({1: 0x80}, {(0, 0): 85}),
    ({0: 0x80, 1: 0x80}, {(0, 0): 0}),
    ({0: 0x42, 1: 0x22}, {(1, 0): 170, (2, 0): 85, (6, 0): 0}),
    ({2: 0x80}, {(0, 1): 170}),
    ({15: 0x01}, {(7, 7): 85}),
    # the next tile; the last of its row, and the first of the next row
    ({16: 0x80}, {(8, 0): 170}),
    ({304: 0x01}, {(159, 0): 170}),
    ({320: 0x80}, {(0, 8): 170}),
    ({641: 0x08, 642: 0x10}, {(4, 16): 85, (3, 17): 170}),
    # of the last row of tiles the first, and the last of all
    ({3840: 0x80}, {(0, 96): 170}),
    ({4080: 0x80}, {(120, 96): 170}),
    ({4094: 0x80}, {(120, 103): 170}),
    ({4095: 0x01}, {(127, 103): 85}),
)
# Another length, and what bin/page says of it.
LENGTHS = (
    (0, "it is empty; a page has 4,096 bytes"),
    (1, "it has 1 byte; a page has 4,096"),
    (4095, "it has 4,095 bytes; a page has 4,096"),
    (4097, "it has 4,097 bytes; a page has 4,096"),
    (5760, "it has 5,760 bytes; a page has 4,096"),
    (100000, "it has 100,000 bytes; a page has 4,096"),
)
LONGER = "it has more than the 4,096 bytes of a page"


# ---- a second reading of the rule


def graymap(page):
    """What the program is to print of a page."""
    return HEAD + bytes((255, 170, 85, 0)[shade(page, x, y)] for y in range(144) for x in range(160))


def shade(page, x, y):
    """Of the pixel at column x of row y."""
    tile = y // 8 * 20 + x // 8
    if tile >= 256:
        return 0
    low = tile * 16 + y % 8 * 2
    bit = 7 - x % 8
    return (page[low] >> bit & 1) + 2 * (page[low + 1] >> bit & 1)


def by_chance(rng):
    """Noise, or a page with a few bits in it, or one with a few out."""
    kind = rng.randrange(3)
    page = bytearray(rng.randbytes(SIZE) if kind == 0 else bytes([255 * (kind - 1)]) * SIZE)
    for _ in range(rng.choice((1, 2, 9, 100)) if kind else 0):
        page[rng.randrange(SIZE)] ^= 1 << rng.randrange(8)
    return bytes(page)


# ---- the program


def pages(t, p, few=False):
    """The program on pages, on any other length, and on input that comes in pieces or has no end."""
    same = lambda what, data, due: printed(t, what, p.run("page", data), due)
    for bytes_in, pixels in DOTS:
        page, picture = bytearray(SIZE), bytearray(WHITE * 160 * 144)
        for at, value in bytes_in.items():
            page[at] = value
        for (x, y), grey in pixels.items():
            picture[160 * y + x] = grey
        same(f"zeros but for {bytes_in}", bytes(page), HEAD + bytes(picture))
    # twelve rows of twenty tiles, and sixteen of the next row
    full = BLACK * 96 * 160 + (BLACK * 128 + WHITE * 32) * 8 + WHITE * 40 * 160
    same("all bits", b"\xff" * SIZE, HEAD + full)
    noise = random.Random(p.seed).randbytes(70000)
    others = (0, 1, 2, 15, 16, 1023, SIZE - 2, SIZE - 1, SIZE + 1, SIZE + 2, 5760, 8191, 8192, 8193, 65536)
    for size in (0, SIZE - 1, SIZE + 1) if few else others:
        same(f"{size} bytes", noise[:size], b"10\n")
    same("a page with a line's end behind it", noise[:SIZE] + b"\n", b"10\n")
    due = graymap(noise)
    for size in (100,) if few else (1, 100, 999, 1000, 2048, 4095, 4096):
        for much, text in ((SIZE, due), (SIZE - 1, b"10\n"), (SIZE + 1, b"10\n")):
            pieces = [noise[at : min(at + size, much)] for at in range(0, much, size)]
            printed(t, f"{much} bytes in reads of {size}", p.in_pieces("page", pieces), text)
    for number in range(5 if few else 30 * p.scale):
        page = by_chance(random.Random(f"{p.seed} {number}"))
        same(f"page {number} of seed {p.seed}", page, graymap(page))
    if not few:
        # wrong.py would hold all of it
        with open("/dev/zero", "rb") as zeros:
            same("an input without end", zeros.fileno(), b"10\n")


def printed(t, what, ended, due):
    """The program printed just this; where one pixel is another, that pixel is told."""

    def show():
        at = next((at for at, (got, wanted) in enumerate(zip(ended.out, due)) if got != wanted), 0)
        if at < len(HEAD):
            return ended.show()
        row, column = divmod(at - len(HEAD), 160)
        return f"{ended.show()}: {ended.out[at]} at column {column} of row {row}, in place of {due[at]}"

    t.check(f"page: {what}", ended.status == 0 and not ended.said and ended.out == due, show)


# ---- the command


class Desk(commands.Desk):
    command, program, what = "page", "page", "page"
    plain, other = "pgm", "ppm"
    refused = bytes(4095)
    cause = b"no picture: bad.page is refused, 10: it has 4,095 bytes; a page has 4,096"
    cause_typed = b"no picture: standard input is refused, 10: it has 4,095 bytes; a page has 4,096"
    unlike = b"what page prints is no graymap of 160 by 144 pixels"

    @staticmethod
    @functools.lru_cache(maxsize=None)
    def due():
        picture = graymap(sample("page"))
        return picture, picture, of_graymap(picture, "png")


def carrying(t, p, few=False, parts=None):
    """What bin/page draws, from what, to what; what it refuses, and what it leaves as it was. parts: these functions alone."""
    at_desk(Desk, t, p, (older, links, failing, endings, folders, descriptors, names, devices, lengths, inputs, forms, usage), parts)


def lengths(d):
    """A page of another length: the number and the length are told, and no picture is touched or made."""
    write(d.at("there.png"))
    for at, (size, words) in enumerate(LENGTHS):
        write(d.at(f"size{size}"), bytes(size))
        said = f"page: no picture: size{size} is refused, 10: {words}\n".encode()
        ended = d.draw(f"size{size}", ("there.png", "made.png")[at % 2])
        kept = read(d.at("there.png")) == b"kept" and not os.path.exists(d.at("made.png"))
        d.check(f"{size} bytes", ended.status == 1 and ended.said == said and not ended.out and kept, ended.show)


def inputs(d):
    """Standard input, pipes and devices."""
    for what, given, stdin, said in (
        ("/dev/stdin", "/dev/stdin", d.given, None),
        ("a longer standard input", "-", d.given + b"more", "standard input is refused, 10: it has 4,100 bytes; a page has 4,096"),
        ("a device without end", "/dev/zero", b"", f"/dev/zero is refused, 10: {LONGER}"),
        ("an empty device", "/dev/null", b"", f"/dev/null is refused, 10: {LENGTHS[0][1]}"),
    ):
        drawn(d, what, d.draw(given, "-", stdin=stdin), said)
    with tempfile.TemporaryFile() as file:
        file.write(b"12345" + d.given)
        for at, said in ((5, None), (4, "standard input is refused, 10: it has 4,097 bytes; a page has 4,096")):
            file.seek(at)
            drawn(d, f"from byte {at} of a file", d.draw("-", "-", stdin=file.fileno()), said)
    os.mkfifo(d.at("pipe"))
    for data, said in ((d.given, None), (d.given + b"\0", f"pipe is refused, 10: {LONGER}")):
        with fed(d.at("pipe"), data):
            drawn(d, f"a pipe of {len(data)} bytes", d.draw("pipe", "-"), said)


def drawn(d, what, ended, said):
    """The sample's picture is on standard output, or this was said."""
    well = ended.out == d.flat and ended.status == 0 and not ended.said if said is None else d.said_once(ended, 1, said.encode())
    d.check(what, well, ended.show)


def forms(d):
    """A PNG has the pixels of the graymap, and both are what the program makes of the page."""
    write(d.at("noise"), by_chance(random.Random(d.p.seed)))
    for name in (d.good, "noise"):
        due = graymap(read(d.at(name)))
        flat, png = d.draw(name, "-"), d.draw("--png", name, "-")
        d.check(f"the graymap of {name}", flat.out == due and flat.status == 0, flat.show)
        d.check(f"the PNG of {name}", decoded(png.out) == (160, 144, 1, due[len(HEAD) :]) and png.status == 0, png.show)


def usage(d):
    example = b"no page given: bin/page [--png | --pgm] PAGE PICTURE, as bin/page samples/dusk.page dusk.pgm"
    for words, said in (((), example), ((d.good,), b"usage: bin/page"), ((d.good, "a.png", "b.png"), b"usage: bin/page"), (("--png",), example)):
        ended = d.draw(*words)
        d.check(f"bad usage: {len(words)} words", d.said_once(ended, 2, said), ended.show)
    ended = d.draw("--png", "--pgm", d.good, "a")
    d.check("two forms", d.said_once(ended, 2, b"--pgm and --png don't go together"), ended.show)
    ended = d.draw(d.good, "a.ppm")
    d.check("another command's form", d.said_once(ended, 2, b"a.ppm ends in no picture format that this writes: .png or .pgm"), ended.show)
