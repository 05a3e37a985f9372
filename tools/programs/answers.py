"""Suites on what the programs print: fixed forms, the sample, random logs, input in pieces and cut short."""

import os
import re
import struct
import subprocess
import tempfile
import zlib
from concurrent.futures import ThreadPoolExecutor

import logs
from packets import pulses

HEAD = b"00000001010000000001000000\n"
BLANK = (b"67BF" * 256 + b"\n") * 224
MASK_BLACK = bytes((0xB9, 0x02)).ljust(16, b"\0")


def hexed(data):
    return data.hex().upper().encode()


def forms():
    """Logs and what `replay` prints of them, read off RULES 8 and 10.2."""
    black = hexed(b"\x01" + pulses(MASK_BLACK))
    refused = lambda *numbers: b"".join(b"line %d: 7\n" % n for n in numbers)
    yield "RULES 8.5: 01003020", b"01003020", b"00000001000100000101000000\n"
    yield "RULES 10.2: B9 02", black, hexed(MASK_BLACK) + b"\n02000001010000000001000000\n"
    yield "B9 02 with LF", black + b"\n", hexed(MASK_BLACK) + b"\n02000001010000000001000000\n"
    yield "nothing", b"", HEAD
    yield "one LF", b"\n", refused(1) + HEAD
    yield "two LF", b"\n\n", refused(1, 2) + HEAD
    yield "no writes", b"01", HEAD
    yield "no writes, LF", b"01\n", HEAD
    yield "no writes, twice", b"01\n01", HEAD
    yield "an empty line between", b"01\n\n01\n", refused(2) + HEAD
    yield "an empty line at the end", b"01\n\n", refused(2) + HEAD
    for odd in (b"0", b"1", b"010", b"0100302", b"01003020 ", b" 01003020", b"01 003020", b"01003020\r", b"\t01", b"01\0", b"0x01"):
        yield f"refused: {odd!r}", odd, refused(1) + HEAD
        yield f"refused with LF, then a line: {odd!r}", odd + b"\n01003020", refused(1) + b"00000001000100000101000000\n"
    for byte in b"/:@G`gz\x7f\x80\xb1\xff":
        yield f"no digit: {byte:02X}", b"0100" + bytes((byte,)) + b"0", refused(1) + HEAD
        yield f"no digit, the second of a pair: {byte:02X}", b"01000" + bytes((byte,)), refused(1) + HEAD
    for kind in (0x00, 0x03, 0x0A, 0x10, 0x12, 0x20, 0x81, 0x82, 0xFF):
        yield f"first byte {kind:02X}", b"%02X" % kind, refused(1) + HEAD
        yield f"first byte {kind:02X} with 5,760 more", b"%02X" % kind + b"00" * 5760, refused(1) + HEAD
    yield "5,760 writes", b"01" + b"30" * 5760, HEAD
    yield "5,761 writes", b"01" + b"30" * 5761 + b"\n01", refused(1) + HEAD
    yield "5,760 writes, then a blank", b"01" + b"30" * 5760 + b" ", refused(1) + HEAD
    yield "5,760 writes and half a byte", b"01" + b"30" * 5760 + b"3", refused(1) + HEAD
    for size, text in ((5760, b""), (5759, refused(1)), (5761, refused(1)), (0, refused(1)), (5680, refused(1))):
        yield f"a screen of {size}", b"02" + b"1B" * size, text + HEAD
    # a refused line has no effect, though its start would begin a command
    yield "refused in its last digit", b"01003020z", refused(1) + HEAD
    yield "a command over two lines", black[:300] + b"\n01" + black[300:], hexed(MASK_BLACK) + b"\n02000001010000000001000000\n"
    for many in (9, 10, 99, 100, 999, 1000, 10000, 12345):
        yield f"{many} refused lines", b"\n" * many, refused(*range(1, many + 1)) + HEAD


def one_write(pair):
    """What `replay` prints after a single write, spelled by two digits: the two lines, and whether both low began a command."""
    value = int(pair, 16)
    p15, both, begun = value >> 5 & 1, value >> 4 & 3 == 3, value >> 4 & 3 == 0
    return b"000000%02X%02X%02X00000001000000\n" % (p15, both, begun)


def spellings(few):
    """Every pair of digits, of either case; for a faulty program a few of two equal digits."""
    digits = b"09afAF" if few else b"0123456789abcdefABCDEF"
    for first in digits:
        for second in bytes((first,)) if few else digits:
            pair = bytes((first, second))
            yield f"a write of {pair.decode()}", b"01" + pair, one_write(pair)


def fixed(t, p, few=False):
    t.same("plate: nothing", p.plate(b""), BLANK)
    t.same("plate: black behind the preset", p.plate(b"01" + hexed(pulses(MASK_BLACK))), masked())
    # the longest first: of the many short ones few show a fault, and each takes as long
    for name, log, text in sorted([*spellings(few), *forms()], key=lambda case: -len(case[1])):
        t.same(f"replay: {name}", p.replay(log), text)
        first = re.match(rb"line \d+: 7\n", text)
        if first:
            t.same(f"plate: {name}", p.plate(log), first.group())
    every_command(t, p)
    paper(t, p)


def every_command(t, p):
    """Every code with every count, one after another: each command is printed whole, unless its count is 0."""
    rng = logs.random.Random(1)
    sent = [logs.command(rng, first) for first in range(256)]
    due = b"".join(hexed(command) + b"\n" for first, command in enumerate(sent) if first >= 0xF0 or first & 7)
    ended = p.replay(b"\n".join(hexed(b"\x01" + pulses(command)) for command in sent))
    t.check("replay: every code with every count", ended.status == 0 and ended.out[:-27] == due, ended.show)


def paper(t, p):
    """The worked log of docs/LOG.md, and what the paper says that replay prints and bin/replay says of it."""
    with open(os.path.join(p.root, "docs", "LOG.md"), "rb") as file:
        parts = dict(re.findall(rb"(?ms)^```(\w+)\n(.*?)^```$", file.read()))
    t.check("docs/LOG.md has a log, an answer and what is said", set(parts) == {b"log", b"replay", b"said"} and len(parts[b"log"]) > 500)
    log, answer, said = (parts.get(kind, b"") for kind in (b"log", b"replay", b"said"))
    t.same("docs/LOG.md: replay", p.replay(log), answer)
    ended = p.bin("replay", stdin=log)
    t.check("docs/LOG.md: bin/replay", ended.out == answer and ended.said == said and ended.status == 0, ended.show)
    first = re.search(rb"(?m)^line \d+: 7\n", answer)
    t.same("docs/LOG.md: plate", p.plate(log), first.group() if first else b"")


def masked():
    """The blank plate with the game's screen black."""
    row = b"67BF" * 48 + b"0000" * 160 + b"67BF" * 48 + b"\n"
    return (b"67BF" * 256 + b"\n") * 40 + row * 144 + (b"67BF" * 256 + b"\n") * 40


def sample(t, p, few=False):
    read = lambda name: open(os.path.join(p.root, "samples", name), "rb").read()
    log, plate, replay, page = (read(f"dusk.{kind}") for kind in ("log", "plate", "replay", "page"))
    on_screens(t, p, "lower", page, log)
    t.same("dusk: replay", p.replay(log), replay)
    t.same("dusk: plate", p.plate(log), plate)
    t.same("dusk: bin/replay LOG", p.bin("replay", os.path.join(p.root, "samples", "dusk.log")), replay)
    t.same("dusk: bin/plate", p.bin("plate", stdin=log), plate)
    if p.oracle:
        t.same("dusk: the Rust's replay is the stored one", p.told("replay", log), replay)
        t.same("dusk: the Rust's plate is the stored one", p.told("plate", log), plate)
    if few:
        return
    with tempfile.TemporaryDirectory() as folder:
        make = lambda words: subprocess.run([os.path.join(p.root, "tools", "sample", "make"), *words], stdout=subprocess.PIPE).stdout
        with ThreadPoolExecutor(os.cpu_count()) as pool:
            printed, meant, _ = pool.map(make, ([], ["--plate"], ["--pages", folder]))
        pages = {name: open(os.path.join(folder, f"{name}.page"), "rb").read() for name in PAGES}
    t.check("dusk: tools/sample/make prints the stored log", printed == log)
    t.check("dusk: the plate is the picture that was meant", meant == plate)
    t.check("dusk: the kept page is the one that was meant", pages["lower"] == page)
    for name in sorted(set(PAGES) - {"lower"}):
        on_screens(t, p, name, pages[name], log)
    pixmap, png = pictures(t, p, "draw", "log", "ppm")
    t.check("bin/draw: a pixmap of its size", pixmap.startswith(b"P6\n256 224\n255\n") and len(pixmap) == 15 + 3 * 57344)
    if p.oracle:
        t.check("bin/draw: colours as the Rust's to_rgb8", p.told("ppm", log).out == pixmap)
    t.check("bin/draw: PNG and pixmap are one picture", decoded(png) == (256, 224, 3, pixmap[15:]))
    t.check("samples/dusk.png is that picture", decoded(read("dusk.png")) == (256, 224, 3, pixmap[15:]))
    graymap, png = pictures(t, p, "page", "page", "pgm")
    t.check("bin/page: the graymap is the program's", graymap == p.run("page", page).out)
    t.check("bin/page: PNG and graymap are one picture", decoded(png) == (160, 144, 1, graymap[15:]))
    t.check("samples/dusk-page.png is that picture", decoded(read("dusk-page.png")) == (160, 144, 1, graymap[15:]))


# The pages that the sample sends, in its order. Each is shown on three screens; before them there is one more, and one behind.
PAGES = ("palettes", "files", "lower", "upper", "map")


def on_screens(t, p, name, page, log):
    """A page of the sample: what the program page draws of it is on its three screens in the log."""
    screens = [bytes.fromhex(line[2:].decode()) for line in log.split(b"\n") if line.startswith(b"02")]
    at = 1 + 3 * PAGES.index(name)
    ended = p.run("page", page)
    well = ended.status == 0 and not ended.said and len(page) == 4096 and len(screens) == 2 + 3 * len(PAGES)
    well = well and all(ended.out == b"P5\n160 144\n255\n" + greys(screen) for screen in screens[at : at + 3])
    t.check(f"page: the sample's {name} page is on its screens", well, ended.show)


def greys(screen):
    """A packed screen, four pixels a byte and the first in the high bits, as a graymap has it."""
    return bytes(255 - 85 * (four >> two & 3) for four in screen for two in (6, 4, 2, 0))


def pictures(t, p, name, kind, plain):
    """What a command draws of the sample: the plain picture, and the PNG."""
    drawn = []
    with tempfile.TemporaryDirectory() as folder:
        for form in (plain, "png"):
            picture = os.path.join(folder, f"dusk.{form}")
            ended = p.bin(name, os.path.join(p.root, "samples", f"dusk.{kind}"), picture)
            t.check(f"bin/{name}: dusk.{form}", ended.status == 0 and os.path.exists(picture), ended.show)
            drawn.append(open(picture, "rb").read() if os.path.exists(picture) else b"")
    return drawn


def decoded(png):
    """Width, height, bytes a pixel and the pixels of a PNG as the commands write it, eight bits a part and rows unfiltered; None of any other."""
    chunks, at = [], 8
    while png.startswith(b"\x89PNG\r\n\x1a\n") and at < len(png):
        end = at + 8 + int.from_bytes(png[at : at + 4], "big")
        if zlib.crc32(png[at + 4 : end]) != int.from_bytes(png[end : end + 4], "big"):
            return None
        chunks.append((png[at + 4 : at + 8], png[at + 8 : end]))
        at = end + 4
    if [kind for kind, _ in chunks] != [b"IHDR", b"IDAT", b"IEND"]:
        return None
    width, height, depth, colour, *other = struct.unpack(">IIBBBBB", chunks[0][1])
    parts, rows = {0: 1, 2: 3}.get(colour, 0), zlib.decompress(chunks[1][1])
    row = 1 + width * parts
    if depth != 8 or not parts or any(other) or len(rows) != height * row or any(rows[::row]):
        return None
    return width, height, parts, b"".join(rows[at + 1 : at + row] for at in range(0, len(rows), row))


def chance(t, p, few=False):
    """Random logs, by both programs and by the Rust."""
    if not p.oracle:
        return t.left_out("random logs: the Rust is not at hand")

    def one(number):
        log = logs.log(p.seed, number)
        return number, log, [(name, p.run(name, log), p.told(name, log)) for name in ("replay", "plate")]

    with ThreadPoolExecutor(os.cpu_count()) as pool:
        for number, log, answers in pool.map(one, range(24 if few else 400 * p.scale)):
            for name, ended, told in answers:
                t.same(f"{name}: random log {number} of seed {p.seed} ({len(log)} bytes)", ended, told.out)


def small_log():
    """A few lines, among them refused ones, an empty one and a last one without LF."""
    return b"01003020\n01\n\n0130zz\n" + hexed(b"\x01" + pulses(MASK_BLACK)).lower() + b"\n02AB\n0120 \n01003010"


def pieces(t, p, few=False):
    """However the input is cut into reads, the answer is the same."""
    cut = lambda log, n: [log[at : at + n] for at in range(0, len(log), n)]
    small, dusk = small_log(), open(os.path.join(p.root, "samples", "dusk.log"), "rb").read()
    plain = hexed(b"\x01" + pulses(MASK_BLACK)) + b"\n01003020\n01003010"
    jobs = [(small, n, "replay") for n in (1, 2, 3, 4, 5, 7, 8, 11, 13, 16, 31, 61, 127, 255, 509)]
    jobs += [(plain, n, "plate") for n in (1, 2, 3, 7, 64)] + [(small, 1, "plate")]
    for n in () if few else (997, 2047, 2048, 4096, 8192, 11521, 11522, 11523, 11524, 65535, 65536):
        jobs += [(dusk, n, "replay"), (dusk, n, "plate")]
    for log, n, name in jobs:
        t.same(f"{name}: {len(log)} bytes, {n} at a time", p.in_pieces(name, cut(log, n)), p.told(name, log).out)


def short(t, p, few=False):
    """A log that stops anywhere, also in the middle of a line."""
    if not p.oracle:
        return t.left_out("logs cut short: the Rust is not at hand")
    log = b"01003020\n0130\n\n01z\n" + hexed(b"\x01" + pulses(MASK_BLACK))[:40] + b"\n01\n0110"
    for end in range(len(log) + 1):
        for name in ("replay", "plate"):
            t.same(f"{name}: the first {end} bytes", p.run(name, log[:end]), p.told(name, log[:end]).out)
    dusk = open(os.path.join(p.root, "samples", "dusk.log"), "rb").read()
    for end in () if few else range(1, len(dusk), 9973):
        for name in ("replay", "plate"):
            t.same(f"{name}: the sample's first {end} bytes", p.run(name, dusk[:end]), p.told(name, dusk[:end]).out)

