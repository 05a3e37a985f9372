"""Suites on saved blocks: the program check on good and damaged ones, and bin/check on many files at once. The blocks and the answers are
written down here from RULES 1.4 to 1.13, and `broken` is a second reading of the rules, for damage by chance."""

import contextlib
import os
import random
import struct
import sys
import tempfile
import threading

from commands import NOBODY, ROOT, side_by_side, write
from failures import one_message, with_descriptor

sys.path.insert(0, os.path.join(ROOT, "tools", "commands"))

import faults

SIZE = 30020
FROZEN = 14180


def post_boot():
    block = bytearray(SIZE)
    block[3] = block[4] = block[9] = 1
    block[144:152] = struct.pack("<4H", 0x67BF, 0x265B, 0x10B5, 0x2866)
    block[274:4370] = struct.pack("<4H", 0x7FFF, 0x56B5, 0x294A, 0) * 512
    return block


def made(changes):
    """The block after boot with these bytes in their places."""
    block = post_boot()
    for at, what in changes.items():
        part = bytes([what]) if isinstance(what, int) else what
        block[at : at + len(part)] = part
    return bytes(block)


# A packet of which 12 bits are in; the first of two packets in, the next awaited or coming; a freeze; no preset.
RECEIVING = {5: 1, 8: 12, 16: b"\xff\x0f"}
STORED = b"\x22" + bytes(range(1, 16))
AWAITING = {5: 2, 6: 2, 7: 1, 32: STORED}
LATER = {**AWAITING, 5: 1, 8: 3, 16: 7}
FREEZE = {0: 1, 12: 1, FROZEN: b"\x1b" * 5760}
PLAIN = {9: 0, 144: bytes(8)}

GOOD = {
    "zeros": {3: 0, 4: 0, **PLAIN},
    "after boot": {},
    "P15 alone is high": {4: 0},
    "receiving": RECEIVING,
    "a whole packet": {5: 1, 8: 128, 16: b"\xff" * 16},
    "no bit yet": {5: 1},
    "awaiting": AWAITING,
    "a later packet": LATER,
    "six of seven packets": {5: 2, 6: 7, 7: 6, 32: b"\x47" + b"\xff" * 95},
    "frozen": FREEZE,
    "frozen and shown": {**FREEZE, 0: 0},
    "an empty freeze": {0: 1, 12: 1},
    "black": {0: 2},
    "backdrop": {0: 3},
    "four pads": {1: 3, 2: 3},
    "a transfer": {10: 3, 11: 4},
    "another transfer": {10: 1, 11: 0},
    "no preset": PLAIN,
    "any palettes, map, files, screen and border": {152: b"\xff" * 8268, 8420: b"\xe4" * 5760, 19940: b"\xa5" * 10080},
}

IDLE = "; the receiver is idle (byte 5 is 0)"
COMING = "; the receiver is receiving a packet (byte 5 is 1)"
FIRST = "; no packet is in (byte 7 is 0)" + COMING
WAITS = "; the receiver is awaiting a packet (byte 5 is 2)"
PACKET, STORE = "the current packet, bytes 16 to 31, must be 0", "the packet store, bytes 32 to 143, must be 0"
SPARE, CAPTURE = "the unused bytes, 13 to 15, must be 0", "the frozen capture, bytes 14180 to 19939, must be 0"
PRESET, NO_PRESET = "the preset, bytes 144 to 151, must be 0", "; it is not in force (byte 9 is 0)"
NO_FREEZE = "; there is none (byte 12 is 0)"

# What is damaged, the line of the program, and the words of bin/check behind it: every part of every rule.
DAMAGED = (
    ({0: 4}, "21 at 0", "the mask mode at byte 0 (hex 0) is over 3: it is 4"),
    ({1: 1}, "21 at 1", "the joypad index at byte 1 (hex 1) has a bit that the joypad mask at byte 2 has not: they are 1 and 0"),
    ({1: 3, 2: 2}, "21 at 1", "the joypad index at byte 1 (hex 1) has a bit that the joypad mask at byte 2 has not: they are 3 and 2"),
    ({1: 2, 2: 4}, "21 at 1", "the joypad index at byte 1 (hex 1) has a bit that the joypad mask at byte 2 has not: they are 2 and 4"),
    ({2: 4}, "21 at 2", "the joypad mask at byte 2 (hex 2) is over 3: it is 4"),
    ({1: 255, 2: 255}, "21 at 2", "the joypad mask at byte 2 (hex 2) is over 3: it is 255"),
    ({0: 255, 1: 1, 2: 9}, "21 at 0", "the mask mode at byte 0 (hex 0) is over 3: it is 255"),
    ({3: 2}, "22 at 3", 'the P15-high flag at byte 3 (hex 3) is neither 0 nor 1: it is 2'),
    ({3: 0}, "22 at 3", 'the P15-high flag at byte 3 (hex 3) is 0, while the both-high flag at byte 4 is 1'),
    ({4: 2}, "22 at 4", 'the both-high flag at byte 4 (hex 4) is neither 0 nor 1: it is 2'),
    ({9: 2}, "22 at 9", 'the preset-in-force flag at byte 9 (hex 9) is neither 0 nor 1: it is 2'),
    ({12: 255}, "22 at 12", 'the frozen-present flag at byte 12 (hex C) is neither 0 nor 1: it is 255'),
    ({13: 1}, "22 at 13", f"{SPARE}: byte 13 (hex D) is 1"),
    ({14: 7, 15: 1}, "22 at 14", f"{SPARE}: byte 14 (hex E) is 7"),
    ({15: 255}, "22 at 15", f"{SPARE}: byte 15 (hex F) is 255"),
    ({5: 3}, "23 at 5", "the receiver at byte 5 (hex 5) is over 2: it is 3"),
    ({5: 200, 6: 1, 8: 200, 16: 1}, "23 at 5", "the receiver at byte 5 (hex 5) is over 2: it is 200"),
    ({6: 1}, "23 at 6", f'the number of packets expected at byte 6 (hex 6) is not 0: it is 1{IDLE}'),
    ({7: 1, 8: 1}, "23 at 7", f'the number of packets received at byte 7 (hex 7) is not 0: it is 1{IDLE}'),
    ({8: 1}, "23 at 8", f"the bit index at byte 8 (hex 8) is not 0: it is 1{IDLE}"),
    ({16: 1}, "23 at 16", f"{PACKET}: byte 16 (hex 10) is 1{IDLE}"),
    ({24: 9}, "23 at 24", f"{PACKET}: byte 24 (hex 18) is 9{IDLE}"),
    ({31: 128}, "23 at 31", f"{PACKET}: byte 31 (hex 1F) is 128{IDLE}"),
    ({32: 34}, "23 at 32", f"{STORE}: byte 32 (hex 20) is 34{IDLE}"),
    ({100: 1}, "23 at 100", f"{STORE}: byte 100 (hex 64) is 1{IDLE}"),
    ({143: 1}, "23 at 143", f"{STORE}: byte 143 (hex 8F) is 1{IDLE}"),
    ({5: 1, 8: 129}, "23 at 8", f"the bit index at byte 8 (hex 8) is over 128: it is 129{COMING}"),
    ({5: 1, 8: 200, 20: 1}, "23 at 8", f"the bit index at byte 8 (hex 8) is over 128: it is 200{COMING}"),
    ({5: 1, 16: 1}, "23 at 16", f"{PACKET} from bit 0 on, which is the bit index at byte 8: byte 16 (hex 10) is 1{COMING}"),
    ({**RECEIVING, 17: 31}, "23 at 17", f"{PACKET} from bit 12 on, which is the bit index at byte 8: byte 17 (hex 11) is 31{COMING}"),
    ({**RECEIVING, 31: 1}, "23 at 31", f"{PACKET} from bit 12 on, which is the bit index at byte 8: byte 31 (hex 1F) is 1{COMING}"),
    ({**RECEIVING, 6: 1}, "23 at 6", f'the number of packets expected at byte 6 (hex 6) is not 0: it is 1{FIRST}'),
    ({**RECEIVING, 32: 34}, "23 at 32", f"{STORE}: byte 32 (hex 20) is 34{FIRST}"),
    ({**RECEIVING, 143: 1}, "23 at 143", f"{STORE}: byte 143 (hex 8F) is 1{FIRST}"),
    ({**LATER, 8: 129}, "23 at 8", f"the bit index at byte 8 (hex 8) is over 128: it is 129{COMING}"),
    ({**LATER, 16: 8}, "23 at 16", f"{PACKET} from bit 3 on, which is the bit index at byte 8: byte 16 (hex 10) is 8{COMING}"),
    ({**LATER, 7: 2}, "23 at 6", f'the number of packets expected at byte 6 (hex 6) is 2, and must be over the number of packets received at byte 7, which is 2{COMING}'),
    ({**LATER, 6: 3}, "23 at 6", f'the number of packets expected at byte 6 (hex 6) is 3, and must be the count in the store\'s first byte, byte 32 (hex 20), which is 2{COMING}'),
    ({**LATER, 32: 0xF2}, "23 at 6", f'the number of packets expected at byte 6 (hex 6) is 2, and must be the count in the store\'s first byte, byte 32 (hex 20), which is 1{COMING}'),
    ({**LATER, 48: 1}, "23 at 48", f"{STORE} from byte 48 on, behind the 1 packet received at byte 7: byte 48 (hex 30) is 1{COMING}"),
    ({**AWAITING, 8: 1}, "23 at 8", f"the bit index at byte 8 (hex 8) is not 0: it is 1{WAITS}"),
    ({**AWAITING, 16: 1}, "23 at 16", f"{PACKET}: byte 16 (hex 10) is 1{WAITS}"),
    ({**AWAITING, 31: 1}, "23 at 31", f"{PACKET}: byte 31 (hex 1F) is 1{WAITS}"),
    ({**AWAITING, 7: 0}, "23 at 7", f'the number of packets received at byte 7 (hex 7) is 0, and must be 1 or more{WAITS}'),
    ({5: 2}, "23 at 6", f'the number of packets expected at byte 6 (hex 6) is 0, and must be over the number of packets received at byte 7, which is 0{WAITS}'),
    (
        {**AWAITING, 6: 9},
        "23 at 6",
        f'the number of packets expected at byte 6 (hex 6) is 9, and must be at most 7 and the count in the store\'s first byte, byte 32 (hex 20), which is 2{WAITS}',
    ),
    ({**AWAITING, 48: 1}, "23 at 48", f"{STORE} from byte 48 on, behind the 1 packet received at byte 7: byte 48 (hex 30) is 1{WAITS}"),
    ({**AWAITING, 90: 1}, "23 at 90", f"{STORE} from byte 48 on, behind the 1 packet received at byte 7: byte 90 (hex 5A) is 1{WAITS}"),
    (
        {5: 2, 6: 7, 7: 6, 32: b"\x47", 143: 1},
        "23 at 143",
        f"{STORE} from byte 128 on, behind the 6 packets received at byte 7: byte 143 (hex 8F) is 1{WAITS}",
    ),
    ({10: 4}, "24 at 10", "the countdown at byte 10 (hex A) is over 3: it is 4"),
    ({10: 255, 11: 9}, "24 at 10", "the countdown at byte 10 (hex A) is over 3: it is 255"),
    ({11: 1}, "24 at 11", "the transfer's kind at byte 11 (hex B) is not 0: it is 1; no transfer is pending (byte 10 is 0)"),
    ({10: 1, 11: 5}, "24 at 11", "the transfer's kind at byte 11 (hex B) is over 4: it is 5"),
    ({9: 0}, "25 at 144", f"{PRESET}: byte 144 (hex 90) is 191{NO_PRESET}"),
    ({**PLAIN, 148: 2}, "25 at 148", f"{PRESET}: byte 148 (hex 94) is 2{NO_PRESET}"),
    ({**PLAIN, 151: 1}, "25 at 151", f"{PRESET}: byte 151 (hex 97) is 1{NO_PRESET}"),
    ({0: 1}, "26 at 0", "the mask mode at byte 0 (hex 0) is 1, frozen, and there is no frozen capture (byte 12 is 0)"),
    ({**FREEZE, 0: 2}, "26 at 0", "the mask mode at byte 0 (hex 0) is 2, black, and there is a frozen capture (byte 12 is 1)"),
    ({**FREEZE, 0: 3}, "26 at 0", "the mask mode at byte 0 (hex 0) is 3, backdrop, and there is a frozen capture (byte 12 is 1)"),
    ({FROZEN: 1}, "26 at 14180", f"{CAPTURE}: byte 14180 (hex 3764) is 1{NO_FREEZE}"),
    ({17000: 27}, "26 at 17000", f"{CAPTURE}: byte 17000 (hex 4268) is 27{NO_FREEZE}"),
    ({19939: 1}, "26 at 19939", f"{CAPTURE}: byte 19939 (hex 4DE3) is 1{NO_FREEZE}"),
    # the first rule is told, whatever the others are
    ({0: 4, 15: 1, 5: 3, 10: 4, 19939: 1}, "21 at 0", "the mask mode at byte 0 (hex 0) is over 3: it is 4"),
    ({15: 1, 5: 3, 0: 1}, "22 at 15", f"{SPARE}: byte 15 (hex F) is 1"),
    ({143: 1, 10: 4, 0: 1}, "23 at 143", f"{STORE}: byte 143 (hex 8F) is 1{IDLE}"),
    ({11: 1, 9: 0, 0: 1}, "24 at 11", "the transfer's kind at byte 11 (hex B) is not 0: it is 1; no transfer is pending (byte 10 is 0)"),
    ({9: 0, 0: 1}, "25 at 144", f"{PRESET}: byte 144 (hex 90) is 191{NO_PRESET}"),
)
# Files of another length, and what bin/check says of them.
LENGTHS = (
    (0, "it is empty; a block has 30,020 bytes"),
    (1, "it has 1 byte; a block has 30,020"),
    (30019, "it has 30,019 bytes; a block has 30,020"),
    (30021, "it has 30,021 bytes; a block has 30,020"),
    (30132, "it has 30,132 bytes; a block has 30,020"),
    (100000, "it has 100,000 bytes; a block has 30,020"),
)


# ---- a second reading of V1 to V6


def broken(b):
    """The number of the first broken rule and the lowest offset that breaks it, or None."""
    for number, parts in enumerate((one(b), two(b), three(b), four(b), five(b), six(b)), 21):
        if parts:
            return number, min(parts)
    return None


def one(b):
    return [at for at, wrong in ((0, b[0] > 3), (1, b[1] & ~b[2]), (2, b[2] > 3)) if wrong]


def two(b):
    return [at for at in (3, 4, 9, 12) if b[at] > 1] + [3] * (b[4] == 1 and b[3] != 1) + some(b, 13, 16)


def some(b, start, end):
    """Those of these bytes that are not zero."""
    return [at for at in range(start, end) if b[at]]


def three(b):
    if b[5] > 2:
        return [5]
    if b[5] == 0:
        return some(b, 6, 9) + some(b, 16, 144)
    if b[5] == 2:
        return some(b, 8, 9) + some(b, 16, 32) + more(b)
    packet = int.from_bytes(b[16:32], "little") >> min(b[8], 128) << min(b[8], 128)
    past = [16 + at for at, byte in enumerate(packet.to_bytes(16, "little")) if byte]
    return [8] * (b[8] > 128) + past + (more(b) if b[7] else some(b, 6, 7) + some(b, 32, 144))


def more(b):
    count = b[32] & 7 if b[32] < 0xF0 else 1
    return [7] * (b[7] == 0) + [6] * (b[7] >= b[6] or b[6] > 7 or b[6] != count) + some(b, min(32 + 16 * b[7], 144), 144)


def four(b):
    if b[10] > 3:
        return [10]
    return [11] * (b[11] != 0 if b[10] == 0 else b[11] > 4)


def five(b):
    return some(b, 144, 152) if b[9] == 0 else []


def six(b):
    allowed = {0: (0, 1), 1: (1,), 2: (0,), 3: (0,)}[b[0] & 3]
    return [0] * (b[12] not in allowed) + (some(b, FROZEN, FROZEN + 5760) if b[12] == 0 else [])


def line_of(block):
    """What the program is to print."""
    found = broken(block) if len(block) == SIZE else (1,)
    return "valid" if found is None else " at ".join(map(str, found))


def by_chance(rng):
    """A good block of any class, with one, two or many bytes damaged."""
    block = bytearray(made(rng.choice(list(GOOD.values()))))
    ends = (6, 7, 8, 16, 24, 31, 32, 47, 48, 49, 100, 143, 144, 151, FROZEN, 17000, 19939)
    for _ in range(rng.choice((0, 1, 1, 1, 2, 2, 9, 40))):
        at = rng.choice((rng.randrange(16), rng.choice(ends), rng.randrange(16, 152), rng.randrange(SIZE)))
        block[at] = rng.choice((0, 1, 2, 3, 4, 5, 7, 8, 127, 128, 129, 255, rng.randrange(256)))
    return bytes(block)


# ---- the program


def blocks(t, p, few=False):
    """The program on good and damaged blocks, on any length, and where it can't read or write."""
    same = lambda what, data, line: t.same(f"check: {what}", p.run("check", data), f"{line}\n".encode())
    for size in (0, 1, 16, 1023, 30019, 30021, 30022, 60040):
        same(f"{size} bytes", bytes(size), "1")
    same("a block with a line's end behind it", made({}) + b"\n", "1")
    writings(t, p)
    readings(t, p)
    for what, changes in GOOD.items():
        same(what, made(changes), "valid")
    for changes, line, _ in DAMAGED:
        same(f"{line}, {shown(changes)}", made(changes), line)
    for number in range(100 if few else 400 * p.scale):
        block = by_chance(random.Random(f"{p.seed} {number}"))
        same(f"damaged block {number} of seed {p.seed}", block, line_of(block))


def shown(changes):
    return " ".join(f"{at}={what}" if isinstance(what, int) else f"{at}.." for at, what in changes.items())


def readings(t, p):
    """Input that can't be read, however it is cut, and without an end."""
    good, bad = made({}), made({19939: 1})
    clear = lambda what, ended: t.check(f"check: {what}", ended.said.startswith(b"read: ") and not ended.out, ended.show)
    with_descriptor(lambda fd: clear("input is a folder", p.run("check", fd)), "/", os.O_RDONLY)
    with_descriptor(lambda fd: clear("input is for writing", p.run("check", fd)), os.devnull, os.O_WRONLY)
    clear("input is closed", p.run("check", None))
    ours, theirs = os.pipe()
    os.set_blocking(ours, False)
    os.write(theirs, good[:20000])
    clear("a read fails after some bytes", p.run("check", ours))
    os.close(ours)
    os.close(theirs)
    for size in (100, 999, 1000, 16384, 30019, 30020):
        for block, line in ((good, b"valid\n"), (bad, b"26 at 19939\n"), (bad + b"\0", b"1\n")):
            pieces = [block[at : at + size] for at in range(0, len(block), size)]
            t.same(f"check: {len(block)} bytes in reads of {size}", p.in_pieces("check", pieces), line)
    with open("/dev/zero", "rb") as zeros:
        t.same("check: an input without end", p.run("check", zeros.fileno()), b"1\n")


def writings(t, p):
    block, line = made({19939: 1}), b"26 at 19939\n"
    clear = lambda what, ended: t.check(f"check: {what}", ended.failed_clearly() and line.startswith(ended.out) and ended.out != line, ended.show)
    clear("output is closed", p.run("check", block, stdout="closed"))
    with_descriptor(lambda fd: clear("output is full", p.run("check", block, stdout=fd)), "/dev/full", os.O_WRONLY)
    for room in (1, len(line) - 1):
        ended = p.run("check", block, settings=[f"room{room}"])
        t.check(f"check: room for {room} bytes", ended.failed_clearly() and ended.out == line[:room], ended.show)
    ours, theirs = os.pipe()
    os.close(ours)
    clear("nobody reads", p.run("check", block, stdout=theirs, settings=["deaf"]))
    os.close(theirs)


# ---- the command


class Shelf:
    """A folder with every block of the tables above, and the lines that are due of them."""

    def __init__(self, t, p, folder):
        self.t, self.p, self.folder = t, p, folder
        os.chmod(folder, 0o755)
        self.lines = {}
        for at, changes in enumerate(GOOD.values()):
            self.put(f"good{at}", made(changes), "valid")
        for at, (changes, line, words) in enumerate(DAMAGED):
            self.put(f"bad{at}", made(changes), f"{line}: V{int(line[:2]) - 20}: {words}")
        for size, words in LENGTHS:
            self.put(f"size{size}", bytes(size), f"1: {words}")
        self.good = [name for name, line in self.lines.items() if line == "valid"]

    def put(self, name, data, line):
        write(os.path.join(self.folder, name), data)
        self.lines[name] = line

    def check(self, *words, **how):
        return self.p.bin("check", *words, cwd=self.folder, **how)

    def due(self, *names, **other):
        """The lines of these names. other: of names that are in no table."""
        return b"".join(os.fsencode(f"{name}: {other.get(name) or self.lines[name]}\n") for name in names)

    def told(self, what, ended, out, status):
        """Just these lines, this status, and no other word."""
        self.t.check(f"bin/check: {what}", ended.out == out and ended.status == status and not ended.said, lambda: f"{ended.show()} in place of {out[:300]!r}")

    def failed(self, what, ended, status, *parts):
        self.t.check(f"bin/check: {what}", one_message("check", ended, status, *parts), ended.show)


def checking(t, p, few=False, parts=None):
    """A line a file, its words, and what else bin/check may be given. parts: these functions alone."""
    every = (many, unread, oddly, inputs, usage, outputs, failing, chances)
    with tempfile.TemporaryDirectory() as folder:
        shelf = Shelf(t, p, folder)
        side_by_side([part for part in every if parts is None or part.__name__ in parts], shelf)


def many(s):
    s.told("every block at once", s.check(*s.lines), s.due(*s.lines), 1)
    s.told("all of them valid", s.check(*s.good), s.due(*s.good), 0)
    back = list(reversed(s.good))
    s.told("in the order given, one of them again", s.check(*back, back[0]), s.due(*back, back[0]), 0)
    for name in ("good0", "bad0", "size1"):
        s.told(f"{name} alone", s.check(name), s.due(name), 0 if name == "good0" else 1)
    s.told("a refused one first", s.check("bad0", "good0"), s.due("bad0", "good0"), 1)
    s.told("500 files", s.check(*["good0", "bad3"] * 250), s.due("good0", "bad3") * 250, 1)


def unread(s):
    os.mkdir(os.path.join(s.folder, "room"))
    os.symlink("nowhere", os.path.join(s.folder, "lost"))
    os.symlink("round", os.path.join(s.folder, "round"))
    other = {"none": "no such file", "room": "a folder, and no block", "lost": "no such file", "good0/x": "can't be read: Not a directory"}
    other["round"] = "can't be read: Too many levels of symbolic links"
    for name in other:
        s.told(f"{name} alone", s.check(name), s.due(name, **other), 1)
        s.told(f"{name} between others", s.check("good0", name, "bad0", "good1"), s.due("good0", name, "bad0", "good1", **other), 1)
    s.told("a name of nothing", s.check("", "good0"), b"'': no such file\n" + s.due("good0"), 1)
    if os.geteuid() == 0:
        how = {"user": NOBODY, "group": NOBODY, "extra_groups": [], "env": {"PATH": "/usr/bin:/bin"}}
    else:
        how = {}
    write(os.path.join(s.folder, "shut"), made({}), 0o000)
    with contextlib.suppress(OSError):
        if s.check("--version", **how).status == 0:
            return s.told("a file that is closed to us", s.check("shut", **how), b"shut: can't be read: Permission denied\n", 1)
    s.t.left_out("a block that is closed to us: nobody can't run bin/check here")


def oddly(s):
    """Names that begin with -, and names that are no text."""
    odd = os.fsdecode(b"caf\xe9 \n$(x)\xff")
    other = {name: "valid" for name in ("-x", "--help", odd, "a: b")}
    for name in other:
        write(os.path.join(s.folder, name), made({}))
    s.told("-- before names", s.check("good0", "--", "-x", "--help"), s.due("good0", "-x", "--help", **other), 0)
    s.told("./-x", s.check("./-x"), b"./-x: valid\n", 0)
    s.told("a name with a blank, a line's end and bytes that are no text", s.check(odd, "a: b"), s.due(odd, "a: b", **other), 0)
    s.failed("-x is no option", s.check("good0", "-x"), 2, b"no option -x")


def inputs(s):
    """Standard input, pipes and devices."""
    bad = made({8: 200, 5: 1})
    line = "23 at 8: V3: the bit index at byte 8 (hex 8) is over 128: it is 200; the receiver is receiving a packet (byte 5 is 1)"
    longer = "1: it has more than the 30,020 bytes of a block"
    other = {"-": line, "/dev/zero": longer, "/dev/null": "1: it is empty; a block has 30,020 bytes"}
    s.told("standard input", s.check("-", stdin=bad), s.due("-", **other), 1)
    s.told("standard input among files, behind --", s.check("good0", "--", "-", "good1", stdin=bad), s.due("good0", "-", "good1", **other), 1)
    s.told("/dev/stdin", s.check("/dev/stdin", stdin=made({})), b"/dev/stdin: valid\n", 0)
    s.told("devices, one without end", s.check("/dev/zero", "/dev/null", "good0"), s.due("/dev/zero", "/dev/null", "good0", **other), 1)
    s.failed("- twice", s.check("-", "good0", "-", stdin=bad), 2, b"- is given twice")
    s.told("standard input is closed", s.check("-", "good0", stdin=None), b"-: standard input is closed\n" + s.due("good0"), 1)
    ended = s.check("-", "good0", stdin=bad + b"more")
    s.told("a longer standard input", ended, b"-: 1: it has 30,024 bytes; a block has 30,020\n" + s.due("good0"), 1)
    with tempfile.TemporaryFile() as file:
        file.write(b"12345" + made({}))
        for at, due in ((5, b"-: valid\n"), (4, b"-: 1: it has 30,021 bytes; a block has 30,020\n")):
            file.seek(at)
            s.told(f"from byte {at} of a file", s.check("-", stdin=file.fileno()), due, 0 if at == 5 else 1)
    pipe = os.path.join(s.folder, "pipe")
    os.mkfifo(pipe)
    for data, due in ((made({}), "valid"), (bad, line), (bad + b"\0", longer)):
        with fed(pipe, data):
            s.told(f"a pipe, {due}", s.check("pipe", "good0"), s.due("pipe", "good0", pipe=due), 0 if due == "valid" else 1)


@contextlib.contextmanager
def fed(path, data):
    """Writes to a named pipe, at another's side."""

    def give():
        with contextlib.suppress(OSError):
            write(path, data)

    thread = threading.Thread(target=give, daemon=True)
    thread.start()
    yield
    thread.join(20)


def usage(s):
    s.failed("no name", s.check(), 2, b"no block given: bin/check BLOCK..")
    s.failed("no such option", s.check("--all", "good0"), 2, b"no option --all")
    ended = s.check("good0", "--help")
    s.t.check("bin/check: --help behind a name", ended.status == 0 and ended.out.startswith(b"usage: bin/check BLOCK..") and not ended.said, ended.show)


def outputs(s):
    s.failed("standard output is closed", s.check("good0", stdout="closed"), 1, b"standard output is closed")
    with open("/dev/full", "wb") as full:
        s.failed("standard output is full", s.check("good0", "bad0", stdout=full), 1, b"write: No space left")
    ours, theirs = os.pipe()
    os.close(ours)
    s.failed("nobody reads", s.check("good0", "bad0", stdout=theirs), 1, b"nobody reads")
    os.close(theirs)
    # the limit is on every file, and so on what is said too
    ended = s.check("good0", "bad0", settings=["room16"])
    s.t.check("bin/check: room for 16 bytes", ended.status == 1 and ended.out == s.due("good0", "bad0")[:16] and ended.said, ended.show)


def failing(s):
    """A program that can't be run, ends badly, says a word, or tells no verdict."""
    script = os.path.join(s.folder, "stand-in")
    write(script, b"#!/bin/sh\ncat >/dev/null\n" + b'eval "$DOES"\n', 0o755)
    for what, env, said in (
        ("no such program", {"CHECK": os.path.join(s.folder, "nothing")}, b"can't be run"),
        ("it says a word", {"CHECK": script, "DOES": "echo read: it broke >&2"}, b"check: read: it broke"),
        ("a signal ends it", {"CHECK": script, "DOES": "kill -TERM $$"}, b"SIGTERM"),
        ("a status", {"CHECK": script, "DOES": "exit 3"}, b"status 3"),
        ("no verdict", {"CHECK": script, "DOES": "echo perhaps"}, b"no verdict"),
        ("nothing at all", {"CHECK": script, "DOES": "true"}, b"no verdict"),
    ):
        ended = s.check("good0", "good1", env=env)
        one = ended.said.startswith(b"check: ") and ended.said.count(b"\n") == 1 and said in ended.said
        s.t.check(f"bin/check: {what}", ended.status not in (0, None) and one and not ended.out, ended.show)
    # a verdict that the words don't know is told as it is
    for verdict, due in (("27 at 5", "27 at 5"), ("4", "4"), ("23 at 9", "23 at 9: V3: byte 9 (hex 9) is 1"), ("22 at 5", "22 at 5: V2: byte 5 (hex 5) is 0")):
        ended = s.check("good1", env={"CHECK": script, "DOES": f"echo {verdict}"})
        s.told(f"another verdict, {verdict}", ended, f"good1: {due}\n".encode(), 1)


def chances(s):
    """Damage by chance: words are found for every verdict, and name its byte."""
    for number in range(100 * s.p.scale):
        block = by_chance(random.Random(f"{s.p.seed} {number}"))
        found = broken(block)
        if found:
            words, (rule, at) = faults.rule(*found, block), found
            named = f"byte {at} (hex {at:X})" in words and str(block[at]) in words and len(words) > len(f"V{rule - 20}: byte {at} (hex {at:X}) is 255")
            s.t.check(f"bin/check: words for damaged block {number} of seed {s.p.seed}", named, lambda: words)
