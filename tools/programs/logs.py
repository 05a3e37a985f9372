"""Random logs, well-formed and damaged, by a seed. The pulses and pages of commands are those of tools/sample."""

import os
import random
import sys

sys.path.insert(0, os.path.join(os.path.dirname(os.path.abspath(__file__)), "..", "sample"))

from packets import page_screen, pulses

MOST_WRITES = SCREEN = 5760
TRANSFERS = (0x0B, 0x13, 0x14, 0x15)


def count_of(first):
    """The packets of a command by its first byte; one for a count of 0, which the receiver drops."""
    return 1 if first >> 3 >= 0x1E else max(1, first & 7)


def command(rng, first):
    """A command's bytes after its first: noise, or small numbers as games send them."""
    size = 16 * count_of(first)
    if rng.random() < 0.5:
        rest = [rng.randrange(256) for _ in range(size - 1)]
    else:
        rest = [rng.choice((0, 1, 2, 3, 4, 7, 9, 17, 18, 19, 20, 0x40, 0x80, rng.randrange(256))) for _ in range(size - 1)]
    return bytes((first, *rest))


def faulty(rng, writes):
    """A pulse lost, doubled, changed or put in, or the rest cut off."""
    at = rng.randrange(len(writes))
    fault = rng.randrange(5)
    if fault == 0:
        return writes[:at] + writes[at + 1 :]
    if fault == 1:
        return writes[:at] + writes[at : at + 1] + writes[at:]
    if fault == 2:
        return writes[:at] + bytes((writes[at] ^ rng.choice((0x10, 0x20, 0x30)),)) + writes[at + 1 :]
    if fault == 3:
        return writes[:at] + bytes((rng.choice((0x00, 0x10, 0x20, 0x30)),)) + writes[at:]
    return writes[: at + 1]


def some_writes(rng, first):
    """Writes of a line: whole commands, one of them by its first byte, commands with faults, lines at random, a game that polls."""
    parts = [pulses(command(rng, first))]
    for _ in range(rng.randrange(3)):
        kind = rng.randrange(4)
        if kind == 0:
            parts.append(bytes(rng.randrange(256) for _ in range(rng.randrange(400))))
        elif kind == 1:
            parts.append(bytes((0x20, 0x30, 0x10, 0x30)) * rng.randrange(1, 60))
        else:
            sent = pulses(command(rng, rng.randrange(256)))
            parts.append(faulty(rng, sent) if kind == 2 else sent)
    rng.shuffle(parts)
    writes = b"".join(parts)[:MOST_WRITES]
    if rng.random() < 0.2:
        # the other six bits of a write count for nothing
        noise = rng.randrange(256) & 0xCF
        writes = bytes(w | noise for w in writes)
    return writes


def screen(rng):
    kind = rng.randrange(3)
    if kind == 0:
        return bytes((rng.choice((0x00, 0x1B, 0xE4, 0xFF, rng.randrange(256))),)) * SCREEN
    if kind == 1:
        return page_screen(page(rng))
    return rng.randbytes(SCREEN)


def page(rng):
    """4,096 bytes to transfer; half of them are a border's map that mostly draws."""
    if rng.random() < 0.5:
        return rng.randbytes(4096)
    words = [rng.randrange(8) << 13 | rng.randrange(4, 7) << 10 | rng.randrange(256) for _ in range(1024)]
    return b"".join(w.to_bytes(2, "little") for w in words) + rng.randbytes(2048)


def spelled(rng, kind, data):
    """A line: upper case, lower case, or both mixed."""
    text = (bytes((kind,)) + data).hex()
    case = rng.randrange(3)
    if case == 0:
        return text.encode()
    return (text.upper() if case == 1 else "".join(rng.choice((c, c.upper())) for c in text)).encode()


def well_formed(rng, first):
    """Lines that are lines of a log: writes, now and then a transfer with as many screens as it needs, or one fewer or more."""
    lines = [spelled(rng, 1, some_writes(rng, first))]
    for _ in range(rng.randrange(4)):
        lines.append(spelled(rng, 1, some_writes(rng, rng.randrange(256))))
    for _ in range(rng.choice((0, 0, 1, 1, 2, 3))):
        asked = command(rng, rng.choice(TRANSFERS) << 3 | 1)
        lines.append(spelled(rng, 1, pulses(asked)))
        lines += [spelled(rng, 2, screen(rng)) for _ in range(rng.choice((2, 3, 3, 3, 4)))]
    if rng.random() < 0.3:
        lines.insert(rng.randrange(len(lines) + 1), spelled(rng, 2, screen(rng)))
    if rng.random() < 0.2:
        lines.insert(rng.randrange(len(lines) + 1), b"01")
    if rng.random() < 0.1:
        writes = bytes(rng.choice((0x00, 0x10, 0x20, 0x30)) for _ in range(MOST_WRITES))
        lines.append(spelled(rng, 1, writes))
    return lines


# The bytes on either side of each run of digits, blanks, and those that are no ASCII.
NO_DIGITS = b"/:@G`g \t\r\v\f\0x-\x7f\x80\xa0\xb0\xc3\xff"


def damaged_line(rng):
    """A line that is refused, whatever its kind."""
    line = spelled(rng, 1, some_writes(rng, rng.randrange(256)))
    kind = rng.randrange(14)
    if kind == 0:
        return b""
    if kind == 1:
        return line[:-1]  # an odd number of digits
    if kind == 2:
        return line + b"\r"
    if kind == 3:
        return b" " + line
    if kind == 4:
        return line + rng.choice((b" ", b"\t", b"  "))
    if kind == 5:
        at = rng.randrange(len(line))
        return line[:at] + bytes((rng.choice(NO_DIGITS),)) + line[at + 1 :]
    if kind == 6:
        at = rng.randrange(len(line) + 1)
        return line[:at] + bytes((rng.choice(NO_DIGITS),)) * 2 + line[at:]
    if kind == 7:
        return spelled(rng, 1, rng.randbytes(MOST_WRITES + 1))
    if kind == 8:
        return spelled(rng, 2, rng.randbytes(SCREEN + rng.choice((-1, 1, -SCREEN, -17, 400))))
    if kind == 9:
        return spelled(rng, rng.choice((0, 3, 4, 0x10, 0x11, 0x20, 0x30, 0x81, 0xFF)), rng.choice((rng.randbytes(SCREEN), b"", b"\0\x30\x20")))
    if kind == 10:
        return rng.choice((b"0", b"1", b"2", b"01z", b"z", b"0x01", b"01,30", b"#", b"line 1: 7"))
    if kind == 11:
        return spelled(rng, rng.choice((1, 2)), rng.randbytes(rng.choice((5761, 5762, 8192, 16384, 32768, 40000, 65536))))
    if kind == 12:
        return spelled(rng, 2, rng.randbytes(SCREEN))[:-1] + bytes((rng.choice(NO_DIGITS),))
    return rng.randbytes(rng.randrange(1, 300)).replace(b"\n", b".") + b"g"


def log(seed, number):
    """Log `number` of a seed. Its first writes have a command whose first byte is the number's low eight bits, so that 256 logs have
    every code with every count. Two of three are well-formed."""
    rng = random.Random(f"{seed}/{number}")
    lines = well_formed(rng, number & 255)
    if number % 3 == 2:
        for _ in range(rng.randrange(1, 5)):
            lines.insert(rng.randrange(len(lines) + 1), damaged_line(rng))
    text = b"\n".join(lines)
    # the last line may lack its LF; one LF more is an empty line, which is refused
    return text + rng.choice((b"\n", b"\n", b"", b"\n\n" if number % 3 == 2 else b"\n"))
