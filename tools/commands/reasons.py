"""Why a line of a log is refused. The verdict is the program's: what stands here only looks for the cause of a line that the program
refused, in memory that does not grow with the log or with the line. docs/LOG.md has the table of these causes."""

import operator
import os
import re

MOST_WRITES = SCREEN = 5760
LONGEST = 2 + 2 * 5760  # digits
DIGITS = b"0123456789ABCDEFabcdef"
NO_DIGIT = re.compile(rb"[^0-9A-Fa-f]")
KIND = operator.itemgetter(slice(2))
CHUNK = 1 << 18

# What a compressed file begins with.
PACKED = {
    b"\x1f\x8b": "gzip",
    b"\xfd7zXZ\0": "xz",
    b"\x28\xb5\x2f\xfd": "zstd",
    b"BZh": "bzip2",
    b"PK\x03\x04": "zip",
    b"\x04\x22\x4d\x18": "lz4",
    b"7z\xbc\xaf": "7z",
    b"\x1f\x9d": "compress",
}
UTF_16 = (b"\xff\xfe", b"\xfe\xff")
MARK = b"\xef\xbb\xbf"


class OfAll(str):
    """A cause that lies in the whole log: of the lines behind it nothing more is worth a word."""


def fits(kind, size):
    """Whether a line of so many digits, of which the first two are these, has the form of one."""
    return kind == b"02" and size == LONGEST or kind == b"01" and size <= LONGEST and size % 2 == 0


def all_fit(text, lines):
    """Whether all lines of a text of digits do: there are few sorts of them. Many short lines are mostly writes, and sooner told."""
    if len(lines) > 100 and text.startswith(b"01") and text.count(b"\n01") == len(lines) - 1:
        return all(fits(b"01", size) for size in set(map(len, lines)))
    return all(fits(*sort) for sort in set(zip(map(KIND, lines), map(len, lines))))


class Line:
    """What is known of one line, which comes in parts, without its LF."""

    def __init__(self, number):
        self.number, self.size, self.head, self.bad = number, 0, b"", None

    def feed(self, part, digits=False):
        """digits: that the part has nothing else is known."""
        if len(self.head) < 8:
            self.head += part[: 8 - len(self.head)]
        # taking all digits away is several times quicker than the search, which then finds one
        if self.bad is None and not digits and part.translate(None, DIGITS):
            at = NO_DIGIT.search(part).start()
            self.bad = self.size + at, part[at]
        self.size += len(part)

    def start_of_log(self):
        """The cause, where the log's first bytes tell it."""
        if self.number != 1:
            return None
        for start, tool in PACKED.items():
            if self.head.startswith(start):
                return OfAll(f"the log is compressed ({tool}); unpack it first")
        if self.head.startswith(UTF_16):
            return OfAll("the log is UTF-16 text; a log is plain ASCII text")
        return "it begins with a byte order mark; a log is plain ASCII text" if self.head.startswith(MARK) else None

    def settled(self):
        """Whether what is still to come of the line can't change the cause."""
        return self.bad is not None and self.bad[1] != 0x0D and len(self.head) == 8

    def reason(self):
        """The cause in a few words, or None for a line that has the form of one."""
        if self.size == 0:
            return "it is empty"
        return self.start_of_log() or self.no_digit() or self.no_event()

    def no_digit(self):
        if self.bad is None:
            return None
        at, byte = self.bad
        if byte == 0x0D and at + 1 == self.size:
            return "it has a carriage return at its end; a line ends in LF alone"
        if byte in b" \t":
            return f"it has a {'tab' if byte == 9 else 'blank'} at column {at + 1:,}"
        what = f"'{chr(byte)}'" if 0x20 < byte < 0x7F else f"the byte {byte:02X}"
        return f"{what} at column {at + 1:,} is no hexadecimal digit"

    def no_event(self):
        """What is wrong with a line of digits alone."""
        if self.size % 2:
            return f"it has an odd number of digits, {self.size:,}"
        kind, held = self.head[:2], self.size // 2 - 1
        if kind not in (b"01", b"02"):
            return f"its first byte is {kind.decode().upper()}; writes begin with 01, a screen with 02"
        if kind == b"02" and held != SCREEN:
            return f"it has a screen of {held:,} byte{'s' * (held != 1)}; a screen has {SCREEN:,}"
        if kind == b"01" and held > MOST_WRITES:
            return f"it has {held:,} writes; a line has at most {MOST_WRITES:,}"
        return None


class Reread:
    """The causes of lines of a file, which is read a second time up to the line that is asked for. Lines are asked for in order."""

    def __init__(self, fd, start):
        self.fd, self.at, self.number = fd, start, 1

    def part(self):
        return os.pread(self.fd, CHUNK, self.at)

    def reason(self, number):
        try:
            return self.cause(number)
        except OSError:
            return None

    def cause(self, number):
        # self.at is in line self.number, at its start unless that line was asked for
        while self.number < number:
            part = self.part()
            ends = part.count(b"\n")
            if not part:
                return None
            if self.number + ends < number:
                self.number, self.at = self.number + ends, self.at + len(part)
                continue
            end = -1
            while self.number < number:
                end = part.index(b"\n", end + 1)
                self.number += 1
            self.at += end + 1
        line = Line(number)
        while not line.settled():
            part = self.part()
            end = part.find(b"\n")
            line.feed(part if end < 0 else part[:end])
            if end >= 0 or not part:
                break
            self.at += len(part)
        return line.reason()


class Passing:
    """The causes of the first `most` lines that break the form, of a log that goes by and can't be read again."""

    def __init__(self, most):
        self.most, self.found, self.line = most, {}, Line(1)

    def full(self):
        return len(self.found) >= self.most

    def feed(self, part):
        if self.full():
            return
        digits = not part.translate(None, DIGITS + b"\n")
        start, end = part.find(b"\n"), part.rfind(b"\n")
        if start < 0:
            return self.line.feed(part, digits)
        self.line.feed(part[:start], digits)
        self.ended()
        self.line = Line(self.line.number + 1)
        if start < end:
            self.whole(part[start + 1 : end], digits)
        self.line.feed(part[end + 1 :], digits)

    def whole(self, text, digits):
        """Whole lines. Where all have the form of one, no line is looked at alone."""
        lines, number = text.split(b"\n"), self.line.number
        if digits and all_fit(text, lines):
            lines, number = (), number + len(lines)
        for line in lines:
            self.line = Line(number)
            self.line.feed(line, digits)
            self.ended()
            number += 1
        self.line = Line(number)

    def ended(self):
        reason = None if self.full() else self.line.reason()
        if reason:
            self.found[self.line.number] = reason

    def end(self):
        """The input has ended: a last line without LF is one if it is not empty."""
        if self.line.size:
            self.ended()

    def reason(self, number):
        return self.found.get(number)


class Refusals:
    """Watches what a program prints, finds its refused lines and tells the first `most` of them, each with its cause."""

    REFUSED = re.compile(rb"line (\d+): \d+")

    def __init__(self, causes, most, tell):
        self.causes, self.most, self.tell = causes, most, tell
        self.told, self.letters, self.rest = 0, 0, b""

    def feed(self, text):
        # no digit is an l, and each refusal has one
        self.letters += text.count(b"l")
        if self.told >= self.most or not (self.letters or self.rest):
            return
        *lines, rest = (self.rest + text).split(b"\n")
        self.rest = rest[:64]
        for line in lines:
            refused = self.REFUSED.fullmatch(line)
            if refused and self.told < self.most:
                self.told += 1
                cause = self.causes.reason(int(refused[1]))
                self.tell(int(refused[1]), cause)
                if isinstance(cause, OfAll):
                    self.most = self.told

    def more(self):
        """How many refused lines were not told."""
        return self.letters - self.told
