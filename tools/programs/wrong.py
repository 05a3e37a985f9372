#!/usr/bin/env python3
"""wrong.py FAULT COMMAND..: stands in for a program that has a fault. COMMAND runs the true program; the fault is in what it is given,
in what comes of it, or in how this script reads and writes. The tests must fail on each: see FAULTS in main.py."""

import os
import re
import subprocess
import sys
import time

fault, command = sys.argv[1], sys.argv[2:]


def read_all():
    text, reads = bytearray(), 0
    while True:
        try:
            part = os.read(0, 65536)
        except OSError as why:
            if fault == "reads-unseen":
                return bytes(text)
            sys.exit(f"read: {why.strerror}")
        reads += 1
        if not part or (fault == "first-read-alone" and reads > 1):
            return bytes(text)
        # a byte is lost where the second read begins
        text += part[1:] if fault == "seam" and reads == 2 else part


def write_on(lines):
    """Says that a write failed, and goes on with the next."""
    for line in lines:
        while line:
            try:
                line = line[os.write(1, line) :]
            except OSError as why:
                print(f"write: {why.strerror}", file=sys.stderr)
                break


def write_all(text):
    if fault == "writes-on":
        return write_on(text.splitlines(keepends=True))
    while text:
        try:
            done = os.write(1, text)
        except OSError as why:
            if fault == "writes-unseen":
                return
            while fault == "spins":
                time.sleep(0.01)
            sys.exit(f"write: {why.strerror}")
        text = b"" if fault == "short-write" else text[done:]


def given(log):
    """The log as the faulty program takes it."""
    lines = log.split(b"\n")
    if fault == "last-line-lost":
        lines[-1] = b""
    if fault == "empty-end" and not lines[-1]:
        lines.append(b"")
    if fault == "cr":
        lines = [line[:-1] if line.endswith(b"\r") else line for line in lines]
    if fault == "blanks":
        lines = [line.strip(b" ") or line for line in lines]
    if fault == "lower-case":
        lines = [b"z" if re.search(rb"[a-f]", line) else line for line in lines]
    if fault == "writes-5761":
        lines = [line[:11522] if line.startswith(b"01") and len(line) == 11524 else line for line in lines]
    if fault == "screen-5759":
        lines = [line + b"00" if line.startswith(b"02") and len(line) == 11520 else line for line in lines]
    if fault == "goes-on":
        whole = re.compile(rb"01(?:[0-9A-Fa-f]{2}){0,5760}|02(?:[0-9A-Fa-f]{2}){5760}")
        lines = [line for line in lines if whole.fullmatch(line)]
    if fault == "up-to-the-fault":
        digits = [re.match(rb"(?:[0-9A-Fa-f]{2})*", line).group() for line in lines]
        lines = [d if d.startswith(b"01") and len(d) <= 11522 else line for d, line in zip(digits, lines)]
    if fault == "long-taken":
        return log[:30020]
    if fault == "long-page":
        return log[:4096]
    if fault == "short-page":
        return log.ljust(4096, b"\0")
    if fault == "planes-swapped":
        return bytes(log[at ^ 1] if at ^ 1 < len(log) else 0 for at in range(len(log)))
    if fault == "bits-turned":
        return bytes(int(f"{byte:08b}"[::-1], 2) for byte in log)
    if fault == "sixteen-a-row":
        # as far as a page has tiles for that
        tiles = [log[at : at + 16] for at in range(0, len(log), 16)]
        return b"".join(tiles[at // 20 * 16 + at % 20] if at % 20 < 16 else bytes(16) for at in range(len(tiles)))
    return b"\n".join(lines)


def printed(text):
    """What the faulty program makes of the true one's text."""
    lines = text.splitlines(keepends=True)
    if fault == "no-block" or fault == "row-lost":
        lines = lines[:-1]
    if fault == "commands-lost":
        lines = [line for line in lines if len(line) <= 27 or len(line) > 1000]
    if fault == "small-digits":
        lines = [line if line.startswith(b"line") else line.lower() for line in lines]
    if fault == "from-0":
        lines = [re.sub(rb"line (\d+)", lambda m: b"line %d" % (int(m[1]) - 1), line) for line in lines]
    if fault == "no-refusals":
        lines = [line for line in lines if not line.startswith(b"line")]
    if fault == "fifteen-bits":
        lines = [re.sub(rb"([89A-F])(...)", lambda m: b"%X" % (int(m[1], 16) - 8) + m[2], line) if len(line) > 1000 else line for line in lines]
    if fault == "all-valid":
        lines = [b"valid\n"]
    if fault == "next-offset":
        lines = [re.sub(rb"at (\d+)", lambda m: b"at %d" % (int(m[1]) + 1), line) for line in lines]
    if fault == "no-offset":
        lines = [re.sub(rb" at \d+", b"", line) for line in lines]
    if fault == "greys-turned" and text.startswith(b"P5"):
        return text[:15] + bytes(255 - grey for grey in text[15:])
    if fault == "others-black" and text.startswith(b"P5"):
        return text[: 15 + 104 * 160] + bytes(40 * 160)
    if fault == "one-line-head":
        return text.replace(b"P5\n160 144\n255\n", b"P5 160 144 255\n")
    if fault == "no-lf":
        lines[-1:] = [line[:-1] for line in lines[-1:]]
    return b"".join(lines)


if fault == "reader-gone":
    # ends without a word where nobody reads
    import signal

    signal.signal(signal.SIGPIPE, lambda *_: os._exit(0))
write_all(printed(subprocess.run(command, input=given(read_all()), stdout=subprocess.PIPE).stdout))
