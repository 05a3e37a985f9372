"""A saved block by its name, and the verdict of the program `check` on it."""

import os
import re

import faults
import program
import sized
from talk import Failed

VERDICT = re.compile(rb"(valid)\n|(\d+)(?: at (\d+))?\n")


class NoBytes(Exception):
    """There is nothing to judge, and why."""


def taken(name, closed):
    """The first bytes of the file of that name, or of standard input for -, and how many it has: None where that was not looked for."""
    if name == "-" and 0 in closed:
        raise NoBytes("standard input is closed")
    fd = None
    try:
        fd = 0 if name == "-" else os.open(name, os.O_RDONLY | os.O_CLOEXEC)
        return sized.taken(fd, faults.BLOCK)
    except OSError as why:
        raise NoBytes(unread(why))
    finally:
        if fd:
            os.close(fd)


def unread(why):
    if isinstance(why, FileNotFoundError):
        return "no such file"
    return "a folder, and no block" if isinstance(why, IsADirectoryError) else f"can't be read: {why.strerror}"


def judged(words, name, data):
    """The program's verdict: 0 for a valid block, or a refusal's number; and the offset that comes with it, or None."""
    printed = program.printed(words, name, data)
    verdict = VERDICT.fullmatch(printed)
    if not verdict:
        raise Failed(1, f"what the program {name} prints is no verdict: {printed[:40]!r}")
    return (0, None) if verdict[1] else (int(verdict[2]), int(verdict[3]) if verdict[3] else None)


def told(number, offset, data, size):
    """The line of a file, without its name."""
    if number == 0:
        return "valid"
    if number == 1:
        return f"1: {sized.length(size, faults.BLOCK, 'block')}"
    if offset is None or not 21 <= number <= 26 or offset >= len(data):
        return f"{number}" if offset is None else f"{number} at {offset}"
    return f"{number} at {offset}: {faults.rule(number, offset, data)}"
