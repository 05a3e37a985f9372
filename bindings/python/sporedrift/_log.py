"""Logs: their lines, and the plate of a whole one."""

from __future__ import annotations

import ctypes
import enum
import io
import os
from typing import BinaryIO, Iterator, NamedTuple, Union

from . import _calls
from ._calls import BytesLike, Refusal, octets, value
from ._picture import Picture
from ._unit import Unit

# the most bytes of a line, and the most characters of one that can be taken: two for each byte and for the kind
_LINE = 5_760
_TEXT = 2 * (_LINE + 1)


class LineKind(enum.IntEnum):
    """What the bytes of a line are."""

    WRITES = 1
    SCREEN = 2


class Line(NamedTuple):
    """A line of a log: joypad writes for `Unit.play_all`, or a screen for `Unit.update_screen`."""

    kind: LineKind
    data: bytes


def parse_line(text: BytesLike) -> Line:
    """One line of a log, without the line feed that ends it. Refusal 7 if it is none."""
    lent = octets(text)
    room = (ctypes.c_uint8 * _LINE)()
    told = value(_calls.parse_line(lent, len(lent), room, _LINE))
    return Line(LineKind(told & 7), bytes(room[: told >> 3]))


def plate(log: Union[BytesLike, str, "os.PathLike[str]", BinaryIO]) -> Picture:
    """The picture at the end of a log, which starts from `Unit.post_boot`.

    The log is its bytes, the path of its file, or a file that is open for reading bytes. Refusal 7 at the first line that is none, with
    its number as `line`.
    """
    if isinstance(log, (str, os.PathLike)):
        with open(log, "rb") as file:
            return _played(file).picture()
    if hasattr(log, "readline"):
        return _played(log).picture()
    return _played(io.BytesIO(octets(log))).picture()


def _played(log: BinaryIO) -> Unit:
    unit = Unit.post_boot()
    for number, text in enumerate(_lines(log), 1):
        try:
            line = parse_line(text)
        except Refusal as refusal:
            raise Refusal(refusal.number, number, refusal.offset) from None
        if line.kind is LineKind.SCREEN:
            unit.update_screen(line.data)
        else:
            unit.play_all(line.data)
    return unit


def _lines(log: BinaryIO) -> Iterator[bytes]:
    """The lines, up to one that is too long for any: of that the first bytes, which are refused as the whole would be."""
    while True:
        text = log.readline(_TEXT + 2)
        if not text:
            return
        yield text[:-1] if text.endswith(b"\n") else text
