"""The shared object: where it is, the calls of include/sporedrift.h, and what their answers mean."""

from __future__ import annotations

import ctypes
import operator
import os
import sys
from pathlib import Path
from typing import Any, Iterator, List, Optional, Union

from ._fields import field_text

# The library that this module is written for: its first two numbers have to be these.
MAJOR, MINOR = 0, 4

NAMES = (f"libsporedrift.so.{MAJOR}.{MINOR}", "libsporedrift.so")
WHAT_TO_DO = (
    "In the repository of Sporedrift run tools/export/lib, which makes it; or install it with tools/install PREFIX and set "
    "SPOREDRIFT_LIB to PREFIX/lib."
)

#: What can be lent as bytes: bytes, bytearray, memoryview and all else that has a buffer.
BytesLike = Union[bytes, bytearray, memoryview]


class Refusal(ValueError):
    """A call refused what it was given, and nothing has changed.

    `number` is the refusal's number: 1 the block's length, 3 the screen, 4 a place or a shade, 5 the command, 6 the output, 7 a line of a
    log, 8 a span of a state, 9 a cell of a state, 10 the page; 21 to 26 the first of the rules V1 to V6 that the block breaks, or the block
    that a state would become.
    `offset` is the lowest byte of the block that breaks that rule, and None for every other refusal; `field_text` names what stands there.
    `line` is the number of the refused line, from 1, where a whole log was given.
    """

    WORDS = {
        1: "the block is not 30,020 bytes",
        3: "the screen is not 5,760 bytes",
        4: "there is no such column, row, tile or shade",
        5: "the command is empty, or is not as long as its first byte tells",
        6: "the output is short",
        7: "the text is no line of a log",
        8: "a span of the state is missing, or is not as long as it must be",
        9: "a cell of the state's attribute map or files is over 3",
        10: "the page is not 4,096 bytes",
        **{20 + rule: f"rule V{rule} is broken" for rule in range(1, 7)},
    }

    def __init__(self, number: int, line: Optional[int] = None, offset: Optional[int] = None) -> None:
        self.number = number
        self.line = line
        self.offset = offset
        where = "" if line is None else f"line {line}: "
        byte = "" if offset is None else f" at byte {offset} (0x{offset:X}), {field_text(offset)}"
        super().__init__(f"{where}{self.WORDS.get(number, 'the library refuses')}{byte} (refusal {number})")

    def __reduce__(self) -> Any:
        return type(self), (self.number, self.line, self.offset)


# ---- the shared object


def places() -> Iterator[Path]:
    """The files that may be the shared object, the nearest first."""
    here = Path(__file__).resolve()
    top = here.parents[3] if len(here.parents) > 3 else here.parent
    if (top / "crates.txt").is_file():
        yield top / "target" / "export" / "libsporedrift.so"
    folders = [folder for folder in here.parents if folder.name in ("lib", "lib64")]
    for folder in [*folders, Path(sys.prefix) / "lib", Path(sys.prefix) / "lib64"]:
        yield from (folder / name for name in NAMES)


def found() -> List[str]:
    """What to hand to the system's loader, the best first."""
    named = os.environ.get("SPOREDRIFT_LIB")
    if not named:
        return [str(file) for file in places() if file.is_file()] + list(NAMES)
    folder = Path(named)
    files = [folder] if not folder.is_dir() else [folder / name for name in NAMES]
    files = [file for file in files if file.is_file()]
    if not files:
        raise ImportError(f"SPOREDRIFT_LIB is {named}, and no libsporedrift.so is there. {WHAT_TO_DO}")
    return [str(files[0].resolve())]


def load() -> ctypes.CDLL:
    """The shared object. ImportError if there is none, or if it is of another version."""
    said = []
    for file in found():
        try:
            # PyDLL: no other thread runs Python meanwhile, so that no two calls work on one block
            library = ctypes.PyDLL(file)
        except OSError as why:
            said.append(str(why))
            continue
        checked(library, file)
        return library
    files = [line for line in said if not line.startswith(tuple(NAMES))]
    more = f" ({'; '.join(files)})" if files else ""
    raise ImportError(f"the shared object libsporedrift.so is not found{more}. {WHAT_TO_DO}")


def checked(library: ctypes.CDLL, file: str) -> None:
    try:
        version = library.sporedrift_version
    except AttributeError:
        raise ImportError(f"{file} does not tell its version: it is none of ours, or too old. {WHAT_TO_DO}") from None
    version.restype, version.argtypes = ctypes.c_uint32, ()
    major, minor, patch = numbers(version())
    if (major, minor) != (MAJOR, MINOR):
        raise ImportError(f"{file} is version {major}.{minor}.{patch}, and this module needs {MAJOR}.{MINOR}. {WHAT_TO_DO}")


def numbers(answer: int) -> List[int]:
    return [answer >> 24 & 0xFF, answer >> 16 & 0xFF, answer >> 8 & 0xFF]


_library = load()


def call(name: str, *kinds: Any) -> Any:
    function = getattr(_library, "sporedrift_" + name)
    function.restype, function.argtypes = ctypes.c_uint32, kinds
    return function


def library_version() -> str:
    """The version of the shared object."""
    return ".".join(map(str, numbers(_version())))


# Bytes go as c_void_p, which takes a bytes object as it stands. A block is always an array of ours.
_BYTES, _SIZE, _BYTE = ctypes.c_void_p, ctypes.c_size_t, ctypes.c_uint8
_BLOCK = (_BYTES, _SIZE)

_version = call("version")
new = call("new", *_BLOCK)
post_boot = call("post_boot", *_BLOCK)
check = call("check", *_BLOCK)
from_spans = call("from_spans", *_BLOCK, _BYTES, _SIZE, ctypes.c_uint16, *(_BYTES, _SIZE) * 12)
to_spans = call("to_spans", *_BLOCK, _BYTES, _SIZE, *(_BYTES, _SIZE) * 12)
write_joypad = call("write_joypad", *_BLOCK, _BYTE, _BYTES, _SIZE)
play = call("play", *_BLOCK, _BYTES, _SIZE, _BYTES, _SIZE)
update_screen = call("update_screen", *_BLOCK, _BYTES, _SIZE)
mask_mode = call("mask_mode", *_BLOCK)
backdrop = call("backdrop", *_BLOCK)
color_at = call("color_at", *_BLOCK, _SIZE, _SIZE, _BYTE)
map_entry = call("map_entry", *_BLOCK, _SIZE, _SIZE)
border_color_at = call("border_color_at", *_BLOCK, _SIZE, _SIZE)
row = call("row", *_BLOCK, _SIZE, _BYTES, _SIZE)
picture = call("picture", *_BLOCK, _BYTES, _SIZE)
to_rgb8 = call("to_rgb8", ctypes.c_uint16)
displayed_screen = call("displayed_screen", _BYTES, _SIZE, _BYTES, _SIZE, _BYTE)
tile = call("tile", _BYTES, _SIZE, _SIZE)
encode = call("encode", _BYTES, _SIZE, _BYTES, _SIZE)
verdict = call("verdict", _BYTES, _SIZE)
page_screen = call("page_screen", _BYTES, _SIZE, _BYTES, _SIZE)
parse_line = call("parse_line", _BYTES, _SIZE, _BYTES, _SIZE)


# ---- answers, and what is handed over

NONE = 0x80


def optional(answer: int) -> Optional[int]:
    """An answer's value, or None. Refusal if it is one: its number is in the low byte, and where a rule is broken the offset above it."""
    number = answer & 0x7F
    if number:
        raise Refusal(number, offset=answer >> 8 if 21 <= number <= 26 else None)
    return None if answer == NONE else answer >> 8


def value(answer: int) -> int:
    """The value of an answer that is never none."""
    told = optional(answer)
    assert told is not None
    return told


def octets(data: BytesLike) -> bytes:
    """What is lent, as bytes. A number or a text is none."""
    return data if isinstance(data, bytes) else memoryview(data).tobytes()


def place(number: int, most: int) -> int:
    """A number for the library, which refuses one that is too large; it would lose the high bits of what does not fit."""
    number = operator.index(number)
    return number if 0 <= number < most else most
