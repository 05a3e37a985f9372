"""States of the emulator."""

from __future__ import annotations

import ctypes
import operator
from dataclasses import dataclass
from typing import Any, Dict, Optional, Tuple

from . import _calls
from ._calls import BytesLike, octets, value

STATE_SPANS: Dict[str, int] = {
    "palettes": 32,
    "attribute_map": 360,
    "system_palettes": 4_096,
    "attribute_files": 16_200,
    "packet": 16,
    "packets": 112,
    "capture": 23_040,
    "frozen_capture": 23_040,
    "preset": 8,
    "border_tiles": 8_192,
    "border_map": 1_792,
    "border_palettes": 96,
}
"""The spans of a state, in their order: the name of each in the emulator's sgb/state.rs, without its sgb_, and the most bytes that it can
have. Only the packets can have fewer: 16 for each that is in."""

# as include/sporedrift.h has them
_STATE_FIELDS, _PACKET = 12, 16
_NUMBERS = ("mask", "joypad_index", "joypad_mask", "p15_high", "lines_high", "receiver", "packets_expected", "packets_received")
_NUMBERS += ("bit_index", "preset_in_force")
_FLAGS = ("p15_high", "lines_high", "preset_in_force")


@dataclass(repr=False)
class State:
    """A state of the emulator, missingno: the Super Game Boy's part of what it saves, as its sgb/state.rs lays it out. The names are that
    file's without their sgb_. `Unit.from_state` takes one up, `Unit.to_state` makes one.

    A span that is None is missing, which is not the same as empty: while no packet is in, `packets` is there and has no bytes. Colours and
    the border's map are words, the low byte first; maps have a byte a cell, captures a byte a pixel. `frozen_capture` may be missing, and
    so may `preset` where it is not in force. Where one of the border's three is missing, the border is empty.

    `transfer` is the emulator's two fields in one: the countdown and the number of the kind, or None. Where it is None, the emulator's
    record must have neither sgb_transfer_countdown nor sgb_transfer_kind: a countdown that is there and 0 is for the emulator a transfer,
    which lands at the next screen.
    """

    mask: int = 0
    joypad_index: int = 0
    joypad_mask: int = 0
    p15_high: bool = False
    lines_high: bool = False
    receiver: int = 0
    packets_expected: int = 0
    packets_received: int = 0
    bit_index: int = 0
    preset_in_force: bool = False
    transfer: Optional[Tuple[int, int]] = None
    palettes: Optional[BytesLike] = None
    attribute_map: Optional[BytesLike] = None
    system_palettes: Optional[BytesLike] = None
    attribute_files: Optional[BytesLike] = None
    packet: Optional[BytesLike] = None
    packets: Optional[BytesLike] = None
    capture: Optional[BytesLike] = None
    frozen_capture: Optional[BytesLike] = None
    preset: Optional[BytesLike] = None
    border_tiles: Optional[BytesLike] = None
    border_map: Optional[BytesLike] = None
    border_palettes: Optional[BytesLike] = None

    @property
    def spans(self) -> Dict[str, Optional[BytesLike]]:
        """The spans by name, in the order of `STATE_SPANS`."""
        return {name: getattr(self, name) for name in STATE_SPANS}

    def __repr__(self) -> str:
        told = [f"{name}={getattr(self, name)!r}" for name in (*_NUMBERS, "transfer")]
        told += [f"{name}={'None' if span is None else f'<{len(octets(span))} bytes>'}" for name, span in self.spans.items()]
        return f"State({', '.join(told)})"


def put(state: State, block: "ctypes.Array[ctypes.c_uint8]") -> None:
    """Writes a state into a block. Refusals 8, 9, 21 to 26."""
    countdown, kind = (0, 0) if state.transfer is None else state.transfer
    numbers = [(name, getattr(state, name)) for name in _NUMBERS] + [("transfer's countdown", countdown), ("transfer's kind", kind)]
    fields = bytes(_byte(name, number) for name, number in numbers)
    spans = [None if span is None else octets(span) for span in state.spans.values()]
    present = sum(1 << k for k, span in enumerate(spans) if span is not None)
    # a span that is missing goes as no bytes, which is not a NULL
    lent = [word for span in spans for word in (span or b"", len(span or b""))]
    value(_calls.from_spans(block, len(block), fields, len(fields), present, *lent))


def taken(block: "ctypes.Array[ctypes.c_uint8]") -> State:
    """The state that a valid block is."""
    fields = (ctypes.c_uint8 * _STATE_FIELDS)()
    room = [(ctypes.c_uint8 * most)() for most in STATE_SPANS.values()]
    lent = [word for span in room for word in (span, len(span))]
    present = value(_calls.to_spans(block, len(block), fields, len(fields), *lent))
    told: Dict[str, Any] = {name: bool(number) if name in _FLAGS else number for name, number in zip(_NUMBERS, fields)}
    countdown, kind = fields[len(_NUMBERS) :]
    told["transfer"] = (countdown, kind) if countdown else None
    told.update((name, bytes(span)) for k, (name, span) in enumerate(zip(STATE_SPANS, room)) if present >> k & 1)
    told["packets"] = told["packets"][: _PACKET * told["packets_received"]]
    return State(**told)


def _byte(name: str, number: int) -> int:
    number = operator.index(number)
    if not 0 <= number <= 255:
        raise ValueError(f"the {name} of a state is a byte, and not {number}")
    return number
