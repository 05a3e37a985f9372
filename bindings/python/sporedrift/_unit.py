"""The unit, and commands and pages as they are sent."""

from __future__ import annotations

import array
import ctypes
import enum
import operator
from typing import Any, List, NamedTuple, Optional, Tuple

from . import _calls, _state
from ._calls import BytesLike, octets, optional, place, value
from ._picture import HEIGHT, WIDTH, BorderMapEntry, Picture, Rgb555
from ._state import State

BLOCK = 30_020
"""The bytes of a unit's block, which is also its saved form."""
SCREEN = 5_760
"""The bytes of a screen: 144 rows of 160 shades, packed from the high bits down."""
PAGE = 4_096
"""The bytes of a page, which a game sends as a screen."""
COMMAND = 112
"""The bytes of the longest command: seven packets."""
PACKET = 16
"""The bytes of a packet."""
PACKET_WRITES = 260
"""The joypad writes that send one packet."""

# where bytes and parts stand in the block, as include/sporedrift.h has them
_JOYPAD_INDEX_AT, _JOYPAD_MASK_AT, _COUNTDOWN_AT, _TRANSFER_AT = 1, 2, 10, 11
_LIVE_AT, _FROZEN_AT, _TILES_AT, _TILES, _TILE = 8_420, 14_180, 19_940, 8_192, 32

_Block = ctypes.c_uint8 * BLOCK
_Command = ctypes.c_uint8 * COMMAND
# larger than any column or row, and than any shade
_PLACE, _SHADE = 1 << 31, 255


class MaskMode(enum.IntEnum):
    """What the screen's part of the picture shows, as the command MASK_EN sets it."""

    SHOWN = 0
    FROZEN = 1
    BLACK = 2
    BACKDROP = 3


class Transfer(enum.IntEnum):
    """What a screen brings to the unit when a transfer lands."""

    PALETTES = 0
    ATTRIBUTE_FILES = 1
    LOWER_TILES = 2
    UPPER_TILES = 3
    BORDER_MAP = 4


class Played(NamedTuple):
    """What `Unit.play` did: how many writes it took, and the command that the last of them completed."""

    taken: int
    command: Optional[bytes]


class Unit:
    """A unit and its whole state. Its block is always valid: two units are equal if their blocks are."""

    __slots__ = ("_block",)

    def __init__(self) -> None:
        """A fresh unit, as `Unit.new`."""
        self._block = _Block()
        value(_calls.new(self._block, BLOCK))

    # ---- making and saving

    @classmethod
    def new(cls) -> "Unit":
        """A fresh unit."""
        return cls()

    @classmethod
    def post_boot(cls) -> "Unit":
        """A fresh unit as the boot ROM leaves it. A log starts from this one."""
        unit = cls()
        value(_calls.post_boot(unit._block, BLOCK))
        return unit

    @classmethod
    def load(cls, saved: BytesLike) -> "Unit":
        """A unit that was saved. Refusal 1, or 21 to 26 with the offset, if these bytes are not the block of one."""
        block = octets(saved)
        value(_calls.check(block, len(block)))
        unit = cls()
        unit._block[:] = block
        return unit

    @classmethod
    def from_state(cls, state: State) -> "Unit":
        """A unit that the emulator saved. Refusal 8 if a span is missing or not as long as it must be, 9 if a cell of the attribute map or
        of an attribute file is over 3; 21 to 26, with the offset, of the block that it would become: the emulator takes states that no
        valid block can hold.

        Of a shade the low two bits are taken; beside a countdown of 0 a kind of 0 to 4 means nothing; a preset that is not in force is
        not looked at; and where one of the border's three spans is missing, the border is empty and the other two are not looked at.
        """
        unit = cls()
        _state.put(state, unit._block)
        return unit

    def to_state(self) -> State:
        """The unit as a state of the emulator. `Unit.from_state` makes the same unit of it."""
        return _state.taken(self._block)

    @property
    def block(self) -> bytes:
        """The unit's block, a copy: as it is saved, and to look at. `bytes(unit)` is the same."""
        return bytes(self._block)

    def __bytes__(self) -> bytes:
        return self.block

    def copy(self) -> "Unit":
        """Another unit with the same state."""
        return type(self).load(self.block)

    __copy__ = copy

    def __deepcopy__(self, memo: Any) -> "Unit":
        return self.copy()

    def __reduce__(self) -> Any:
        return type(self).load, (self.block,)

    def __eq__(self, other: Any) -> bool:
        return self.block == other.block if isinstance(other, Unit) else NotImplemented

    __hash__ = None  # type: ignore[assignment]

    def __repr__(self) -> str:
        return f"<Unit {self.mask_mode.name.lower()}, joypad index {self.joypad_index}, backdrop {self.backdrop!r}>"

    # ---- what the game does

    def write_joypad(self, value: int) -> Optional[bytes]:
        """A write to the joypad register, 0 to 255: the bytes of the command that it completes, which is carried out."""
        value = operator.index(value)
        if not 0 <= value <= 255:
            raise ValueError(f"a joypad write is a byte, and not {value}")
        command = _Command()
        packets = optional(_calls.write_joypad(self._block, BLOCK, value, command, COMMAND))
        return bytes(command[: PACKET * packets]) if packets else None

    def play(self, writes: BytesLike) -> Played:
        """Joypad writes in a row, up to and with the first that completes a command, which is carried out.

        It does what `write_joypad` does with one after the other, and is much quicker. What it did not take goes into the next call; of
        more than 1,048,576 writes it takes that many.
        """
        return self._play(octets(writes), 0)

    def play_all(self, writes: BytesLike) -> List[bytes]:
        """All of these joypad writes: the commands that they complete, in order, each of which is carried out."""
        lent, at, commands = octets(writes), 0, []
        while at < len(lent):
            taken, command = self._play(lent, at)
            at += taken
            if command is not None:
                commands.append(command)
        return commands

    def _play(self, writes: bytes, start: int) -> Played:
        """The writes from a place on, with no copy of them."""
        command = _Command()
        at = ctypes.cast(writes, ctypes.c_void_p).value
        assert at is not None
        told = value(_calls.play(self._block, BLOCK, at + start, len(writes) - start, command, COMMAND))
        packets = told & 7
        return Played(told >> 3, bytes(command[: PACKET * packets]) if packets else None)

    def update_screen(self, screen: BytesLike) -> Optional[Transfer]:
        """A screen that the game shows, 5,760 bytes: what it makes land, if anything. Refusal 3 for another length."""
        lent = octets(screen)
        kind = optional(_calls.update_screen(self._block, BLOCK, lent, len(lent)))
        return None if kind is None else Transfer(kind)

    # ---- what the unit shows

    @property
    def mask_mode(self) -> MaskMode:
        """What the screen's part of the picture shows."""
        return MaskMode(value(_calls.mask_mode(self._block, BLOCK)))

    @property
    def joypad_index(self) -> int:
        """Which pad the game reads next, from 0, as MLT_REQ and the polls leave it."""
        return self._block[_JOYPAD_INDEX_AT]

    @property
    def joypad_mask(self) -> int:
        """The bits that the index may have: 0 for one pad, 1 for two, 3 for four."""
        return self._block[_JOYPAD_MASK_AT]

    @property
    def pending(self) -> Optional[Tuple[int, Transfer]]:
        """The transfer that is pending, after the screen from now at which it lands: 1 is the next."""
        screens = self._block[_COUNTDOWN_AT]
        return (screens, Transfer(self._block[_TRANSFER_AT])) if screens else None

    @property
    def backdrop(self) -> Rgb555:
        """The colour of everything that nothing covers."""
        return Rgb555(value(_calls.backdrop(self._block, BLOCK)))

    def color_at(self, x: int, y: int, shade: int) -> Rgb555:
        """The colour of a shade (0 to 3) at column x (below 160) of row y (below 144) of the screen, whatever the mask. Refusal 4."""
        where = place(x, _PLACE), place(y, _PLACE), place(shade, _SHADE)
        return Rgb555(value(_calls.color_at(self._block, BLOCK, *where)))

    def map_entry(self, column: int, row: int) -> BorderMapEntry:
        """The border's map word at a column (below 32) of a row (below 28). Refusal 4."""
        return BorderMapEntry(value(_calls.map_entry(self._block, BLOCK, place(column, _PLACE), place(row, _PLACE))))

    def border_color_at(self, x: int, y: int) -> Optional[Rgb555]:
        """The border's colour at column x (below 256) of row y (below 224) of the picture; None where it is transparent. Refusal 4."""
        word = optional(_calls.border_color_at(self._block, BLOCK, place(x, _PLACE), place(y, _PLACE)))
        return None if word is None else Rgb555(word)

    @property
    def displayed_screen(self) -> bytes:
        """The capture that is displayed: the frozen one where the mask mode is frozen, else the live one."""
        live, frozen = (bytes(self._block[at : at + SCREEN]) for at in (_LIVE_AT, _FROZEN_AT))
        which = value(_calls.displayed_screen(live, SCREEN, frozen, SCREEN, self.mask_mode))
        return frozen if which == 1 else live

    def tile(self, n: int) -> bytes:
        """The 32 bytes of a tile of the border (0 to 255): 8 by 8 colour indices, in four bit planes. Refusal 4."""
        tiles = bytes(self._block[_TILES_AT : _TILES_AT + _TILES])
        start = optional(_calls.tile(tiles, _TILES, place(n, _PLACE)))
        if start is None:
            raise _calls.Refusal(4)
        return tiles[start : start + _TILE]

    def row(self, y: int) -> "array.array[int]":
        """The 256 colour words of row y (below 224) of the picture. Refusal 4."""
        words = (ctypes.c_uint16 * WIDTH)()
        value(_calls.row(self._block, BLOCK, place(y, _PLACE), words, WIDTH))
        return array.array("H", words)

    def picture(self) -> Picture:
        """The picture."""
        words = (ctypes.c_uint16 * (WIDTH * HEIGHT))()
        value(_calls.picture(self._block, BLOCK, words, len(words)))
        return Picture(array.array("H", bytes(words)))


def encode(command: BytesLike) -> bytes:
    """The joypad writes that send a command: 260 for each of its packets. Refusal 5 if its length is not what its first byte tells."""
    lent = octets(command)
    writes = (ctypes.c_uint8 * (PACKET_WRITES * COMMAND // PACKET))()
    return bytes(writes[: value(_calls.encode(lent, len(lent), writes, len(writes)))])


def verdict(command: BytesLike) -> bool:
    """Whether a command conforms to Pan Docs. Refusal 5 if its length is not what its first byte tells.

    It conforms exactly if its code is at most 19 hex; it has one packet, but ATTR_BLK (04) and ATTR_LIN (05) up to 7 and ATTR_CHR (07) up to
    6; and these three announce, sets or lines in byte 1, cells in the word at byte 3, at least one item and no more than their packets hold:

        packets             1    2    3    4    5    6    7
        sets  (ATTR_BLK)    2    5    7   10   13   15   18
        lines (ATTR_LIN)   14   30   46   62   78   94  110
        cells (ATTR_CHR)   40  104  168  232  296  360    -

    What the packets hold is asked since 0.4. A `Unit` does not look at the verdict: it takes the items that are announced, whatever their
    number, as far as the data reaches. Where a command conforms, these are all of them.

        >>> sporedrift.verdict(bytes([0x21, 18]) + bytes(14))  # eighteen sets in one packet
        False
        >>> sporedrift.verdict(bytes([0x27, 18]) + bytes(110))  # in seven
        True
    """
    lent = octets(command)
    return value(_calls.verdict(lent, len(lent))) == 1


def page_screen(page: BytesLike) -> bytes:
    """The screen that carries a page: what a game has to draw so that these 4,096 bytes land. Refusal 10 for another length.

    The page fills the screen's first 256 tiles, of 8 by 8 pixels and twenty to a row; the other 104 are shade 0. Tile t has the sixteen
    bytes from 16 * t on, two for each of its rows from the top. Of a row's eight shades the first byte has the low bits and the second the
    high bits, the leftmost pixel in bit 7.

    To send it: a transfer command, any two screens, and then this one. Another transfer command between would take the place of the first,
    and count three screens from there; any other command may come.

        >>> unit = sporedrift.Unit.post_boot()
        >>> commands = unit.play_all(sporedrift.encode(bytes([0x99]) + bytes(15)))  # CHR_TRN: the border's tiles 0 to 127
        >>> screens = [bytes(sporedrift.SCREEN), bytes(sporedrift.SCREEN), sporedrift.page_screen(page)]
        >>> [unit.update_screen(screen) for screen in screens]
        [None, None, <Transfer.LOWER_TILES: 2>]
        >>> unit.tile(127) == page[127 * 32 :]
        True
    """
    lent = octets(page)
    screen = (ctypes.c_uint8 * SCREEN)()
    value(_calls.page_screen(lent, len(lent), screen, SCREEN))
    return bytes(screen)
