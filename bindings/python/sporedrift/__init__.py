"""The command unit of the Super Game Boy, proved in Rattle.

A Game Boy game talks to the Super Game Boy by writes to its joypad register, and sends pages of data as screens. A `Unit` takes both and
draws the picture of 256 by 224 colours. A recording of both is a log, and the picture at its end is its plate:

    >>> import sporedrift
    >>> picture = sporedrift.plate("samples/dusk.log")
    >>> picture.save("dusk.png")

What is given and can't be taken raises `Refusal`, which has the number that the other interfaces tell; then nothing has changed. Of a saved
block that breaks a rule it also tells the byte:

    >>> sporedrift.Unit.load(saved)
    sporedrift.Refusal: rule V3 is broken at byte 8 (0x8), the bit index (refusal 23)

A unit that the emulator missingno saved is a `State`: `Unit.from_state` takes it up, `Unit.to_state` makes one. What a game has to draw to send a
page is told by `page_screen`.

The calls themselves are in the shared object libsporedrift.so, which is reached by `ctypes`. It is looked for where SPOREDRIFT_LIB says (a
folder or the file); else in the repository that this module stands in; else in `lib` of the prefix that it is installed in; else where the
system looks for libraries.
"""

from ._calls import Refusal, library_version
from ._fields import field_text
from ._log import Line, LineKind, parse_line, plate
from ._picture import HEIGHT, WIDTH, BorderMapEntry, Picture, Rgb555
from ._state import STATE_SPANS, State
from ._unit import BLOCK, COMMAND, PACKET, PACKET_WRITES, PAGE, SCREEN, MaskMode, Played, Transfer, Unit, encode, page_screen, verdict

__version__ = "0.4.0"

__all__ = [
    "BLOCK",
    "COMMAND",
    "HEIGHT",
    "PACKET",
    "PACKET_WRITES",
    "PAGE",
    "SCREEN",
    "STATE_SPANS",
    "WIDTH",
    "BorderMapEntry",
    "Line",
    "LineKind",
    "MaskMode",
    "Picture",
    "Played",
    "Refusal",
    "Rgb555",
    "State",
    "Transfer",
    "Unit",
    "encode",
    "field_text",
    "library_version",
    "page_screen",
    "parse_line",
    "plate",
    "verdict",
]

# Messages and pickled objects name the module that people import.
for _name in __all__:
    if callable(globals()[_name]):
        globals()[_name].__module__ = __name__
del _name
