"""Colours, map words and pictures."""

from __future__ import annotations

import array
import os
import struct
import zlib
from typing import TYPE_CHECKING, Any, Tuple, Union

from . import _calls

if TYPE_CHECKING:
    from PIL import Image

#: The pixels of a row of the picture, and its rows.
WIDTH, HEIGHT = 256, 224


class Rgb555(int):
    """A colour of the SNES: fifteen bits, red in the low five, then green, then blue. Bit 15 means nothing."""

    @property
    def rgb8(self) -> Tuple[int, int, int]:
        """Red, green and blue at eight bits, as a television of the time showed them."""
        told = _calls.to_rgb8(self) >> 8
        return told >> 16, told >> 8 & 0xFF, told & 0xFF

    def __repr__(self) -> str:
        return f"Rgb555(0x{int(self):04X})"


class BorderMapEntry(int):
    """A word of the border's map: which tile stands at a place, in which palette, and how it is turned."""

    @property
    def tile(self) -> int:
        """The tile's number, 0 to 1,023. The border has tiles 0 to 255; any other is transparent."""
        return self & 0x3FF

    @property
    def palette(self) -> int:
        """The palette's number, 0 to 7. The border has palettes 4 to 6; any other is transparent."""
        return self >> 10 & 7

    @property
    def flip_x(self) -> bool:
        """Whether left and right change places."""
        return bool(self & 0x4000)

    @property
    def flip_y(self) -> bool:
        """Whether top and bottom change places."""
        return bool(self & 0x8000)

    def __repr__(self) -> str:
        return f"BorderMapEntry(0x{int(self):04X})"


class Picture:
    """The unit's picture: 256 by 224 colours, row by row."""

    width, height = WIDTH, HEIGHT

    def __init__(self, words: "array.array[int]") -> None:
        if len(words) != WIDTH * HEIGHT:
            raise ValueError(f"a picture is {WIDTH * HEIGHT} words, and these are {len(words)}")
        #: The colour words, an array of 57,344 numbers.
        self.words = array.array("H", words)

    def __getitem__(self, at: Tuple[int, int]) -> Rgb555:
        """The colour at column x of row y: `picture[x, y]`."""
        x, y = at
        if not (0 <= x < WIDTH and 0 <= y < HEIGHT):
            raise IndexError(f"the picture is {WIDTH} by {HEIGHT}")
        return Rgb555(self.words[y * WIDTH + x])

    @property
    def rgb(self) -> bytes:
        """Red, green and blue of each pixel, three bytes a pixel."""
        colours = {word: bytes(Rgb555(word).rgb8) for word in set(self.words)}
        return b"".join(map(colours.__getitem__, self.words))

    def ppm(self) -> bytes:
        """The picture as a file: a binary Portable Pixmap (P6)."""
        return b"P6\n%d %d\n255\n" % (WIDTH, HEIGHT) + self.rgb

    def png(self) -> bytes:
        """The picture as a file: a PNG."""

        def chunk(kind: bytes, body: bytes) -> bytes:
            return struct.pack(">I", len(body)) + kind + body + struct.pack(">I", zlib.crc32(kind + body))

        rgb, row = self.rgb, 3 * WIDTH
        # eight bits a part, three parts a pixel; each row goes unfiltered
        header = struct.pack(">IIBBBBB", WIDTH, HEIGHT, 8, 2, 0, 0, 0)
        body = b"".join(b"\0" + rgb[at : at + row] for at in range(0, len(rgb), row))
        return b"\x89PNG\r\n\x1a\n" + chunk(b"IHDR", header) + chunk(b"IDAT", zlib.compress(body, 9)) + chunk(b"IEND", b"")

    def text(self) -> str:
        """The picture as the program `plate` prints it: 224 lines of 256 words in hexadecimal."""
        digits = "".join(f"{word:04X}" for word in self.words)
        return "".join(digits[at : at + 4 * WIDTH] + "\n" for at in range(0, len(digits), 4 * WIDTH))

    def image(self) -> "Image.Image":
        """The picture as an image of Pillow. ImportError if Pillow is not there."""
        try:
            from PIL import Image
        except ImportError:
            raise ImportError("Picture.image needs Pillow (pip install Pillow); png and ppm do without it") from None
        return Image.frombytes("RGB", (WIDTH, HEIGHT), self.rgb)

    def save(self, path: Union[str, "os.PathLike[str]"]) -> None:
        """Writes the picture into a file: a PNG or a Portable Pixmap, as its name ends. ValueError for another ending."""
        forms = {".png": self.png, ".ppm": self.ppm}
        ending = os.path.splitext(os.fspath(path))[1].lower()
        if ending not in forms:
            raise ValueError(f"{os.fspath(path)}: a picture's name ends in .png or .ppm")
        with open(path, "wb") as file:
            file.write(forms[ending]())

    def __eq__(self, other: Any) -> bool:
        return self.words == other.words if isinstance(other, Picture) else NotImplemented

    __hash__ = None  # type: ignore[assignment]

    def __repr__(self) -> str:
        return f"<Picture {WIDTH} by {HEIGHT}, {len(set(self.words))} colours>"
