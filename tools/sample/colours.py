"""Colour words: fifteen bits, red in the low five, then green, then blue, as the SNES has them (Pan Docs, Palettes)."""

import functools

# The brightness of each five-bit level, as the Rust's GAMMA_RAMP and `crates/colour` have it.
GAMMA_RAMP = (
    0, 2, 5, 9, 15, 20, 27, 34, 42, 50, 58, 67, 76, 85, 94, 104,
    114, 123, 133, 143, 153, 163, 173, 182, 192, 202, 211, 220, 229, 238, 247, 255,
)


def rgb8(word):
    """Red, green and blue of a word, eight bits each; bit 15 means nothing."""
    return tuple(GAMMA_RAMP[word >> shift & 31] for shift in (0, 5, 10))


@functools.lru_cache(maxsize=None)
def word_of(rgb):
    """The word whose colour comes nearest."""
    levels = (min(range(32), key=lambda level: abs(GAMMA_RAMP[level] - part)) for part in rgb)
    return sum(level << shift for level, shift in zip(levels, (0, 5, 10)))


def little_endian(words):
    return b"".join(word.to_bytes(2, "little") for word in words)
