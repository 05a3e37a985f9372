"""Pixels, ramps of colours and dithering: what both the game's screen and the border are painted with.

A canvas holds a value for each pixel, or None where nothing was painted: shades 0 to 3 for the game's screen, names of colours for
the border. Nothing here is random: `chance` is a fixed hash, so that the recording comes out the same on every machine.
"""

import math

BAYER = ((0, 8, 2, 10), (12, 4, 14, 6), (3, 11, 1, 9), (15, 7, 13, 5))


class Canvas:
    def __init__(self, width, height, value=None):
        self.width, self.height = width, height
        self.pixels = [[value] * width for _ in range(height)]

    def put(self, x, y, value):
        if 0 <= x < self.width and 0 <= y < self.height:
            self.pixels[y][x] = value

    def get(self, x, y):
        if 0 <= x < self.width and 0 <= y < self.height:
            return self.pixels[y][x]
        return None

    def stamp(self, rows, x, y, values):
        """Puts a small drawing: each character of `rows` that `values` names is a pixel, all others leave it as it is."""
        for dy, row in enumerate(rows):
            for dx, mark in enumerate(row):
                if mark in values:
                    self.put(x + dx, y + dy, values[mark])

    def cell(self, column, row):
        """The 64 values of a cell of eight by eight."""
        return [self.pixels[8 * row + y][8 * column + x] for y in range(8) for x in range(8)]


def threshold(x, y):
    """Ordered dithering: a number from -1/2 to 1/2, whose pattern repeats every four pixels."""
    return (BAYER[y % 4][x % 4] + 0.5) / 16 - 0.5


def pick(ramp, level, x, y, grain=1.0):
    """The colour of a ramp at a level from 0 to 1, dithered between neighbours; a smaller grain dithers less."""
    at = level * (len(ramp) - 1) + 0.5 + grain * threshold(x, y)
    # rounded, so that no last bit of a machine's sine decides a pixel
    return ramp[max(0, min(len(ramp) - 1, math.floor(round(at, 9))))]


def chance(*numbers):
    """A number from 0 to 1 that looks random and is always the same for the same arguments."""
    h = 2166136261
    for n in numbers:
        h = (h ^ (int(n) & 0xFFFFFFFF)) * 16777619 & 0xFFFFFFFF
        h ^= h >> 15
    h = h * 0x2C1B3C6D & 0xFFFFFFFF
    h ^= h >> 12
    h = h * 0x297A2D39 & 0xFFFFFFFF
    return (h ^ h >> 15) / 0x100000000


def between(a, b, t):
    return a + (b - a) * max(0.0, min(1.0, t))


def along(stops, t):
    """The value at t of a line through (place, value) pairs, places rising."""
    for (t0, v0), (t1, v1) in zip(stops, stops[1:]):
        if t <= t1:
            return between(v0, v1, (t - t0) / (t1 - t0))
    return stops[-1][1]


def lit(nx, ny, light):
    """How bright a dome is where its surface leans by (nx, ny), under light from a direction (x, y, towards us): 0 to 1."""
    nz = math.sqrt(max(0.0, 1 - nx * nx - ny * ny))
    length = math.sqrt(sum(c * c for c in light))
    return max(0.0, (nx * light[0] + ny * light[1] + nz * light[2]) / length)
