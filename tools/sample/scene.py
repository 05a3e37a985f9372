"""The game's screen: 160 by 144 pixels of four shades, and the palette of each cell of eight by eight.

Dusk over a lake. Shade 0 is the night's navy in every cell, so what stands against the dark may take any palette; the sky, the
hills and the water share one.
"""

import math

from letters import word
from paint import Canvas, along, chance, lit, pick

WIDTH, HEIGHT = 160, 144
SKY, TITLE, GRASS, CAPS = 0, 1, 2, 3
# Colours as a screen shows them: shade 0 of all four, then shades 1 to 3 of each.
NIGHT = (12, 16, 50)
PALETTES = (
    ((70, 44, 114), (214, 92, 116), (255, 206, 142)),
    ((70, 44, 114), (246, 158, 66), (255, 246, 206)),
    ((16, 66, 78), (66, 136, 84), (196, 224, 122)),
    ((122, 26, 66), (232, 76, 66), (255, 230, 196)),
)
HORIZON, SHORE = 86, 104
SUN = (108, 80, 15)
# Left, base and half width of the cap, height of the stem: of the mushrooms on the near shore.
NEAR = ((24, 139, 15, 15), (52, 143, 7, 9), (100, 143, 7, 8), (132, 141, 11, 14))
# The same of those on the far hills, which are dark against the sky.
FAR = ((8, 82, 9, 18), (27, 84, 5, 11), (46, 86, 3, 7), (74, 86, 4, 8), (132, 85, 6, 14), (150, 83, 9, 23))
# Where the spores drift, from the near shore up to the right, and how large each is.
SPORES = (
    (33, 106, 1), (40, 101, 0), (24, 96, 1), (45, 92, 2), (57, 99, 0), (61, 79, 1), (72, 88, 0), (78, 70, 2), (66, 62, 0),
    (92, 58, 1), (88, 78, 0), (104, 52, 2), (117, 60, 0), (124, 45, 1), (138, 52, 0), (141, 40, 2), (153, 46, 0), (50, 66, 0),
    (16, 60, 0), (33, 51, 1), (10, 44, 0), (58, 46, 0), (148, 118, 0), (128, 112, 1), (98, 116, 0), (64, 120, 1), (8, 116, 0),
)
SPORE = (("3",), (".3.", "323", ".3."), ("..3..", "3.3.3", ".323.", "3.3.3", "..3..", "..2..", "...2."))


def sky(x, y):
    """How light the sky is, from 0 to 3: night above, the sun's glow at the horizon."""
    base = along(((0, -0.1), (14, 0.12), (40, 0.72), (58, 1.1), (72, 1.8), (HORIZON, 2.55)), y)
    far = math.hypot(x - SUN[0], (y - SUN[1]) * 1.5)
    return base + 0.75 * math.exp(-((far / 34) ** 2))


def shade(level, x, y, grain=1.0):
    return pick((0, 1, 2, 3), level / 3, x, y, grain)


def paint_sky(c):
    for y in range(HORIZON + 1):
        for x in range(WIDTH):
            in_sun = math.hypot(x - SUN[0], y - SUN[1]) <= SUN[2]
            c.put(x, y, 3 if in_sun else shade(sky(x, y), x, y))
    # bands of haze across the sun
    for y in (75, 79, 80, 83, 84, 85):
        for x in range(SUN[0] - 20, SUN[0] + 21):
            if math.hypot(x - SUN[0], y - SUN[1]) <= SUN[2]:
                c.put(x, y, 2)
    for i in range(60):
        x, y = int(chance(i, 1) * WIDTH), int(chance(i, 2) ** 1.4 * 50)
        if not 10 < y < 31:
            c.put(x, y, 3 if i % 3 else 2)


def ridge(x, seed, height, rough):
    """A line of hills: three waves, whose phases the seed gives."""
    waves = ((0.037, 1.0), (0.083, 0.5), (0.19, rough))
    return height * sum(a * math.sin(x * f * 2 * math.pi / 3 + 7 * chance(seed, i)) for i, (f, a) in enumerate(waves))


def paint_hills(c):
    for x in range(WIDTH):
        top = round(HORIZON - 11 - ridge(x, 3, 5, 0.3))
        for y in range(top, HORIZON + 1):
            # mist climbs the far hills from the water
            level = 1.0 + max(0.0, (y - top - 3) / 16)
            c.put(x, y, 1 if y <= top + 2 else shade(level, x, y))
        for y in range(round(HORIZON - 2 - ridge(x, 8, 3, 0.4)), HORIZON + 2):
            c.put(x, y, 0)
    for x, base, half, stem in FAR:
        silhouette(c, x, base, half, stem)


def silhouette(c, x, base, half, stem):
    """A far mushroom, dark: a dome, pale gills drawn in towards the stem, and the edge that looks to the sun in its light."""
    top = base - stem
    domed = lambda dx, y: y <= top and (dx / (half + 0.4)) ** 2 + ((y - top) / (half + 0.5)) ** 2 <= 1
    for y in range(top - half - 1, base + 4):
        for dx in range(-half, half + 1):
            trunk = y > top and abs(dx) <= 0.5 + half * 0.08 + 0.16 * half * ((y - top) / stem) ** 3
            gills = top < y <= top + 1 + half // 4 and abs(dx) <= (half - 1) * (1 - (y - top - 1) / (2 + half // 4))
            if domed(dx, y) or trunk:
                c.put(x + dx, y, 0)
            elif gills:
                c.put(x + dx, y, 1 if (dx + half) % 2 else 0)
    towards = 1 if SUN[0] > x else -1
    for y in range(top - half - 1, top + 1):
        for dx in range(-half, half + 1):
            lit_edge = domed(dx, y) and not (domed(dx + towards, y) and domed(dx, y - 1))
            if lit_edge and dx * towards > -half // 3:
                c.put(x + dx, y, 2 if dx * towards > half // 4 else 1)


def paint_lake(c):
    for y in range(HORIZON + 2, SHORE):
        depth = y - HORIZON
        for x in range(WIDTH):
            # the sky upside down, broken into lines by the ripples
            wave = math.sin(y * 2.1 + 3 * math.sin(x * 0.05 + y)) * 0.35
            level = sky(x, HORIZON - 2.3 * depth) - 0.15 + wave * (0.4 + depth / 18)
            c.put(x, y, shade(level, x, y, 0.8))
        # the sun's path, dashes that widen towards us
        for i in range(5):
            reach = 4 + depth * 0.75
            x = round(SUN[0] + (chance(y, i, 5) * 2 - 1) * reach)
            for dx in range(2 + int(3 * chance(y, i, 6))):
                c.put(x + dx, y, 3)


def paint_shore(c, cells):
    for x in range(WIDTH):
        edge = SHORE - 3 + round(1.6 * math.sin(x * 0.11) + 1.2 * math.sin(x * 0.31 + 1))
        for y in range(edge, HEIGHT):
            c.put(x, y, 0)
        # reeds stand up into the light of the water
        if chance(x, 11) > 0.72:
            for y in range(edge - 1 - int(6 * chance(x, 12)), edge):
                c.put(x, y, 0)
    # three banks of grass, each with its bright edge of blades, in the dark about the mushrooms
    for bank, (line, bright) in enumerate(((109, 1), (120, 2), (133, 3))):
        for x in range(WIDTH):
            edge = line + round(2.2 * math.sin(x * 0.07 + 2 * bank) + 1.4 * math.sin(x * 0.23 + bank))
            blade = int(4 * chance(x, bank, 21) ** 2)
            for y in range(max(SHORE, edge - blade), edge):
                level = bright if y > edge - blade else bright + 1
                c.put(x, y, shade(min(3, level) * open_ground(x, y, cells), x, y, 0.4))
            for y in range(edge, HEIGHT):
                level = bright * 0.62 - (y - edge) / 7
                c.put(x, y, shade(max(0.0, level) * open_ground(x, y, cells), x, y))


def open_ground(x, y, cells):
    """1 on open ground, 0 in the cells of the mushrooms, whose palette has no green, and between the two just outside."""
    gap = min(math.hypot(max(8 * i - x, x - 8 * i - 7, 0), max(8 * j - y, y - 8 * j - 7, 0)) for i, j in cells)
    return min(1.0, gap / 5)


def mushroom(c, x, base, half, stem):
    """A near mushroom: a round cap with spots, a pale stem, and grass about its foot."""
    top, tall = base - stem, round(half * 0.85)
    for y in range(top, base + 1):
        wide = 1 + half / 7 + (y - top) / (stem + 1)
        for dx in range(-round(wide), round(wide) + 1):
            level = 3.2 - 2.1 * max(0.0, (dx + wide) / (2 * wide) - 0.25) - (1.4 if y < top + 3 else 0)
            c.put(x + dx, y, max(1, shade(level, x + dx, y, 0.7)))
        for dx in (-round(wide) - 1, round(wide) + 1):
            c.put(x + dx, y, 0)
    for y in range(top - tall, top + 3):
        for dx in range(-half - 1, half + 2):
            nx, ny = dx / (half + 0.4), (y - top) / (tall + 0.4)
            dome = y <= top and nx * nx + ny * ny <= 1
            rim = top < y <= top + 2 and abs(dx) <= half - (y - top) * 2
            if dome:
                level = 0.75 + 1.75 * lit(nx, ny, (-0.5, -0.65, 0.6))
                c.put(x + dx, y, max(1, min(2, shade(level, x + dx, y))))
            elif rim:
                c.put(x + dx, y, 1 if (dx + y) % 2 else 0)
            elif y <= top and nx * nx + ny * ny <= (1 + 1.6 / half) ** 2:
                c.put(x + dx, y, 0)
    for sx, sy, r in ((-0.42, -0.5, 0.2), (0.25, -0.62, 0.22), (0.62, -0.22, 0.15), (-0.78, -0.16, 0.12), (-0.05, -0.2, 0.17)):
        for y in range(top - tall, top + 1):
            for dx in range(-half, half + 1):
                nx, ny = dx / (half + 0.4), (y - top) / (tall + 0.4)
                near = ((nx - sx) / max(0.4, 1 - abs(sx) * 0.6)) ** 2 + (ny - sy) ** 2 <= (r + 0.35 / half) ** 2
                if near and nx * nx + ny * ny <= 0.98:
                    c.put(x + dx, y, 3)


def paint_title(c):
    """The word in cream over gold, with a dark edge, and its palette's cells."""
    pixels, width = word("SPOREDRIFT", 3)
    left, top = (WIDTH - width) // 2, 13
    for x, y in pixels:
        for dx in (-1, 0, 1):
            for dy in (-1, 0, 1, 2):
                c.put(left + x + dx, top + y + dy, 0)
    for x, y in pixels:
        c.put(left + x, top + y, pick((3, 3, 2, 2), y / 13, x, y))
        # an under edge of indigo gives the letters weight
        if (x, y + 1) not in pixels:
            c.put(left + x, top + y + 1, 1)


def mushrooms():
    """The near mushrooms alone, and the cells that they stand in."""
    c = Canvas(WIDTH, HEIGHT)
    for x, base, half, stem in sorted(NEAR, key=lambda m: m[1]):
        mushroom(c, x, base, half, stem)
    return c, {(column, row) for row in range(18) for column in range(20) if any(c.cell(column, row))}


def palettes_of_cells(cells_of_mushrooms):
    """The palette of each cell, by rows: the map that the recording's attribute commands have to make."""
    cells = [[SKY] * 20 for _ in range(18)]
    for row in range(1, 4):
        cells[row] = [TITLE] * 20
    for row in range(13, 18):
        cells[row] = [GRASS] * 20
    for column, row in cells_of_mushrooms:
        cells[row][column] = CAPS
    return cells


def scene():
    """The screen's shades and the palettes of its cells."""
    c = Canvas(WIDTH, HEIGHT, 0)
    near, cells = mushrooms()
    paint_sky(c)
    paint_hills(c)
    paint_lake(c)
    paint_shore(c, cells)
    for y in range(HEIGHT):
        for x in range(WIDTH):
            if near.get(x, y) is not None:
                c.put(x, y, near.get(x, y))
    for x, y, size in SPORES:
        rows = SPORE[size]
        c.stamp(rows, x - len(rows[0]) // 2, y - len(rows[0]) // 2, {"2": 2, "3": 3})
    paint_title(c)
    return c, palettes_of_cells(cells)
