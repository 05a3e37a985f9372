"""The border: 256 by 224 pixels in named colours, of which a cell may use those of one palette; None is transparent.

A clearing at night about the game's screen, which is its lamp: whatever stands near is lit from there. The left half is painted
and mirrored, since the unit has 256 tiles for 896 cells and flips them for nothing; what is drawn last breaks the symmetry.
"""

import math

from paint import Canvas, along, between, chance, lit, pick

WIDTH, HEIGHT = 256, 224
LEFT, TOP, RIGHT, BOTTOM = 48, 40, 208, 184
# Colours as a screen shows them. The sky's are in every palette, so that anything may stand before it.
SKY = {"s0": (12, 16, 50), "s1": (18, 26, 66), "s2": (24, 40, 82), "s3": (32, 58, 98), "s4": (46, 84, 116)}
DARK = {"k": (5, 7, 26), "g1": (12, 44, 52), "g2": (22, 74, 66)}
MOSS = {"g3": (46, 112, 76), "g4": (104, 160, 84), "g5": (190, 214, 116)}
WOOD = {"w1": (58, 30, 44), "w2": (110, 56, 54), "w3": (176, 104, 70), "w4": (238, 184, 112)}
REDS = {"r1": (84, 18, 58), "r2": (150, 32, 64), "r3": (220, 66, 62), "r4": (255, 138, 92)}
CREAM = {"c1": (104, 74, 104), "c2": (186, 146, 136), "c3": (255, 234, 196)}
VIOLET = {"v1": (50, 26, 92), "v2": (92, 46, 140), "v3": (154, 88, 190), "v4": (220, 156, 226)}
GLOW = {"a1": (30, 116, 134), "a2": (84, 204, 190), "a3": (216, 255, 226)}
PALETTES = tuple({**SKY, **DARK, **more} for more in ({**MOSS, **WOOD}, {**REDS, **CREAM}, {**VIOLET, **GLOW}))

SKY_RAMP = ("s0", "s1", "s2", "s3", "s4")
# Ramps of a mushroom, dark to light: its dome, its spots, its gills, its stem.
RED_CAP = (("r1", "r2", "r3", "r4"), ("r2", "c1", "c2", "c3"), ("r1", "c1", "c2"), ("c1", "c2", "c3"))
VIOLET_CAP = (("v1", "v2", "v3", "v4"), ("v2", "v3", "v4", "a3"), ("v1", "a1", "a2"), ("v1", "v2", "v3", "v4"))
GLOWING = (("v1", "a1", "a2", "a3"), ("a2", "a3"), ("a1", "a2", "a3"), ("v1", "a1", "a2"))
# Where light comes from, on the left half: the game's screen, a little above.
LAMP = (0.75, -0.35, 0.55)


def paint_sky(c):
    """Night above, mist over the ground. It changes from row to row alone, so that a row of cells needs one tile."""
    for y in range(HEIGHT):
        level = along(((0, 0.0), (40, 0.1), (120, 0.42), (190, 0.85), (224, 1.0)), y)
        for x in range(WIDTH):
            c.put(x, y, pick(SKY_RAMP, level, x, y))


def stem(c, x, top, base, lean, wide, colours):
    """A stem from its cap down to the ground: round, thicker at the foot, in the cap's shadow above, with a ring if it is large."""
    ramp = colours[3]
    for y in range(top, base + 1):
        t = (y - top) / (base - top)
        middle = x + lean * math.sin(t * 1.9)
        half = wide * (0.8 + 0.75 * t * t)
        shadow = between(0.3, 1, (y - top - 3) / 14)
        # the ring hangs as a skirt does, and leaves its own shadow
        down = (y - top - 19) / 7 if wide > 4 else -1
        if 0 <= down <= 1:
            half += 0.5 + 3.2 * down
            shadow = 1.15
        elif 1 < down <= 1.7:
            shadow = 0.45
        for px in range(math.floor(middle - half - 1), math.ceil(middle + half + 1) + 1):
            across = (px - middle) / half
            if abs(across) <= 1:
                fold = 0.12 * math.sin(px * 2.1) if 0.3 < down <= 1 else 0
                level = shadow * (lit(across * 0.98, 0, LAMP) * 1.15 - 0.05) + fold
                c.put(px, y, pick(ramp, level, px, y, 0.8))
            elif abs(across) <= 1 + 1.1 / half:
                c.put(px, y, "k")


def cap(c, x, y0, half, tall, colours, spots):
    """A cap seen a little from below: its dome, lit as a ball is, with spots on it; the gills under its rim."""
    dome, spots_ramp, gills, _ = colours
    droop = tall * 0.34
    for y in range(y0 - tall - 1, y0 + math.ceil(droop) + 2):
        for px in range(x - half - 2, x + half + 3):
            nx = (px - x) / (half + 0.5)
            up, down = (y - y0) / (tall + 0.5), (y - y0) / (droop + 0.5)
            over = nx * nx + (up * up if y <= y0 else down * down)
            under = nx * nx / 0.82 + ((y - y0 - 0.5) / (droop * 0.78)) ** 2
            if y > y0 - droop * 0.5 and under <= 1 and y >= y0 - droop * 0.3 * (1 - nx * nx):
                ray = math.cos(math.atan2(y - y0 + tall * 0.7, px - x) * (11 + half // 2))
                c.put(px, y, pick(gills, 0.3 + 0.3 * ray + 0.35 * nx + 0.1 * down, px, y, 0.6))
            elif over <= 1:
                level = lit(nx * 0.95, up * 0.95 if y <= y0 else 0.1, LAMP)
                c.put(px, y, pick(dome, level ** 1.2, px, y, 0.9))
                for sx, sy, r in spots:
                    # a spot turns away with the dome towards its edge
                    flat = math.sqrt(max(0.08, 1 - sx * sx - sy * sy))
                    turn = math.atan2(sy, sx)
                    dx, dy = nx - sx, up - sy
                    out = (dx * math.cos(turn) + dy * math.sin(turn)) / flat
                    aside = dy * math.cos(turn) - dx * math.sin(turn)
                    if y <= y0 and out * out + aside * aside <= r * r:
                        c.put(px, y, pick(spots_ramp, between(0, 1, level * 1.5 - 0.1), px, y, 0.4))
            elif over <= (1 + 1.3 / half) ** 2:
                c.put(px, y, "k")


SPOTS = (
    (-0.5, -0.55, 0.2), (0.1, -0.66, 0.21), (0.55, -0.42, 0.2), (-0.12, -0.26, 0.19),
    (-0.76, -0.2, 0.16), (0.82, -0.14, 0.13), (0.36, -0.1, 0.13),
)
FEW = ((-0.4, -0.5, 0.22), (0.35, -0.55, 0.24), (0.0, -0.15, 0.18), (0.75, -0.2, 0.16))
# Place of the cap's middle, half width, height, where the stem ends, its lean and width, the colours and the spots.
MUSHROOMS = (
    (1, 131, 13, 13, 206, 4, 3.0, VIOLET_CAP, FEW),
    (20, 84, 18, 20, 210, 4, 4.4, RED_CAP, SPOTS),
    (33, 166, 6, 7, 208, 2, 1.6, RED_CAP, FEW[:3]),
    (7, 180, 8, 7, 212, -1, 2.0, GLOWING, ()),
    (64, 197, 6, 5, 212, 0, 1.5, RED_CAP, FEW[:3]),
    (74, 201, 4, 3, 214, 0, 1.0, RED_CAP, ()),
    (112, 197, 5, 4, 214, 0, 1.2, GLOWING, ()),
)


def paint_ground(c):
    """Moss that rises to both sides, with blades at its edge, the brighter the nearer they are to the game's screen."""
    for x in range(128):
        edge = round(205 - 9 * (1 - x / 60) ** 2 * (x < 60) + 1.5 * math.sin(x * 0.21) + math.sin(x * 0.53))
        # about the tall stems, whose palette has two greens, it stays dark
        near = along(((0, 0.2), (34, 0.26), (60, 0.7), (90, 1.0), (127, 0.9)), x)
        blade = int(6 * chance(x, 31) ** 2)
        for y in range(edge - blade, edge):
            c.put(x, y, pick(("g1", "g2", "g3", "g4", "g4"), near - 0.1 * (edge - y > 2), x, y, 0.3))
        for y in range(edge, HEIGHT):
            level = near * (1.1 - (y - edge) / 10.5) + 0.1 * math.sin(x * 0.4 + y) if y < 216 else 0
            c.put(x, y, pick(("k", "g1", "g2", "g3", "g4", "g5"), level, x, y))


def leaf(c, x, y, turn, long, wide, light):
    """A leaf that hangs from (x, y): pointed, with a rib, lighter towards its tip."""
    for py in range(y - long - 2, y + long + 2):
        for px in range(x - long - 2, x + long + 3):
            dx, dy = px - x, py - y
            down = dx * math.sin(turn) + dy * math.cos(turn)
            aside = dx * math.cos(turn) - dy * math.sin(turn)
            t = down / long
            if 0 <= t <= 1 and abs(aside) <= wide * math.sin(math.pi * t ** 0.8):
                level = light * (0.35 + 0.65 * t) + (0.16 if aside > 0 else -0.06) - (0.2 if abs(aside) < 0.5 else 0)
                c.put(px, py, pick(("k", "g1", "g2", "g3", "g4"), level, px, py, 0.4))


def paint_canopy(c):
    """Leaves that hang in from above, row before row, long at the corners, and threads with drops of light between them."""
    for x, length in ((13, 40), (29, 33), (38, 27), (70, 26), (101, 24)):
        for y in range(0, length):
            c.put(x, y, "g1" if y % 3 else "g2")
        c.stamp((".1.", "132", "121", ".1."), x - 1, length, {"1": "a1", "2": "a2", "3": "a3"})
    for layer, (light, above) in enumerate(((0.3, 10), (0.45, 5), (0.62, -1), (0.8, -7))):
        for i in range(-1, 19):
            x = 7 * i + 3 * layer % 7
            y = above + 9 * max(0.0, 1 - x / 70) ** 2 + 2 * math.sin(i * 1.7 + layer)
            turn = 0.5 * (chance(i, layer, 61) - 0.5)
            leaf(c, x, round(y), turn, 10 + round(4 * chance(i, layer, 62)), 3.6, light)
    for x in range(128):
        for y in range(round(4 + 6 * max(0.0, 1 - x / 70))):
            if c.get(x, y) in SKY_RAMP:
                c.put(x, y, "k")


def paint_frame(c):
    """A frame of wood about the game's screen, bright on its inner edge, whose round corners reach in over it. Its grain repeats
    with the cells, so that each straight side is one tile."""
    ramp = ("k", "w1", "w2", "w3", "w4")
    for y in range(TOP - 8, BOTTOM + 8):
        for x in range(LEFT - 8, 128):
            dx, dy = max(LEFT + 7 - x, 0), max(TOP + 7 - y, y - BOTTOM + 8, 0)
            # how far outside of a rounded rectangle
            out = math.hypot(dx, dy) - 7
            if 0 < out:
                wave = 0.14 * math.sin((x if dy > dx else y) * math.pi / 4 + out) if 1.5 < out < 5.2 else 0
                level = along(((0, 1.0), (1.3, 0.95), (1.6, 0.6), (4.6, 0.36), (5.2, 0.2), (5.6, 0.0), (20, 0.0)), out)
                if out <= 8 or c.get(x, y) is None:
                    c.put(x, y, pick(ramp, level + wave, x, y, 0.5))


def paint_sprigs(c):
    """Leaves that have grown about the frame's corners."""
    top = ((40, 36, 0.15, 13, 0.8), (46, 33, 1.35, 15, 0.8), (40, 34, 0.75, 16, 1.1))
    for x, y, turn, long, light in (*top, (39, 186, 2.2, 11, 0.8), (40, 189, 1.5, 14, 1.1)):
        leaf(c, x, y, turn, long, 3.4, light)


def mirror(c):
    for row in c.pixels:
        row[128:] = row[127::-1]


def paint_moon(c):
    """What is not mirrored: a moon on the left of the top, and spores that drift across."""
    for y in range(HEIGHT):
        for x in range(WIDTH):
            full, shadow = math.hypot(x - 86, y - 24), math.hypot(x - 90, y - 22)
            if full <= 7.5 and shadow > 6.2:
                c.put(x, y, "c3" if full < 7 else "c2")


SPORES = (
    (34, 140, 2), (6, 52, 1), (54, 28, 2), (116, 27, 1), (134, 28, 2), (168, 27, 1), (178, 28, 2), (198, 28, 1), (246, 52, 2),
    (222, 124, 1), (251, 100, 1), (220, 148, 2), (4, 108, 1), (36, 60, 1), (92, 194, 1), (128, 194, 2), (164, 194, 1),
)
SPORE = ((".1.", "131", ".1."), ("..1..", ".121.", "12321", ".121.", "..1.."))


def paint_spores(c):
    for x, y, size in SPORES:
        rows = SPORE[size - 1]
        middle = len(rows) // 2
        c.stamp(rows, x - middle, y - middle, {"1": "a1", "2": "a2", "3": "a3"})


def border():
    c = Canvas(WIDTH, HEIGHT)
    paint_sky(c)
    paint_canopy(c)
    for x, y, half, tall, base, lean, wide, colours, spots in MUSHROOMS:
        stem(c, x, y, base, lean, wide, colours)
        cap(c, x, y, half, tall, colours, spots)
    paint_ground(c)
    # the game's screen shows through
    for y in range(TOP, BOTTOM):
        for x in range(LEFT, RIGHT):
            c.put(x, y, None)
    paint_frame(c)
    paint_sprigs(c)
    mirror(c)
    paint_moon(c)
    paint_spores(c)
    return c
