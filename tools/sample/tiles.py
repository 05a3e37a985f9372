"""From a painted border to what the unit is sent: tiles of four planes, a map, three palettes."""

COLUMNS, ROWS, MOST = 32, 28, 256


def indexed(colours, palettes):
    """The cell's palette, and its 64 indices there: 0 for a transparent pixel, else 1 to 15. The palette is the one that
    comes nearest; a colour that it lacks becomes the nearest that it has."""
    best = None
    every = {name: rgb for palette in palettes for name, rgb in palette.items()}
    for number, palette in enumerate(palettes):
        names, wrong, indices = list(palette), 0, []
        for name in colours:
            if name is None:
                indices.append(0)
                continue
            near = min(names, key=lambda n: distance(palette[n], every[name]))
            wrong += distance(palette[near], every[name])
            indices.append(names.index(near) + 1)
        if best is None or wrong < best[0]:
            best = (wrong, number, tuple(indices))
    return best[1], best[2]


def distance(a, b):
    return sum((p - q) ** 2 for p, q in zip(a, b))


def flipped(tile, x, y):
    rows = [tile[8 * row : 8 * row + 8] for row in range(8)]
    rows = [row[::-1] for row in rows] if x else rows
    rows = rows[::-1] if y else rows
    return tuple(pixel for row in rows for pixel in row)


def tiled(canvas, palettes):
    """The border's tiles, each once whichever way it is turned, and its map of (tile, palette, flip x, flip y)."""
    known, tiles, cells = {}, [], []
    for row in range(ROWS):
        for column in range(COLUMNS):
            palette, tile = indexed(canvas.cell(column, row), palettes)
            if tile not in known:
                for x, y in ((1, 1), (0, 1), (1, 0), (0, 0)):
                    known[flipped(tile, x, y)] = (len(tiles), x, y)
                tiles.append(tile)
            number, x, y = known[tile]
            cells.append((number, palette, x, y))
    if len(tiles) > MOST:
        raise SystemExit(f"the border has {len(tiles)} different tiles, and the unit takes {MOST}")
    return tiles, cells


def planes(tile):
    """A tile's 32 bytes: planes 0 and 1 by rows, then planes 2 and 3."""
    out = []
    for low in (0, 2):
        for row in range(8):
            for plane in (low, low + 1):
                out.append(sum((tile[8 * row + x] >> plane & 1) << (7 - x) for x in range(8)))
    return bytes(out)


def map_word(cell):
    number, palette, x, y = cell
    return number | (4 + palette) << 10 | x << 14 | y << 15
