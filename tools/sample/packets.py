"""What a game sends: commands as pulses, pages as screens, and the lines of a log (RULES 7.1, 5.6 and 8.2)."""

PAL01, PAL23, PAL12, ATTR_BLK, ATTR_LIN, ATTR_DIV, ATTR_CHR, SOUND = 0x00, 0x01, 0x03, 0x04, 0x05, 0x06, 0x07, 0x08
PAL_SET, PAL_TRN, MLT_REQ, CHR_TRN, PCT_TRN, ATTR_TRN, ATTR_SET, MASK_EN = 0x0A, 0x0B, 0x11, 0x13, 0x14, 0x15, 0x16, 0x17


def command(code, *data):
    """A command of as many packets as its data needs, the rest of the last one zero."""
    count = (1 + len(data) + 15) // 16
    return bytes((code << 3 | count, *data)).ljust(16 * count, b"\0")


def pulses(sent):
    """The 260 writes of each packet: both lines low, 128 bits with the lowest of each byte first, a stop; released between."""
    writes = []
    for start in range(0, len(sent), 16):
        writes.append(0x00)
        for byte in sent[start : start + 16]:
            writes.extend(0x10 if byte >> bit & 1 else 0x20 for bit in range(8))
        writes.append(0x20)
    return b"".join(bytes((write, 0x30)) for write in writes)


def poll(times):
    """A game that reads its pads: the directions, the buttons, then both lines high."""
    return bytes((0x20, 0x20, 0x10, 0x10, 0x30)) * times


def pack(pairs):
    """Numbers from 0 to 3, four to a byte, the first in the high bits."""
    return bytes(a << 6 | b << 4 | c << 2 | d for a, b, c, d in zip(*[iter(pairs)] * 4))


def page_screen(page):
    """The screen that carries the 4,096 bytes of a page in its first 256 tiles, twenty to a row (RULES 5.6)."""
    rows = [[0] * 160 for _ in range(144)]
    for tile in range(256):
        left, top = tile % 20 * 8, tile // 20 * 8
        for y in range(8):
            low, high = page[16 * tile + 2 * y : 16 * tile + 2 * y + 2]
            for x in range(8):
                rows[top + y][left + x] = (low >> 7 - x & 1) | (high >> 7 - x & 1) << 1
    return pack([shade for row in rows for shade in row])


def writes_line(*parts):
    """A line of writes: commands, given as their bytes, go out as pulses; `poll`'s writes as they are."""
    line = b"".join(parts)
    if len(line) > 5760:
        raise SystemExit(f"a line has room for 5760 writes, and this is {len(line)}")
    return "01" + line.hex().upper()


def screen_line(screen):
    return "02" + screen.hex().upper()
