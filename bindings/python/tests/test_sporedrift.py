"""The module: the sample's plate, the refusals, which commands conform, pages as screens, states of the emulator, writes in a row against writes
one by one, lines, pictures, and how the library is found.

    python3 -m unittest discover -s bindings/python/tests
"""

import copy
import ctypes.util
import dataclasses
import importlib
import importlib.util
import io
import os
import pickle
import random
import struct
import subprocess
import sys
import tempfile
import unittest
import zlib

HERE = os.path.dirname(os.path.abspath(__file__))
PACKAGE = os.path.dirname(HERE)
SAMPLES = os.path.join(PACKAGE, "..", "..", "samples")
EXAMPLES = os.path.join(PACKAGE, "..", "..", "examples")
MAKER = os.path.join(PACKAGE, "..", "..", "tools", "sample", "packets.py")
sys.dont_write_bytecode = True
sys.path.insert(0, PACKAGE)

import sporedrift
from sporedrift import STATE_SPANS, BorderMapEntry, LineKind, MaskMode, Refusal, Rgb555, State, Transfer, Unit
from sporedrift import encode, field_text, page_screen, parse_line, plate, verdict

try:
    import PIL
except ImportError:
    PIL = None


def read(name):
    with open(os.path.join(SAMPLES, name), "rb") as file:
        return file.read()


def packet(*start):
    return bytes(start) + bytes(16 - len(start))


def pixels(png):
    """The bytes of the pixels of a PNG whose rows are unfiltered and of 256 pixels; its sums must be right."""
    at, packed = 8, b""
    while at < len(png):
        (length,) = struct.unpack_from(">I", png, at)
        kind, body = png[at + 4 : at + 8], png[at + 8 : at + 8 + length]
        if struct.unpack_from(">I", png, at + 8 + length)[0] != zlib.crc32(kind + body):
            raise ValueError(f"the sum of {kind}")
        packed += body if kind == b"IDAT" else b""
        at += 12 + length
    raw = zlib.decompress(packed)
    return b"".join(raw[at + 1 : at + 769] for at in range(0, len(raw), 769))


class Case(unittest.TestCase):
    def refused(self, number, call, *words):
        with self.assertRaises(Refusal) as caught:
            call(*words)
        self.assertEqual(caught.exception.number, number)
        # a broken rule has its byte, and no other refusal has one
        self.assertEqual(caught.exception.offset is not None, 21 <= number <= 26)
        return caught.exception


class Sample(Case):
    def test_plate(self):
        log, due = read("dusk.log"), read("dusk.plate").decode()
        path = os.path.join(SAMPLES, "dusk.log")
        self.assertEqual(plate(path).text(), due)
        self.assertEqual(plate(log).text(), due)
        self.assertEqual(plate(memoryview(log)), plate(log))
        with open(path, "rb") as file:
            self.assertEqual(plate(file).text(), due)
        self.assertEqual(plate(log[:-1]).text(), due)

    def test_replay(self):
        unit, printed = Unit.post_boot(), []
        for text in read("dusk.log").splitlines():
            line = parse_line(text)
            if line.kind is LineKind.WRITES:
                printed += [command.hex().upper() for command in unit.play_all(line.data)]
            else:
                unit.update_screen(line.data)
        printed.append(unit.block[:13].hex().upper())
        self.assertEqual(printed, read("dusk.replay").decode().splitlines())

    def test_files(self):
        picture = plate(read("dusk.log"))
        self.assertEqual(pixels(picture.png()), pixels(read("dusk.png")))
        with tempfile.TemporaryDirectory() as folder:
            for name, due in (("a.ppm", picture.ppm()), ("b.PNG", picture.png())):
                picture.save(os.path.join(folder, name))
                with open(os.path.join(folder, name), "rb") as file:
                    self.assertEqual(file.read(), due)
            self.assertRaises(ValueError, picture.save, os.path.join(folder, "c.gif"))
            self.assertEqual(sorted(os.listdir(folder)), ["a.ppm", "b.PNG"])


class Units(Case):
    def test_a_command_comes_back(self):
        unit = Unit.post_boot()
        command = packet(0xB9, 0x02)
        told = [unit.write_joypad(write) for write in encode(command)]
        self.assertEqual([t for t in told if t is not None], [command])
        self.assertEqual(unit.block[:13], bytes([2, 0, 0, 1, 1, 0, 0, 0, 0, 1, 0, 0, 0]))
        self.assertIs(unit.mask_mode, MaskMode.BLACK)
        self.assertEqual(unit.picture()[128, 112], 0)

    def test_a_transfer_lands_at_the_third_screen(self):
        unit, screen = Unit.post_boot(), bytes(sporedrift.SCREEN)
        for code, d1, kind in (
            (0x0B, 0, Transfer.PALETTES),
            (0x15, 0, Transfer.ATTRIBUTE_FILES),
            (0x13, 0, Transfer.LOWER_TILES),
            (0x13, 1, Transfer.UPPER_TILES),
            (0x14, 0, Transfer.BORDER_MAP),
        ):
            unit.play_all(encode(packet(code << 3 | 1, d1)))
            self.assertEqual(unit.pending, (3, kind))
            self.assertEqual([unit.update_screen(screen) for _ in range(4)], [None, None, kind, None])
            self.assertIsNone(unit.pending)

    def test_saved_and_copied(self):
        unit = Unit.post_boot()
        unit.play(encode(packet(0x01, 0xFF, 0x7F))[:100])
        for again in (Unit.load(bytes(unit)), unit.copy(), copy.copy(unit), copy.deepcopy(unit), pickle.loads(pickle.dumps(unit))):
            self.assertEqual(again, unit)
            again.play_all(encode(packet(0x01, 0xFF, 0x7F)))
            self.assertNotEqual(again, unit)
            self.assertEqual(again.backdrop, 0x7FFF)
        self.assertEqual(Unit(), Unit.new())
        self.assertNotEqual(Unit.new(), Unit.post_boot())
        self.assertNotEqual(Unit.new(), Unit.new().block)

    def test_frozen(self):
        unit = Unit.post_boot()
        unit.update_screen(b"\x1B" * sporedrift.SCREEN)
        unit.play_all(encode(packet(0xB9, 0x01)))
        before = unit.picture()
        unit.update_screen(bytearray(b"\xE4" * sporedrift.SCREEN))
        self.assertEqual(unit.displayed_screen, b"\x1B" * sporedrift.SCREEN)
        self.assertEqual(unit.picture(), before)
        unit.play_all(encode(packet(0xB9, 0x00)))
        self.assertEqual(unit.displayed_screen, b"\xE4" * sporedrift.SCREEN)
        self.assertNotEqual(unit.picture(), before)

    def test_pads(self):
        unit = Unit.post_boot()
        unit.play_all(encode(packet(0x89, 0x01)))
        self.assertEqual(unit.joypad_mask, 1)
        before = unit.joypad_index
        unit.play_all(b"\x10\x30")
        self.assertEqual(unit.joypad_index, before ^ 1)

    def test_looks(self):
        unit = Unit.new()
        self.assertEqual(unit.backdrop.rgb8, (255, 238, 202))
        self.assertEqual(Rgb555(0x8000).rgb8, (0, 0, 0))
        self.assertEqual(unit.color_at(159, 143, 0), 0x67BF)
        self.assertIsNone(unit.border_color_at(255, 223))
        self.assertEqual(unit.map_entry(31, 27), 0)
        entry = BorderMapEntry(0x5003)
        self.assertEqual((entry.tile, entry.palette, entry.flip_x, entry.flip_y), (3, 4, True, False))
        self.assertEqual(unit.tile(255), bytes(32))
        self.assertEqual(b"".join(unit.row(y).tobytes() for y in range(224)), unit.picture().words.tobytes())
        self.assertTrue(verdict(packet(0xB9, 0x02)))
        self.assertFalse(verdict(packet(0xD1)))


class Verdicts(Case):
    # ATTR_BLK, ATTR_LIN and ATTR_CHR, and the most sets, lines and cells that 1 to 7 packets may announce
    HELD = {
        0x04: (2, 5, 7, 10, 13, 15, 18),
        0x05: (14, 30, 46, 62, 78, 94, 110),
        0x07: (40, 104, 168, 232, 296, 360, 0),
    }

    def announcing(self, code, packets, items, rest=0):
        """A command of so many packets that announces so many items; each of its other bytes is `rest`."""
        command = bytearray([rest]) * (16 * packets)
        command[0] = code << 3 | packets
        if code == 0x07:
            command[3:5] = items.to_bytes(2, "little")
        else:
            command[1] = items
        return command

    def coloured(self, command):
        """How many cells of the attribute map have palette 3 after a command; all others must have palette 0."""
        unit = Unit.post_boot()
        self.assertEqual(unit.play_all(encode(command)), [bytes(command)])
        cells = list(unit.to_state().attribute_map)
        self.assertEqual(cells.count(0) + cells.count(3), 360)
        return cells.count(3)

    def test_eighteen_sets(self):
        """In one packet and in seven; the unit doesn't look at the verdict, and takes the sets that are there."""
        self.assertFalse(verdict(self.announcing(0x04, 1, 18)))
        self.assertTrue(verdict(self.announcing(0x04, 7, 18)))
        for packets, held in enumerate(self.HELD[0x04], 1):
            command = self.announcing(0x04, packets, 18)
            for x in range(held):
                command[2 + 6 * x : 8 + 6 * x] = bytes([0x02, 0x0C, x, 0, x, 0])
            self.assertEqual(len(command), 16 * packets)
            self.assertEqual(verdict(command), held == 18)
            self.assertEqual(self.coloured(command), held)

    def test_what_packets_hold_and_one_more(self):
        for code, row in self.HELD.items():
            for packets, held in enumerate(row, 1):
                for rest in (0x00, 0xFF, 0xA5):
                    for items, due in ((0, False), (1, held > 0), (held, held > 0), (held + 1, False), (255, held >= 255)):
                        with self.subTest(code=code, packets=packets, items=items, rest=rest):
                            self.assertIs(verdict(self.announcing(code, packets, items, rest)), due)
        # of a word the high byte counts too, and seven packets of cells are one too many
        for items in (256, 257, 360, 361, 0xFF01, 0xFFFF):
            self.assertFalse(verdict(self.announcing(0x07, 2, items)))
        for items in (1, 40, 360):
            self.assertFalse(verdict(self.announcing(0x07, 7, items)))

    def test_the_fewest_packets_and_more(self):
        for code, row in self.HELD.items():
            for items in range(1, max(row) + 1):
                told = [verdict(self.announcing(code, packets, items)) for packets in range(1, 8)]
                self.assertEqual(told, [items <= held for held in row])

    def test_what_conforms_is_carried_out_to_its_last_item(self):
        for packets, held in enumerate(self.HELD[0x07], 1):
            for items in {1, held // 2, held - 1, held} if held else ():
                # every cell takes palette 3, row by row from the first on, and there are data for more
                command = self.announcing(0x07, packets, items, 0xFF)
                command[1] = command[2] = command[5] = 0
                self.assertTrue(verdict(command))
                self.assertEqual(self.coloured(command), items)
        for packets, held in enumerate(self.HELD[0x05], 1):
            for items in {1, held // 2, held - 1, held}:
                # a column that isn't there, again and again, and column 0 as the last
                command = self.announcing(0x05, packets, items, 0x1F)
                command[1 + items] = 0x60
                self.assertTrue(verdict(command))
                self.assertEqual(self.coloured(command), 18)

    def test_other_commands_announce_nothing(self):
        for first in range(256):
            code, packets = first >> 3, first & 7 if first < 0xF0 else 1
            if code in self.HELD:
                continue
            for rest in (b"\x00", b"\xFF"):
                command = (bytes([first]) + rest * 127)[: 16 * packets]
                if packets == 0:
                    self.refused(5, verdict, command)
                else:
                    self.assertIs(verdict(command), packets == 1 and code <= 0x19)


class Pages(Case):
    # each transfer: its command's first two bytes, and which bytes of the page land at which of the block (RULES 5.4)
    LANDINGS = {
        Transfer.PALETTES: (0x59, 0, [(0, 4096, 274)]),
        Transfer.ATTRIBUTE_FILES: (0xA9, 0, [(0, 4050, 4370)]),
        Transfer.LOWER_TILES: (0x99, 0, [(0, 4096, 19940)]),
        Transfer.UPPER_TILES: (0x99, 1, [(0, 4096, 24036)]),
        Transfer.BORDER_MAP: (0xA1, 0, [(0, 0x700, 28132), (0x800, 0x860, 29924)]),
    }

    def pages(self, count):
        """Random pages, and two that are all alike."""
        chance = random.Random(20261117)
        return [bytes(4096), b"\xFF" * 4096] + [bytes(chance.randrange(256) for _ in range(4096)) for _ in range(count)]

    def carried(self, page):
        """The screen of a page by a second reading, pixel by pixel (RULES 5.6)."""
        screen = bytearray(5760)
        for pixel in range(160 * 144):
            y, x = divmod(pixel, 160)
            tile = y // 8 * 20 + x // 8
            at, bit = tile * 16 + y % 8 * 2, 7 - x % 8
            shade = (page[at] >> bit & 1) + 2 * (page[at + 1] >> bit & 1) if tile < 256 else 0
            screen[pixel // 4] |= shade << 6 - pixel % 4 * 2
        return bytes(screen)

    def shown(self, screen):
        """The page of a screen (RULES 5.3)."""
        shades = [byte >> k & 3 for byte in screen for k in (6, 4, 2, 0)]
        page = bytearray(4096)
        for at in range(4096):
            start = (at // 320 * 8 + at % 16 // 2) * 160 + at // 16 % 20 * 8
            for shade in shades[start : start + 8]:
                page[at] = page[at] << 1 | shade >> at % 2 & 1
        return bytes(page)

    def test_every_pixel(self):
        for page in self.pages(6):
            screen = page_screen(page)
            self.assertEqual(screen, self.carried(page))
            self.assertEqual(self.shown(screen), page)
        for lent in (bytearray(page), memoryview(page)):
            self.assertEqual(page_screen(lent), screen)

    def test_a_page_lands_as_it_is(self):
        unit = Unit.post_boot()
        for page in self.pages(2):
            screen = page_screen(page)
            for kind, (first, second, parts) in self.LANDINGS.items():
                unit.play_all(encode(packet(first, second)))
                told = [unit.update_screen(bytes([shades]) * 5760) for shades in (0xFF, 0x1B)]
                # nothing else changes but the live capture, and the countdown and kind of what was pending
                due = bytearray(unit.block)
                self.assertEqual([*told, unit.update_screen(screen)], [None, None, kind])
                due[10:12], due[8420:14180] = bytes(2), screen
                for start, end, at in parts:
                    due[at : at + end - start] = page[start:end]
                self.assertEqual(unit.block, due)

    def test_another_transfer_command_between(self):
        """It takes the place of the first, and counts anew; another command doesn't matter."""
        unit, page = Unit.post_boot(), self.pages(1)[-1]
        screen, told = page_screen(page), []
        for first, second, screens in ((0x59, 0, 2), (0x99, 1, 1), (0xB9, 2, 3)):
            unit.play_all(encode(packet(first, second)))
            told += [unit.update_screen(screen) for _ in range(screens)]
        self.assertEqual(told, [None] * 4 + [Transfer.UPPER_TILES, None])
        self.assertEqual(unit.tile(255), page[-32:])

    def test_what_makes_the_sample(self):
        """Its screens that land are the call's for their own pages, and what makes them gives the same for any page."""
        spec = importlib.util.spec_from_file_location("packets", MAKER)
        packets = importlib.util.module_from_spec(spec)
        spec.loader.exec_module(packets)
        unit, screens = Unit.post_boot(), []
        for text in read("dusk.log").splitlines():
            line = parse_line(text)
            if line.kind is LineKind.WRITES:
                unit.play_all(line.data)
            elif unit.update_screen(line.data) is not None:
                screens.append(line.data)
        self.assertEqual(len(screens), 5)
        pages = [self.shown(screen) for screen in screens]
        self.assertEqual([page_screen(page) for page in pages], screens)
        for page in pages + self.pages(4):
            self.assertEqual(packets.page_screen(page), page_screen(page))


class Refusals(Case):
    def test_each(self):
        unit = Unit.post_boot()
        before, broken = unit.block, bytearray(unit.block)
        broken[13] = 1
        self.refused(1, Unit.load, before[1:])
        self.refused(1, Unit.load, b"")
        self.refused(22, Unit.load, broken)
        for length in (0, 5759, 5761):
            self.refused(3, unit.update_screen, bytes(length))
        outside = [(160, 0, 0), (0, 144, 0), (0, 0, 4), (-1, 0, 0), (0, -1, 0), (0, 0, -1), (0, 0, 256), (1 << 32, 0, 0), (1 << 64, 0, 0)]
        for x, y, shade in outside:
            self.refused(4, unit.color_at, x, y, shade)
        for column, row in ((32, 0), (0, 28), (-1, 0), (0, 1 << 64)):
            self.refused(4, unit.map_entry, column, row)
        for x, y in ((256, 0), (0, 224), (-1, 0), (0, 1 << 64)):
            self.refused(4, unit.border_color_at, x, y)
        for y in (224, -1, 1 << 64):
            self.refused(4, unit.row, y)
        for n in (256, -1, 1 << 64):
            self.refused(4, unit.tile, n)
        for command in (b"", b"\x01" * 15, b"\x08" * 16, b"\x02" * 16, b"\x01" * 128):
            self.refused(5, encode, command)
            self.refused(5, verdict, command)
        for length in (0, 1, 16, 4095, 4097, 5760, 8192):
            self.refused(10, page_screen, bytes(length))
        self.assertEqual(unit.block, before)

    def test_lines(self):
        screen = b"02" + b"1b" * 5760
        self.assertEqual(parse_line(b"01"), (LineKind.WRITES, b""))
        self.assertEqual(parse_line(b"0100fF"), (LineKind.WRITES, b"\x00\xFF"))
        self.assertEqual(parse_line(b"01" * 5761), (LineKind.WRITES, b"\x01" * 5760))
        self.assertEqual(parse_line(screen), (LineKind.SCREEN, b"\x1B" * 5760))
        lines = [b"", b"0", b"00", b"03", b"013", b"0130\r", b"01 30", b"0130\n", b"0x30", b"01" * 5762, screen[:-2], screen + b"00"]
        lines += [b"01" + pair for c in b"\r \t\0/:@G`g\xB1" for pair in (bytes([c]) + b"0", b"0" + bytes([c]))]
        for text in lines:
            self.refused(7, parse_line, text)
            said = self.refused(7, plate, b"0130\n" + text + b"\n0130\n") if text != b"0130\n" else None
            self.assertTrue(said is None or said.line == 2)
        self.refused(7, plate, b"01" + b"30" * 20000)
        self.assertEqual(self.refused(7, plate, b"\n").line, 1)
        self.assertEqual(plate(b""), Unit.post_boot().picture())

    def test_words(self):
        for number in (1, *range(3, 11), *range(21, 27)):
            said = str(Refusal(number))
            self.assertTrue(said.endswith(f" (refusal {number})"), said)
            self.assertNotIn("the library refuses", said)
        self.assertEqual(str(Refusal(2)), "the library refuses (refusal 2)")
        self.assertTrue(str(Refusal(7, 3)).startswith("line 3: "))
        for refusal in (Refusal(7, 3), Refusal(26, offset=15180)):
            again = pickle.loads(pickle.dumps(refusal))
            self.assertEqual((again.args, vars(again)), (refusal.args, vars(refusal)))
        self.assertIsInstance(Refusal(1), ValueError)

    def test_what_is_no_byte(self):
        unit = Unit.post_boot()
        before = unit.block
        for value in (-1, 256, 1 << 64):
            self.assertRaises(ValueError, unit.write_joypad, value)
        for call, given in ((unit.write_joypad, 1.0), (unit.play, 30), (unit.play, "30"), (unit.update_screen, None), (parse_line, "01")):
            self.assertRaises(TypeError, call, given)
        for given in (4096, "0" * 4096, None):
            self.assertRaises(TypeError, page_screen, given)
        self.assertRaises(TypeError, unit.color_at, 1.5, 0, 0)
        self.assertRaises(FileNotFoundError, plate, "no such log")
        self.assertEqual(unit.block, before)


class Rules(Case):
    """Damaged blocks: which rule is broken, at which byte, and in which words."""

    def broken(self, valid, damage, number, offset, field):
        """A valid block, damaged so, must break this rule at this byte, which is in this field."""
        block = bytearray(valid)
        Unit.load(block)
        for at, value in damage.items():
            block[at] = value
        said = self.refused(number, Unit.load, block)
        self.assertEqual(said.offset, offset)
        self.assertEqual(field_text(offset), field)
        self.assertEqual(str(said), f"rule V{number - 20} is broken at byte {offset} (0x{offset:X}), {field} (refusal {number})")

    def test_each(self):
        idle = Unit.post_boot().block
        # in a first packet, of which twenty bits are in; between two packets, of which two of three are in; the preset is not in force
        receiving = idle[:5] + bytes([1, 0, 0, 20]) + idle[9:16] + bytes([0xFF, 0xFF, 0x0F]) + idle[19:]
        awaiting = idle[:5] + bytes([2, 3, 2]) + idle[8:32] + b"\x03" + b"\xFF" * 31 + idle[64:]
        plain = idle[:9] + bytes(1) + idle[10:144] + bytes(8) + idle[152:]
        self.broken(idle, {0: 4}, 21, 0, "the mask mode")
        self.broken(idle, {1: 1}, 21, 1, "the joypad index")
        self.broken(idle, {2: 4}, 21, 2, "the joypad mask")
        self.broken(idle, {3: 0}, 22, 3, "the P15-high flag")
        self.broken(idle, {4: 2}, 22, 4, "the both-high flag")
        self.broken(idle, {9: 2}, 22, 9, "the preset-in-force flag")
        self.broken(idle, {12: 2}, 22, 12, "the frozen-present flag")
        self.broken(idle, {14: 1, 15: 1}, 22, 14, "an unused byte")
        self.broken(idle, {5: 3}, 23, 5, "the receiver")
        self.broken(idle, {8: 1}, 23, 8, "the bit index")
        self.broken(receiving, {8: 129}, 23, 8, "the bit index")
        self.broken(receiving, {8: 129, 6: 1}, 23, 6, "the number of packets expected")
        self.broken(receiving, {18: 0x1F}, 23, 18, "the current packet")
        self.broken(receiving, {143: 1}, 23, 143, "the packet store")
        self.broken(awaiting, {7: 3}, 23, 6, "the number of packets expected")
        self.broken(awaiting, {7: 0}, 23, 7, "the number of packets received")
        self.broken(awaiting, {31: 1}, 23, 31, "the current packet")
        self.broken(awaiting, {64: 1}, 23, 64, "the packet store")
        self.broken(idle, {10: 4, 11: 9}, 24, 10, "the countdown")
        self.broken(idle, {11: 1}, 24, 11, "the transfer's kind")
        self.broken(idle, {9: 0}, 25, 144, "the preset")
        self.broken(plain, {151: 1}, 25, 151, "the preset")
        self.broken(idle, {0: 1}, 26, 0, "the mask mode")
        self.broken(plain, {19939: 1}, 26, 19939, "the frozen capture")
        # the first rule wins, whatever its offset
        self.broken(idle, {15: 1, 5: 3}, 22, 15, "an unused byte")
        self.broken(idle, {143: 1, 10: 4}, 23, 143, "the packet store")

    def test_words(self):
        block = bytearray(Unit.post_boot().block)
        block[15180] = 0x1B
        said = self.refused(26, Unit.load, block)
        self.assertEqual(str(said), "rule V6 is broken at byte 15180 (0x3B4C), the frozen capture (refusal 26)")

    def test_every_byte_has_a_name(self):
        names = [field_text(at) for at in range(sporedrift.BLOCK)]
        self.assertNotIn(None, names)
        starts = [at for at in range(1, len(names)) if names[at] != names[at - 1]]
        self.assertEqual(starts, [*range(1, 14), 16, 32, 144, 152, 184, 274, 4370, 8420, 14180, 19940, 28132, 29924])
        for at in (-1, sporedrift.BLOCK, 1 << 64):
            self.assertIsNone(field_text(at))


class States(Case):
    """States of the emulator."""

    def units(self):
        """Units of all sorts, by their names."""
        yield "new", Unit.new()
        yield "post_boot", Unit.post_boot()
        unit = Unit.post_boot()
        unit.play_all(encode(packet(0x01, *range(14))) + encode(packet(0x21, 0x01, 0x07, 0x1B, 3, 2, 13, 9)) + encode(packet(0x89, 0x03)))
        for code in (0x59, 0xA9, 0x99, 0xA1):
            unit.play_all(encode(packet(code)))
            for shades in (0x1B, 0x2C, code):
                unit.update_screen(bytes([shades]) * sporedrift.SCREEN)
        yield "every table filled", unit.copy()
        unit.play_all(encode(packet(0xB9, 0x01)))
        unit.update_screen(b"\xE4" * sporedrift.SCREEN)
        yield "frozen", unit.copy()
        unit.play_all(encode(packet(0x99, 0x01)))
        unit.update_screen(b"\x4E" * sporedrift.SCREEN)
        yield "a transfer pending", unit.copy()
        seven = encode(b"\x27" + b"\xFF" * 111)
        unit.play_all(seven[:100])
        yield "in a packet", unit.copy()
        unit.play_all(b"\x00\x30" + seven[: 6 * 260])
        yield "between two packets", unit.copy()
        unit.play_all(seven[6 * 260 : 6 * 260 + 200])
        yield "in the seventh packet", unit

    def frozen(self):
        unit = dict(self.units())["frozen"]
        state = unit.to_state()
        self.assertEqual((state.mask, len(state.frozen_capture)), (1, 23040))
        return unit, state

    def test_out_and_in_again(self):
        for name, unit in self.units():
            with self.subTest(name):
                state = unit.to_state()
                again = Unit.from_state(state)
                self.assertEqual(again, unit)
                self.assertEqual(again.to_state(), state)
                self.assertEqual(pickle.loads(pickle.dumps(state)), state)
                other = copy.copy(state)
                other.capture, other.packets = bytearray(state.capture), memoryview(state.packets)
                self.assertEqual(Unit.from_state(other), unit)
                # and both go on alike
                for shades in range(4):
                    self.assertEqual(*(one.update_screen(bytes([shades]) * sporedrift.SCREEN) for one in (unit, again)))
                    self.assertEqual(*(one.play_all(encode(packet(0x51, shades))) for one in (unit, again)))
                self.assertEqual(again, unit)

    def test_what_the_block_says(self):
        starts = [152, 184, 274, 4370, 16, 32, 8420, 14180, 144, 19940, 28132, 29924]
        for name, unit in self.units():
            state, block = unit.to_state(), unit.block
            fields = [state.mask, state.joypad_index, state.joypad_mask, state.p15_high, state.lines_high, state.receiver]
            fields += [state.packets_expected, state.packets_received, state.bit_index, state.preset_in_force]
            self.assertEqual(bytes(fields), block[:10])
            self.assertIsInstance(state.p15_high, bool)
            self.assertEqual(state.transfer, unit.pending)
            for start, (span, most) in zip(starts, STATE_SPANS.items()):
                with self.subTest(name, span=span):
                    told = state.spans[span]
                    there = {"frozen_capture": block[12], "preset": block[9]}.get(span, 1)
                    self.assertEqual(told is not None, there == 1)
                    if told is None:
                        continue
                    due = 16 * block[7] if span == "packets" else most
                    packed = span in ("attribute_map", "attribute_files", "capture", "frozen_capture")
                    if packed:
                        self.assertEqual(bytes(block[start + k // 4] >> 6 - k % 4 * 2 & 3 for k in range(due)), told)
                    else:
                        self.assertEqual(block[start : start + due], told)

    def test_no_transfer_is_none(self):
        unit, screen = Unit.post_boot(), b"\xFF" * sporedrift.SCREEN
        state = unit.to_state()
        self.assertIsNone(state.transfer)
        # a countdown of 0, which the emulator may hold, is none here: nothing lands
        for kind in range(5):
            state.transfer = (0, kind)
            again = Unit.from_state(state)
            self.assertEqual(again, unit)
            self.assertIsNone(again.update_screen(screen))
        for countdown in (1, 2, 3):
            for kind in Transfer:
                state.transfer = (countdown, kind)
                again = Unit.from_state(state)
                self.assertEqual(again.to_state(), state)
                told = [again.update_screen(screen) for _ in range(4)]
                self.assertEqual(told, [None] * (countdown - 1) + [kind] + [None] * (4 - countdown))
        for transfer, offset in (((0, 5), 11), ((3, 5), 11), ((4, 0), 10), ((255, 255), 10)):
            state.transfer = transfer
            self.assertEqual(self.refused(24, Unit.from_state, state).offset, offset)

    def test_every_length_of_every_span(self):
        for name, unit in self.units():
            state = unit.to_state()
            for span, most in STATE_SPANS.items():
                old = state.spans[span]
                long = (old or b"") + bytes(most + 1)
                due = most if old is None else len(old)
                for what, bytes_ in (("missing", None), ("empty", b""), ("short", long[: max(due - 1, 0)]), ("long", long[: due + 1])):
                    with self.subTest(name, span=span, what=what):
                        other = copy.copy(state)
                        setattr(other, span, bytes_)
                        if span == "frozen_capture" and bytes_ is None and state.mask == 1:
                            self.assertEqual(self.refused(26, Unit.from_state, other).offset, 0)
                        elif span == "frozen_capture" and bytes_ is None:
                            self.assertEqual(Unit.from_state(other).block[12], 0)
                        elif span.startswith("border_") and bytes_ is None:
                            self.assertEqual(Unit.from_state(other).block, unit.block[:19940] + bytes(10080))
                        elif bytes_ is not None and len(bytes_) == due or span == "preset" and not state.preset_in_force:
                            self.assertEqual(Unit.from_state(other), unit)
                        else:
                            self.refused(8, Unit.from_state, other)
        self.refused(8, Unit.from_state, State())

    def test_a_preset_without_its_flag_is_not_looked_at(self):
        unit, state = self.frozen()
        self.assertFalse(state.preset_in_force)
        for preset in (b"", b"\x01" * 8, bytes(9)):
            state.preset = preset
            self.assertEqual(Unit.from_state(state), unit)

    def test_a_border_without_a_span_is_empty(self):
        unit, state = self.frozen()
        for missing in range(1, 8):
            for rest in (None, b"", bytes(7), b"\x01" * 8192):
                state.border_tiles, state.border_map, state.border_palettes = (None if missing >> k & 1 else rest for k in range(3))
                self.assertEqual(Unit.from_state(state).block, unit.block[:19940] + bytes(10080))

    def test_cells_and_shades(self):
        unit, state = self.frozen()
        map_, files = "attribute_map", "attribute_files"
        for span, at, number in ((map_, 0, 4), (map_, 359, 255), (files, 0, 128), (files, 16199, 4)):
            other = copy.copy(state)
            cells = bytearray(other.spans[span])
            cells[at] = number
            setattr(other, span, cells)
            self.refused(9, Unit.from_state, other)
        for span in ("capture", "frozen_capture"):
            setattr(state, span, bytes(shade | 0xFC for shade in state.spans[span]))
        self.assertEqual(Unit.from_state(state), unit)

    def test_the_order(self):
        """8 before 9, and 9 before the rules."""
        state = self.frozen()[1]
        state.mask = 4
        self.assertEqual(self.refused(21, Unit.from_state, state).offset, 0)
        state.attribute_map = b"\x04" + state.attribute_map[1:]
        self.refused(9, Unit.from_state, state)
        for span in STATE_SPANS:
            if span != "preset":
                self.refused(8, Unit.from_state, dataclasses.replace(state, **{span: bytes(5)}))

    def test_what_no_block_can_hold(self):
        capture = bytes(23040)
        for number, offset, change in (
            (21, 1, {"joypad_index": 1}),
            (22, 3, {"p15_high": False}),
            (22, 3, {"p15_high": 2}),
            (22, 9, {"preset_in_force": 2, "preset": None}),
            (23, 8, {"bit_index": 1}),
            (23, 16, {"packet": b"\x01" + bytes(15)}),
            (23, 7, {"packets_received": 1, "packets": bytes(16)}),
            (26, 0, {"mask": 1}),
            (26, 0, {"mask": 2, "frozen_capture": capture}),
        ):
            state = Unit.post_boot().to_state()
            for name, given in change.items():
                setattr(state, name, given)
            self.assertEqual(self.refused(number, Unit.from_state, state).offset, offset)
        state = Unit.post_boot().to_state()
        for received in (8, 255):
            state.packets_received = received
            for length in (0, 112, 16 * received):
                state.packets = bytes(length)
                self.refused(8, Unit.from_state, state)

    def test_what_is_no_byte(self):
        for name in ("mask", "receiver", "bit_index", "p15_high"):
            for given, error in ((-1, ValueError), (256, ValueError), (1.0, TypeError), (None, TypeError)):
                state = Unit.post_boot().to_state()
                setattr(state, name, given)
                self.assertRaises(error, Unit.from_state, state)
        for name, given in (("capture", "0"), ("capture", 23040), ("transfer", 3), ("transfer", (3, None))):
            state = Unit.post_boot().to_state()
            setattr(state, name, given)
            self.assertRaises(TypeError, Unit.from_state, state)
        state.transfer = (3, 256)
        self.assertRaises(ValueError, Unit.from_state, state)

    def test_words(self):
        said = repr(Unit.post_boot().to_state())
        self.assertTrue(said.startswith("State(mask=0, joypad_index=0, joypad_mask=0, p15_high=True, "), said)
        self.assertIn("transfer=None, palettes=<32 bytes>, ", said)
        self.assertIn("packets=<0 bytes>, capture=<23040 bytes>, frozen_capture=None, ", said)

    def test_example(self):
        """The first state of examples/c/state.c, as it prints it."""
        state = Unit.post_boot().to_state()
        told = [f"  sgb_{name}: {str(getattr(state, name)).lower()}" for name in list(vars(state))[:10]]
        for name, span in state.spans.items():
            sum = 2166136261
            for byte in span or b"":
                sum = (sum ^ byte) * 16777619 & 0xFFFFFFFF
            told += [] if span is None else [f"  sgb_{name}: {len(span)} bytes, sum {sum:08X}"]
        with open(os.path.join(EXAMPLES, "state.stdout")) as file:
            due = file.read().splitlines()
        self.assertEqual(told, due[1 : 1 + len(told)])
        self.assertEqual(due[1 + len(told)], "  from_state: taken")


class Play(Case):
    def writes(self, chance):
        """Pulses of random commands, idle polls and random bytes in turns."""
        for _ in range(chance.randrange(8)):
            kind = chance.randrange(3)
            if kind == 0:
                yield bytes([0x20, 0x10, 0x30]) * chance.randrange(20)
            elif kind == 1:
                yield bytes(chance.randrange(256) for _ in range(chance.randrange(300)))
            else:
                packets = chance.randrange(1, 8)
                rest = bytes(chance.randrange(256) for _ in range(16 * packets - 1))
                yield encode(bytes([chance.randrange(30) << 3 | packets]) + rest)

    def test_in_a_row_is_one_by_one(self):
        chance = random.Random(20261116)
        commands = 0
        for _ in range(12):
            single, row, whole = Unit.post_boot(), Unit.post_boot(), Unit.post_boot()
            for _ in range(4):
                writes = b"".join(self.writes(chance))
                due = [(at, c) for at, c in enumerate(map(single.write_joypad, writes), 1) if c is not None]
                told, at = [], 0
                while at < len(writes):
                    taken, command = row.play(writes[at:])
                    at += taken
                    if command is not None:
                        told.append((at, command))
                self.assertEqual(told, due)
                self.assertEqual(whole.play_all(writes), [command for _, command in due])
                self.assertEqual(row, single)
                self.assertEqual(whole, single)
                commands += len(due)
        self.assertGreater(commands, 20)

    def test_nothing_and_very_much(self):
        unit = Unit.post_boot()
        before = unit.copy()
        self.assertEqual(unit.play(b""), (0, None))
        self.assertEqual(unit.play_all(b""), [])
        polls = b"\x30" * 1_048_580
        self.assertEqual(unit.play(polls), (1_048_576, None))
        self.assertEqual(unit.play_all(polls), [])
        self.assertEqual(unit, before)


class Pictures(Case):
    def test_pixels(self):
        picture = plate(read("dusk.log"))
        self.assertEqual(len(picture.words), 57344)
        self.assertEqual(picture.rgb[3 * (100 * 256 + 7) :][:3], bytes(picture[7, 100].rgb8))
        for at in ((256, 0), (0, 224), (-1, 0)):
            self.assertRaises(IndexError, picture.__getitem__, at)
        self.assertRaises(ValueError, sporedrift.Picture, picture.words[1:])

    def test_png(self):
        picture = plate(read("dusk.log"))
        self.assertEqual(pixels(picture.png()), picture.rgb)

    def test_image(self):
        picture = plate(read("dusk.log"))
        if PIL is None:
            with self.assertRaises(ImportError) as caught:
                picture.image()
            self.assertIn("Pillow", str(caught.exception))
        else:
            image = picture.image()
            self.assertEqual((image.size, image.mode, image.tobytes()), ((256, 224), "RGB", picture.rgb))
            self.assertEqual(PIL.Image.open(io.BytesIO(picture.png())).convert("RGB").tobytes(), picture.rgb)


class Finding(Case):
    def started(self, lib, path=PACKAGE):
        """What a Python says that imports the module with SPOREDRIFT_LIB set so."""
        words = [sys.executable, "-c", "import sporedrift; print(sporedrift.library_version())"]
        env = {**os.environ, "SPOREDRIFT_LIB": lib, "PYTHONPATH": path, "PYTHONDONTWRITEBYTECODE": "1"}
        return subprocess.run(words, env=env, stdout=subprocess.PIPE, stderr=subprocess.PIPE, text=True, cwd=tempfile.gettempdir())

    def test_versions_agree(self):
        self.assertEqual(sporedrift.library_version(), sporedrift.__version__)

    def test_where_it_is_told(self):
        file = importlib.import_module("sporedrift._calls")._library._name
        if os.sep not in file:
            self.skipTest("the system found it")
        for lib in (file, os.path.dirname(os.path.realpath(file))):
            self.assertEqual(self.started(lib).stdout.strip(), sporedrift.__version__)

    def test_missing(self):
        with tempfile.TemporaryDirectory() as folder:
            for lib in (folder, os.path.join(folder, "none.so")):
                said = self.started(lib)
                self.assertNotEqual(said.returncode, 0)
                self.assertIn("tools/export/lib", said.stderr)
                self.assertIn(lib, said.stderr)

    def test_another_library(self):
        name = ctypes.util.find_library("c")
        calls = importlib.import_module("sporedrift._calls")
        with self.assertRaises(ImportError) as caught:
            calls.checked(ctypes.CDLL(name), name)
        self.assertIn(f"{name} does not tell its version", str(caught.exception))

    def test_another_version(self):
        calls = importlib.import_module("sporedrift._calls")
        old = calls.MAJOR, calls.MINOR
        for major, minor in ((old[0] + 1, old[1]), (old[0], old[1] + 1)):
            calls.MAJOR, calls.MINOR = major, minor
            try:
                with self.assertRaises(ImportError) as caught:
                    calls.checked(calls._library, "it")
            finally:
                calls.MAJOR, calls.MINOR = old
            self.assertIn(f"it is version {sporedrift.__version__}, and this module needs {major}.{minor}", str(caught.exception))

    def test_the_wheel_has_all(self):
        backend = importlib.import_module("backend")
        file = importlib.import_module("sporedrift._calls")._library._name
        with tempfile.TemporaryDirectory() as folder:
            name = backend.build_wheel(folder)
            self.assertEqual(name, f"sporedrift-{sporedrift.__version__}-py3-none-any.whl")
            # a wheel is a zip, from which Python imports as it stands
            said = self.started(file, os.path.join(folder, name))
            self.assertEqual(said.stdout.strip(), sporedrift.__version__, said.stderr)
            self.assertTrue(os.path.isfile(os.path.join(folder, backend.build_sdist(folder))))


if __name__ == "__main__":
    unittest.main()
