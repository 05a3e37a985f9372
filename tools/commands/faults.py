"""What is wrong with a saved block, in words that send a person to the field. The verdict, a number and an offset, is the program's: what
stands here only chooses words for it, by the bytes that the rule is about. docs/RULES.md 1.4 to 1.11 has the fields and the rules."""

BLOCK = 30020
MASK, INDEX, PADS, P15, BOTH, RECEIVER, EXPECTED, RECEIVED, BITS, PRESET_ON, COUNTDOWN, KIND, FROZEN_ON = range(13)
# By the names that the header, the wrapper and the module have (tools/export/places).
FIELDS = (
    "the mask mode",
    "the joypad index",
    "the joypad mask",
    "the P15-high flag",
    "the both-high flag",
    "the receiver",
    "the number of packets expected",
    "the number of packets received",
    "the bit index",
    "the preset-in-force flag",
    "the countdown",
    "the transfer's kind",
    "the frozen-present flag",
)
SPARE, PACKET, STORE, PRESET, FROZEN = range(13, 16), range(16, 32), range(32, 144), range(144, 152), range(14180, 19940)
PARTS = {SPARE: "the unused bytes", PACKET: "the current packet", STORE: "the packet store", PRESET: "the preset", FROZEN: "the frozen capture"}
STATES = ("idle", "receiving a packet", "awaiting a packet")
MODES = ("shown", "frozen", "black", "backdrop")


def rule(number, offset, block):
    """Of a block that breaks V1 to V6, which are 21 to 26, at this offset. Where no cause is seen, none is told, but where to look."""
    words = (v1, v2, v3, v4, v5, v6)[number - 21](offset, block)
    return f"V{number - 20}: " + (words or f"{place(offset)} is {block[offset]}")


def place(offset):
    """An offset, also as a hex viewer shows it."""
    return f"byte {offset} (hex {offset:X})"


def field(offset):
    return f"{FIELDS[offset]} at {place(offset)}"


def said(offset, block):
    """The byte by which something is known."""
    return f"(byte {offset} is {block[offset]})"


def over(most, offset, block):
    return f"{field(offset)} is over {most}: it is {block[offset]}"


def not_zero(offset, block, since=""):
    """A field or a byte of a part that must be 0. since: from where on the part must, if not all of it."""
    if offset < len(FIELDS):
        return f"{field(offset)} is not 0: it is {block[offset]}"
    for part, name in PARTS.items():
        if offset in part:
            where = f"{'' if part is SPARE else 'bytes '}{part[0]} to {part[-1]}"
            return f"{name}, {where}, must be 0{since}: {place(offset)} is {block[offset]}"
    return None


def v1(offset, block):
    if offset == INDEX:
        return f"{field(INDEX)} has a bit that the joypad mask at byte {PADS} has not: they are {block[INDEX]} and {block[PADS]}"
    return over(3, offset, block) if offset in (MASK, PADS) else None


def v2(offset, block):
    if offset in SPARE:
        return not_zero(offset, block)
    if offset == P15 and block[P15] == 0:
        return f"{field(P15)} is 0, while {FIELDS[BOTH]} at byte {BOTH} is {block[BOTH]}"
    return f"{field(offset)} is neither 0 nor 1: it is {block[offset]}" if offset in (P15, BOTH, PRESET_ON, FROZEN_ON) else None


def v3(offset, block):
    if offset == RECEIVER:
        return over(2, RECEIVER, block)
    state = block[RECEIVER]
    about = offset in (EXPECTED, RECEIVED, BITS) or offset in PACKET or offset in STORE
    words = (not_zero, receiving, awaiting)[state](offset, block) if about and state < 3 else None
    if words and state == 1 and block[RECEIVED] == 0 and (offset == EXPECTED or offset in STORE):
        words += f"; no packet is in {said(RECEIVED, block)}"
    return words and f"{words}; the receiver is {STATES[state]} {said(RECEIVER, block)}"


def receiving(offset, block):
    if offset == BITS:
        return over(128, BITS, block)
    if offset in PACKET:
        return not_zero(offset, block, f" from bit {block[BITS]} on, which is the bit index at byte {BITS}")
    return more_to_come(offset, block) if block[RECEIVED] else not_zero(offset, block)


def awaiting(offset, block):
    if offset == RECEIVED:
        return f"{field(RECEIVED)} is 0, and must be 1 or more"
    return more_to_come(offset, block) if offset == EXPECTED or offset in STORE else not_zero(offset, block)


def more_to_come(offset, block):
    """Of a command of which some packets are in."""
    expected, received, count = block[EXPECTED], block[RECEIVED], counted(block[STORE[0]])
    if offset in STORE:
        behind = f"the {received} packet{'s' * (received != 1)} received at byte {RECEIVED}"
        return not_zero(offset, block, f" from byte {STORE[0] + 16 * received} on, behind {behind}")
    due = []
    if expected <= received:
        due.append(f"over {FIELDS[RECEIVED]} at byte {RECEIVED}, which is {received}")
    if expected > 7:
        due.append("at most 7")
    if expected != count:
        due.append(f"the count in the store's first byte, {place(STORE[0])}, which is {count}")
    return f"{field(EXPECTED)} is {expected}, and must be {' and '.join(due)}" if offset == EXPECTED and due else None


def counted(first):
    """The packets that a command's first byte counts (RULES 3.8)."""
    return 1 if first >= 0xF0 else first % 8


def v4(offset, block):
    if offset == COUNTDOWN:
        return over(3, COUNTDOWN, block)
    if offset == KIND and block[COUNTDOWN] == 0:
        return f"{not_zero(KIND, block)}; no transfer is pending {said(COUNTDOWN, block)}"
    return over(4, KIND, block) if offset == KIND else None


def v5(offset, block):
    return f"{not_zero(offset, block)}; it is not in force {said(PRESET_ON, block)}" if offset in PRESET else None


def v6(offset, block):
    if offset == MASK and block[MASK] < 4:
        there = "a" if block[FROZEN_ON] else "no"
        return f"{field(MASK)} is {block[MASK]}, {MODES[block[MASK]]}, and there is {there} frozen capture {said(FROZEN_ON, block)}"
    return f"{not_zero(offset, block)}; there is none {said(FROZEN_ON, block)}" if offset in FROZEN else None
