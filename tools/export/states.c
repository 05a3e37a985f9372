/* states: states of the emulator, by the header and the library: blocks that go out and come in again, every refusal of both ways in its
 * order, every length of every span. All that is lent stands between guard bytes, and a refused call changes no byte of the block, of the
 * spans or of the struct. It is C and C++, and tools/export/run builds it as both: the calls over the struct are the header's own code.
 * It prints what is wrong. Its last line is 'N passed, M failed', a test a row. Exit status: 0 if all passed, 1 if not. */
#include <stdio.h>
#include <string.h>

#include "sporedrift.h"

static int passed, failed, wrong;

/* What a row looks at; then the row itself, which is one test. */
static void number(const char *what, unsigned long told, unsigned long due) {
    if (told != due) printf("states: %s: %lu, and not %lu\n", what, told, due);
    wrong += told != due;
}

static void row(const char *what, unsigned long at, unsigned long and_at) {
    if (wrong) printf("states: that was %s %lu, %lu\n", what, at, and_at);
    passed += !wrong;
    failed += wrong != 0;
    wrong = 0;
}

/* ---- the spans, by number */

enum {
    PALETTES,
    ATTRIBUTE_MAP,
    SYSTEM_PALETTES,
    ATTRIBUTE_FILES,
    PACKET,
    PACKETS,
    CAPTURE,
    FROZEN,
    PRESET,
    TILES,
    MAP,
    MAP_PALETTES,
    SPANS
};

static const size_t most[SPANS] = {32, 360, 4096, 16200, 16, 112, 23040, 23040, 8, 8192, 1792, 96};

static struct sporedrift_span *span(struct sporedrift_state *state, unsigned k) {
    switch (k) {
    case PALETTES: return &state->palettes;
    case ATTRIBUTE_MAP: return &state->attribute_map;
    case SYSTEM_PALETTES: return &state->system_palettes;
    case ATTRIBUTE_FILES: return &state->attribute_files;
    case PACKET: return &state->packet;
    case PACKETS: return &state->packets;
    case CAPTURE: return &state->capture;
    case FROZEN: return &state->frozen_capture;
    case PRESET: return &state->preset;
    case TILES: return &state->border_tiles;
    case MAP: return &state->border_map;
    default: return &state->border_palettes;
    }
}

static void fields_of(uint8_t *fields, const struct sporedrift_state *s) {
    fields[0] = s->mask, fields[1] = s->joypad_index, fields[2] = s->joypad_mask, fields[3] = s->p15_high;
    fields[4] = s->lines_high, fields[5] = s->receiver, fields[6] = s->packets_expected, fields[7] = s->packets_received;
    fields[8] = s->bit_index, fields[9] = s->preset_in_force, fields[10] = s->transfer_countdown, fields[11] = s->transfer_kind;
}

/* ---- what is lent stands between guards, and all of it has one pattern before each call */

#define GUARD 16u
#define LONGEST (23040u + 8u)
#define PATTERN 0xA5

static uint8_t memory[SPANS][GUARD + LONGEST + GUARD];
static uint8_t block_memory[GUARD + SPOREDRIFT_BLOCK + 1 + GUARD];
static uint8_t *const block = block_memory + GUARD;

static int all(const uint8_t *byte, size_t n, uint8_t value) {
    while (n > 0 && *byte == value) byte++, n--;
    return n == 0;
}

static void guards(void) {
    unsigned k;
    for (k = 0; k < SPANS; k++) {
        number("the guard before a span", all(memory[k], GUARD, PATTERN), 1);
        number("the guard behind it", all(memory[k] + GUARD + LONGEST, GUARD, PATTERN), 1);
    }
    number("the guard before the block", all(block_memory, GUARD, PATTERN), 1);
    number("the guard behind it", all(block + SPOREDRIFT_BLOCK + 1, GUARD, PATTERN), 1);
}

/* All spans lent to be written, each with so much more room than it needs. */
static void lend(struct sporedrift_state *state, size_t more) {
    unsigned k;
    memset(memory, PATTERN, sizeof memory);
    memset(state, 0x77, sizeof *state);
    for (k = 0; k < SPANS; k++) {
        span(state, k)->at = memory[k] + GUARD;
        span(state, k)->len = most[k] + more;
        span(state, k)->present = (int)k - 3;
    }
}

/* ---- numbers that look random */

static uint32_t seed = 20261116u;

static uint32_t below(uint32_t n) {
    seed = seed * 1664525u + 1013904223u;
    return (seed >> 8) % n;
}

static void scramble(uint8_t *bytes, size_t n) {
    while (n-- > 0) *bytes++ = (uint8_t)below(256);
}

/* ---- valid blocks of each kind, with random bytes wherever any may stand */

enum { IDLE, PLAIN, FIRST, LATER, AWAITING, FULL, HELD, FREEZING, BLACK, PENDING, BASES };

static void make(uint8_t *b, unsigned base) {
    sporedrift_post_boot(b, SPOREDRIFT_BLOCK);
    scramble(b + SPOREDRIFT_PRESET_AT, SPOREDRIFT_FROZEN_AT - SPOREDRIFT_PRESET_AT);
    scramble(b + SPOREDRIFT_TILES_AT, SPOREDRIFT_BLOCK - SPOREDRIFT_TILES_AT);
    b[SPOREDRIFT_JOYPAD_MASK_AT] = 3;
    b[SPOREDRIFT_JOYPAD_INDEX_AT] = 2;
    switch (base) {
    case PLAIN:
        b[SPOREDRIFT_PRESET_IN_FORCE_AT] = 0;
        memset(b + SPOREDRIFT_PRESET_AT, 0, SPOREDRIFT_PRESET);
        b[SPOREDRIFT_P15_HIGH_AT] = b[SPOREDRIFT_BOTH_HIGH_AT] = 0;
        break;
    case FIRST: /* twenty bits of a first packet */
    case LATER: /* and of the third of three */
        b[SPOREDRIFT_RECEIVER_AT] = SPOREDRIFT_RECEIVER_RECEIVING;
        b[SPOREDRIFT_BIT_INDEX_AT] = 20;
        b[SPOREDRIFT_CURRENT_PACKET_AT] = 0xC3, b[SPOREDRIFT_CURRENT_PACKET_AT + 1] = 0xFF, b[SPOREDRIFT_CURRENT_PACKET_AT + 2] = 0x0F;
        if (base == FIRST) break;
        b[SPOREDRIFT_EXPECTED_AT] = 3, b[SPOREDRIFT_RECEIVED_AT] = 2;
        scramble(b + SPOREDRIFT_PACKETS_AT, 32);
        b[SPOREDRIFT_PACKETS_AT] = 0x23;
        break;
    case AWAITING: /* one packet of two is in */
    case FULL:     /* six of seven */
        b[SPOREDRIFT_RECEIVER_AT] = SPOREDRIFT_RECEIVER_AWAITING;
        b[SPOREDRIFT_EXPECTED_AT] = base == FULL ? 7 : 2;
        b[SPOREDRIFT_RECEIVED_AT] = base == FULL ? 6 : 1;
        scramble(b + SPOREDRIFT_PACKETS_AT, 16u * b[SPOREDRIFT_RECEIVED_AT]);
        b[SPOREDRIFT_PACKETS_AT] = (uint8_t)(0x20 | b[SPOREDRIFT_EXPECTED_AT]);
        break;
    case HELD:     /* a frozen capture that is not shown */
    case FREEZING: /* and one that is */
        b[SPOREDRIFT_FROZEN_PRESENT_AT] = 1;
        scramble(b + SPOREDRIFT_FROZEN_AT, SPOREDRIFT_SCREEN);
        b[SPOREDRIFT_MASK_MODE_AT] = base == FREEZING ? SPOREDRIFT_MASK_FROZEN : SPOREDRIFT_MASK_SHOWN;
        break;
    case BLACK: b[SPOREDRIFT_MASK_MODE_AT] = SPOREDRIFT_MASK_BLACK; break;
    case PENDING: b[SPOREDRIFT_COUNTDOWN_AT] = 2, b[SPOREDRIFT_TRANSFER_AT] = SPOREDRIFT_TRANSFER_MAP; break;
    }
    number("the check of a valid block", sporedrift_check(b, SPOREDRIFT_BLOCK), 0);
}

/* A span of a block, as sgb/state.rs has it: how many bytes it has, of which there are none where it is missing. */
static size_t due_span(uint8_t *out, const uint8_t *b, unsigned k) {
    static const size_t start[SPANS] = {152, 184, 274, 4370, 16, 32, 8420, 14180, 144, 19940, 28132, 29924};
    size_t n = k == PACKETS ? 16u * b[7] : most[k], i;

    if ((k == FROZEN && b[12] == 0) || (k == PRESET && b[9] == 0)) return 0;
    for (i = 0; i < n; i++)
        if (k == ATTRIBUTE_MAP || k == ATTRIBUTE_FILES || k == CAPTURE || k == FROZEN)
            out[i] = b[start[k] + i / 4] >> (6 - i % 4 * 2) & 3;
        else
            out[i] = b[start[k] + i];
    return n;
}

static int due_present(const uint8_t *b, unsigned k) { return k == FROZEN ? b[12] : k == PRESET ? b[9] : 1; }

/* ---- a block goes out, and comes in again */

static void goes_out(const uint8_t *b, struct sporedrift_state *state, size_t more) {
    static uint8_t due[LONGEST], before[SPOREDRIFT_BLOCK];
    uint8_t fields[SPOREDRIFT_STATE_FIELDS];
    unsigned k;

    memcpy(before, b, sizeof before);
    lend(state, more);
    number("to_state", sporedrift_to_state(b, SPOREDRIFT_BLOCK, state), 0);
    number("the block is as it was", memcmp(before, b, sizeof before) == 0, 1);
    fields_of(fields, state);
    number("the fields", memcmp(fields, b, sizeof fields) == 0, 1);
    for (k = 0; k < SPANS; k++) {
        size_t n = due_span(due, b, k);
        number("whether a span is there", (unsigned long)span(state, k)->present, (unsigned long)due_present(b, k));
        number("its length", span(state, k)->len, n);
        number("its pointer stays", span(state, k)->at == memory[k] + GUARD, 1);
        number("its bytes", memcmp(memory[k] + GUARD, due, n) == 0, 1);
        number("its tail, or all of one that is missing", all(memory[k] + GUARD + n, LONGEST - n, PATTERN), 1);
    }
    guards();
}

static void comes_in(const struct sporedrift_state *state, const uint8_t *due) {
    static uint8_t spans[sizeof memory];
    struct sporedrift_state kept;

    memcpy(spans, memory, sizeof memory);
    memcpy(&kept, state, sizeof kept);
    memset(block_memory, PATTERN, sizeof block_memory);
    number("from_state", sporedrift_from_state(block, SPOREDRIFT_BLOCK, state), 0);
    number("the block", memcmp(block, due, SPOREDRIFT_BLOCK) == 0, 1);
    number("the byte behind it", block[SPOREDRIFT_BLOCK], PATTERN);
    number("the spans are as they were", memcmp(memory, spans, sizeof memory) == 0, 1);
    number("the struct is", memcmp(&kept, state, sizeof kept) == 0, 1);
    guards();
}

static void there_and_back(void) {
    static uint8_t b[SPOREDRIFT_BLOCK];
    struct sporedrift_state state;
    unsigned base, more;

    for (base = 0; base < BASES; base++)
        for (more = 0; more < 8; more += 7) {
            make(b, base);
            goes_out(b, &state, more);
            comes_in(&state, b);
            row("out and in, with more room", base, more);
        }
    for (base = 0; base < 4; base++) {
        (base % 2 ? sporedrift_post_boot : sporedrift_new)(b, sizeof b);
        goes_out(b, &state, 0);
        comes_in(&state, b);
        row("a fresh block", base, 0);
    }
}

/* Whatever `present` is but 0, the span is there. */
static void truths(void) {
    static const int values[4] = {-1, 2, 256, 65536};
    static uint8_t b[SPOREDRIFT_BLOCK];
    struct sporedrift_state state;
    unsigned i, k;

    make(b, FREEZING);
    for (i = 0; i < 4; i++) {
        goes_out(b, &state, 0);
        for (k = 0; k < SPANS; k++) span(&state, k)->present = values[i];
        comes_in(&state, b);
        row("spans that are there", i, 0);
    }
}

/* Blocks as a game makes them: pulses of random commands, cut at random, and screens. */
static void played(void) {
    static uint8_t b[SPOREDRIFT_BLOCK], screen[SPOREDRIFT_SCREEN];
    uint8_t command[SPOREDRIFT_COMMAND], received[SPOREDRIFT_COMMAND], writes[7 * SPOREDRIFT_PACKET_WRITES];
    struct sporedrift_state state;
    unsigned round, frozen = 0, pending = 0, within = 0;

    sporedrift_post_boot(b, sizeof b);
    for (round = 0; round < 400; round++) {
        uint32_t packets = below(4) == 0 ? 1 + below(7) : 1, n, at = 0;
        scramble(command, sizeof command);
        command[0] = (uint8_t)((below(3) == 0 ? 0x17 : below(26)) << 3 | packets);
        if (command[0] >> 3 == 0x17) command[1] = (uint8_t)(command[1] % 4 == 3 ? 1 : command[1] % 3);
        n = sporedrift_value(sporedrift_encode(command, packets * 16, writes, sizeof writes));
        if (below(8) == 0) n = below(n);
        while (at < n) at += (uint32_t)sporedrift_taken(sporedrift_play(b, sizeof b, writes + at, n - at, received, sizeof received));
        if (below(3) == 0) {
            scramble(screen, sizeof screen);
            sporedrift_update_screen(b, sizeof b, screen, sizeof screen);
        }
        goes_out(b, &state, round % 3);
        comes_in(&state, b);
        frozen += b[SPOREDRIFT_FROZEN_PRESENT_AT] != 0;
        pending += b[SPOREDRIFT_COUNTDOWN_AT] != 0;
        within += b[SPOREDRIFT_RECEIVER_AT] != 0;
        row("a block that was played", round, command[0]);
    }
    number("some were frozen, some pending, some within a command", frozen > 9 && pending > 9 && within > 9, 1);
    row("all that were played", frozen, pending);
}

/* ---- coming in: refused, or another block */

static void refused_in(const char *what, const struct sporedrift_state *state, size_t len, uint32_t due) {
    static uint8_t spans[sizeof memory];
    struct sporedrift_state kept;

    memcpy(spans, memory, sizeof memory);
    memcpy(&kept, state, sizeof kept);
    memset(block_memory, PATTERN, sizeof block_memory);
    number(what, sporedrift_from_state(block, len, state), due);
    number("the block is as it was", all(block_memory, sizeof block_memory, PATTERN), 1);
    number("the spans are", memcmp(memory, spans, sizeof memory) == 0, 1);
    number("the struct is", memcmp(&kept, state, sizeof kept) == 0, 1);
}

static uint32_t broken(uint32_t rule, uint32_t offset) { return 20 + rule + 256 * offset; }

/* Takes a span away, with a pointer and a length that would be wrong. */
static void miss(struct sporedrift_state *state, unsigned k) {
    span(state, k)->at = NULL;
    span(state, k)->len = 99999;
    span(state, k)->present = 0;
}

static void empty(struct sporedrift_state *state, unsigned k) {
    span(state, k)->at = NULL;
    span(state, k)->len = 0;
    span(state, k)->present = 1;
}

/* What `spoil` of span k makes of a state of this block: the answer, and in `after` the block where the state is still taken. */
enum { MISSING, EMPTY, SHORT, LONG, SPOILS };

static uint32_t spoilt(const uint8_t *b, unsigned k, unsigned spoil, uint8_t *after) {
    memcpy(after, b, SPOREDRIFT_BLOCK);
    if (k == PRESET && b[SPOREDRIFT_PRESET_IN_FORCE_AT] == 0) return 0;
    if (k == PACKETS && b[SPOREDRIFT_RECEIVED_AT] == 0 && spoil == EMPTY) return 0;
    if (k >= TILES && spoil == MISSING) {
        memset(after + SPOREDRIFT_TILES_AT, 0, SPOREDRIFT_BLOCK - SPOREDRIFT_TILES_AT);
        return 0;
    }
    if (k == FROZEN && spoil == MISSING) {
        after[SPOREDRIFT_FROZEN_PRESENT_AT] = 0;
        memset(after + SPOREDRIFT_FROZEN_AT, 0, SPOREDRIFT_SCREEN);
        return b[SPOREDRIFT_MASK_MODE_AT] == SPOREDRIFT_MASK_FROZEN ? broken(6, SPOREDRIFT_MASK_MODE_AT) : 0;
    }
    return SPOREDRIFT_REFUSED_SPAN;
}

static void lengths(void) {
    static uint8_t b[SPOREDRIFT_BLOCK], after[SPOREDRIFT_BLOCK];
    struct sporedrift_state state;
    unsigned base, k, spoil;
    uint32_t due;

    for (base = 0; base < BASES; base++)
        for (k = 0; k < SPANS; k++) {
            make(b, base);
            for (spoil = 0; spoil < SPOILS; spoil++) {
                goes_out(b, &state, 7);
                span(&state, k)->present = 1;
                switch (spoil) {
                case MISSING: miss(&state, k); break;
                case EMPTY: empty(&state, k); break;
                case SHORT: span(&state, k)->len = span(&state, k)->len == 0 ? most[k] - 1 : span(&state, k)->len - 1; break;
                default: span(&state, k)->len = (span(&state, k)->len == 0 && k != PACKETS ? most[k] : span(&state, k)->len) + 1; break;
                }
                due = spoilt(b, k, spoil, after);
                if (due == 0)
                    comes_in(&state, after);
                else
                    refused_in("a span spoilt", &state, SPOREDRIFT_BLOCK, due);
            }
            row("the lengths of a span", base, k);
        }
}

/* A border of which a span is missing is empty, and the other two are not looked at: missing, empty, of any length. */
static void borders(void) {
    static uint8_t b[SPOREDRIFT_BLOCK], after[SPOREDRIFT_BLOCK];
    struct sporedrift_state state;
    unsigned way, k, is, some;

    make(b, HELD);
    for (way = 0; way < 4 * 4 * 4; way++) {
        goes_out(b, &state, 7);
        for (k = TILES, some = 0; k < SPANS; k++) {
            is = way >> 2 * (k - TILES) & 3;
            some |= 1u << is;
            if (is == 1) miss(&state, k);
            if (is == 2) empty(&state, k);
            if (is == 3) span(&state, k)->len++;
        }
        memcpy(after, b, sizeof after);
        if (some & 2) memset(after + SPOREDRIFT_TILES_AT, 0, SPOREDRIFT_BLOCK - SPOREDRIFT_TILES_AT);
        if (some == 1 || some & 2)
            comes_in(&state, after);
        else
            refused_in("a border", &state, SPOREDRIFT_BLOCK, SPOREDRIFT_REFUSED_SPAN);
        row("a border", way, some);
    }
}

static void packets(void) {
    static uint8_t b[SPOREDRIFT_BLOCK];
    struct sporedrift_state state;
    unsigned received, len;

    /* a length is right for one number alone, and none for over 7; what is lent here is no packet of the command that is coming in */
    for (received = 0; received < 256; received = received < 10 ? received + 1 : received + 49) {
        for (len = 0; len <= 16 * 10; len += len < 112 ? 8 : 16) {
            make(b, FULL);
            goes_out(b, &state, 7);
            state.packets_received = (uint8_t)received;
            state.packets.at = memory[CAPTURE] + GUARD; /* long enough for each */
            state.packets.len = len;
            if (len != 16 * received || received > 7)
                refused_in("packets of another length", &state, SPOREDRIFT_BLOCK, SPOREDRIFT_REFUSED_SPAN);
            else
                refused_in("packets that their first byte denies", &state, SPOREDRIFT_BLOCK, broken(3, SPOREDRIFT_EXPECTED_AT));
        }
        row("packets received", received, 0);
    }
}

/* ---- cells, shades, numbers */

static void cells(void) {
    static const size_t places[2][4] = {{0, 1, 180, 359}, {0, 359, 8000, 16199}};
    static const uint8_t values[4] = {4, 7, 128, 255};
    static uint8_t b[SPOREDRIFT_BLOCK];
    struct sporedrift_state state;
    unsigned files, i, v;

    make(b, HELD);
    for (files = 0; files < 2; files++)
        for (i = 0; i < 4; i++) {
            for (v = 0; v < 4; v++) {
                goes_out(b, &state, 0);
                (files ? state.attribute_files : state.attribute_map).at[places[files][i]] = values[v];
                refused_in("a cell over 3", &state, SPOREDRIFT_BLOCK, SPOREDRIFT_REFUSED_CELL);
            }
            row("a cell", files, places[files][i]);
        }
}

static void shades(void) {
    static uint8_t b[SPOREDRIFT_BLOCK];
    struct sporedrift_state state;
    unsigned k, i;

    make(b, FREEZING);
    for (k = CAPTURE; k <= FROZEN; k++) {
        goes_out(b, &state, 0);
        for (i = 0; i < most[k]; i++) span(&state, k)->at[i] = (uint8_t)(span(&state, k)->at[i] | below(64) << 2);
        comes_in(&state, b);
        row("shades with more bits", k, 0);
    }
}

static void transfers(void) {
    static uint8_t b[SPOREDRIFT_BLOCK];
    static const uint8_t kinds[8] = {0, 1, 2, 3, 4, 5, 6, 255};
    struct sporedrift_state state;
    unsigned countdown, i;

    for (countdown = 0; countdown < 256; countdown = countdown < 6 ? countdown + 1 : countdown + 83)
        for (i = 0; i < 8; i++) {
            make(b, BLACK);
            goes_out(b, &state, 0);
            state.transfer_countdown = (uint8_t)countdown;
            state.transfer_kind = kinds[i];
            b[SPOREDRIFT_COUNTDOWN_AT] = (uint8_t)countdown;
            b[SPOREDRIFT_TRANSFER_AT] = countdown == 0 ? 0 : kinds[i];
            if (countdown > 3)
                refused_in("a countdown over 3", &state, SPOREDRIFT_BLOCK, broken(4, SPOREDRIFT_COUNTDOWN_AT));
            else if (kinds[i] > 4)
                refused_in("no kind", &state, SPOREDRIFT_BLOCK, broken(4, SPOREDRIFT_TRANSFER_AT));
            else
                comes_in(&state, b);
            row("a transfer", countdown, kinds[i]);
        }
}

/* States that break one rule; the emulator takes some of them. */
static uint32_t break_rule(struct sporedrift_state *state, unsigned way) {
    switch (way) {
    case 0: state->mask = 4; return broken(1, 0);
    case 1: state->joypad_index = 4; return broken(1, 1);
    case 2: state->joypad_mask = 7; return broken(1, 2);
    case 3: state->p15_high = 2; return broken(2, 3);
    case 4: state->p15_high = 0; return broken(2, 3);
    case 5: state->lines_high = 255; return broken(2, 4);
    case 6: state->preset_in_force = 2; miss(state, PRESET); return broken(2, 9);
    case 7: state->receiver = 3; return broken(3, 5);
    case 8: state->packets_expected = 1; return broken(3, 6);
    case 9: state->bit_index = 1; return broken(3, 8);
    case 10: state->packet.at[0] = 1; return broken(3, 16);
    case 11: state->packet.at[15] = 0x80; return broken(3, 31);
    case 12: state->packets_received = 1; state->packets.len = 16; return broken(3, 7);
    case 13: state->receiver = 1; state->bit_index = 129; return broken(3, 8);
    case 14: state->receiver = 2; return broken(3, 6);
    case 15: state->transfer_countdown = 4; return broken(4, 10);
    case 16: state->transfer_kind = 5; return broken(4, 11);
    case 17: state->mask = 2; return broken(6, 0);
    case 18: state->mask = 3; return broken(6, 0);
    case 19: state->mask = 1; miss(state, FROZEN); return broken(6, 0);
    default: return 0;
    }
}
#define WAYS 20u

static void rules(void) {
    static uint8_t b[SPOREDRIFT_BLOCK];
    struct sporedrift_state state;
    unsigned way;
    uint32_t due;

    for (way = 0; way < WAYS; way++) {
        make(b, HELD);
        goes_out(b, &state, 7);
        due = break_rule(&state, way);
        refused_in("a rule is broken", &state, SPOREDRIFT_BLOCK, due);
        row("a broken rule", way, due);
    }
    /* a flag that is neither 0 nor 1 is V2, and the preset is looked at with 1 alone */
    make(b, HELD);
    goes_out(b, &state, 0);
    state.preset_in_force = 0;
    memset(b + SPOREDRIFT_PRESET_AT, 0, SPOREDRIFT_PRESET);
    b[SPOREDRIFT_PRESET_IN_FORCE_AT] = 0;
    comes_in(&state, b);
    row("a preset without its flag", 0, 0);
}

/* ---- the order of the refusals, in all combinations */

static void order_in(void) {
    static uint8_t b[SPOREDRIFT_BLOCK];
    struct sporedrift_state state;
    unsigned way, faults;
    uint32_t due;

    for (way = 0; way < WAYS; way++) {
        for (faults = 0; faults < 16; faults++) {
            make(b, HELD);
            goes_out(b, &state, 7);
            due = faults & 8 ? break_rule(&state, way) : 0;
            if (faults & 4) state.attribute_files.at[16199] = 9, due = SPOREDRIFT_REFUSED_CELL;
            if (faults & 2) state.capture.len -= way + 1, due = SPOREDRIFT_REFUSED_SPAN;
            if (faults & 1) due = SPOREDRIFT_REFUSED_LENGTH;
            if (due == 0)
                comes_in(&state, b);
            else
                refused_in("faults together", &state, SPOREDRIFT_BLOCK - (faults & 1), due);
            if (faults & 1) refused_in("a longer block", &state, SPOREDRIFT_BLOCK + 1, 1);
            if (faults & 1) refused_in("no block", &state, 0, 1);
        }
        row("faults together, coming in", way, 0);
    }
}

static void refused_out(const char *what, const uint8_t *b, size_t len, struct sporedrift_state *state, uint32_t due) {
    struct sporedrift_state kept;

    memcpy(&kept, state, sizeof kept);
    number(what, sporedrift_to_state(b, len, state), due);
    number("the struct is as it was", memcmp(&kept, state, sizeof kept) == 0, 1);
    number("the spans are", all(&memory[0][0], sizeof memory, PATTERN), 1);
}

static void order_out(void) {
    static uint8_t b[SPOREDRIFT_BLOCK + 1], kept[SPOREDRIFT_BLOCK + 1];
    static const struct {
        size_t at;
        uint8_t value;
        uint32_t rule, offset;
    } damage[6] = {{1, 4, 1, 1}, {14, 1, 2, 14}, {8, 129, 3, 8}, {11, 5, 4, 11}, {9, 0, 5, 144}, {0, 2, 6, 0}};
    struct sporedrift_state state;
    unsigned k, way, faults;
    uint32_t due;

    for (k = 0; k < SPANS; k++) {
        make(b, HELD);
        memset(b + SPOREDRIFT_PRESET_AT, 1, SPOREDRIFT_PRESET);
        for (way = 0; way < 6; way++)
            for (faults = 1; faults < 8; faults++) {
                memcpy(kept, b, sizeof kept);
                lend(&state, 3);
                due = 0;
                if (faults & 4) {
                    span(&state, k)->len = way % 2 ? 0 : most[k] - 1;
                    if (way % 2) span(&state, k)->at = NULL;
                    due = SPOREDRIFT_REFUSED_OUTPUT;
                }
                if (faults & 2) {
                    kept[damage[way].at] = damage[way].value;
                    due = broken(damage[way].rule, damage[way].offset);
                }
                if (faults & 1) due = SPOREDRIFT_REFUSED_LENGTH;
                refused_out("faults together", kept, SPOREDRIFT_BLOCK - (faults & 1), &state, due);
                if (faults & 1) refused_out("a longer block", kept, SPOREDRIFT_BLOCK + 1, &state, 1);
            }
        row("faults together, going out", k, 0);
    }
}

/* Room is asked for all spans, whether the block has them or not. */
static void rooms(void) {
    static uint8_t b[SPOREDRIFT_BLOCK];
    struct sporedrift_state state;
    unsigned base, k;

    for (base = 0; base < BASES; base++) {
        make(b, base);
        for (k = 0; k < SPANS; k++) {
            lend(&state, 0);
            span(&state, k)->len--;
            refused_out("a byte less", b, SPOREDRIFT_BLOCK, &state, SPOREDRIFT_REFUSED_OUTPUT);
            span(&state, k)->at = NULL;
            span(&state, k)->len = 0;
            refused_out("no room", b, SPOREDRIFT_BLOCK, &state, SPOREDRIFT_REFUSED_OUTPUT);
        }
        row("room for each span", base, 0);
    }
}

/* ---- the calls over slices: fields of another length, what no bit tells, the value */

static uint32_t from_spans(const struct sporedrift_state *state, size_t fields_len, uint16_t present) {
    uint8_t fields[SPOREDRIFT_STATE_FIELDS + 1] = {0};
    const struct sporedrift_state *s = state;
    fields_of(fields, state);
    return sporedrift_from_spans(
        block, SPOREDRIFT_BLOCK, fields, fields_len, present, s->palettes.at, s->palettes.len, s->attribute_map.at, s->attribute_map.len,
        s->system_palettes.at, s->system_palettes.len, s->attribute_files.at, s->attribute_files.len, s->packet.at, s->packet.len,
        s->packets.at, s->packets.len, s->capture.at, s->capture.len, s->frozen_capture.at, s->frozen_capture.len, s->preset.at,
        s->preset.len, s->border_tiles.at, s->border_tiles.len, s->border_map.at, s->border_map.len, s->border_palettes.at,
        s->border_palettes.len);
}

static uint32_t to_spans(const uint8_t *b, uint8_t *fields, size_t fields_len, struct sporedrift_state *s) {
    return sporedrift_to_spans(
        b, SPOREDRIFT_BLOCK, fields, fields_len, s->palettes.at, s->palettes.len, s->attribute_map.at, s->attribute_map.len,
        s->system_palettes.at, s->system_palettes.len, s->attribute_files.at, s->attribute_files.len, s->packet.at, s->packet.len,
        s->packets.at, s->packets.len, s->capture.at, s->capture.len, s->frozen_capture.at, s->frozen_capture.len, s->preset.at,
        s->preset.len, s->border_tiles.at, s->border_tiles.len, s->border_map.at, s->border_map.len, s->border_palettes.at,
        s->border_palettes.len);
}

static void slices(void) {
    static uint8_t b[SPOREDRIFT_BLOCK], after[SPOREDRIFT_BLOCK];
    uint8_t fields[SPOREDRIFT_STATE_FIELDS + 1];
    struct sporedrift_state state;
    unsigned base, len, k;
    uint16_t present;

    for (base = 0; base < BASES; base++) {
        make(b, base);
        present = (uint16_t)(0xE7F | (b[SPOREDRIFT_FROZEN_PRESENT_AT] ? 0x80 : 0) | (b[SPOREDRIFT_PRESET_IN_FORCE_AT] ? 0x100 : 0));
        for (len = 0; len <= sizeof fields; len++) {
            memset(fields, PATTERN, sizeof fields);
            lend(&state, 0);
            number("to_spans", to_spans(b, fields, len, &state), len < 12 ? 6 : 256ul * present);
            number("the fields", memcmp(fields, b, 12) == 0, len >= 12);
            number("the fields' tail", all(fields + (len < 12 ? 0 : 12), len < 12 ? sizeof fields : sizeof fields - 12, PATTERN), 1);
            guards();
            goes_out(b, &state, 0);
            memset(block_memory, PATTERN, sizeof block_memory);
            number("from_spans", from_spans(&state, len, present), len == 12 ? 0 : SPOREDRIFT_REFUSED_SPAN);
            number("the block", memcmp(block, b, sizeof b) == 0, len == 12);
            number("the block that is kept", all(block, SPOREDRIFT_BLOCK, PATTERN), len != 12);
        }
        row("fields of each length", base, present);
    }
    for (k = 0; k < 16; k++) {
        make(b, HELD);
        goes_out(b, &state, 0);
        memset(block_memory, PATTERN, sizeof block_memory);
        /* the span is lent, and its bit says that it is missing; the four bits above say nothing */
        present = (uint16_t)(0xFFFF ^ 1u << k);
        number("from_spans", from_spans(&state, 12, present), k < FROZEN || k == PRESET ? SPOREDRIFT_REFUSED_SPAN : 0);
        memcpy(after, b, sizeof after);
        if (k == FROZEN) after[12] = 0, memset(after + SPOREDRIFT_FROZEN_AT, 0, SPOREDRIFT_SCREEN);
        if (k >= TILES && k < SPANS) memset(after + SPOREDRIFT_TILES_AT, 0, SPOREDRIFT_BLOCK - SPOREDRIFT_TILES_AT);
        if (k < FROZEN || k == PRESET) memset(after, PATTERN, sizeof after);
        number("the block", memcmp(block, after, sizeof after) == 0, 1);
        guards();
        row("a bit of `present`", k, 0);
    }
}

/* ---- sizes and words */

static void words(void) {
    static const size_t due[SPANS] = {
        SPOREDRIFT_STATE_PALETTES, SPOREDRIFT_STATE_ATTRIBUTE_MAP, SPOREDRIFT_STATE_SYSTEM_PALETTES, SPOREDRIFT_STATE_ATTRIBUTE_FILES,
        SPOREDRIFT_STATE_PACKET,   SPOREDRIFT_STATE_PACKETS,       SPOREDRIFT_STATE_CAPTURE,         SPOREDRIFT_STATE_FROZEN_CAPTURE,
        SPOREDRIFT_STATE_PRESET,   SPOREDRIFT_STATE_BORDER_TILES,  SPOREDRIFT_STATE_BORDER_MAP,      SPOREDRIFT_STATE_BORDER_PALETTES};
    unsigned k;
    for (k = 0; k < SPANS; k++) number("the size of a span", due[k], most[k]);
    number("how many there are", SPOREDRIFT_STATE_SPANS, SPANS);
    row("sizes", 0, 0);
    number("the words of 8", strcmp(sporedrift_refusal_text(8), "a span of the state is missing, or is not as long as it must be") == 0, 1);
    number("the words of 9", strcmp(sporedrift_refusal_text(9), "a cell of the state's attribute map or files is over 3") == 0, 1);
    for (k = 8; k < 10; k++) {
        number("the refusal", sporedrift_refusal(k), k);
        number("no rule, no offset, no value", sporedrift_rule(k) + sporedrift_offset(k) + sporedrift_value(k), 0);
    }
    row("words", 8, 9);
}

int main(void) {
    memset(block_memory, PATTERN, sizeof block_memory);
    there_and_back();
    truths();
    played();
    lengths();
    borders();
    packets();
    cells();
    shades();
    transfers();
    rules();
    order_in();
    order_out();
    rooms();
    slices();
    words();
    printf("%d passed, %d failed\n", passed, failed);
    return failed != 0;
}
