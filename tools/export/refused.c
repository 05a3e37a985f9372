/* refused: damaged blocks, by the header and the library. Each row of `cases` damages a valid block; every call that is lent a block must
 * refuse it with that number and that offset, before all else that is wrong with what it is lent, and change no lent byte. Then the
 * header's small functions and its words, over all sorts of answers and over every byte of the block.
 * It prints what is wrong. Its last line is 'N passed, M failed', a test a row. Exit status: 0 if all passed, 1 if not. */
#include <stdio.h>
#include <string.h>

#include "sporedrift.h"

static int passed, failed, wrong;

/* What a row looks at, number or text; then the row itself, which is one test. */
static void number(const char *what, uint32_t told, uint32_t due) {
    if (told != due) printf("refused: %s: %lu, and not %lu\n", what, (unsigned long)told, (unsigned long)due);
    wrong += told != due;
}

static void text(const char *what, const char *told, const char *due) {
    int same = told == NULL || due == NULL ? told == due : strcmp(told, due) == 0;
    if (!same) printf("refused: %s: %s, and not %s\n", what, told == NULL ? "NULL" : told, due == NULL ? "NULL" : due);
    wrong += !same;
}

static void row(const char *what, unsigned long at) {
    if (wrong) printf("refused: that was %s %lu\n", what, at);
    passed += !wrong;
    failed += wrong != 0;
    wrong = 0;
}

/* ---- valid blocks of each kind, as post_boot leaves them but for these bytes (docs/RULES.md, 1.8) */

enum base {
    IDLE,
    FIRST,    /* in the first packet: twenty bits are in */
    LATER,    /* in the third packet of three: twenty bits are in */
    AWAITING, /* two packets of three are in */
    PLAIN     /* idle, and the preset is not in force */
};

static void make(uint8_t *block, enum base base) {
    sporedrift_post_boot(block, SPOREDRIFT_BLOCK);
    if (base == FIRST || base == LATER) {
        block[SPOREDRIFT_RECEIVER_AT] = SPOREDRIFT_RECEIVER_RECEIVING;
        block[SPOREDRIFT_BIT_INDEX_AT] = 20;
        block[SPOREDRIFT_CURRENT_PACKET_AT] = block[SPOREDRIFT_CURRENT_PACKET_AT + 1] = 0xFF;
        block[SPOREDRIFT_CURRENT_PACKET_AT + 2] = 0x0F;
    }
    if (base == AWAITING) block[SPOREDRIFT_RECEIVER_AT] = SPOREDRIFT_RECEIVER_AWAITING;
    if (base == LATER || base == AWAITING) {
        block[SPOREDRIFT_EXPECTED_AT] = 3;
        block[SPOREDRIFT_RECEIVED_AT] = 2;
        memset(block + SPOREDRIFT_PACKETS_AT, 0xFF, 2 * SPOREDRIFT_PACKET);
        block[SPOREDRIFT_PACKETS_AT] = 0x03;
    }
    if (base == PLAIN) {
        block[SPOREDRIFT_PRESET_IN_FORCE_AT] = 0;
        memset(block + SPOREDRIFT_PRESET_AT, 0, SPOREDRIFT_PRESET);
    }
}

/* ---- which byte: the first broken rule, and the lowest byte that breaks it */

struct damage {
    size_t at;
    uint8_t value;
};

static const struct {
    enum base base;
    struct damage damage[3]; /* up to one that is {0, 0} */
    uint32_t refusal, offset;
} cases[] = {
    /* V1: a number over 3, an index outside the mask */
    {IDLE, {{0, 4}}, 21, 0},
    {IDLE, {{1, 1}}, 21, 1},
    {IDLE, {{2, 4}}, 21, 2},
    {IDLE, {{1, 4}, {2, 4}}, 21, 2},
    {IDLE, {{1, 8}, {2, 4}}, 21, 1},
    {IDLE, {{1, 2}, {2, 1}}, 21, 1},
    {IDLE, {{2, 255}, {1, 255}, {0, 255}}, 21, 0},
    /* V2: a flag over 1, both lines high without P15, an unused byte */
    {IDLE, {{3, 2}}, 22, 3},
    {IDLE, {{4, 2}}, 22, 4},
    {IDLE, {{9, 2}}, 22, 9},
    {IDLE, {{12, 2}}, 22, 12},
    {IDLE, {{3, 0}}, 22, 3},
    {IDLE, {{13, 1}}, 22, 13},
    {IDLE, {{14, 128}}, 22, 14},
    {IDLE, {{15, 255}}, 22, 15},
    {IDLE, {{15, 1}, {14, 1}, {12, 255}}, 22, 12},
    {IDLE, {{3, 0}, {9, 2}}, 22, 3},
    /* V3: no such receiver, and then nothing else is asked */
    {IDLE, {{5, 3}}, 23, 5},
    {AWAITING, {{5, 255}, {8, 1}}, 23, 5},
    /* V3, idle */
    {IDLE, {{6, 1}}, 23, 6},
    {IDLE, {{7, 1}}, 23, 7},
    {IDLE, {{8, 1}}, 23, 8},
    {IDLE, {{16, 1}}, 23, 16},
    {IDLE, {{25, 0x10}}, 23, 25},
    {IDLE, {{31, 0x80}}, 23, 31},
    {IDLE, {{32, 1}}, 23, 32},
    {IDLE, {{100, 255}}, 23, 100},
    {IDLE, {{143, 1}}, 23, 143},
    {IDLE, {{143, 1}, {40, 1}, {20, 1}}, 23, 20},
    /* V3, in a packet: the bit index, and the bits from it on */
    {FIRST, {{8, 129}}, 23, 8},
    {FIRST, {{8, 0}}, 23, 16},
    {FIRST, {{8, 7}}, 23, 16},
    {FIRST, {{8, 19}}, 23, 18},
    {FIRST, {{18, 0x10}}, 23, 18},
    {FIRST, {{31, 0x80}}, 23, 31},
    {LATER, {{8, 255}}, 23, 8},
    {LATER, {{24, 1}, {31, 1}}, 23, 24},
    /* V3, in the first packet */
    {FIRST, {{6, 1}}, 23, 6},
    {FIRST, {{6, 1}, {8, 129}}, 23, 6},
    {FIRST, {{32, 1}}, 23, 32},
    {FIRST, {{143, 0x80}}, 23, 143},
    {FIRST, {{143, 0x80}, {90, 1}}, 23, 90},
    {FIRST, {{143, 0x80}, {18, 0x1F}}, 23, 18},
    /* V3, with some packets in */
    {FIRST, {{7, 1}}, 23, 6},
    {LATER, {{7, 0}}, 23, 6},
    {LATER, {{7, 3}}, 23, 6},
    {LATER, {{6, 8}, {32, 0x08}}, 23, 6},
    {LATER, {{32, 0x04}}, 23, 6},
    {LATER, {{64, 1}}, 23, 64},
    {LATER, {{143, 1}}, 23, 143},
    {LATER, {{64, 1}, {31, 1}}, 23, 31},
    /* V3, between two packets */
    {AWAITING, {{7, 0}}, 23, 7},
    {AWAITING, {{7, 0}, {6, 0}}, 23, 6},
    {AWAITING, {{7, 3}}, 23, 6},
    {AWAITING, {{7, 200}}, 23, 6},
    {AWAITING, {{6, 4}}, 23, 6},
    {AWAITING, {{32, 0x0F}}, 23, 6},
    {AWAITING, {{8, 1}}, 23, 8},
    {AWAITING, {{16, 1}}, 23, 16},
    {AWAITING, {{31, 0x80}, {64, 1}}, 23, 31},
    {AWAITING, {{64, 1}}, 23, 64},
    {AWAITING, {{7, 1}}, 23, 48},
    {AWAITING, {{143, 0x80}}, 23, 143},
    /* V4: the countdown, else the kind */
    {IDLE, {{10, 4}}, 24, 10},
    {IDLE, {{10, 255}, {11, 255}}, 24, 10},
    {IDLE, {{11, 1}}, 24, 11},
    {IDLE, {{10, 3}, {11, 5}}, 24, 11},
    /* V5 */
    {IDLE, {{9, 0}}, 25, 144},
    {PLAIN, {{144, 1}}, 25, 144},
    {PLAIN, {{151, 1}}, 25, 151},
    {PLAIN, {{150, 0x80}, {147, 1}}, 25, 147},
    /* V6: the mask mode against byte 12, the capture */
    {IDLE, {{0, 1}}, 26, 0},
    {IDLE, {{0, 2}, {12, 1}}, 26, 0},
    {IDLE, {{0, 3}, {12, 1}}, 26, 0},
    {IDLE, {{0, 1}, {14180, 1}}, 26, 0},
    {IDLE, {{14180, 1}}, 26, 14180},
    {PLAIN, {{17059, 0x80}}, 26, 17059},
    {AWAITING, {{19939, 255}}, 26, 19939},
    {IDLE, {{0, 2}, {16000, 1}}, 26, 16000},
    /* the first rule wins, whatever its offset */
    {IDLE, {{2, 4}, {3, 2}, {5, 3}}, 21, 2},
    {IDLE, {{15, 1}, {5, 3}}, 22, 15},
    {IDLE, {{143, 1}, {10, 4}}, 23, 143},
    {IDLE, {{11, 1}, {0, 1}}, 24, 11},
    {IDLE, {{9, 0}, {0, 1}}, 25, 144},
};

/* ---- the calls that are lent a block. Where `spoilt`, all else that they are lent is wrong too, which is looked at later */

static uint8_t block[SPOREDRIFT_BLOCK], kept[SPOREDRIFT_BLOCK];
static uint8_t command[SPOREDRIFT_COMMAND], screen[SPOREDRIFT_SCREEN];
static uint16_t words[SPOREDRIFT_PICTURE];

static uint8_t spans[76984]; /* as many as all spans of a state have at the most */

static const char *const names[] = {"check",    "write_joypad", "play",            "update_screen", "mask_mode", "backdrop",
                                    "color_at", "map_entry",    "border_color_at", "row",           "picture",   "to_state"};
#define CALLS (sizeof names / sizeof names[0])

/* Room for a span, at a place from which it moves on; where `spoilt` there is none. */
static struct sporedrift_span lent(uint8_t **at, size_t len, int spoilt) {
    struct sporedrift_span span;
    span.at = *at;
    span.len = spoilt ? 0 : len;
    span.present = 0;
    *at += len;
    return span;
}

static uint32_t to_state(int spoilt) {
    struct sporedrift_state state;
    uint8_t *at = spans;
    uint32_t answer;

    memset(&state, 0, sizeof state);
    state.palettes = lent(&at, SPOREDRIFT_STATE_PALETTES, spoilt);
    state.attribute_map = lent(&at, SPOREDRIFT_STATE_ATTRIBUTE_MAP, spoilt);
    state.system_palettes = lent(&at, SPOREDRIFT_STATE_SYSTEM_PALETTES, spoilt);
    state.attribute_files = lent(&at, SPOREDRIFT_STATE_ATTRIBUTE_FILES, spoilt);
    state.packet = lent(&at, SPOREDRIFT_STATE_PACKET, spoilt);
    state.packets = lent(&at, SPOREDRIFT_STATE_PACKETS, spoilt);
    state.capture = lent(&at, SPOREDRIFT_STATE_CAPTURE, spoilt);
    state.frozen_capture = lent(&at, SPOREDRIFT_STATE_FROZEN_CAPTURE, spoilt);
    state.preset = lent(&at, SPOREDRIFT_STATE_PRESET, spoilt);
    state.border_tiles = lent(&at, SPOREDRIFT_STATE_BORDER_TILES, spoilt);
    state.border_map = lent(&at, SPOREDRIFT_STATE_BORDER_MAP, spoilt);
    state.border_palettes = lent(&at, SPOREDRIFT_STATE_BORDER_PALETTES, spoilt);
    answer = sporedrift_to_state(block, sizeof block, &state);
    number("the fields are as they were", state.mask + state.p15_high + state.preset_in_force, 0);
    return answer;
}

static uint32_t call(size_t which, int spoilt) {
    static const uint8_t writes[4] = {0x00, 0x30, 0x20, 0x30};
    size_t place = spoilt ? 1000 : 0;

    switch (which) {
    case 0: return sporedrift_check(block, sizeof block);
    case 1: return sporedrift_write_joypad(block, sizeof block, 0x00, command, spoilt ? 111 : sizeof command);
    case 2: return sporedrift_play(block, sizeof block, writes, sizeof writes, command, spoilt ? 0 : sizeof command);
    case 3: return sporedrift_update_screen(block, sizeof block, screen, spoilt ? 5759 : sizeof screen);
    case 4: return sporedrift_mask_mode(block, sizeof block);
    case 5: return sporedrift_backdrop(block, sizeof block);
    case 6: return sporedrift_color_at(block, sizeof block, place, place, spoilt ? 4 : 0);
    case 7: return sporedrift_map_entry(block, sizeof block, place, place);
    case 8: return sporedrift_border_color_at(block, sizeof block, place, place);
    case 9: return sporedrift_row(block, sizeof block, place, words, spoilt ? 0 : SPOREDRIFT_WIDTH);
    case 10: return sporedrift_picture(block, sizeof block, words, spoilt ? 0 : SPOREDRIFT_PICTURE);
    default: return to_state(spoilt);
    }
}

static int all(const void *lent, size_t n, uint8_t value) {
    const uint8_t *byte = lent;
    while (n > 0 && *byte == value) byte++, n--;
    return n == 0;
}

static void every_call(uint32_t answer) {
    size_t which;
    int spoilt;

    memcpy(kept, block, sizeof block);
    memset(command, 0x5A, sizeof command);
    memset(screen, 0xE4, sizeof screen);
    memset(words, 0xA5, sizeof words);
    memset(spans, 0x3C, sizeof spans);
    for (which = 0; which < CALLS; which++)
        for (spoilt = 0; spoilt < 2; spoilt++) {
            number(names[which], call(which, spoilt), answer);
            number("the block is as it was", memcmp(block, kept, sizeof block) == 0, 1);
            number("the command is", all(command, sizeof command, 0x5A), 1);
            number("the screen is", all(screen, sizeof screen, 0xE4), 1);
            number("the words are", all(words, sizeof words, 0xA5), 1);
            number("the spans are", all(spans, sizeof spans, 0x3C), 1);
            memcpy(block, kept, sizeof block);
        }
}

static void damaged_blocks(void) {
    static const char *const texts[] = {
        "rule V1 is broken: mask mode, joypad index, joypad mask",
        "rule V2 is broken: P15 high, both high, preset in force, frozen present, unused bytes",
        "rule V3 is broken: receiver, expected, received, bit index, current packet, packet store",
        "rule V4 is broken: countdown, transfer's kind",
        "rule V5 is broken: the preset that is not in force",
        "rule V6 is broken: mask mode, frozen capture"};
    size_t i, k;

    for (i = 0; i < sizeof cases / sizeof cases[0]; i++) {
        const struct damage *damage = cases[i].damage;
        uint32_t answer, refusal = cases[i].refusal;

        make(block, cases[i].base);
        number("the check of a valid block", sporedrift_check(block, sizeof block), 0);
        for (k = 0; k < 3 && (damage[k].at != 0 || damage[k].value != 0); k++) block[damage[k].at] = damage[k].value;
        answer = sporedrift_check(block, sizeof block);
        number("sporedrift_refusal", sporedrift_refusal(answer), refusal);
        number("sporedrift_rule", sporedrift_rule(answer), refusal - 20);
        number("sporedrift_offset", sporedrift_offset(answer), cases[i].offset);
        number("sporedrift_value", sporedrift_value(answer), 0);
        text("sporedrift_refusal_text", sporedrift_refusal_text(answer), texts[refusal - 21]);
        every_call(refusal + 256 * cases[i].offset);
        row("case", i);
    }
}

/* ---- what is no broken rule has no offset, and a refusal has no value */

static void other_answers(void) {
    uint32_t n;

    make(block, IDLE);
    number("write_joypad, no room", call(1, 1), 6);
    number("update_screen, a short screen", call(3, 1), 3);
    number("row, no such row", call(9, 1), 4);
    block[SPOREDRIFT_BIT_INDEX_AT] = 129;
    number("check, another length", sporedrift_check(block, sizeof block - 1), 1);
    row("a refusal without an offset", 0);
    for (n = 0; n < 128; n++) {
        uint32_t answer = n + 256 * 14180, rule = n >= 21 && n <= 26 ? n - 20 : 0;
        number("sporedrift_refusal", sporedrift_refusal(answer), n);
        number("sporedrift_rule", sporedrift_rule(answer), rule);
        number("sporedrift_offset", sporedrift_offset(answer), n == 0 ? 0 : 14180);
        number("sporedrift_value", sporedrift_value(answer), n == 0 ? 14180 : 0);
        number("sporedrift_offset, none there", sporedrift_offset(n), 0);
        number("sporedrift_refusal_text, some", sporedrift_refusal_text(answer) != NULL, n != 0);
        row("the refusal", n);
    }
    text("sporedrift_refusal_text", sporedrift_refusal_text(2), "a refusal that this header does not know");
    number("sporedrift_offset", sporedrift_offset(SPOREDRIFT_NONE), 0);
    number("sporedrift_value", sporedrift_value(SPOREDRIFT_NONE), 0);
    row("an answer that is none, or gone", 2);
    number("sporedrift_taken", (uint32_t)sporedrift_taken(256 * (8 * 259 + 1)), 259);
    number("sporedrift_packets", sporedrift_packets(256 * (8 * 259 + 1)), 1);
    number("sporedrift_taken", (uint32_t)sporedrift_taken(23 + 256 * 9), 0);
    number("sporedrift_packets", sporedrift_packets(23 + 256 * 9), 0);
    row("writes in a row, taken and refused", 9);
}

/* ---- a name for every byte: from where a field or part starts up to where the next does */

static const struct {
    uint32_t start;
    const char *text;
} fields[] = {
    {0, "the mask mode"},
    {1, "the joypad index"},
    {2, "the joypad mask"},
    {3, "the P15-high flag"},
    {4, "the both-high flag"},
    {5, "the receiver"},
    {6, "the number of packets expected"},
    {7, "the number of packets received"},
    {8, "the bit index"},
    {9, "the preset-in-force flag"},
    {10, "the countdown"},
    {11, "the transfer's kind"},
    {12, "the frozen-present flag"},
    {13, "an unused byte"},
    {16, "the current packet"},
    {32, "the packet store"},
    {144, "the preset"},
    {152, "the palettes"},
    {184, "the attribute map"},
    {274, "the system palettes"},
    {4370, "the attribute files"},
    {8420, "the live capture"},
    {14180, "the frozen capture"},
    {19940, "the border tiles"},
    {28132, "the border map"},
    {29924, "the border palettes"},
    {30020, NULL},
    {30030, NULL},
};

static void every_field(void) {
    size_t i;
    uint32_t at;

    for (i = 0; i + 1 < sizeof fields / sizeof fields[0]; i++) {
        for (at = fields[i].start; at < fields[i + 1].start; at++) text("sporedrift_field_text", sporedrift_field_text(at), fields[i].text);
        row("the field at", fields[i].start);
    }
}

int main(void) {
    damaged_blocks();
    other_answers();
    every_field();
    printf("%d passed, %d failed\n", passed, failed);
    return failed != 0;
}
