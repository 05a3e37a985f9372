/* Sporedrift: the command unit of the Super Game Boy, for C (C99 and later) and C++ (C++11 and later).
 *
 * The unit's whole state is one block of 30,020 bytes, which is also its saved form. The caller owns the block and every other
 * byte: the calls keep nothing, allocate nothing, and may run at once on different blocks. They are proved (crates/export): each
 * takes any bytes and any numbers, always ends, and either answers or refuses.
 *
 * What the caller owes, since no proof sees it:
 * - A slice is two arguments, a pointer and the number of elements that it points at; the pointer is not NULL, even for none.
 * - What is lent to be written (a pointer that is not to const) does not overlap anything else that is lent in the same call, and
 *   nothing else touches lent memory until the call is back.
 * - Alignment: bytes may stand anywhere, the block too. The words of a row and of the picture are uint16_t and stand as those do,
 *   at an even address; an array of uint16_t does, and so does what malloc gives.
 *
 * An answer is one number (docs/RULES.md, 2.8). Its low byte is 0 for a value, which stands above it; the number of a refusal; or
 * SPOREDRIFT_NONE for an answer that is "none". Above a refusal that says which rule the block breaks (21 to 26) stands the offset of
 * the lowest byte that breaks it; every other refusal is its number alone. Below, each call has its refusals in the order in which
 * they are tested: the first that applies is given. A refusal changes no lent byte.
 */
#ifndef SPOREDRIFT_H
#define SPOREDRIFT_H

#include <stddef.h>
#include <stdint.h>

#ifdef __cplusplus
extern "C" {
#endif

/* ---- the version of this header; sporedrift_version tells that of the library which is linked */

#define SPOREDRIFT_VERSION_MAJOR 0
#define SPOREDRIFT_VERSION_MINOR 4
#define SPOREDRIFT_VERSION_PATCH 0
#define SPOREDRIFT_VERSION "0.4.0"
#define SPOREDRIFT_VERSION_NUMBER (SPOREDRIFT_VERSION_MAJOR * 65536 + SPOREDRIFT_VERSION_MINOR * 256 + SPOREDRIFT_VERSION_PATCH)

/* The value is the library's version, made as SPOREDRIFT_VERSION_NUMBER is. Refuses nothing. */
uint32_t sporedrift_version(void);

/* ---- answers */

#define SPOREDRIFT_NONE 0x80u

enum sporedrift_refused { /* docs/RULES.md, 2.1 */
    SPOREDRIFT_REFUSED_LENGTH = 1,  /* the block's length is not SPOREDRIFT_BLOCK */
    SPOREDRIFT_REFUSED_SCREEN = 3,  /* the screen's length is not SPOREDRIFT_SCREEN */
    SPOREDRIFT_REFUSED_PLACE = 4,   /* there is no such column, row or shade (docs/RULES.md, 2.5) */
    SPOREDRIFT_REFUSED_COMMAND = 5, /* no command: not 16 bytes for each packet that its first byte counts */
    SPOREDRIFT_REFUSED_OUTPUT = 6,  /* the output lent has no room for the call's longest result (docs/RULES.md, 2.6) */
    SPOREDRIFT_REFUSED_LINE = 7,    /* the text is no line of a log (docs/RULES.md, 8.2) */
    SPOREDRIFT_REFUSED_SPAN = 8,    /* a span of the state is missing, or has not the bytes that it must have (docs/RULES.md, 11.3) */
    SPOREDRIFT_REFUSED_CELL = 9,    /* a cell of the state's attribute map, or of one of its attribute files, is over 3 */
    SPOREDRIFT_REFUSED_PAGE = 10,   /* the page's length is not SPOREDRIFT_PAGE */

    /* The block is not valid: the first rule that it breaks, with an offset. new and post_boot make a valid block, calls keep it so. */
    SPOREDRIFT_REFUSED_V1 = 21, /* mask mode, joypad index, joypad mask (docs/RULES.md, 1.6) */
    SPOREDRIFT_REFUSED_V2 = 22, /* P15 high, both high, preset in force, frozen present, bytes 13 to 15 (docs/RULES.md, 1.7) */
    SPOREDRIFT_REFUSED_V3 = 23, /* receiver, expected, received, bit index, current packet, packet store (docs/RULES.md, 1.8) */
    SPOREDRIFT_REFUSED_V4 = 24, /* countdown, and the kind of the transfer (docs/RULES.md, 1.9) */
    SPOREDRIFT_REFUSED_V5 = 25, /* the preset, where it is not in force (docs/RULES.md, 1.10) */
    SPOREDRIFT_REFUSED_V6 = 26  /* mask mode and frozen capture (docs/RULES.md, 1.11) */
};

/* The number of the refusal, or 0: then sporedrift_value has the value, unless the answer is SPOREDRIFT_NONE. Of a refusal it is 0. */
static inline uint32_t sporedrift_refusal(uint32_t answer) { return answer & 0x7Fu; }
static inline uint32_t sporedrift_value(uint32_t answer) { return sporedrift_refusal(answer) != 0 ? 0 : answer >> 8; }

/* The rule that the block breaks: 1 for V1, up to 6 for V6; 0 where the answer tells of none. */
static inline uint32_t sporedrift_rule(uint32_t answer) {
    uint32_t number = sporedrift_refusal(answer);
    return number >= SPOREDRIFT_REFUSED_V1 && number <= SPOREDRIFT_REFUSED_V6 ? number - SPOREDRIFT_REFUSED_V1 + 1 : 0;
}

/* Where it breaks that rule: the offset of the lowest such byte. An answer without an offset gives 0, which is the mask mode's too: ask
 * sporedrift_rule first. */
static inline uint32_t sporedrift_offset(uint32_t answer) { return sporedrift_refusal(answer) != 0 ? answer >> 8 : 0; }

/* The refusal of an answer in words, for a message; NULL if it refuses nothing. sporedrift_field_text, below, names the byte. */
static inline const char *sporedrift_refusal_text(uint32_t answer) {
    switch (sporedrift_refusal(answer)) {
    case 0: return NULL;
    case SPOREDRIFT_REFUSED_LENGTH: return "the block is not 30,020 bytes";
    case SPOREDRIFT_REFUSED_SCREEN: return "the screen is not 5,760 bytes";
    case SPOREDRIFT_REFUSED_PLACE: return "there is no such column, row or shade";
    case SPOREDRIFT_REFUSED_COMMAND: return "the command is empty, or is not as long as its first byte tells";
    case SPOREDRIFT_REFUSED_OUTPUT: return "the output is short";
    case SPOREDRIFT_REFUSED_LINE: return "the text is no line of a log";
    case SPOREDRIFT_REFUSED_SPAN: return "a span of the state is missing, or is not as long as it must be";
    case SPOREDRIFT_REFUSED_CELL: return "a cell of the state's attribute map or files is over 3";
    case SPOREDRIFT_REFUSED_PAGE: return "the page is not 4,096 bytes";
    case SPOREDRIFT_REFUSED_V1: return "rule V1 is broken: mask mode, joypad index, joypad mask";
    case SPOREDRIFT_REFUSED_V2: return "rule V2 is broken: P15 high, both high, preset in force, frozen present, unused bytes";
    case SPOREDRIFT_REFUSED_V3: return "rule V3 is broken: receiver, expected, received, bit index, current packet, packet store";
    case SPOREDRIFT_REFUSED_V4: return "rule V4 is broken: countdown, transfer's kind";
    case SPOREDRIFT_REFUSED_V5: return "rule V5 is broken: the preset that is not in force";
    case SPOREDRIFT_REFUSED_V6: return "rule V6 is broken: mask mode, frozen capture";
    default: return "a refusal that this header does not know";
    }
}

/* ---- sizes, in elements */

#define SPOREDRIFT_BLOCK 30020u
#define SPOREDRIFT_SCREEN 5760u       /* 144 rows of 160 shades, packed from the high bits down (docs/RULES.md, 1.2) */
#define SPOREDRIFT_PAGE 4096u         /* what a game sends as a screen: palettes, attribute files, tiles, or the border's map */
#define SPOREDRIFT_COMMAND 112u       /* the longest command: seven packets */
#define SPOREDRIFT_PACKET 16u
#define SPOREDRIFT_PACKET_WRITES 260u /* joypad writes that send one packet */
#define SPOREDRIFT_PLAY 1048576u      /* the most joypad writes that one call of sporedrift_play takes */
#define SPOREDRIFT_LINE 5760u         /* the most bytes of a line of a log: writes, or a screen */
#define SPOREDRIFT_SCREEN_WIDTH 160u
#define SPOREDRIFT_SCREEN_HEIGHT 144u
#define SPOREDRIFT_WIDTH 256u
#define SPOREDRIFT_HEIGHT 224u
#define SPOREDRIFT_PICTURE 57344u     /* SPOREDRIFT_WIDTH * SPOREDRIFT_HEIGHT words */
#define SPOREDRIFT_TILE 32u           /* 8 by 8 colour indices, in four bit planes */

/* ---- the block, for who wants to read it: where its bytes and parts stand. Words in it are little-endian, palette numbers and
 * shades four to a byte, the first in the high bits. Whoever writes into it asks sporedrift_check before the next call. */

enum sporedrift_at {
    SPOREDRIFT_MASK_MODE_AT = 0,           /* enum sporedrift_mask */
    SPOREDRIFT_JOYPAD_INDEX_AT = 1,        /* which pad is read next, from 0 */
    SPOREDRIFT_JOYPAD_MASK_AT = 2,         /* the bits that the index may have: 0 for one pad, 1 for two, 3 for four */
    SPOREDRIFT_P15_HIGH_AT = 3,            /* 0 or 1: the line P15 at the last write */
    SPOREDRIFT_BOTH_HIGH_AT = 4,           /* 0 or 1: both lines at the last write */
    SPOREDRIFT_RECEIVER_AT = 5,            /* enum sporedrift_receiver */
    SPOREDRIFT_EXPECTED_AT = 6,            /* the packets of the command that is coming in; 0 before its first is in */
    SPOREDRIFT_RECEIVED_AT = 7,            /* those of them that are in */
    SPOREDRIFT_BIT_INDEX_AT = 8,           /* the data bits of the packet that is coming in, up to 128 */
    SPOREDRIFT_PRESET_IN_FORCE_AT = 9,     /* 0 or 1: whether the palette of the start still colours the screen */
    SPOREDRIFT_COUNTDOWN_AT = 10,          /* the screen from now at which a transfer lands, 1 to 3; 0 if none is pending */
    SPOREDRIFT_TRANSFER_AT = 11,           /* enum sporedrift_transfer, where the countdown is not 0 */
    SPOREDRIFT_FROZEN_PRESENT_AT = 12,     /* 0 or 1: whether there is a frozen capture */
    SPOREDRIFT_CURRENT_PACKET_AT = 16,
    SPOREDRIFT_PACKETS_AT = 32,
    SPOREDRIFT_PRESET_AT = 144,
    SPOREDRIFT_PALETTES_AT = 152,
    SPOREDRIFT_ATTRIBUTES_AT = 184,
    SPOREDRIFT_SYSTEM_PALETTES_AT = 274,
    SPOREDRIFT_ATTRIBUTE_FILES_AT = 4370,
    SPOREDRIFT_LIVE_AT = 8420,
    SPOREDRIFT_FROZEN_AT = 14180,
    SPOREDRIFT_TILES_AT = 19940,
    SPOREDRIFT_MAP_AT = 28132,
    SPOREDRIFT_MAP_PALETTES_AT = 29924
};

/* The bytes of the parts; the current packet has SPOREDRIFT_PACKET, the two captures SPOREDRIFT_SCREEN each. */
#define SPOREDRIFT_FIRST 13u             /* the single bytes, up to SPOREDRIFT_FROZEN_PRESENT_AT */
#define SPOREDRIFT_PACKETS 112u          /* the packets that are in */
#define SPOREDRIFT_PRESET 8u             /* one palette: four words */
#define SPOREDRIFT_PALETTES 32u          /* four palettes */
#define SPOREDRIFT_ATTRIBUTES 90u        /* a palette number for each of 20 by 18 cells */
#define SPOREDRIFT_SYSTEM_PALETTES 4096u /* 512 palettes */
#define SPOREDRIFT_ATTRIBUTE_FILES 4050u /* 45 of SPOREDRIFT_ATTRIBUTES */
#define SPOREDRIFT_TILES 8192u           /* the border's 256 tiles */
#define SPOREDRIFT_MAP 1792u             /* the border's 32 by 28 map words */
#define SPOREDRIFT_MAP_PALETTES 96u      /* the border's palettes 4 to 6, sixteen words each */

/* The field or part of the block that the byte at an offset is in (docs/RULES.md, 1.4 and 1.5), for a message; NULL past the end. */
static inline const char *sporedrift_field_text(uint32_t offset) {
    switch (offset) {
    case SPOREDRIFT_MASK_MODE_AT: return "the mask mode";
    case SPOREDRIFT_JOYPAD_INDEX_AT: return "the joypad index";
    case SPOREDRIFT_JOYPAD_MASK_AT: return "the joypad mask";
    case SPOREDRIFT_P15_HIGH_AT: return "the P15-high flag";
    case SPOREDRIFT_BOTH_HIGH_AT: return "the both-high flag";
    case SPOREDRIFT_RECEIVER_AT: return "the receiver";
    case SPOREDRIFT_EXPECTED_AT: return "the number of packets expected";
    case SPOREDRIFT_RECEIVED_AT: return "the number of packets received";
    case SPOREDRIFT_BIT_INDEX_AT: return "the bit index";
    case SPOREDRIFT_PRESET_IN_FORCE_AT: return "the preset-in-force flag";
    case SPOREDRIFT_COUNTDOWN_AT: return "the countdown";
    case SPOREDRIFT_TRANSFER_AT: return "the transfer's kind";
    case SPOREDRIFT_FROZEN_PRESENT_AT: return "the frozen-present flag";
    }
    if (offset < SPOREDRIFT_CURRENT_PACKET_AT) return "an unused byte";
    if (offset < SPOREDRIFT_PACKETS_AT) return "the current packet";
    if (offset < SPOREDRIFT_PRESET_AT) return "the packet store";
    if (offset < SPOREDRIFT_PALETTES_AT) return "the preset";
    if (offset < SPOREDRIFT_ATTRIBUTES_AT) return "the palettes";
    if (offset < SPOREDRIFT_SYSTEM_PALETTES_AT) return "the attribute map";
    if (offset < SPOREDRIFT_ATTRIBUTE_FILES_AT) return "the system palettes";
    if (offset < SPOREDRIFT_LIVE_AT) return "the attribute files";
    if (offset < SPOREDRIFT_FROZEN_AT) return "the live capture";
    if (offset < SPOREDRIFT_TILES_AT) return "the frozen capture";
    if (offset < SPOREDRIFT_MAP_AT) return "the border tiles";
    if (offset < SPOREDRIFT_MAP_PALETTES_AT) return "the border map";
    if (offset < SPOREDRIFT_BLOCK) return "the border palettes";
    return NULL;
}

enum sporedrift_receiver {
    SPOREDRIFT_RECEIVER_IDLE = 0,
    SPOREDRIFT_RECEIVER_RECEIVING = 1, /* in a packet */
    SPOREDRIFT_RECEIVER_AWAITING = 2   /* between two packets of a command */
};

/* ---- blocks */

/* A fresh block, before and after the boot ROM ran. Refusal 1; else 0. */
uint32_t sporedrift_new(uint8_t *block, size_t block_len);
uint32_t sporedrift_post_boot(uint8_t *block, size_t block_len);

/* Whether a saved block can be taken up. Refusals 1, 21 to 26; else 0. */
uint32_t sporedrift_check(const uint8_t *block, size_t block_len);

/* ---- states of the emulator: the Super Game Boy's part of what missingno saves, as its sgb/state.rs lays it out (docs/RULES.md, 11).
 * Names and order are that file's, the names without their sgb_. A block that goes out and comes in again is the same block. */

/* A part of the state that is bytes. Missing is not empty: a span may be there with no bytes. */
struct sporedrift_span {
    uint8_t *at;
    size_t len;
    int present; /* 0 where the state does not have it */
};

/* The fields of the emulator's record, a number each, and the spans of its memory. p15_high, lines_high and preset_in_force are truth
 * values in the record, and 1 or 0 here.
 *
 * THE TRAP: where no transfer is pending, the record has neither countdown nor kind, and here both are 0. A countdown that is in the
 * record and 0 is another thing to the emulator: a transfer, which lands at the next screen, over palettes, attribute files or border.
 * So, going out: where transfer_countdown is 0, leave BOTH fields out of the record. Coming in: where it lacks them, make both 0. */
struct sporedrift_state {
    uint8_t mask; /* enum sporedrift_mask */
    uint8_t joypad_index;
    uint8_t joypad_mask;
    uint8_t p15_high;
    uint8_t lines_high;
    uint8_t receiver; /* enum sporedrift_receiver */
    uint8_t packets_expected;
    uint8_t packets_received;
    uint8_t bit_index;
    uint8_t preset_in_force;
    uint8_t transfer_countdown; /* where this is 0, neither it nor the kind is in the record */
    uint8_t transfer_kind;      /* enum sporedrift_transfer */

    struct sporedrift_span palettes;      /* colours are words, the low byte first, and so is the border's map */
    struct sporedrift_span attribute_map; /* a byte a cell, 0 to 3 */
    struct sporedrift_span system_palettes;
    struct sporedrift_span attribute_files; /* 45 such maps */
    struct sporedrift_span packet;          /* the one that is coming in */
    struct sporedrift_span packets;         /* those that are in: 16 * packets_received bytes */
    struct sporedrift_span capture;         /* a byte a pixel, its shade */
    struct sporedrift_span frozen_capture;  /* may be missing */
    struct sporedrift_span preset;          /* may be missing where preset_in_force is 0 */
    struct sporedrift_span border_tiles;    /* where one of these three is missing, the border is empty */
    struct sporedrift_span border_map;
    struct sporedrift_span border_palettes;
};

#define SPOREDRIFT_STATE_FIELDS 12u
#define SPOREDRIFT_STATE_SPANS 12u

/* The bytes of each span; of the packets the most that there can be. */
#define SPOREDRIFT_STATE_PALETTES 32u
#define SPOREDRIFT_STATE_ATTRIBUTE_MAP 360u
#define SPOREDRIFT_STATE_SYSTEM_PALETTES 4096u
#define SPOREDRIFT_STATE_ATTRIBUTE_FILES 16200u
#define SPOREDRIFT_STATE_PACKET 16u
#define SPOREDRIFT_STATE_PACKETS 112u
#define SPOREDRIFT_STATE_CAPTURE 23040u
#define SPOREDRIFT_STATE_FROZEN_CAPTURE 23040u
#define SPOREDRIFT_STATE_PRESET 8u
#define SPOREDRIFT_STATE_BORDER_TILES 8192u
#define SPOREDRIFT_STATE_BORDER_MAP 1792u
#define SPOREDRIFT_STATE_BORDER_PALETTES 96u

/* Both ways over numbers and slices, which are the library's: the fields as twelve bytes, the spans as twelve slices, in the struct's
 * order. Bit k of `present` tells whether span k is there, from bit 0 for the palettes on; bits 12 to 15 mean nothing. Fields that are
 * not twelve bytes are 8 coming in; fewer than twelve are 6 going out. The value of sporedrift_to_spans is `present`.
 * What they do is told below, where the same is done with the struct: that is code of this header alone, tested and not proved. */
uint32_t sporedrift_from_spans(uint8_t *block, size_t block_len, const uint8_t *fields, size_t fields_len, uint16_t present,
                               const uint8_t *palettes, size_t palettes_len, const uint8_t *attribute_map, size_t attribute_map_len,
                               const uint8_t *system_palettes, size_t system_palettes_len, const uint8_t *attribute_files,
                               size_t attribute_files_len, const uint8_t *packet, size_t packet_len, const uint8_t *packets,
                               size_t packets_len, const uint8_t *capture, size_t capture_len, const uint8_t *frozen_capture,
                               size_t frozen_capture_len, const uint8_t *preset, size_t preset_len, const uint8_t *border_tiles,
                               size_t border_tiles_len, const uint8_t *border_map, size_t border_map_len,
                               const uint8_t *border_palettes, size_t border_palettes_len);
uint32_t sporedrift_to_spans(const uint8_t *block, size_t block_len, uint8_t *fields, size_t fields_len, uint8_t *palettes,
                             size_t palettes_len, uint8_t *attribute_map, size_t attribute_map_len, uint8_t *system_palettes,
                             size_t system_palettes_len, uint8_t *attribute_files, size_t attribute_files_len, uint8_t *packet,
                             size_t packet_len, uint8_t *packets, size_t packets_len, uint8_t *capture, size_t capture_len,
                             uint8_t *frozen_capture, size_t frozen_capture_len, uint8_t *preset, size_t preset_len,
                             uint8_t *border_tiles, size_t border_tiles_len, uint8_t *border_map, size_t border_map_len,
                             uint8_t *border_palettes, size_t border_palettes_len);

/* A state into a block, over whatever the block held. Refusals 1, 8, 9, 21 to 26; else 0.
 * - 8 is for a span that is missing and for one that is not of its length, but: the frozen capture may be missing; the preset is looked
 *   at only where preset_in_force is 1; and where one of the border's three is missing, the other two are not looked at. No length of
 *   packets is right where packets_received is over 7.
 * - 21 to 26 and their offsets are of the block that the state would become: the emulator takes states that no valid block can hold.
 * - Of a shade the low two bits are taken. Beside a countdown of 0 a kind of 0 to 4 means nothing.
 * - Nothing is written through the spans' pointers. One whose span is missing or has no bytes is not looked at, and may be NULL. */
static inline uint32_t sporedrift_from_state(uint8_t *block, size_t block_len, const struct sporedrift_state *state) {
    const struct sporedrift_state *s = state;
    const uint8_t fields[SPOREDRIFT_STATE_FIELDS] = {
        s->mask,             s->joypad_index,     s->joypad_mask, s->p15_high,        s->lines_high,         s->receiver,
        s->packets_expected, s->packets_received, s->bit_index,   s->preset_in_force, s->transfer_countdown, s->transfer_kind};
    const struct sporedrift_span *const spans[SPOREDRIFT_STATE_SPANS] = {
        &s->palettes, &s->attribute_map,  &s->system_palettes, &s->attribute_files, &s->packet,     &s->packets,
        &s->capture,  &s->frozen_capture, &s->preset,          &s->border_tiles,    &s->border_map, &s->border_palettes};
    static const uint16_t bits[SPOREDRIFT_STATE_SPANS] = {1, 2, 4, 8, 16, 32, 64, 128, 256, 512, 1024, 2048};
    const uint8_t *at[SPOREDRIFT_STATE_SPANS];
    size_t len[SPOREDRIFT_STATE_SPANS];
    uint16_t present = 0;
    unsigned k;

    for (k = 0; k < SPOREDRIFT_STATE_SPANS; k++) {
        len[k] = spans[k]->present != 0 ? spans[k]->len : 0;
        at[k] = len[k] != 0 ? spans[k]->at : fields;
        if (spans[k]->present != 0) present = present | bits[k];
    }
    return sporedrift_from_spans(block, block_len, fields, sizeof fields, present, at[0], len[0], at[1], len[1], at[2], len[2], at[3],
                                 len[3], at[4], len[4], at[5], len[5], at[6], len[6], at[7], len[7], at[8], len[8], at[9], len[9],
                                 at[10], len[10], at[11], len[11]);
}

/* A block as a state. The caller lends all twelve spans, whatever their `present`: `len` bytes at `at`, room for the span's greatest
 * length. Refusals 1, 21 to 26, 6 (a span without that room), which change nothing of the struct; else 0. Then the fields are set, and
 * of each span `len` and `present`; the pointers stay.
 * - A span stands at the front of what was lent, and what is longer keeps its tail. There are 16 * packets_received bytes of packets.
 * - The frozen capture may be missing, and so may the preset: `present` and `len` are 0, and every byte that was lent is kept.
 * - Before the next such call each `len` has to tell the room again. */
static inline uint32_t sporedrift_to_state(const uint8_t *block, size_t block_len, struct sporedrift_state *state) {
    struct sporedrift_state *s = state;
    struct sporedrift_span *const spans[SPOREDRIFT_STATE_SPANS] = {
        &s->palettes, &s->attribute_map,  &s->system_palettes, &s->attribute_files, &s->packet,     &s->packets,
        &s->capture,  &s->frozen_capture, &s->preset,          &s->border_tiles,    &s->border_map, &s->border_palettes};
    size_t len[SPOREDRIFT_STATE_SPANS] = {
        SPOREDRIFT_STATE_PALETTES, SPOREDRIFT_STATE_ATTRIBUTE_MAP, SPOREDRIFT_STATE_SYSTEM_PALETTES, SPOREDRIFT_STATE_ATTRIBUTE_FILES,
        SPOREDRIFT_STATE_PACKET,   SPOREDRIFT_STATE_PACKETS,       SPOREDRIFT_STATE_CAPTURE,         SPOREDRIFT_STATE_FROZEN_CAPTURE,
        SPOREDRIFT_STATE_PRESET,   SPOREDRIFT_STATE_BORDER_TILES,  SPOREDRIFT_STATE_BORDER_MAP,      SPOREDRIFT_STATE_BORDER_PALETTES};
    uint8_t fields[SPOREDRIFT_STATE_FIELDS], none[1], *at[SPOREDRIFT_STATE_SPANS];
    uint32_t answer, present;
    unsigned k;

    for (k = 0; k < SPOREDRIFT_STATE_SPANS; k++) at[k] = spans[k]->len != 0 ? spans[k]->at : none;
    answer = sporedrift_to_spans(block, block_len, fields, sizeof fields, at[0], s->palettes.len, at[1], s->attribute_map.len, at[2],
                                 s->system_palettes.len, at[3], s->attribute_files.len, at[4], s->packet.len, at[5], s->packets.len,
                                 at[6], s->capture.len, at[7], s->frozen_capture.len, at[8], s->preset.len, at[9], s->border_tiles.len,
                                 at[10], s->border_map.len, at[11], s->border_palettes.len);
    if (sporedrift_refusal(answer) != 0) return answer;
    s->mask = fields[0];
    s->joypad_index = fields[1];
    s->joypad_mask = fields[2];
    s->p15_high = fields[3];
    s->lines_high = fields[4];
    s->receiver = fields[5];
    s->packets_expected = fields[6];
    s->packets_received = fields[7];
    s->bit_index = fields[8];
    s->preset_in_force = fields[9];
    s->transfer_countdown = fields[10];
    s->transfer_kind = fields[11];
    len[5] = SPOREDRIFT_PACKET * s->packets_received;
    for (k = 0, present = sporedrift_value(answer); k < SPOREDRIFT_STATE_SPANS; k++, present >>= 1) {
        spans[k]->present = (present & 1u) != 0;
        spans[k]->len = (present & 1u) != 0 ? len[k] : 0;
    }
    return 0;
}

/* ---- what the game does */

/* A write to the joypad register. Refusals 1, 21 to 26, 6 (a command buffer under SPOREDRIFT_COMMAND bytes); none; or n where this
 * write completed a command of n packets, which is carried out: its 16 * n bytes are at the front of `command`. */
uint32_t sporedrift_write_joypad(uint8_t *block, size_t block_len, uint8_t value, uint8_t *command, size_t command_len);

/* Joypad writes in a row, up to and with the first that completes a command, which is carried out and stands at the front of
 * `command`. Refusals 1, 21 to 26, 6 (a command buffer under SPOREDRIFT_COMMAND bytes). Of the answer, sporedrift_taken tells how many
 * writes were taken and sporedrift_packets the packets of the command: 0 if none was completed, and then all writes were taken, or
 * SPOREDRIFT_PLAY of a longer slice. What is left goes into the next call. It does what sporedrift_write_joypad does with one write
 * after the other, and checks the block once: for many writes it is much quicker. */
uint32_t sporedrift_play(uint8_t *block, size_t block_len, const uint8_t *writes, size_t writes_len, uint8_t *command,
                         size_t command_len);

static inline size_t sporedrift_taken(uint32_t played) { return sporedrift_value(played) >> 3; }
static inline uint32_t sporedrift_packets(uint32_t played) { return sporedrift_value(played) & 7u; }

/* A screen that the game shows. Refusals 1, 21 to 26, 3; none; or what this screen made land, an enum sporedrift_transfer. */
uint32_t sporedrift_update_screen(uint8_t *block, size_t block_len, const uint8_t *screen, size_t screen_len);

enum sporedrift_transfer {
    SPOREDRIFT_TRANSFER_PALETTES = 0,        /* the system palettes */
    SPOREDRIFT_TRANSFER_ATTRIBUTE_FILES = 1,
    SPOREDRIFT_TRANSFER_LOWER_TILES = 2,     /* the border's tiles 0 to 127 */
    SPOREDRIFT_TRANSFER_UPPER_TILES = 3,     /* the border's tiles 128 to 255 */
    SPOREDRIFT_TRANSFER_MAP = 4              /* the border's map and palettes */
};

/* ---- what the unit shows. Colours are words of 15 bits, as the SNES has them */

enum sporedrift_mask {
    SPOREDRIFT_MASK_SHOWN = 0,
    SPOREDRIFT_MASK_FROZEN = 1,
    SPOREDRIFT_MASK_BLACK = 2,
    SPOREDRIFT_MASK_BACKDROP = 3
};

/* The mask mode, an enum sporedrift_mask. Refusals 1, 21 to 26. */
uint32_t sporedrift_mask_mode(const uint8_t *block, size_t block_len);

/* The colour of everything that nothing covers. Refusals 1, 21 to 26. */
uint32_t sporedrift_backdrop(const uint8_t *block, size_t block_len);

/* The colour of a shade (0 to 3) at column x (below 160) of row y (below 144) of the screen, whatever the mask.
 * Refusals 1, 21 to 26, 4. */
uint32_t sporedrift_color_at(const uint8_t *block, size_t block_len, size_t x, size_t y, uint8_t shade);

/* The border's map word at a column (below 32) of a row (below 28): tile in bits 0 to 9, palette in 10 to 12, flips in 14 (x) and
 * 15 (y). Refusals 1, 21 to 26, 4. */
uint32_t sporedrift_map_entry(const uint8_t *block, size_t block_len, size_t column, size_t row);

/* The border's colour at column x (below 256) of row y (below 224) of the picture; none where it is transparent.
 * Refusals 1, 21 to 26, 4. */
uint32_t sporedrift_border_color_at(const uint8_t *block, size_t block_len, size_t x, size_t y);

/* Row y of the picture (below 224), and the whole of it row by row, into the first 256 and 57,344 words of `out`; the answer is that
 * number. Refusals 1, 21 to 26, 4 (the row), 6. */
uint32_t sporedrift_row(const uint8_t *block, size_t block_len, size_t y, uint16_t *out, size_t out_len);
uint32_t sporedrift_picture(const uint8_t *block, size_t block_len, uint16_t *out, size_t out_len);

/* A colour word at eight bits a channel, RRGGBB hex. Refuses nothing. */
uint32_t sporedrift_to_rgb8(uint16_t word);

/* Which of two captures a mask mode displays: 0 the live one, 1 the frozen one; none if either is not SPOREDRIFT_SCREEN bytes. */
uint32_t sporedrift_displayed_screen(const uint8_t *live, size_t live_len, const uint8_t *frozen, size_t frozen_len, uint8_t mode);

/* Where the SPOREDRIFT_TILE bytes of tile n start in the lent tiles; none if n is over 255 or the tiles are not SPOREDRIFT_TILES
 * bytes. */
uint32_t sporedrift_tile(const uint8_t *tiles, size_t tiles_len, size_t n);

/* The two above as the part itself, or NULL. */
static inline const uint8_t *sporedrift_displayed_part(const uint8_t *live, size_t live_len, const uint8_t *frozen,
                                                       size_t frozen_len, uint8_t mode) {
    uint32_t answer = sporedrift_displayed_screen(live, live_len, frozen, frozen_len, mode);
    if (answer == SPOREDRIFT_NONE) return NULL;
    return sporedrift_value(answer) == 1 ? frozen : live;
}

static inline const uint8_t *sporedrift_tile_part(const uint8_t *tiles, size_t tiles_len, size_t n) {
    uint32_t answer = sporedrift_tile(tiles, tiles_len, n);
    return answer == SPOREDRIFT_NONE ? NULL : tiles + sporedrift_value(answer);
}

/* ---- commands */

/* The joypad writes that send a command of n packets (16 * n bytes): 260 * n of them, at the front of `out`; the answer is their
 * number. Refusals 5, 6. */
uint32_t sporedrift_encode(const uint8_t *command, size_t command_len, uint8_t *out, size_t out_len);

/* Whether a command conforms to Pan Docs: 1 or 0. Refusal 5. It conforms exactly if all of this is so (docs/RULES.md, 7.2):
 * - Its code is at most 19 hex.
 * - It has one packet; but ATTR_BLK (04) and ATTR_LIN (05) may have up to 7, and ATTR_CHR (07) up to 6.
 * - These three announce how many items they bring: 1 to 18 sets in byte 1, 1 to 110 lines in byte 1, 1 to 360 cells in the word at
 *   byte 3, the low byte first.
 * - Their packets, of 16 bytes, hold all that they announce: n sets take 2 + 6 * n bytes, n lines 2 + n, n cells 6 + (n + 3) / 4. This
 *   is new in 0.4: before, 18 sets in one packet conformed, though it holds two. So many may be announced at the most:
 *
 *       packets             1    2    3    4    5    6    7
 *       sets  (ATTR_BLK)    2    5    7   10   13   15   18
 *       lines (ATTR_LIN)   14   30   46   62   78   94  110
 *       cells (ATTR_CHR)   40  104  168  232  296  360    -
 *
 * The fewest packets for n items are those of the first column with n or more; n items conform in these, and in more up to 7, 7 and 6.
 * Where a command of the three conforms, the unit carries it out to its last item (docs/RULES.md, 7.3): nothing that it announces is
 * dropped for want of data. Both are proved. The unit does not look at the verdict: it takes the items that are announced, whatever their
 * number, as far as the data reaches. */
uint32_t sporedrift_verdict(const uint8_t *command, size_t command_len);

/* ---- pages */

/* The screen that carries a page: what a game has to draw so that these bytes land. It stands in the first SPOREDRIFT_SCREEN bytes of
 * `screen`, which keeps its tail; the answer is that number. Refusals 10, 6 (an output under SPOREDRIFT_SCREEN bytes).
 *
 * A page is SPOREDRIFT_PAGE bytes, and fills the screen's first 256 tiles, of 8 by 8 pixels and twenty to a row; the other 104 are shade
 * 0. Tile t has the sixteen bytes from 16 * t on, two for each of its rows from the top. Of a row's eight shades the first byte has the
 * low bits and the second the high bits, the leftmost pixel in bit 7 (docs/RULES.md, 5.6).
 *
 * To send it: a transfer command (PAL_TRN, ATTR_TRN, CHR_TRN or PCT_TRN), any two screens, and then this one. At this one, the third,
 * sporedrift_update_screen answers the transfer's kind, and the bytes of the page that this kind takes stand in the block as they are here
 * (docs/RULES.md, 5.4 and 5.7). Another transfer command between would take the place of the first, and count three screens from there;
 * any other command may come. */
uint32_t sporedrift_page_screen(const uint8_t *page, size_t page_len, uint8_t *screen, size_t screen_len);

/* ---- logs */

enum sporedrift_line {
    SPOREDRIFT_LINE_WRITES = 1, /* joypad writes, none or up to SPOREDRIFT_LINE */
    SPOREDRIFT_LINE_SCREEN = 2  /* a screen, SPOREDRIFT_SCREEN bytes */
};

/* One line of a log, without the LF that ends it. Refusals 6 (an output under SPOREDRIFT_LINE bytes), 7. Of the answer,
 * sporedrift_line_kind tells which line it is, an enum sporedrift_line, and sporedrift_line_bytes how many bytes of it now stand at the
 * front of `bytes`: writes for sporedrift_play, or a screen for sporedrift_update_screen. */
uint32_t sporedrift_parse_line(const uint8_t *text, size_t text_len, uint8_t *bytes, size_t bytes_len);

static inline uint32_t sporedrift_line_kind(uint32_t parsed) { return sporedrift_value(parsed) & 7u; }
static inline size_t sporedrift_line_bytes(uint32_t parsed) { return sporedrift_value(parsed) >> 3; }

#ifdef __cplusplus
}
#endif

#endif
