/* state: a unit as a state of the emulator, and back. It prints the state as the emulator has it, a field or a span a line, and what
 * becomes of it when it comes in. bindings/rust/examples/state.rs is the same program over the Rust wrapper: both print examples/state.stdout. */
#include <stdio.h>
#include <stdlib.h>
#include <string.h>

#include "sporedrift.h"

static uint8_t block[SPOREDRIFT_BLOCK];
static uint8_t palettes[SPOREDRIFT_STATE_PALETTES], attribute_map[SPOREDRIFT_STATE_ATTRIBUTE_MAP];
static uint8_t system_palettes[SPOREDRIFT_STATE_SYSTEM_PALETTES], attribute_files[SPOREDRIFT_STATE_ATTRIBUTE_FILES];
static uint8_t packet[SPOREDRIFT_STATE_PACKET], packets[SPOREDRIFT_STATE_PACKETS];
static uint8_t capture[SPOREDRIFT_STATE_CAPTURE], frozen_capture[SPOREDRIFT_STATE_FROZEN_CAPTURE], preset[SPOREDRIFT_STATE_PRESET];
static uint8_t border_tiles[SPOREDRIFT_STATE_BORDER_TILES], border_map[SPOREDRIFT_STATE_BORDER_MAP];
static uint8_t border_palettes[SPOREDRIFT_STATE_BORDER_PALETTES];

static uint32_t tell(const char *call, uint32_t answer) {
    unsigned number = sporedrift_refusal(answer), rule = sporedrift_rule(answer), offset = sporedrift_offset(answer);

    if (rule != 0)
        printf("%s: rule V%u is broken at byte %u (0x%X), %s (refusal %u)\n", call, rule, offset, offset, sporedrift_field_text(offset),
               number);
    else if (number != 0)
        printf("%s: %s (refusal %u)\n", call, sporedrift_refusal_text(answer), number);
    else
        printf("%s: taken\n", call);
    return answer;
}

/* FNV-1a, which tells whether another program has the same bytes. */
static uint32_t sum(uint32_t start, const uint8_t *bytes, size_t n) {
    while (n-- > 0) start = (start ^ *bytes++) * 16777619u;
    return start;
}

/* ---- out: a struct whose spans all have room, then the state as the emulator has it */

static struct sporedrift_span lent(uint8_t *bytes, size_t room) {
    struct sporedrift_span span;
    span.at = bytes;
    span.len = room;
    span.present = 0;
    return span;
}

static uint32_t saved(struct sporedrift_state *state) {
    state->palettes = lent(palettes, sizeof palettes);
    state->attribute_map = lent(attribute_map, sizeof attribute_map);
    state->system_palettes = lent(system_palettes, sizeof system_palettes);
    state->attribute_files = lent(attribute_files, sizeof attribute_files);
    state->packet = lent(packet, sizeof packet);
    state->packets = lent(packets, sizeof packets);
    state->capture = lent(capture, sizeof capture);
    state->frozen_capture = lent(frozen_capture, sizeof frozen_capture);
    state->preset = lent(preset, sizeof preset);
    state->border_tiles = lent(border_tiles, sizeof border_tiles);
    state->border_map = lent(border_map, sizeof border_map);
    state->border_palettes = lent(border_palettes, sizeof border_palettes);
    return sporedrift_to_state(block, sizeof block, state);
}

static void field(const char *name, unsigned value) { printf("  sgb_%s: %u\n", name, value); }
static void flag(const char *name, unsigned value) { printf("  sgb_%s: %s\n", name, value == 1 ? "true" : "false"); }

static void span(const char *name, const struct sporedrift_span *span) {
    if (span->present)
        printf("  sgb_%s: %u bytes, sum %08X\n", name, (unsigned)span->len, (unsigned)sum(2166136261u, span->at, span->len));
}

static void show(const struct sporedrift_state *state) {
    field("mask", state->mask);
    field("joypad_index", state->joypad_index);
    field("joypad_mask", state->joypad_mask);
    flag("p15_high", state->p15_high);
    flag("lines_high", state->lines_high);
    field("receiver", state->receiver);
    field("packets_expected", state->packets_expected);
    field("packets_received", state->packets_received);
    field("bit_index", state->bit_index);
    flag("preset_in_force", state->preset_in_force);
    if (state->transfer_countdown != 0) { /* else the record must have neither */
        field("transfer_countdown", state->transfer_countdown);
        field("transfer_kind", state->transfer_kind);
    }
    span("palettes", &state->palettes);
    span("attribute_map", &state->attribute_map);
    span("system_palettes", &state->system_palettes);
    span("attribute_files", &state->attribute_files);
    span("packet", &state->packet);
    span("packets", &state->packets);
    span("capture", &state->capture);
    span("frozen_capture", &state->frozen_capture);
    span("preset", &state->preset);
    span("border_tiles", &state->border_tiles);
    span("border_map", &state->border_map);
    span("border_palettes", &state->border_palettes);
}

/* ---- in: another block, beside the first */

static void picture_of(const uint8_t *shown) {
    static uint16_t picture[SPOREDRIFT_PICTURE];
    uint32_t told = 2166136261u;
    size_t i;

    if (sporedrift_refusal(sporedrift_picture(shown, SPOREDRIFT_BLOCK, picture, SPOREDRIFT_PICTURE)) != 0) return;
    for (i = 0; i < SPOREDRIFT_PICTURE; i++) {
        uint32_t rgb = sporedrift_value(sporedrift_to_rgb8(picture[i]));
        uint8_t bytes[3] = {(uint8_t)(rgb >> 16), (uint8_t)(rgb >> 8), (uint8_t)rgb};
        told = sum(told, bytes, sizeof bytes);
    }
    printf("  picture: %08X\n", (unsigned)told);
}

static void take(const struct sporedrift_state *state) {
    static uint8_t other[SPOREDRIFT_BLOCK];

    memset(other, 0xFF, sizeof other);
    if (tell("  from_state", sporedrift_from_state(other, sizeof other, state)) != 0) return;
    printf("  the block: %s\n", memcmp(other, block, sizeof block) == 0 ? "the same" : "another");
    picture_of(other);
}

/* ---- a game that sends commands and shows screens */

static void play(const uint8_t *command, size_t most) {
    uint8_t writes[SPOREDRIFT_PACKET_WRITES], received[SPOREDRIFT_COMMAND];
    size_t n = sporedrift_value(sporedrift_encode(command, SPOREDRIFT_PACKET, writes, sizeof writes)), at = 0;

    if (n > most) n = most;
    while (at < n) at += sporedrift_taken(sporedrift_play(block, sizeof block, writes + at, n - at, received, sizeof received));
}

/* A screen of eight shades again and again, as often as is said. */
static void show_screens(unsigned times, uint8_t left, uint8_t right) {
    static uint8_t screen[SPOREDRIFT_SCREEN];
    size_t i;

    for (i = 0; i < sizeof screen; i++) screen[i] = i % 2 ? right : left;
    while (times-- > 0) sporedrift_update_screen(block, sizeof block, screen, sizeof screen);
}

int main(void) {
    static const uint8_t pal01[16] = {0x01, 0xDF, 0x7B, 0x1F, 0x02, 0xB0, 0x01, 0x43, 0x10, 0xE0, 0x3A, 0x60, 0x25, 0x84, 0x10};
    static const uint8_t attr_blk[16] = {0x21, 0x01, 0x03, 0x05, 4, 3, 15, 14};
    static const uint8_t freeze[16] = {0xB9, 0x01}, chr_trn[16] = {0x99}, pct_trn[16] = {0xA1};
    struct sporedrift_state state;
    size_t i;

    sporedrift_post_boot(block, sizeof block);
    printf("after the boot ROM\n");
    if (saved(&state) != 0) return EXIT_FAILURE;
    show(&state);
    take(&state);

    printf("a frozen screen, a transfer that is pending, a command that is coming in\n");
    play(pal01, 260);
    play(attr_blk, 260);
    play(chr_trn, 260);
    show_screens(3, 0x4E, 0x1B);
    play(pct_trn, 260);
    show_screens(3, 0x02, 0x01); /* tile 1 in palette 4 everywhere */
    play(freeze, 260);
    play(chr_trn, 260);
    show_screens(1, 0xE4, 0x1B);
    play(pal01, 100); /* not all of its writes */
    if (saved(&state) != 0) return EXIT_FAILURE;
    show(&state);
    take(&state);

    printf("shades with bits above their low two\n");
    for (i = 0; i < state.capture.len; i++) capture[i] = (uint8_t)(capture[i] | 0xFC);
    take(&state);

    printf("no border map: the border is empty\n");
    state.border_map.present = 0;
    take(&state);

    printf("no frozen capture, and the mask wants one\n");
    state.frozen_capture.present = 0;
    take(&state);

    printf("a cell of the attribute map that is 4\n");
    attribute_map[359] = 4;
    take(&state);

    printf("a capture that lacks a byte\n");
    state.capture.len--;
    take(&state);
    return EXIT_SUCCESS;
}
