/* The stack that each call of include/sporedrift.h takes, measured: a call runs on a stack of its own that was painted before, and what
 * it has overwritten tells how deep it went. Each is driven over what may reach its deepest path: every command at every length, a
 * landing of every kind, every mask mode, pictures with and without a border, pages as screens, states of the emulator out and in, and
 * refusals. Two paints are used, since a word that a call fills with the paint is not seen.
 * It prints 'NAME BYTES' for each call, the most that was seen; before them 'deep', a call that takes DEEP bytes and has to be seen. */
#define _GNU_SOURCE
#include <stdio.h>
#include <stdlib.h>
#include <string.h>
#include <ucontext.h>

#include "sporedrift.h"

enum { STACK = 1 << 17, DEEP = 70000, NAMES = 32 };

/* ---- a call on a painted stack */

static uint64_t stack[STACK / 8], paint;
static size_t taken = STACK / 8; /* how many words, from the top, are not known to be painted */
static ucontext_t here, there;

static size_t used_by(void (*call)(void)) {
    size_t low = STACK / 8 - taken;
    for (; low < STACK / 8; low++) stack[low] = paint;
    getcontext(&there);
    there.uc_stack.ss_sp = stack;
    there.uc_stack.ss_size = STACK;
    there.uc_link = &here;
    makecontext(&there, call, 0);
    swapcontext(&here, &there);
    for (low = 0; low < STACK / 8 && stack[low] == paint;) low++;
    taken = STACK / 8 - low;
    return 8 * taken;
}

/* ---- what the calls are given, and the most that each took */

static uint8_t block[SPOREDRIFT_BLOCK], screen[SPOREDRIFT_SCREEN], command[SPOREDRIFT_COMMAND], sent[SPOREDRIFT_COMMAND];
static uint8_t writes[7 * SPOREDRIFT_PACKET_WRITES], value, page[SPOREDRIFT_PAGE];
static uint16_t words[SPOREDRIFT_PICTURE];
static size_t block_len = sizeof block, screen_len = sizeof screen, command_len = sizeof command, sent_len, words_len = SPOREDRIFT_PICTURE;
static size_t writes_len = sizeof writes, page_len = sizeof page, x, y;
static uint8_t text[2 * SPOREDRIFT_LINE + 4], line[SPOREDRIFT_LINE];
static const uint8_t *lent = writes;
static size_t lent_len, text_len, line_len = sizeof line;
static uint32_t answer;
static struct sporedrift_state state;
static uint8_t fields[SPOREDRIFT_STATE_FIELDS];
static size_t fields_len = sizeof fields;
static uint16_t present;

static struct { const char *name; size_t most; } seen[NAMES];

static void note(const char *name, size_t bytes) {
    size_t i = 0;
    while (seen[i].name && strcmp(seen[i].name, name)) i++;
    seen[i].name = name;
    if (bytes > seen[i].most) seen[i].most = bytes;
}

/* MEASURED(name, arguments) makes measure_name(), which runs the call on the painted stack and notes what it took. */
#define MEASURED(name, ...)                                             \
    static void call_##name(void) { answer = sporedrift_##name(__VA_ARGS__); } \
    static void measure_##name(void) { note("sporedrift_" #name, used_by(call_##name)); }

MEASURED(new, block, block_len)
MEASURED(post_boot, block, block_len)
MEASURED(check, block, block_len)
MEASURED(write_joypad, block, block_len, value, command, command_len)
MEASURED(play, block, block_len, lent, lent_len, command, command_len)
MEASURED(update_screen, block, block_len, screen, screen_len)
MEASURED(mask_mode, block, block_len)
MEASURED(backdrop, block, block_len)
MEASURED(color_at, block, block_len, x, y, value)
MEASURED(map_entry, block, block_len, x, y)
MEASURED(border_color_at, block, block_len, x, y)
MEASURED(row, block, block_len, y, words, words_len)
MEASURED(picture, block, block_len, words, words_len)
MEASURED(to_rgb8, (uint16_t)x)
MEASURED(displayed_screen, block + SPOREDRIFT_LIVE_AT, screen_len, block + SPOREDRIFT_FROZEN_AT, screen_len, value)
MEASURED(tile, block + SPOREDRIFT_TILES_AT, x, y)
MEASURED(encode, sent, sent_len, writes, writes_len)
MEASURED(verdict, sent, sent_len)
MEASURED(page_screen, page, page_len, screen, screen_len)
MEASURED(parse_line, text, text_len, line, line_len)
MEASURED(version, )

/* The two over slices, and the header's own over its struct, which stand above them. */
#define SPAN(name) state.name.at, state.name.len
#define SPANS \
    SPAN(palettes), SPAN(attribute_map), SPAN(system_palettes), SPAN(attribute_files), SPAN(packet), SPAN(packets), SPAN(capture), \
        SPAN(frozen_capture), SPAN(preset), SPAN(border_tiles), SPAN(border_map), SPAN(border_palettes)
MEASURED(from_spans, block, block_len, fields, fields_len, present, SPANS)
MEASURED(to_spans, block, block_len, fields, fields_len, SPANS)
MEASURED(from_state, block, block_len, &state)
MEASURED(to_state, block, block_len, &state)

static void call_deep(void) {
    volatile uint8_t bytes[DEEP];
    for (size_t i = 0; i < DEEP; i += 64) bytes[i] = 1;
    answer = bytes[0];
}

/* ---- driving them */

static uint64_t chance = 20261115;

static uint8_t byte(void) {
    chance = chance * 6364136223846793005u + 1442695040888963407u;
    return (uint8_t)(chance >> 56);
}

static void noise(uint8_t *bytes, size_t n) {
    while (n--) *bytes++ = byte();
}

static void die(const char *what) {
    fprintf(stderr, "stack: %s\n", what);
    exit(1);
}

static void look(void) {
    measure_check();
    measure_mask_mode();
    measure_backdrop();
    for (int i = 0; i < 16; i++) {
        x = byte(), y = byte(), value = byte() % 5; /* often outside, and a shade that is none */
        measure_color_at();
        measure_border_color_at();
        x %= 33, y %= 29;
        measure_map_entry();
        x = i ? SPOREDRIFT_TILES : 1, y = byte() * 2u;
        measure_tile();
        measure_displayed_screen();
        x = (size_t)byte() << 8 | byte();
        measure_to_rgb8();
    }
    for (y = 0; y <= SPOREDRIFT_HEIGHT; y += 8) measure_row();
    measure_picture();
}

/* ---- states of the emulator */

enum { SPAN_COUNT = SPOREDRIFT_STATE_SPANS };

static struct sporedrift_span *span(int k) {
    struct sporedrift_span *const spans[SPAN_COUNT] = {
        &state.palettes, &state.attribute_map,  &state.system_palettes, &state.attribute_files, &state.packet,     &state.packets,
        &state.capture,  &state.frozen_capture, &state.preset,          &state.border_tiles,    &state.border_map, &state.border_palettes};
    return spans[k];
}

/* Every span with room for its greatest length. */
static void lend(void) {
    static const size_t room[SPAN_COUNT] = {
        SPOREDRIFT_STATE_PALETTES, SPOREDRIFT_STATE_ATTRIBUTE_MAP, SPOREDRIFT_STATE_SYSTEM_PALETTES, SPOREDRIFT_STATE_ATTRIBUTE_FILES,
        SPOREDRIFT_STATE_PACKET,   SPOREDRIFT_STATE_PACKETS,       SPOREDRIFT_STATE_CAPTURE,         SPOREDRIFT_STATE_FROZEN_CAPTURE,
        SPOREDRIFT_STATE_PRESET,   SPOREDRIFT_STATE_BORDER_TILES,  SPOREDRIFT_STATE_BORDER_MAP,      SPOREDRIFT_STATE_BORDER_PALETTES};
    static uint8_t bytes[SPAN_COUNT][SPOREDRIFT_STATE_CAPTURE];
    for (int k = 0; k < SPAN_COUNT; k++) span(k)->at = bytes[k], span(k)->len = room[k];
}

/* Which refusals were told, a bit each. */
static uint32_t told_in, told_out;

static void both_in(void) {
    memcpy(fields, (uint8_t *)&state, sizeof fields); /* the struct's first twelve bytes */
    for (int k = present = 0; k < SPAN_COUNT; k++) present |= (uint16_t)(span(k)->present ? 1 << k : 0);
    measure_from_spans();
    measure_from_state();
    told_in |= 1u << sporedrift_refusal(answer);
}

static void both_out(void) {
    measure_to_spans();
    measure_to_state();
    told_out |= 1u << sporedrift_refusal(answer);
}

/* Refusal 8 for each span that is short or missing, or what is taken without it; 9 for a cell; 21 to 26 for a field, and for the packets. */
static void every_state_refused(void) {
    for (int k = 0; k < SPAN_COUNT; k++) {
        struct sporedrift_span was = *span(k);
        span(k)->present = 0, both_in();
        span(k)->present = 1, span(k)->len++, both_in();
        *span(k) = was;
        if (!was.len) continue;
        for (size_t end = 0; end < 2; end++) {
            uint8_t *at = span(k)->at + (end ? was.len - 1 : 0), kept = *at;
            *at = 0xFF, both_in(), *at = kept;
        }
    }
    for (size_t i = 0; i < sizeof fields; i++) {
        uint8_t *at = (uint8_t *)&state + i, kept = *at;
        *at = 0xFF, both_in(), *at = kept;
    }
    fields_len = 1, both_in(), fields_len = sizeof fields;
    block_len = 1, both_in(), block_len = sizeof block;
}

/* The block out and in again, which keeps it; then what is refused, and what is taken in part, after which it is put back. */
static void exchange(void) {
    static uint8_t kept[sizeof block];
    memcpy(kept, block, sizeof block);
    lend(), both_out();
    if (answer) die("a block is not let out");
    both_in();
    if (answer || memcmp(block, kept, sizeof block)) die("a block is not the same after out and in");
    every_state_refused();
    memcpy(block, kept, sizeof block);
    for (int k = 0; k < SPAN_COUNT; k++) lend(), span(k)->len--, both_out();
    lend(), fields_len = 1, measure_to_spans(), fields_len = sizeof fields;
}

/* A command by its pulses. Of the writes the first and the last of a packet are measured, and some between. */
static void send(void) {
    measure_verdict();
    measure_encode();
    uint32_t n = sporedrift_value(answer), packets = 0;
    for (uint32_t i = 0; i < n; i++) {
        value = writes[i];
        if (i % 32 < 2 || i % SPOREDRIFT_PACKET_WRITES > 256) measure_write_joypad();
        else call_write_joypad();
        if (sporedrift_refusal(answer)) die("a write is refused");
        if (answer != SPOREDRIFT_NONE) packets = sporedrift_value(answer);
    }
    if (packets * SPOREDRIFT_PACKET != sent_len || memcmp(command, sent, sent_len)) die("a command is not told");
}

/* Writes in a row, each call up to the next command. Gives the packets of the last. */
static uint32_t play(const uint8_t *row, size_t n) {
    uint32_t packets = 0;
    lent = row, lent_len = n;
    do {
        measure_play();
        if (sporedrift_refusal(answer)) die("writes in a row are refused");
        lent += sporedrift_taken(answer), lent_len -= sporedrift_taken(answer);
        if (sporedrift_packets(answer)) packets = sporedrift_packets(answer);
    } while (lent_len > 0);
    return packets;
}

/* The command that `send` sent, in a row. */
static void send_in_a_row(void) {
    uint32_t n = sporedrift_value(sporedrift_encode(sent, sent_len, writes, writes_len));
    memset(command, 0, sizeof command);
    if (play(writes, n) * SPOREDRIFT_PACKET != sent_len || memcmp(command, sent, sent_len)) die("a command in a row is not told");
}

/* Random writes in a row, after which the block is what it was before them. */
static void noise_in_a_row(void) {
    static uint8_t kept[sizeof block], row[SPOREDRIFT_LINE];
    memcpy(kept, block, sizeof block);
    noise(row, sizeof row);
    play(row, sizeof row);
    play(row, 0);
    memcpy(block, kept, sizeof block);
}

/* Lines of a log: both kinds at their longest, and lines that are refused at their first and at their last character. */
static void every_line(void) {
    static const size_t lengths[] = {sizeof text, sizeof text - 1, sizeof text - 2, sizeof text - 3, sizeof text - 4, 6, 5, 4, 3, 2, 1, 0};
    for (int kind = 0; kind < 4; kind++)
        for (size_t k = 0; k < sizeof lengths / sizeof *lengths; k++) {
            text_len = lengths[k];
            for (size_t i = 0; i < sizeof text; i++) text[i] = (uint8_t)"0123456789abcdefABCDEF"[byte() % 22];
            text[0] = '0', text[1] = (uint8_t)('0' + kind);
            measure_parse_line();
            if (text_len) text[text_len - 1] = 'g', measure_parse_line();
        }
}

/* Pages of zeros, of ones and of noise. */
static void every_page(void) {
    for (int sort = 0; sort < 3; sort++) {
        memset(page, sort ? 0xFF : 0, sizeof page);
        if (sort == 2) noise(page, sizeof page);
        measure_page_screen();
        if (answer != 256 * SPOREDRIFT_SCREEN) die("a page is not carried");
    }
}

/* Three screens, of which the last lands what is pending. */
static void show(int kind) {
    for (int i = 0; i < 3; i++) {
        noise(screen, sizeof screen);
        measure_update_screen();
        if (sporedrift_refusal(answer)) die("a screen is refused");
    }
    if (kind >= 0 && (answer == SPOREDRIFT_NONE || sporedrift_value(answer) != (uint32_t)kind)) die("a transfer does not land");
}

/* Every code with every number of packets and random data; then three screens. */
static void every_command(void) {
    for (int code = 0; code < 32; code++) {
        for (int packets = 1; packets <= 7; packets++) {
            noise(sent, sizeof sent);
            sent[0] = (uint8_t)(code << 3 | packets);
            sent_len = SPOREDRIFT_PACKET * (code >= 30 ? 1 : packets);
            send();
            send_in_a_row();
        }
        noise_in_a_row();
        show(-1);
    }
}

/* One packet of a code, with d1 as given. */
static void one(int code, int d1) {
    noise(sent, sizeof sent);
    sent[0] = (uint8_t)(code << 3 | 1), sent[1] = (uint8_t)d1;
    sent_len = SPOREDRIFT_PACKET;
    send();
    send_in_a_row();
}

static void every_landing_and_mask(void) {
    static const int codes[5][2] = {{0x0B, 0}, {0x15, 0}, {0x13, 0}, {0x13, 1}, {0x14, 0}};
    for (int mask = 0; mask < 4; mask++) {
        one(0x17, mask);
        for (int kind = 0; kind < 5; kind++) {
            one(codes[kind][0], codes[kind][1]);
            exchange();
            show(kind);
        }
        look();
        exchange();
    }
}

/* The receiver at rest, within a packet and between two. */
static void every_stage(void) {
    noise(sent, sizeof sent);
    sent[0] = 0x08 << 3 | 7, sent_len = sizeof sent;
    uint32_t n = sporedrift_value(sporedrift_encode(sent, sent_len, writes, writes_len));
    for (uint32_t i = 0; i < n; i++) {
        if (i % 129 == 0 || i % SPOREDRIFT_PACKET_WRITES == 0) exchange();
        value = writes[i], call_write_joypad();
    }
    exchange();
}

/* A byte that no valid block has, in each of the first 16, and at both ends of each part that must be zero. */
static void every_broken_byte(void) {
    static const size_t ends[] = {SPOREDRIFT_CURRENT_PACKET_AT, SPOREDRIFT_PACKETS_AT - 1, SPOREDRIFT_PACKETS_AT, SPOREDRIFT_PRESET_AT - 1,
        SPOREDRIFT_PRESET_AT, SPOREDRIFT_PALETTES_AT - 1, SPOREDRIFT_FROZEN_AT, SPOREDRIFT_TILES_AT - 1};
    for (size_t i = 0; i < 16 + sizeof ends / sizeof *ends; i++) {
        size_t at = i < 16 ? i : ends[i - 16];
        uint8_t was = block[at];
        block[at] = 0xFF, look(), lend(), both_out(), measure_write_joypad(), measure_play(), measure_update_screen(), block[at] = was;
        if (sporedrift_refusal(answer) <= SPOREDRIFT_REFUSED_LENGTH) die("a broken block is not refused");
    }
}

static void every_refusal(void) {
    lent = writes, lent_len = sizeof writes;
    block_len = 1, look(), lend(), both_out(), measure_write_joypad(), measure_play(), measure_update_screen(), measure_new(), measure_post_boot();
    block_len = sizeof block;
    screen_len = 1, measure_update_screen(), measure_page_screen(), screen_len = sizeof screen;
    if (answer != SPOREDRIFT_REFUSED_OUTPUT) die("a page with a short output is not refused");
    page_len = 1, measure_page_screen(), page_len = sizeof page;
    if (answer != SPOREDRIFT_REFUSED_PAGE) die("a short page is not refused");
    command_len = 1, measure_write_joypad(), measure_play(), command_len = sizeof command;
    line_len = 1, measure_parse_line(), line_len = sizeof line;
    words_len = 1, look(), words_len = SPOREDRIFT_PICTURE;
    sent_len = 1, measure_encode(), measure_verdict(), sent_len = SPOREDRIFT_PACKET;
    writes_len = 1, measure_encode(), writes_len = sizeof writes;
    for (uint8_t receiver = SPOREDRIFT_RECEIVER_IDLE; receiver <= SPOREDRIFT_RECEIVER_AWAITING; receiver++) {
        block[SPOREDRIFT_RECEIVER_AT] = receiver;
        every_broken_byte();
    }
    block[SPOREDRIFT_RECEIVER_AT] = SPOREDRIFT_RECEIVER_IDLE;
}

int main(void) {
    for (int turn = 0; turn < 2; turn++) {
        paint = turn ? 0x5A5A5A5A5A5A5A5A : 0xA5A5A5A5A5A5A5A5, taken = STACK / 8;
        note("deep", used_by(call_deep));
        measure_new(), look(), exchange();
        measure_post_boot(), look(), exchange();
        every_command();
        every_landing_and_mask();
        every_stage();
        every_line();
        every_page();
        measure_version();
        every_refusal();
    }
    if (sporedrift_check(block, sizeof block)) die("the block is not valid at the end");
    /* 0, 1, 8, 9, 21 to 24 and 26, since a state can't break V5; 0, 1, 6, 21 to 26 */
    if (told_in != 0x5E00303 || told_out != 0x7E00043) die("not every refusal of a state was told");
    for (size_t i = 0; seen[i].name; i++) printf("%s %zu\n", seen[i].name, seen[i].most);
}
