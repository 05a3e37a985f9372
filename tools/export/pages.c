/* pages: the screens that carry pages, by the header and the library. Pages of zeros and of ones, each single bit, and random pages must
 * give the screen of a reading of our own, pixel by pixel; and each must be the page that its screen shows. Another length of the page and a
 * short output must be refused, the length first, with no byte changed; a longer output keeps its tail. Then pages go to units as the
 * header tells it, by a transfer command of each kind and three screens: they must land as they are, and nothing else may change.
 * It is C and C++, and tools/export/run builds it as both.
 * It prints what is wrong. Its last line is 'N passed, M failed', a test a row. Exit status: 0 if all passed, 1 if not. */
#include <stdio.h>
#include <string.h>

#include "sporedrift.h"

static int passed, failed, wrong;

/* What a row looks at, of which the first few that are wrong are printed; then the row itself, which is one test. */
static void number(const char *what, unsigned long at, unsigned long told, unsigned long due) {
    if (told != due && wrong < 5) printf("pages: %s, %lu: %lu, and not %lu\n", what, at, told, due);
    wrong += told != due;
}

static void row(const char *what, unsigned long at) {
    if (wrong) printf("pages: that was %s %lu; %d wrong\n", what, at, wrong);
    passed += !wrong;
    failed += wrong != 0;
    wrong = 0;
}

static uint64_t chance = 20261117;

static uint8_t byte(void) {
    chance = chance * 6364136223846793005u + 1442695040888963407u;
    return (uint8_t)(chance >> 56);
}

static void noise(uint8_t *bytes, size_t n) {
    while (n--) *bytes++ = byte();
}

/* ---- what is lent stands at an odd place, between bytes that are no part of it */

#define GUARD 17u
#define LONGEST (SPOREDRIFT_PAGE + 300u)
#define MOST_ROOM (SPOREDRIFT_SCREEN + 300u)

static uint8_t pages[GUARD + LONGEST + GUARD], screens[GUARD + MOST_ROOM + GUARD];
static uint8_t *const page = pages + GUARD, *const screen = screens + GUARD;

/* The call, over a screen that is painted before. The page must be as it was, and so must all that is no part of the answer: what stands
 * before the screen and behind it, and where the call is refused the screen too. */
static uint32_t call(size_t len, size_t room, uint8_t paint) {
    static uint8_t kept[sizeof pages], painted[sizeof screens];
    size_t end = GUARD;
    uint32_t answer;

    memset(screens, paint, sizeof screens);
    memset(painted, paint, sizeof painted);
    memcpy(kept, pages, sizeof pages);
    answer = sporedrift_page_screen(page, len, screen, room);
    if (sporedrift_refusal(answer) == 0) end += SPOREDRIFT_SCREEN;
    number("the page is as it was, of", len, memcmp(pages, kept, sizeof pages) == 0, 1);
    number("what stands before the screen is, with room for", room, memcmp(screens, painted, GUARD) == 0, 1);
    number("what stands behind it is, with room for", room, memcmp(screens + end, painted, sizeof screens - end) == 0, 1);
    return answer;
}

enum { CARRIED = 256 * SPOREDRIFT_SCREEN }; /* the value 5,760 as an answer */

/* ---- a second reading, pixel by pixel (docs/RULES.md, 5.6 and 5.3) */

#define TILES_SHOWN 256u /* of the 360 */

static void put(uint8_t *bytes, unsigned x, unsigned y, unsigned shade) {
    unsigned at = y * SPOREDRIFT_SCREEN_WIDTH + x;
    bytes[at / 4] = (uint8_t)(bytes[at / 4] | shade << (6 - at % 4 * 2));
}

static unsigned shade_at(const uint8_t *bytes, unsigned x, unsigned y) {
    unsigned at = y * SPOREDRIFT_SCREEN_WIDTH + x;
    return bytes[at / 4] >> (6 - at % 4 * 2) & 3u;
}

/* The screen that carries a page. */
static void carry(uint8_t *due, const uint8_t *bytes) {
    unsigned x, y;

    memset(due, 0, SPOREDRIFT_SCREEN);
    for (y = 0; y < SPOREDRIFT_SCREEN_HEIGHT; y++)
        for (x = 0; x < SPOREDRIFT_SCREEN_WIDTH; x++) {
            unsigned tile = y / 8 * 20 + x / 8, at = tile * 16 + y % 8 * 2, bit = 7 - x % 8;
            if (tile < TILES_SHOWN) put(due, x, y, (bytes[at] >> bit & 1u) + 2 * (bytes[at + 1] >> bit & 1u));
        }
}

/* The page that a screen shows. */
static void show_page(uint8_t *due, const uint8_t *bytes) {
    unsigned tile, y, x;

    memset(due, 0, SPOREDRIFT_PAGE);
    for (tile = 0; tile < TILES_SHOWN; tile++)
        for (y = 0; y < 8; y++)
            for (x = 0; x < 8; x++) {
                unsigned shade = shade_at(bytes, tile % 20 * 8 + x, tile / 20 * 8 + y), at = tile * 16 + y * 2;
                due[at] = (uint8_t)(due[at] | (shade & 1u) << (7 - x));
                due[at + 1] = (uint8_t)(due[at + 1] | shade >> 1 << (7 - x));
            }
}

/* ---- whole pages */

static void one_page(const char *what, unsigned long at) {
    static const uint8_t paints[3] = {0x00, 0xFF, 0xA5};
    static const size_t rooms[4] = {SPOREDRIFT_SCREEN, SPOREDRIFT_SCREEN + 1, SPOREDRIFT_SCREEN + 4, MOST_ROOM};
    uint8_t due[SPOREDRIFT_SCREEN], back[SPOREDRIFT_PAGE];
    unsigned i;

    carry(due, page);
    for (i = 0; i < 12; i++) {
        number("the answer with room for", rooms[i % 4], call(SPOREDRIFT_PAGE, rooms[i % 4], paints[i / 4]), CARRIED);
        number("the screen with room for", rooms[i % 4], memcmp(screen, due, sizeof due) == 0, 1);
        show_page(back, screen);
        number("the page that it shows, with room for", rooms[i % 4], memcmp(back, page, sizeof back) == 0, 1);
    }
    row(what, at);
}

static void every_sort_of_page(void) {
    static const uint8_t flat[6][2] = {{0x00, 0x00}, {0xFF, 0xFF}, {0xFF, 0x00}, {0x00, 0xFF}, {0x80, 0x01}, {0x55, 0x33}};
    size_t i, k;

    for (k = 0; k < 6; k++) {
        for (i = 0; i < SPOREDRIFT_PAGE; i++) page[i] = flat[k][i % 2];
        one_page("a page of two bytes, again and again", k);
    }
    /* neighbours differ, and so do tiles and rows of tiles */
    for (i = 0; i < SPOREDRIFT_PAGE; i++) page[i] = (uint8_t)(i * 37 + i / 16 * 5 + i / 320);
    one_page("a page whose bytes all differ from those about them", 0);
    for (k = 0; k < 100; k++) {
        noise(pages, sizeof pages);
        one_page("the random page", k);
    }
}

/* ---- each bit is one pixel of one plane */

static void every_bit(void) {
    uint8_t due[SPOREDRIFT_SCREEN];
    unsigned tile, at, bit;

    memset(pages, 0, sizeof pages);
    for (tile = 0; tile < TILES_SHOWN; tile++) {
        for (at = 16 * tile; at < 16 * tile + 16; at++)
            for (bit = 0; bit < 8; bit++) {
                memset(due, 0, sizeof due);
                put(due, tile % 20 * 8 + 7 - bit, tile / 20 * 8 + at % 16 / 2, at % 2 == 0 ? 1 : 2);
                page[at] = (uint8_t)(1 << bit);
                number("the answer for a bit of byte", at, call(SPOREDRIFT_PAGE, SPOREDRIFT_SCREEN, 0xFF), CARRIED);
                number("the screen of a bit of byte", at, memcmp(screen, due, sizeof due) == 0, 1);
                page[at] = 0;
            }
        row("the tile", tile);
    }
}

/* ---- a screen whose other tiles are blank comes back from its own page */

static void screens_back(void) {
    uint8_t given[SPOREDRIFT_SCREEN];
    unsigned long k;
    unsigned x, y;

    for (k = 0; k < 100; k++) {
        memset(given, 0, sizeof given);
        for (y = 0; y < SPOREDRIFT_SCREEN_HEIGHT; y++)
            for (x = 0; x < SPOREDRIFT_SCREEN_WIDTH; x++)
                if (y / 8 * 20 + x / 8 < TILES_SHOWN) put(given, x, y, byte() & 3u);
        show_page(page, given);
        number("the answer", k, call(SPOREDRIFT_PAGE, SPOREDRIFT_SCREEN, 0xFF), CARRIED);
        number("the screen", k, memcmp(screen, given, sizeof given) == 0, 1);
        row("the page of the random screen", k);
    }
}

/* ---- refusals: the page's length, then the room */

static void every_length(void) {
    static const size_t rooms[6] = {0, 1, SPOREDRIFT_SCREEN - 1, SPOREDRIFT_SCREEN, SPOREDRIFT_SCREEN + 1, MOST_ROOM};
    uint8_t due[SPOREDRIFT_SCREEN];
    size_t len, room;
    unsigned k;

    noise(pages, sizeof pages);
    carry(due, page);
    for (k = 0; k < 6; k++) {
        for (len = 0; len <= LONGEST; len++) {
            uint32_t right = rooms[k] < SPOREDRIFT_SCREEN ? (uint32_t)SPOREDRIFT_REFUSED_OUTPUT : (uint32_t)CARRIED;
            if (len != SPOREDRIFT_PAGE) right = SPOREDRIFT_REFUSED_PAGE;
            number("the answer for a page of", len, call(len, rooms[k], 0xA5), right);
        }
        row("every length of a page, with room for", rooms[k]);
    }
    for (room = 0; room < SPOREDRIFT_SCREEN; room++)
        number("the answer with room for", room, call(SPOREDRIFT_PAGE, room, 0xA5), SPOREDRIFT_REFUSED_OUTPUT);
    row("every room under", SPOREDRIFT_SCREEN);
    for (; room <= MOST_ROOM; room++) {
        number("the answer with room for", room, call(SPOREDRIFT_PAGE, room, 0xA5), CARRIED);
        number("the screen with room for", room, memcmp(screen, due, sizeof due) == 0, 1);
    }
    row("every room from", SPOREDRIFT_SCREEN);
    number("the refusal's number", 0, sporedrift_refusal(call(0, 0, 0)), 10);
    number("its value", 0, sporedrift_value(call(0, 0, 0)), 0);
    number("its words", 0, strcmp(sporedrift_refusal_text(call(0, 0, 0)), "the page is not 4,096 bytes") == 0, 1);
    row("a page of", 0);
}

/* ---- landings: each kind of transfer, its command, and which bytes of the page go where (docs/RULES.md, 4.12 and 5.4) */

#define KINDS 5u

static const struct {
    uint8_t code, d1;
    struct {
        size_t from, to, bytes;
    } parts[2];
} kinds[KINDS] = {
    {0x0B, 0, {{0, 274, 4096}, {0, 0, 0}}},            /* PAL_TRN */
    {0x15, 0, {{0, 4370, 4050}, {0, 0, 0}}},           /* ATTR_TRN */
    {0x13, 0, {{0, 19940, 4096}, {0, 0, 0}}},          /* CHR_TRN, the lower tiles */
    {0x13, 1, {{0, 24036, 4096}, {0, 0, 0}}},          /* CHR_TRN, the upper tiles */
    {0x14, 0, {{0, 28132, 1792}, {0x800, 29924, 96}}}, /* PCT_TRN */
};

static uint8_t block[SPOREDRIFT_BLOCK];

/* Valid blocks, from which a command can begin. */
enum { FRESH, BOOTED, FILLED, FROZEN, BLACK, PENDING, WITHIN, BASES };

static void make(unsigned base) {
    if (base == FRESH) {
        sporedrift_new(block, sizeof block);
        return;
    }
    sporedrift_post_boot(block, sizeof block);
    if (base == BOOTED) return;
    noise(block + SPOREDRIFT_PALETTES_AT, SPOREDRIFT_FROZEN_AT - SPOREDRIFT_PALETTES_AT);
    noise(block + SPOREDRIFT_TILES_AT, SPOREDRIFT_BLOCK - SPOREDRIFT_TILES_AT);
    switch (base) {
    case FROZEN:
        block[SPOREDRIFT_MASK_MODE_AT] = SPOREDRIFT_MASK_FROZEN;
        block[SPOREDRIFT_FROZEN_PRESENT_AT] = 1;
        noise(block + SPOREDRIFT_FROZEN_AT, SPOREDRIFT_SCREEN);
        break;
    case BLACK: /* two pads, and no preset */
        block[SPOREDRIFT_MASK_MODE_AT] = SPOREDRIFT_MASK_BLACK;
        block[SPOREDRIFT_JOYPAD_MASK_AT] = 1;
        block[SPOREDRIFT_PRESET_IN_FORCE_AT] = 0;
        memset(block + SPOREDRIFT_PRESET_AT, 0, SPOREDRIFT_PRESET);
        break;
    case PENDING: /* a transfer that the command makes forgotten */
        block[SPOREDRIFT_COUNTDOWN_AT] = 1;
        block[SPOREDRIFT_TRANSFER_AT] = byte() % KINDS;
        break;
    case WITHIN: /* in a first packet, which a start begins again */
        block[SPOREDRIFT_RECEIVER_AT] = SPOREDRIFT_RECEIVER_RECEIVING;
        block[SPOREDRIFT_BIT_INDEX_AT] = 20;
        block[SPOREDRIFT_CURRENT_PACKET_AT] = 0xFF;
        break;
    }
}

/* A command of one packet by its pulses, in a row or one by one; it must be told once. Behind its second byte stands noise. */
static void send(uint8_t code, uint8_t d1, int in_a_row) {
    uint8_t command[SPOREDRIFT_PACKET], writes[SPOREDRIFT_PACKET_WRITES], received[SPOREDRIFT_COMMAND] = {0};
    uint32_t at = 0, told = 0, answer;

    noise(command, sizeof command);
    command[0] = (uint8_t)(code << 3 | 1);
    command[1] = d1;
    number("its pulses", code, sporedrift_value(sporedrift_encode(command, sizeof command, writes, sizeof writes)), sizeof writes);
    while (at < sizeof writes) {
        if (in_a_row) {
            answer = sporedrift_play(block, sizeof block, writes + at, sizeof writes - at, received, sizeof received);
            told += sporedrift_packets(answer);
            if (sporedrift_taken(answer) == 0) break;
            at += (uint32_t)sporedrift_taken(answer);
        } else {
            answer = sporedrift_write_joypad(block, sizeof block, writes[at++], received, sizeof received);
            told += answer == SPOREDRIFT_NONE ? 0 : sporedrift_value(answer);
        }
    }
    number("the packets that are told of the command", code, told, 1);
    number("the command is told as it was sent,", code, memcmp(received, command, sizeof command) == 0, 1);
}

/* A screen while a transfer is pending, and the countdown that it leaves. At 0 the page lands, and the answer is the kind. The block must be
 * as it was but for the live capture, the countdown and the kind, and what lands. */
static void show(const uint8_t *shown, uint8_t left, unsigned kind) {
    static uint8_t due[SPOREDRIFT_BLOCK];
    unsigned i;

    memcpy(due, block, sizeof due);
    memcpy(due + SPOREDRIFT_LIVE_AT, shown, SPOREDRIFT_SCREEN);
    due[SPOREDRIFT_COUNTDOWN_AT] = left;
    due[SPOREDRIFT_TRANSFER_AT] = (uint8_t)(left == 0 ? 0 : kind);
    for (i = 0; left == 0 && i < 2; i++) memcpy(due + kinds[kind].parts[i].to, page + kinds[kind].parts[i].from, kinds[kind].parts[i].bytes);
    number("the answer at a screen that leaves", left, sporedrift_update_screen(block, sizeof block, shown, SPOREDRIFT_SCREEN),
           left == 0 ? 256 * kind : SPOREDRIFT_NONE);
    number("the block behind a screen that leaves", left, memcmp(block, due, sizeof due) == 0, 1);
}

/* What the first two screens show, and what else the game sends. */
enum { OTHER_SCREENS, THE_SAME_SCREEN, OTHER_PAGES, OTHER_COMMANDS, ANOTHER_TRANSFER, WAYS };

static void land(unsigned kind, unsigned way) {
    uint8_t others[2][SPOREDRIFT_SCREEN];
    unsigned k, first = way == ANOTHER_TRANSFER ? (kind + 1 + byte() % (KINDS - 1)) % KINDS : kind;

    for (k = 0; k < 2; k++) {
        noise(others[k], sizeof others[k]);
        noise(page, SPOREDRIFT_PAGE);
        if (way == OTHER_PAGES) carry(others[k], page);
    }
    noise(page, SPOREDRIFT_PAGE);
    number("the answer", kind, call(SPOREDRIFT_PAGE, SPOREDRIFT_SCREEN, 0xFF), CARRIED);
    for (k = 0; way == THE_SAME_SCREEN && k < 2; k++) memcpy(others[k], screen, sizeof others[k]);

    send(kinds[first].code, kinds[first].d1, way % 2 == 0);
    if (way == ANOTHER_TRANSFER) { /* two screens have come when it is forgotten */
        for (k = 0; k < 2; k++) show(others[k], (uint8_t)(2 - k), first);
        send(kinds[kind].code, kinds[kind].d1, 1);
    }
    number("the countdown behind the command", kind, block[SPOREDRIFT_COUNTDOWN_AT], 3);
    for (k = 0; k < 2; k++) {
        if (way == OTHER_COMMANDS) send(k == 0 ? 0x08 : 0x17, 2, (int)k); /* SOUND, then MASK_EN with a black screen */
        show(others[k], (uint8_t)(2 - k), kind);
    }
    if (way == OTHER_COMMANDS) send(0x00, byte(), 1); /* PAL01 */
    show(screen, 0, kind);
    number("the check of the block", kind, sporedrift_check(block, sizeof block), 0);
}

static void every_landing(void) {
    unsigned base, kind, way;

    for (base = 0; base < BASES; base++)
        for (kind = 0; kind < KINDS; kind++) {
            for (way = 0; way < WAYS; way++) {
                make(base);
                number("the check of the base", base, sporedrift_check(block, sizeof block), 0);
                land(kind, way);
                land((kind + way) % KINDS, way); /* once more on what that left */
            }
            row("a landing, of the kind and on the base", 10 * kind + base);
        }
}

int main(void) {
    every_sort_of_page();
    every_bit();
    screens_back();
    every_length();
    every_landing();
    printf("%d passed, %d failed\n", passed, failed);
    return failed != 0;
}
