/* plate OUT.ppm: what a game sends to the unit, and the picture that comes of it. It prints each answer, and writes the picture.
 * bindings/rust/examples/plate.rs is the same program over the Rust wrapper: both print examples/plate.stdout. */
#include <stdio.h>
#include <stdlib.h>
#include <string.h>

#include "sporedrift.h"

static uint8_t block[SPOREDRIFT_BLOCK];
static uint8_t screen[SPOREDRIFT_SCREEN];
static uint16_t picture[SPOREDRIFT_PICTURE];

static uint32_t tell(const char *call, uint32_t answer) {
    unsigned number = sporedrift_refusal(answer), rule = sporedrift_rule(answer), offset = sporedrift_offset(answer);

    if (rule != 0)
        printf("%s: rule V%u is broken at byte %u (0x%X), %s (refusal %u)\n", call, rule, offset, offset, sporedrift_field_text(offset),
               number);
    else if (number != 0)
        printf("%s: refused %u\n", call, number);
    else if (answer == SPOREDRIFT_NONE)
        printf("%s: none\n", call);
    else
        printf("%s: %X\n", call, (unsigned)sporedrift_value(answer));
    return answer;
}

/* The command's joypad writes, one by one, as a game makes them. Only the last one completes the command. */
static void send(const char *name, const uint8_t *command, size_t len) {
    uint8_t writes[7 * SPOREDRIFT_PACKET_WRITES], received[SPOREDRIFT_COMMAND];
    uint32_t answer;
    size_t n, i;

    printf("%s\n", name);
    tell("  verdict", sporedrift_verdict(command, len));
    answer = tell("  encode", sporedrift_encode(command, len, writes, sizeof writes));
    if (sporedrift_refusal(answer) != 0) return;
    n = sporedrift_value(answer);
    for (i = 0; i < n; i++) {
        answer = sporedrift_write_joypad(block, sizeof block, writes[i], received, sizeof received);
        if (answer != SPOREDRIFT_NONE) {
            tell("  write_joypad", answer);
            printf("  as sent: %s\n", memcmp(command, received, len) == 0 ? "yes" : "no");
        }
    }
}

static void show(void) { tell("  update_screen", sporedrift_update_screen(block, sizeof block, screen, sizeof screen)); }

static void put_shade(unsigned x, unsigned y, unsigned shade) {
    unsigned at = y * SPOREDRIFT_SCREEN_WIDTH + x;
    screen[at / 4] = (uint8_t)(screen[at / 4] | shade << (6 - at % 4 * 2));
}

/* The screen whose tiles are a page of 4,096 bytes, and the three showings that a transfer takes. */
static void transfer(const uint8_t *page) {
    unsigned t, r, x;
    memset(screen, 0, sizeof screen);
    for (t = 0; t < 256; t++)
        for (r = 0; r < 8; r++)
            for (x = 0; x < 8; x++) {
                unsigned low = page[t * 16 + r * 2] >> (7 - x) & 1, high = page[t * 16 + r * 2 + 1] >> (7 - x) & 1;
                put_shade(t % 20 * 8 + x, t / 20 * 8 + r, high * 2 + low);
            }
    show();
    show();
    show();
}

/* 128 tiles of colour indices that run from corner to corner: four planes, by rows. */
static void tiles_page(uint8_t *page) {
    unsigned t, r, x, plane;
    memset(page, 0, 4096);
    for (t = 0; t < 128; t++)
        for (r = 0; r < 8; r++)
            for (x = 0; x < 8; x++)
                for (plane = 0; plane < 4; plane++) {
                    uint8_t *byte = &page[t * 32 + r * 2 + plane % 2 + plane / 2 * 16];
                    *byte = (uint8_t)(*byte | (((x + r + t) % 15 + 1) >> plane & 1) << (7 - x));
                }
}

/* Words of the map around the screen, and none inside; then three palettes. */
static void map_page(uint8_t *page) {
    unsigned row, column, k;
    memset(page, 0, 4096);
    for (row = 0; row < 28; row++)
        for (column = 0; column < 32; column++) {
            int inside = row >= 5 && row < 23 && column >= 6 && column < 26;
            unsigned word = (row + column) * 8 % 128 + (4 + (row + column) / 4 % 3) * 1024 + row % 4 * 0x4000;
            unsigned at = (row * 32 + column) * 2;
            page[at] = inside ? 0 : (uint8_t)word;
            page[at + 1] = inside ? 0 : (uint8_t)(word >> 8);
        }
    for (k = 0; k < 48; k++) {
        unsigned word = k % 16 * 2 << k / 16 * 5; /* reds, greens, blues */
        page[0x800 + k * 2] = (uint8_t)word;
        page[0x801 + k * 2] = (uint8_t)(word >> 8);
    }
}

static void game_screen(void) {
    unsigned x, y;
    memset(screen, 0, sizeof screen);
    for (y = 0; y < SPOREDRIFT_SCREEN_HEIGHT; y++)
        for (x = 0; x < SPOREDRIFT_SCREEN_WIDTH; x++) put_shade(x, y, (x / 16 + y / 12) % 4);
}

static void look(void) {
    const uint8_t *live = block + SPOREDRIFT_LIVE_AT, *frozen = block + SPOREDRIFT_FROZEN_AT;
    const uint8_t *tiles = block + SPOREDRIFT_TILES_AT, *part;
    uint16_t row[SPOREDRIFT_WIDTH];
    uint32_t mode = sporedrift_mask_mode(block, sizeof block);

    printf("look\n");
    tell("  check", sporedrift_check(block, sizeof block));
    tell("  mask_mode", mode);
    tell("  backdrop", sporedrift_backdrop(block, sizeof block));
    tell("  color_at", sporedrift_color_at(block, sizeof block, 80, 72, 2));
    tell("  color_at", sporedrift_color_at(block, sizeof block, 80, 72, 4));
    tell("  map_entry", sporedrift_map_entry(block, sizeof block, 31, 27));
    tell("  border_color_at", sporedrift_border_color_at(block, sizeof block, 3, 2));
    tell("  border_color_at", sporedrift_border_color_at(block, sizeof block, 128, 112));
    part = sporedrift_displayed_part(live, SPOREDRIFT_SCREEN, frozen, SPOREDRIFT_SCREEN, (uint8_t)sporedrift_value(mode));
    printf("  displayed_screen: %s\n", part == live ? "live" : part == frozen ? "frozen" : "none");
    part = sporedrift_tile_part(tiles, SPOREDRIFT_TILES, 5);
    printf("  tile: %02X %02X\n", part[0], part[31]);
    printf("  tile: %s\n", sporedrift_tile_part(tiles, SPOREDRIFT_TILES, 256) == NULL ? "none" : "some");
    tell("  row", sporedrift_row(block, sizeof block, 100, row, SPOREDRIFT_WIDTH));
    tell("  row", sporedrift_row(block, sizeof block, 224, row, SPOREDRIFT_WIDTH));
    tell("  picture", sporedrift_picture(block, sizeof block, picture, SPOREDRIFT_PICTURE - 1));
    tell("  picture", sporedrift_picture(block, sizeof block, picture, SPOREDRIFT_PICTURE));
    printf("  row 100 of it: %s\n", memcmp(row, picture + 100 * SPOREDRIFT_WIDTH, sizeof row) == 0 ? "the same" : "another");
}

/* A saved block in which one byte went bad, as a program tells it that takes up saved blocks. */
static void damage(size_t at, uint8_t value) {
    static uint8_t saved[SPOREDRIFT_BLOCK];

    memcpy(saved, block, sizeof saved);
    saved[at] = value;
    tell("  check", sporedrift_check(saved, sizeof saved));
}

/* A Portable Pixmap; the sum (FNV-1a) tells whether another program drew the same. */
static int write_picture(const char *path) {
    FILE *file = fopen(path, "wb");
    uint32_t sum = 2166136261u;
    size_t i;
    int k;

    if (file == NULL) return 0;
    fprintf(file, "P6\n%u %u\n255\n", SPOREDRIFT_WIDTH, SPOREDRIFT_HEIGHT);
    for (i = 0; i < SPOREDRIFT_PICTURE; i++) {
        uint32_t rgb = sporedrift_value(sporedrift_to_rgb8(picture[i]));
        for (k = 16; k >= 0; k -= 8) {
            putc((int)(rgb >> k & 0xFF), file);
            sum = (sum ^ (rgb >> k & 0xFF)) * 16777619u;
        }
    }
    printf("picture %08X\n", (unsigned)sum);
    return fclose(file) == 0;
}

int main(int argc, char **argv) {
    static const uint8_t pal01[16] = {0x01, 0xDF, 0x7B, 0x1F, 0x02, 0xB0, 0x01, 0x43, 0x10, 0xE0, 0x3A, 0x60, 0x25, 0x84, 0x10};
    static const uint8_t attr_blk[16] = {0x21, 0x01, 0x03, 0x05, 4, 3, 15, 14};
    static const uint8_t chr_trn[16] = {0x99, 0x00}, pct_trn[16] = {0xA1};
    static const uint8_t two_packets[16] = {0x02};
    uint8_t page[4096];

    if (argc != 2) {
        fprintf(stderr, "usage: plate OUT.ppm\n");
        return EXIT_FAILURE;
    }
    tell("post_boot", sporedrift_post_boot(block, sizeof block - 1));
    tell("post_boot", sporedrift_post_boot(block, sizeof block));
    send("PAL01", pal01, sizeof pal01);
    send("ATTR_BLK", attr_blk, sizeof attr_blk);
    send("a command of two packets, cut", two_packets, sizeof two_packets);
    send("CHR_TRN", chr_trn, sizeof chr_trn);
    tiles_page(page);
    transfer(page);
    send("PCT_TRN", pct_trn, sizeof pct_trn);
    map_page(page);
    transfer(page);
    printf("screen\n");
    game_screen();
    show();
    look();
    printf("damaged\n");
    damage(SPOREDRIFT_MASK_MODE_AT, 4);
    damage(SPOREDRIFT_BIT_INDEX_AT, 129);
    damage(SPOREDRIFT_TRANSFER_AT, 1);
    damage(SPOREDRIFT_FROZEN_AT + 1000, 0x1B);
    damage(SPOREDRIFT_TILES_AT, 0xFF); /* any bytes are tiles */
    return write_picture(argv[1]) ? EXIT_SUCCESS : EXIT_FAILURE;
}
