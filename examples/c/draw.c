/* draw LOG OUT.ppm: the plate of a log, as a Portable Pixmap: the picture after its last line. It takes the log line by line: a line is
 * joypad writes, which go to the unit in a row, or a screen. bindings/rust/examples/draw.rs is the same program over the Rust wrapper. */
#include <stdio.h>
#include <stdlib.h>

#include "sporedrift.h"

static uint8_t block[SPOREDRIFT_BLOCK];
static uint16_t picture[SPOREDRIFT_PICTURE];

/* The commands that the writes complete are carried out on the way; a program that wants them finds each in `command`. */
static uint32_t play(const uint8_t *writes, size_t n) {
    uint8_t command[SPOREDRIFT_COMMAND];
    size_t at = 0;

    while (at < n) {
        uint32_t answer = sporedrift_play(block, sizeof block, writes + at, n - at, command, sizeof command);
        if (sporedrift_refusal(answer) != 0) return answer;
        at += sporedrift_taken(answer);
    }
    return 0;
}

/* One line, without its line feed: 0, or the answer that refuses it. */
static uint32_t take(const uint8_t *text, size_t n) {
    uint8_t bytes[SPOREDRIFT_LINE];
    uint32_t answer = sporedrift_parse_line(text, n, bytes, sizeof bytes);

    if (sporedrift_refusal(answer) != 0) return answer;
    switch (sporedrift_line_kind(answer)) {
    case SPOREDRIFT_LINE_WRITES: return play(bytes, sporedrift_line_bytes(answer));
    case SPOREDRIFT_LINE_SCREEN: answer = sporedrift_update_screen(block, sizeof block, bytes, sporedrift_line_bytes(answer)); break;
    }
    return sporedrift_refusal(answer) != 0 ? answer : 0;
}

/* The lines of a log. No line is longer than its two digits for each byte and for its kind: of a longer one that many characters and one
 * more are kept, which are refused as the whole would be. */
static int run(FILE *log) {
    static uint8_t text[2 * (SPOREDRIFT_LINE + 1) + 1];
    size_t n = 0;
    unsigned long line = 1;
    int c;

    do {
        c = getc(log);
        if (c != '\n' && c != EOF) {
            if (n < sizeof text) text[n++] = (uint8_t)c;
        } else if (c == '\n' || n != 0) {
            uint32_t answer = take(text, n);
            if (answer != 0) {
                fprintf(stderr, "draw: line %lu: %s (refusal %u)\n", line, sporedrift_refusal_text(answer),
                        (unsigned)sporedrift_refusal(answer));
                return 0;
            }
            n = 0;
            line++;
        }
    } while (c != EOF);
    if (ferror(log)) perror("draw: the log");
    return !ferror(log);
}

static int write_picture(FILE *file) {
    size_t i;

    fprintf(file, "P6\n%u %u\n255\n", SPOREDRIFT_WIDTH, SPOREDRIFT_HEIGHT);
    for (i = 0; i < SPOREDRIFT_PICTURE; i++) {
        uint32_t rgb = sporedrift_value(sporedrift_to_rgb8(picture[i]));
        putc((int)(rgb >> 16 & 0xFF), file);
        putc((int)(rgb >> 8 & 0xFF), file);
        putc((int)(rgb & 0xFF), file);
    }
    return !ferror(file);
}

int main(int argc, char **argv) {
    FILE *log, *out;
    int good;

    if (argc != 3) {
        fprintf(stderr, "usage: draw LOG OUT.ppm\n");
        return 2;
    }
    if (sporedrift_value(sporedrift_version()) != SPOREDRIFT_VERSION_NUMBER) {
        fprintf(stderr, "draw: the library is not version " SPOREDRIFT_VERSION "\n");
        return EXIT_FAILURE;
    }
    if ((log = fopen(argv[1], "rb")) == NULL) {
        perror(argv[1]);
        return EXIT_FAILURE;
    }
    sporedrift_post_boot(block, sizeof block);
    good = run(log);
    fclose(log);
    if (!good) return EXIT_FAILURE;
    sporedrift_picture(block, sizeof block, picture, SPOREDRIFT_PICTURE);
    if ((out = fopen(argv[2], "wb")) == NULL) {
        perror(argv[2]);
        return EXIT_FAILURE;
    }
    good = write_picture(out);
    if (fclose(out) != 0 || !good) {
        perror(argv[2]);
        return EXIT_FAILURE;
    }
    return EXIT_SUCCESS;
}
