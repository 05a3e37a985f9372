/* verdicts: whether commands conform, by the header and the library. Each command that announces items, ATTR_BLK, ATTR_LIN and ATTR_CHR, in
 * every number of packets and with every number announced, must have the answer of a reading of our own: it walks from item to item and
 * sees where the last one ends. What else stands in the command, or behind it, must not alter the answer, and no byte may change. Then the
 * header's table, every other command, and every length. At the end all that conforms of the three goes to a unit, which must carry out
 * the last item. It is C and C++, and tools/export/run builds it as both.
 * It prints what is wrong. Its last line is 'N passed, M failed', a test a row. Exit status: 0 if all passed, 1 if not. */
#include <stdio.h>
#include <string.h>

#include "sporedrift.h"

static int passed, failed, wrong;

/* What a row looks at, of which the first few that are wrong are printed; then the row itself, which is one test. */
static void number(const char *what, unsigned long at, unsigned long told, unsigned long due) {
    if (told != due && wrong < 5) printf("verdicts: %s, %lu: %lu, and not %lu\n", what, at, told, due);
    wrong += told != due;
}

static void row(const char *what, unsigned long at, unsigned long and_at) {
    if (wrong) printf("verdicts: that was %s %02lX, %lu; %d wrong\n", what, at, and_at, wrong);
    passed += !wrong;
    failed += wrong != 0;
    wrong = 0;
}

/* ---- the three kinds of commands that announce items */

enum { SETS, LINES, CELLS, KINDS };

static const struct {
    unsigned code, packets, items; /* the most packets, and the most items */
    unsigned long numbers;         /* how many numbers the command can tell, from 0 on */
    size_t start;                  /* where its items start */
    unsigned bits;                 /* how long each is */
} kinds[KINDS] = {{0x04, 7, 18, 256, 2, 48}, {0x05, 7, 110, 256, 2, 8}, {0x07, 6, 360, 65536, 6, 2}};

/* As the header's table has it, which is written down here once more: the most items of each kind that so many packets may announce. */
static const unsigned long held[KINDS][8] = {
    {0, 2, 5, 7, 10, 13, 15, 18},
    {0, 14, 30, 46, 62, 78, 94, 110},
    {0, 40, 104, 168, 232, 296, 360, 0},
};

/* ---- what is lent stands at an odd place, between bytes that are no part of it */

#define GUARD 17u
#define LONGEST 128u
#define WAYS 3u

static uint8_t memory[GUARD + LONGEST + GUARD];
static uint8_t *const command = memory + GUARD;

/* What stands wherever the command does not say something else: zeros, FF, or each byte another. */
static void fill(unsigned way) {
    size_t i;
    memset(memory, way == 1 ? 0xFF : 0, sizeof memory);
    for (i = 0; way == 2 && i < sizeof memory; i++) memory[i] = (uint8_t)(i * 37 + 11);
}

static void announce(unsigned kind, unsigned packets, unsigned long n) {
    command[0] = (uint8_t)(kinds[kind].code << 3 | packets);
    if (kind == CELLS) {
        command[3] = (uint8_t)(n & 0xFF);
        command[4] = (uint8_t)(n >> 8);
    } else {
        command[1] = (uint8_t)n;
    }
}

static uint32_t verdict(size_t len) {
    uint8_t kept[sizeof memory];
    uint32_t answer;

    memcpy(kept, memory, sizeof memory);
    answer = sporedrift_verdict(command, len);
    number("the bytes are as they were, length", len, memcmp(memory, kept, sizeof memory) == 0, 1);
    return answer;
}

enum { NO = 0, YES = 256 }; /* the values 0 and 1 as answers */

/* ---- every number in every number of packets */

static void every_number(void) {
    unsigned kind, packets, way;
    unsigned long n;

    for (kind = 0; kind < KINDS; kind++)
        for (packets = 0; packets < 8; packets++) {
            for (way = 0; way < WAYS; way++) {
                size_t end = 8 * kinds[kind].start; /* the bits up to the end of item n, of which there is none yet */
                fill(way);
                for (n = 0; n < kinds[kind].numbers; n++) {
                    size_t last = (end - 1) / 8; /* the byte in which item n ends */
                    int listed = n >= 1 && n <= kinds[kind].items && packets <= kinds[kind].packets;
                    uint32_t due = listed && last / 16 < packets ? YES : NO;
                    if (packets == 0) due = SPOREDRIFT_REFUSED_COMMAND;
                    announce(kind, packets, n);
                    number("the verdict where so many are announced", n, verdict(16 * packets), due);
                    end += kinds[kind].bits;
                }
            }
            row("every number of items", kinds[kind].code << 3 | packets, packets);
        }
}

/* ---- the header's table: both sides of each number, none announced, and the fewest packets */

static void table(void) {
    unsigned kind, packets;
    unsigned long n;

    for (kind = 0; kind < KINDS; kind++)
        for (packets = 1; packets < 8; packets++) {
            unsigned long most = held[kind][packets];
            fill(0);
            for (n = 0; n <= most + 1; n++) {
                announce(kind, packets, n);
                number("the verdict by the table", n, verdict(16 * packets), n >= 1 && n <= most ? YES : NO);
            }
            row("a number of the table", kinds[kind].code << 3 | packets, most);
        }
    for (kind = 0; kind < KINDS; kind++) {
        fill(1);
        for (n = 1; n <= kinds[kind].items; n++) {
            unsigned fewest = 1;
            while (held[kind][fewest] < n) fewest++;
            for (packets = 1; packets < 8; packets++) {
                announce(kind, packets, n);
                number("the verdict by the fewest packets", n, verdict(16 * packets),
                       packets >= fewest && packets <= kinds[kind].packets ? YES : NO);
            }
        }
        row("the fewest packets", kinds[kind].code, 0);
    }
}

/* ---- every first byte with every length; of the three kinds only what is refused */

static void every_length(void) {
    unsigned first, way;
    size_t len;

    for (first = 0; first < 256; first++) {
        unsigned code = first >> 3, packets = code >= 0x1E ? 1 : first & 7;
        int items = code == 0x04 || code == 0x05 || code == 0x07;
        for (way = 0; way < WAYS; way++)
            for (len = 0; len <= LONGEST; len++) {
                int formed = packets != 0 && len == 16 * packets;
                uint32_t answer;
                fill(way);
                command[0] = (uint8_t)first;
                answer = verdict(len);
                if (!formed)
                    number("the verdict of another length", len, answer, SPOREDRIFT_REFUSED_COMMAND);
                else if (items)
                    number("that it is not refused", len, sporedrift_refusal(answer), 0);
                else
                    number("the verdict without a number", len, answer, code <= 0x19 && packets == 1 ? YES : NO);
            }
        row("the first byte", first, packets);
    }
}

/* ---- what conforms is carried out to its last item, and what does not as far as the data reaches */

/* Items that colour nothing, but for one, counted from 1, which gives palette 3: to the cell at column 7 of row 5, to column 7, or to the
 * cell of its own number. It must stand in the command. */
static void mark(unsigned kind, unsigned long item) {
    unsigned long i;

    memset(command, 0, LONGEST);
    switch (kind) {
    case SETS: {
        static const uint8_t set[6] = {0x02, 0x0C, 7, 5, 7, 5}; /* the line alone, and both corners are the cell */
        memcpy(command + 2 + 6 * (item - 1), set, sizeof set);
        break;
    }
    case LINES:
        for (i = 2; i < LONGEST; i++) command[i] = 0x1F; /* a column that is not there */
        command[2 + item - 1] = 3 << 5 | 7;
        break;
    default: command[6 + (item - 1) / 4] = (uint8_t)(3 << (6 - (item - 1) % 4 * 2)); break;
    }
}

/* The attribute map with that mark. */
static void due_map(uint8_t *map, unsigned kind, unsigned long item) {
    unsigned long cell;

    memset(map, 0, SPOREDRIFT_ATTRIBUTES);
    for (cell = 0; cell < 360; cell++) {
        int marked = kind == SETS ? cell == 5 * 20 + 7 : kind == LINES ? cell % 20 == 7 : cell == item - 1;
        if (marked) map[cell / 4] = (uint8_t)(map[cell / 4] | 3 << (6 - cell % 4 * 2));
    }
}

/* Sends a command with a mark to a fresh unit: whether the map has the mark, 1, or is as it was, 0; else 2. */
static unsigned long carried_out(unsigned kind, unsigned packets, unsigned long n, unsigned long marked) {
    static uint8_t block[SPOREDRIFT_BLOCK], writes[7 * SPOREDRIFT_PACKET_WRITES];
    uint8_t received[SPOREDRIFT_COMMAND], map[SPOREDRIFT_ATTRIBUTES], none[SPOREDRIFT_ATTRIBUTES] = {0};
    uint32_t count, at = 0, answer, told = 0;

    mark(kind, marked);
    announce(kind, packets, n);
    sporedrift_post_boot(block, sizeof block);
    count = sporedrift_value(sporedrift_encode(command, 16 * packets, writes, sizeof writes));
    while (at < count) {
        answer = sporedrift_play(block, sizeof block, writes + at, count - at, received, sizeof received);
        if (sporedrift_taken(answer) == 0) return 2;
        at += (uint32_t)sporedrift_taken(answer);
        told += sporedrift_packets(answer);
    }
    if (told != packets || memcmp(received, command, 16 * packets) != 0) return 2;
    due_map(map, kind, marked);
    if (memcmp(block + SPOREDRIFT_ATTRIBUTES_AT, map, sizeof map) == 0) return 1;
    return memcmp(block + SPOREDRIFT_ATTRIBUTES_AT, none, sizeof none) == 0 ? 0 : 2;
}

static void sent(void) {
    unsigned kind, packets, i;
    unsigned long n;

    for (kind = 0; kind < KINDS; kind++)
        for (packets = 1; packets < 8; packets++) {
            /* where no number conforms, as with seven packets of cells, they still hold as many cells as the map has */
            unsigned long most = held[kind][packets] == 0 ? 360 : held[kind][packets], greatest = kinds[kind].numbers - 1;
            const unsigned long more[5] = {most + 1, most + 2, kinds[kind].items + 1ul, greatest - 1, greatest};
            unsigned long conforming = 0;

            for (n = 1; n <= most; n++) {
                number("its last item is carried out, of", n, carried_out(kind, packets, n, n), 1);
                conforming += verdict(16 * packets) == YES;
                number("the one behind the last is not, of", n - 1, carried_out(kind, packets, n - 1, n), 0);
            }
            number("how many of these conform, of", most, conforming, held[kind][packets]);
            for (i = 0; i < 5; i++) {
                number("the last item that is there is carried out, of", more[i], carried_out(kind, packets, more[i], most), 1);
                number("the verdict where more are announced", more[i], verdict(16 * packets), NO);
            }
            row("what a unit carries out of", kinds[kind].code << 3 | packets, most);
        }
}

/* ---- the worked case of the header: eighteen sets */

static void eighteen_sets(void) {
    fill(0);
    announce(SETS, 1, 18);
    number("eighteen sets in packets", 1, verdict(16), NO);
    announce(SETS, 6, 18);
    number("eighteen sets in packets", 6, verdict(96), NO);
    announce(SETS, 7, 18);
    number("eighteen sets in packets", 7, sporedrift_value(verdict(112)), 1);
    row("eighteen sets", 0x04, 18);
}

int main(void) {
    every_number();
    table();
    every_length();
    sent();
    eighteen_sets();
    printf("%d passed, %d failed\n", passed, failed);
    return failed != 0;
}
