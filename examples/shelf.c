/*
 * A map goes back to the shelf, to be copied: a supervisor changes the map of a scanner, the firmware writes the map as it is
 * then, and another scanner is opened with those bytes. It prints what it does, bytes in hexadecimal; shelf.out is what it must
 * print.
 */
#include "../include/keymap.h"

#include <stdio.h>
#include <string.h>

/* The scanner whose map is changed, and one that gets the map from the shelf. */
static uint64_t scanner_storage[KEYMAP_SIZE / 8];
static uint64_t second_storage[KEYMAP_SIZE / 8];
static keymap_machine *const scanner = (keymap_machine *)scanner_storage;
static keymap_machine *const second = (keymap_machine *)second_storage;

/* Room for the maps of this warehouse, which are small; KEYMAP_LONGEST bytes would do for any. */
enum { ROOM = 128 };

/* What the bytes of a room hold before the map is written there, to show which of them are written. */
enum { UNUSED = 0xEE };

enum { BUDGET = 1000, TRIGGER = 300 };

/* The actions, as this firmware and its map have agreed. */
enum { BEEP = 1, PICK = 10, PUT = 11, STOCK = 12, LABEL = 14 };

/* The map that came from the shelf. docs/KEYMAPS.md explains the layout. */
static const uint8_t map[] = {
    1,                                        /* one class */
    0, '0', '9',                              /* class 0: the digits, which make a count */
    2,                                        /* two modes */
    0, 1, BEEP, 0,                            /* mode 0: an unmapped key beeps */
    0, 0, 0,                                  /* mode 1: nothing of its own */
    1,                                        /* one rule */
    0, PICK, PUT, 0, 4,                       /* in mode 0, from PICK to PUT: sequence 0 tracks them (4) */
    3,                                        /* three bindings */
    1, 0, 1, 0, 1, 0,                         /* prefix (1) in mode 0, one part: once (0) class (1) 0 */
    0, 0, 1, 0, 0, 'p', 0, 1, PICK, 0, 0, 0,  /* mapping (0) in mode 0, one part: once key (0) p; its step: PICK */
    0, 0, 1, 0, 0, 's', 0, 1, STOCK, 2, 0, 0, /* mapping in mode 0: key s; its step: STOCK, next mode 1 (1 + 1) */
};

/* What the supervisor adds, a mapping in mode 0: key TRIGGER, which takes two bytes (300 = 44 + 2 * 128); its step: LABEL. */
static const uint8_t binding[] = {0, 0, 1, 0, 0, 0x80 + 44, 2, 0, 1, LABEL, 0, 0, 0};

static void tell(const char *call, uint64_t refusal) {
    if (refusal == KEYMAP_ACCEPTED)
        printf("%s: accepted\n", call);
    else
        printf("%s: refused %u\n", call, (unsigned)refusal);
}

static void print_bytes(const uint8_t *bytes, size_t count) {
    for (size_t i = 0; i < count; i++)
        printf("%s%02x%s", i % 16 == 0 ? "    " : " ", bytes[i], i % 16 == 15 || i == count - 1 ? "\n" : "");
}

static int all_are(uint8_t value, const uint8_t *bytes, size_t count) {
    for (size_t i = 0; i < count; i++)
        if (bytes[i] != value)
            return 0;
    return 1;
}

/*
 * Writes the map to the room, and says what came of it. The bytes to send to the shelf are those in front, as many as the
 * result says; 0 if the room is too short.
 */
static size_t write_map(const char *name, const keymap_machine *machine, uint8_t *room, size_t count) {
    uint64_t result;
    size_t length;
    memset(room, UNUSED, count);
    result = keymap_write(machine, room, count);
    length = KEYMAP_LENGTH(result);
    if (KEYMAP_REFUSAL(result) != KEYMAP_ACCEPTED)
        printf("%s: write to %u bytes: refused %u, %s\n", name, (unsigned)count, KEYMAP_REFUSAL(result),
               all_are(0, room, count) ? "all zeros" : "but not all zeros");
    else
        printf("%s: write to %u bytes: %u written, %s\n", name, (unsigned)count, (unsigned)length,
               all_are(UNUSED, room + length, count - length) ? "the others stay" : "but others too");
    return length;
}

/* Binds the same until it is refused. Each time replaces the last and makes no node, but is one more to keep. */
static void bind_often(void) {
    unsigned times = 0;
    uint64_t refusal = keymap_bind(second, binding, sizeof binding);
    for (; refusal == KEYMAP_ACCEPTED; refusal = keymap_bind(second, binding, sizeof binding))
        times++;
    printf("second: bind the same: %u times accepted, then refused %u\n", times, (unsigned)refusal);
}

int main(void) {
    static uint8_t file[ROOM];
    static uint8_t again[ROOM];
    size_t length;
    uint64_t pair;
    if (keymap_size() != KEYMAP_SIZE) {
        fprintf(stderr, "shelf: keymap.h and libkeymap.a are of different versions\n");
        return 1;
    }

    /* The supervisor adds a binding. One that was cut off is refused, and is no part of the map. */
    tell("scanner: open", keymap_open(scanner, map, sizeof map));
    tell("scanner: bind, cut off", keymap_bind(scanner, binding, sizeof binding - 1));
    tell("scanner: bind", keymap_bind(scanner, binding, sizeof binding));

    /* Work goes on: the machine enters mode 1, and a pair waits. That is no part of the map either. */
    keymap_key(scanner, 's', BUDGET);
    printf("scanner: mode %u\n", (unsigned)keymap_mode(scanner));

    /* The map has grown by a binding, so it does not fit where the old one did. */
    write_map("scanner", scanner, file, sizeof map);
    length = write_map("scanner", scanner, file, sizeof file);
    print_bytes(file, length);

    /* Another scanner gets it, is fresh with it, and writes the same. */
    tell("second: open", keymap_open(second, file, length));
    printf("second: mode %u, %s\n", (unsigned)keymap_mode(second),
           KEYMAP_WAITS(keymap_pop(second)) ? "a pair waits" : "no pair waits");
    if (write_map("second", second, again, sizeof again) != length || memcmp(file, again, length) != 0) {
        printf("second: the bytes differ\n");
        return 1;
    }
    printf("second: the same bytes\n");
    keymap_key(second, TRIGGER, BUDGET);
    pair = keymap_pop(second);
    printf("second: key %u: action %u\n", (unsigned)TRIGGER, KEYMAP_ACTION(pair));

    /* A machine keeps 1,024 bindings, those of its map among them. Opened with a map that has fewer, it takes more again. */
    bind_often();
    tell("second: open", keymap_open(second, file, length));
    tell("second: bind", keymap_bind(second, binding, sizeof binding));
    return 0;
}
