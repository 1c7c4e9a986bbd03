/*
 * An empty shelf, to be copied: a team that counts the stock types 0 and then R, which books zero pieces. R alone books without a
 * count. The same holds for what is repeated and for what a run writes. It prints what it does; empty.out is what it must print.
 */
#include "../include/keymap.h"

#include <stdio.h>
#include <string.h>

static uint64_t storage[KEYMAP_SIZE / 8];
static keymap_machine *const machine = (keymap_machine *)storage;

/* The most bytes that a run here is lent. */
enum { ROOM = 6 };

enum { BUDGET = 1000, STOCK = 12 };

/* docs/KEYMAPS.md explains the layout. */
static const uint8_t map[] = {
    1, 0, '0', '9',                           /* one class: class 0, the digits, which make a count */
    0,                                        /* no mode with lists */
    1, 0, STOCK, STOCK, 0, 4,                 /* one rule: in mode 0 sequence 0 tracks STOCK (4) */
    2,                                        /* two bindings */
    1, 0, 1, 0, 1, 0,                         /* prefix in mode 0: class 0 once, without step */
    0, 0, 1, 0, 0, 'R', 0, 1, STOCK, 0, 0, 0, /* mapping in mode 0: key R once; its step: STOCK */
};

static void tell(const char *call, uint64_t refusal) {
    if (refusal == KEYMAP_ACCEPTED)
        printf("%s: accepted\n", call);
    else
        printf("%s: refused %u\n", call, (unsigned)refusal);
}

/* Books what waits. Zero pieces are a count like any other; without a count the firmware would ask for one, or count again. */
static void book(void) {
    uint64_t pair = keymap_pop(machine);
    for (; KEYMAP_WAITS(pair); pair = keymap_pop(machine)) {
        printf("    action %u, ", KEYMAP_ACTION(pair));
        if (KEYMAP_TYPED(pair))
            printf("%u pieces", KEYMAP_COUNT(pair));
        else
            printf("without a count");
        printf(", mark %u\n", KEYMAP_MARK(pair));
    }
}

static void press_all(const char *keys) {
    printf("keys %s\n", keys);
    for (; *keys != '\0'; keys++) {
        uint64_t result = keymap_key(machine, (uint16_t)*keys, BUDGET);
        if (KEYMAP_REFUSAL(result) != KEYMAP_ACCEPTED)
            printf("key %c: refused %u\n", *keys, KEYMAP_REFUSAL(result));
    }
    book();
}

/* Repeats what was booked, with another count and another mark. The count is told as count + 1, and 0 is none. */
static void repeat_over(const char *call, uint32_t count, uint16_t mark) {
    tell(call, keymap_repeat_over(machine, 0, count, mark));
    book();
}

/* Runs keys at once, and prints the bytes that were written: action, count + 1 or 0, mark. */
static void run_keys(const char *keys, size_t room) {
    uint8_t output[ROOM];
    uint64_t result = keymap_run(map, sizeof map, (const uint8_t *)keys, strlen(keys), output, room, BUDGET);
    printf("run of %s to %u bytes:", keys, (unsigned)room);
    if (KEYMAP_REFUSAL(result) != KEYMAP_ACCEPTED)
        printf(" refused %u", KEYMAP_REFUSAL(result));
    for (size_t i = 0; i < KEYMAP_LENGTH(result); i++)
        printf(" %02x", output[i]);
    printf("\n");
}

int main(void) {
    if (keymap_size() != KEYMAP_SIZE) {
        fprintf(stderr, "empty: keymap.h and libkeymap.a are of different versions\n");
        return 1;
    }
    tell("open", keymap_open(machine, map, sizeof map));

    /* An empty shelf, one whose pieces nobody counted, and one with 12. */
    press_all("0R");
    press_all("R");
    press_all("12R");

    /* The three again. Without a count each keeps its own, or none; with one, also of zero pieces, it replaces them all. */
    tell("repeat", keymap_repeat(machine, 0));
    book();
    repeat_over("repeat over no count, mark 300", 0, 300);
    repeat_over("repeat over 0 pieces", 0 + 1, 0);
    repeat_over("repeat over 65535 pieces", 65535 + 1, 0);
    repeat_over("repeat over 65536 pieces", 65536 + 1, 0);

    /* From 127 on a count takes two bytes. */
    run_keys("0RR", 6);
    run_keys("0RR", 5);
    run_keys("126R", 3);
    run_keys("127R", 4);
    run_keys("127R", 3);
    run_keys("65535R", 5);
    return 0;
}
