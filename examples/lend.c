/*
 * Plays standard input as keyplay does, on one machine that is lent key by key, and prints what keyplay prints: the map's
 * length, the map and keys are read; each key has a budget of 1,000; and the pairs are printed, or only `refused N`.
 *
 * What keyplay does as a whole is done here around the calls: all key numbers are read before the first key is pressed, the
 * pairs' bytes are counted against 65,536, and nothing is printed before the last key.
 *
 * The machine stands right before a page that must not be touched, so that one byte more than keymap_size() ends the
 * program. And before each key two calls are made that must be refused and leave the machine as it was: an open with an empty
 * map, and the key itself with a budget of 0.
 */
#define _DEFAULT_SOURCE
#include "../include/keymap.h"

#include <stdio.h>
#include <stdlib.h>
#include <sys/mman.h>
#include <unistd.h>

enum { BUDGET = 1000, MOST_INPUT = 65536, MOST_OUTPUT = 65536, MOST_PAIRS = MOST_OUTPUT / 3 };

static uint8_t input[MOST_INPUT + 1];
static unsigned keys[MOST_INPUT];
static uint64_t pairs[MOST_PAIRS];

static int refused(unsigned number) {
    printf("refused %u\n", number);
    return 0;
}

/* Is there a number at *at? Then *at is moved behind it. */
static int read_number(size_t count, size_t *at, unsigned *value) {
    unsigned sum = 0;
    unsigned shift = 0;
    uint8_t byte;
    do {
        if (*at == count || shift > 14)
            return 0;
        byte = input[(*at)++];
        sum |= (unsigned)(byte & 0x7f) << shift;
        shift += 7;
    } while (byte >= 0x80);
    *value = sum;
    return sum <= 65535 && (byte != 0 || shift == 7);
}

static size_t bytes_of(unsigned value) {
    return value < 128 ? 1 : value < 16384 ? 2 : 3;
}

/* The bytes of a pair as a run writes it: a count that was typed as count + 1, and 0 for none. */
static size_t pair_bytes(uint64_t pair) {
    unsigned count = KEYMAP_TYPED(pair) ? KEYMAP_COUNT(pair) + 1 : 0;
    return bytes_of(KEYMAP_ACTION(pair)) + bytes_of(count) + bytes_of(KEYMAP_MARK(pair));
}

/* With a dash where no count was typed. */
static void print_pair(uint64_t pair) {
    if (KEYMAP_TYPED(pair))
        printf("%u %u %u\n", KEYMAP_ACTION(pair), KEYMAP_COUNT(pair), KEYMAP_MARK(pair));
    else
        printf("%u - %u\n", KEYMAP_ACTION(pair), KEYMAP_MARK(pair));
}

/* Room for a machine, right before a page that must not be touched. */
static keymap_machine *room(void) {
    size_t page = (size_t)sysconf(_SC_PAGESIZE);
    size_t size = keymap_size();
    size_t whole = (size + page - 1) / page * page;
    uint8_t *start = (uint8_t *)mmap(NULL, whole + page, PROT_READ | PROT_WRITE, MAP_PRIVATE | MAP_ANONYMOUS, -1, 0);
    if (start == MAP_FAILED || mprotect(start + whole, page, PROT_NONE) != 0) {
        perror("lend");
        exit(2);
    }
    return (keymap_machine *)(start + whole - size);
}

/* Two calls that must be refused. */
static void refuse_two(keymap_machine *machine, unsigned key) {
    if (keymap_open(machine, input, 0) != KEYMAP_NUMBER || keymap_key(machine, (uint16_t)key, 0) != KEYMAP_BUDGET) {
        fprintf(stderr, "lend: a call was not refused\n");
        exit(2);
    }
}

/* Presses the keys; the pairs are kept, and *count of them. The first refusal, or 0. */
static unsigned press_keys(keymap_machine *machine, size_t key_count, size_t *count) {
    size_t written = 0;
    for (size_t i = 0; i < key_count; i++) {
        uint64_t result;
        uint64_t pair;
        refuse_two(machine, keys[i]);
        result = keymap_key(machine, (uint16_t)keys[i], BUDGET);
        if (KEYMAP_REFUSAL(result) != KEYMAP_ACCEPTED)
            return KEYMAP_REFUSAL(result);
        while (pair = keymap_pop(machine), KEYMAP_WAITS(pair)) {
            written += pair_bytes(pair);
            if (written > MOST_OUTPUT)
                return KEYMAP_OUTPUT;
            pairs[(*count)++] = pair;
        }
    }
    return KEYMAP_ACCEPTED;
}

int main(void) {
    keymap_machine *machine = room();
    size_t count = fread(input, 1, sizeof input, stdin);
    size_t at = 0;
    size_t key_count = 0;
    size_t pair_count = 0;
    unsigned size;
    unsigned refusal;
    if (count > MOST_INPUT || !read_number(count, &at, &size) || count - at < size)
        return refused(KEYMAP_NUMBER);
    refusal = (unsigned)keymap_open(machine, input + at, size);
    if (refusal != KEYMAP_ACCEPTED)
        return refused(refusal);
    at += size;
    while (at < count)
        if (!read_number(count, &at, &keys[key_count++]))
            return refused(KEYMAP_NUMBER);
    refusal = press_keys(machine, key_count, &pair_count);
    if (refusal != KEYMAP_ACCEPTED)
        return refused(refusal);
    printf("action count mark\n");
    for (size_t i = 0; i < pair_count; i++)
        print_pair(pairs[i]);
    return 0;
}
