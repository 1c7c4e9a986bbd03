/*
 * Keeps one machine, opens it with the map of document 01's example and presses its keys one at a time; the pairs are
 * printed as they are popped, a line each. Then the same keys are run at once, which must give the same pairs.
 */
#include "../include/keymap.h"

#include <stdio.h>
#include <stdlib.h>

enum { BUDGET = 1000, MOST_PAIRS = 16 };

static const uint8_t map[] = {
    0x01, 0x00, 0x30, 0x39,             /* one class: class 0, keys 48 to 57 */
    0x00, 0x00,                         /* no mode, no rule */
    0x02,                               /* two bindings */
    0x01, 0x00, 0x01, 0x00, 0x01, 0x00, /* a prefix in mode 0: class 0 once, without step */
    0x00, 0x00, 0x01, 0x00, 0x00, 0x72, /* a mapping in mode 0: key r once */
    0x00, 0x01, 0x07, 0x00, 0x00, 0x00, /* its step: action 7 */
};

static const uint8_t keys[] = {'4', '2', 'r', 'z'};

/* What was popped, three numbers a pair as a run writes them: a count that was typed is count + 1, and none is 0. */
static unsigned popped[3 * MOST_PAIRS];
static size_t numbers;

/* As keyplay prints a pair: with a dash where no count was typed. */
static void print_pair(uint64_t pair) {
    if (KEYMAP_TYPED(pair))
        printf("%u %u %u\n", KEYMAP_ACTION(pair), KEYMAP_COUNT(pair), KEYMAP_MARK(pair));
    else
        printf("%u - %u\n", KEYMAP_ACTION(pair), KEYMAP_MARK(pair));
}

/* Pops until nothing waits, and prints each pair. */
static void pop_all(keymap_machine *machine) {
    uint64_t pair = keymap_pop(machine);
    while (KEYMAP_WAITS(pair) && numbers < 3 * MOST_PAIRS) {
        popped[numbers++] = KEYMAP_ACTION(pair);
        popped[numbers++] = KEYMAP_TYPED(pair) ? KEYMAP_COUNT(pair) + 1 : 0;
        popped[numbers++] = KEYMAP_MARK(pair);
        print_pair(pair);
        pair = keymap_pop(machine);
    }
}

/* The refusal of the first key that is refused, or 0. */
static unsigned press_keys(keymap_machine *machine) {
    for (size_t i = 0; i < sizeof keys; i++) {
        uint64_t result = keymap_key(machine, keys[i], BUDGET);
        if (KEYMAP_REFUSAL(result) != KEYMAP_ACCEPTED)
            return KEYMAP_REFUSAL(result);
        pop_all(machine);
    }
    return KEYMAP_ACCEPTED;
}

/* The number at *at, which is moved behind it. What a run wrote is well formed. */
static unsigned next_number(const uint8_t *bytes, size_t *at) {
    unsigned value = 0;
    unsigned shift = 0;
    while (bytes[*at] >= 0x80) {
        value |= (unsigned)(bytes[(*at)++] & 0x7f) << shift;
        shift += 7;
    }
    return value | (unsigned)bytes[(*at)++] << shift;
}

/* Does a run of all keys at once write what was popped? */
static int run_agrees(void) {
    uint8_t output[256];
    uint64_t result = keymap_run(map, sizeof map, keys, sizeof keys, output, sizeof output, BUDGET);
    size_t length = KEYMAP_LENGTH(result);
    size_t at = 0;
    size_t i = 0;
    if (KEYMAP_REFUSAL(result) != KEYMAP_ACCEPTED)
        return 0;
    while (at < length && i < numbers)
        if (next_number(output, &at) != popped[i++])
            return 0;
    return at == length && i == numbers;
}

int main(void) {
    keymap_machine *machine = (keymap_machine *)calloc(1, keymap_size());
    unsigned refusal;
    if (machine == NULL)
        return 1;
    refusal = (unsigned)keymap_open(machine, map, sizeof map);
    if (refusal == KEYMAP_ACCEPTED) {
        printf("action count mark\n");
        refusal = press_keys(machine);
    }
    free(machine);
    if (refusal != KEYMAP_ACCEPTED) {
        printf("refused %u\n", refusal);
        return 1;
    }
    if (!run_agrees()) {
        printf("the run at once differs\n");
        return 1;
    }
    return 0;
}
