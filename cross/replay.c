/*
 * Replays recorded inputs of keyplay through keymap_run, and prints what crates/rustruns prints: a line `--` before each
 * answer, then the pairs or only `refused N`. How many were replayed is said on standard error.
 *
 * Standard input is many inputs, framed as crates/framed says: two numbers, whose sum is a length, and so many bytes. An
 * input is the map's length, the map, then keys. A frame that is not whole ends this program with 1: what is recorded has
 * none.
 */
#include "../include/keymap.h"

#include <stdio.h>

enum { BUDGET = 1000, MOST_FRAMED = 1048576, MOST_INPUT = 65536, MOST_OUTPUT = 65536 };

static uint8_t framed[MOST_FRAMED + 1];
static uint8_t output[MOST_OUTPUT];

/* Is there a number up to the largest at *at, before the end? Then *at is moved behind it. */
static int read_number_to(unsigned largest, const uint8_t *bytes, size_t end, size_t *at, unsigned *value) {
    unsigned sum = 0;
    unsigned shift = 0;
    uint8_t byte;
    do {
        if (*at == end || shift > 14)
            return 0;
        byte = bytes[(*at)++];
        sum |= (unsigned)(byte & 0x7f) << shift;
        shift += 7;
    } while (byte >= 0x80);
    *value = sum;
    return sum <= largest && (byte != 0 || shift == 7);
}

static int read_number(const uint8_t *bytes, size_t end, size_t *at, unsigned *value) {
    return read_number_to(65535, bytes, end, at, value);
}

static int refused(unsigned number) {
    printf("refused %u\n", number);
    return 1;
}

/* The count as the run writes it, 0 for none and else count + 1; none is a dash. */
static void print_pair(unsigned action, unsigned count, unsigned mark) {
    if (count == 0)
        printf("%u - %u\n", action, mark);
    else
        printf("%u %u %u\n", action, count - 1, mark);
}

/* Prints the pairs of the output, each on a line. Is it whole pairs? */
static int print_pairs(size_t length) {
    size_t at = 0;
    printf("action count mark\n");
    while (at < length) {
        unsigned action, count, mark;
        if (!read_number(output, length, &at, &action) || !read_number_to(65536, output, length, &at, &count) ||
            !read_number(output, length, &at, &mark))
            return 0;
        print_pair(action, count, mark);
    }
    return 1;
}

/* Prints the answer to one input. Is it one that keymap.h allows? */
static int answer(const uint8_t *input, size_t count) {
    size_t at = 0;
    unsigned size;
    uint64_t result;
    if (count > MOST_INPUT || !read_number(input, count, &at, &size) || count - at < size)
        return refused(KEYMAP_NUMBER);
    result = keymap_run(input + at, size, input + at + size, count - at - size, output, sizeof output, BUDGET);
    if (KEYMAP_REFUSAL(result) != KEYMAP_ACCEPTED)
        return refused(KEYMAP_REFUSAL(result));
    return KEYMAP_LENGTH(result) <= sizeof output && print_pairs(KEYMAP_LENGTH(result));
}

static int stop(const char *what, unsigned frame) {
    fflush(stdout);
    fprintf(stderr, "replay: frame %u: %s\n", frame, what);
    return 1;
}

int main(void) {
    size_t count = fread(framed, 1, sizeof framed, stdin);
    size_t at = 0;
    unsigned frames = 0;
    if (count == 0 || count > MOST_FRAMED) {
        fprintf(stderr, "replay: standard input is empty or has more than %d bytes\n", MOST_FRAMED);
        return 1;
    }
    while (at < count) {
        unsigned a, b;
        frames++;
        if (!read_number(framed, count, &at, &a) || !read_number(framed, count, &at, &b) || count - at < (size_t)a + b)
            return stop("not whole", frames);
        printf("--\n");
        if (!answer(framed + at, (size_t)a + b))
            return stop("the output is no list of pairs", frames);
        at += (size_t)a + b;
    }
    if (ferror(stdin) || fflush(stdout) != 0) {
        perror("replay");
        return 1;
    }
    fprintf(stderr, "%u replayed\n", frames);
    return 0;
}
