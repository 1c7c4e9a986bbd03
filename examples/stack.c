/*
 * How much stack each call takes. The calls are made on painted stacks, one for each function, with small maps, keys and
 * arguments from a fixed seed and with maps that are full, until each function has met all its refusals too. It prints the most
 * that a function took, in KiB and rounded up, and fails if that is more than a scanner has for it. keymap.h has these numbers;
 * a firmware on another processor can measure its own.
 */
#define _DEFAULT_SOURCE
#include "../include/keymap.h"

#include <stdio.h>
#include <string.h>
#include <ucontext.h>

enum { STACK = 1 << 20, PAINT = 0xA5, MAPS = 200, BINDINGS = 60, KEYS = 300, MOST_MAP = 1 << 18, MOST_PAIRS = 1 << 12 };

static uint64_t storage[KEYMAP_SIZE / 8];
static keymap_machine *const machine = (keymap_machine *)storage;

/* What the next call is given, and its result. */
static uint8_t map[MOST_MAP];
static size_t map_count;
static uint8_t keys[3 * KEYS];
static size_t keys_count;
static uint8_t output[MOST_MAP];
static size_t output_count;
static uint16_t first;
static uint16_t second;
static uint64_t result;

static void nothing(void) {
    result = 0;
}
static void size(void) {
    result = keymap_size();
}
static void open_map(void) {
    result = keymap_open(machine, map, map_count);
}
static void bind(void) {
    result = keymap_bind(machine, map, map_count);
}
static void change_map(void) {
    result = keymap_change(machine, map, map_count);
}
static void key(void) {
    result = keymap_key(machine, first, second);
}
static void pop(void) {
    result = keymap_pop(machine);
}
static void repeat(void) {
    result = keymap_repeat(machine, first);
}
static void repeat_over(void) {
    result = keymap_repeat_over(machine, first, second * 2u, second);
}
static void reset(void) {
    result = keymap_reset(machine);
}
static void mode(void) {
    result = keymap_mode(machine);
}
static void find(void) {
    result = keymap_find(machine, first, second);
}
static void free_nodes(void) {
    result = keymap_free(machine);
}
static void write_map(void) {
    result = keymap_write(machine, output, output_count);
}
static void run(void) {
    result = keymap_run(map, map_count, keys, keys_count, output, output_count, second);
}

enum { NOTHING, SIZE, OPEN, BIND, CHANGE, KEY, POP, REPEAT, REPEAT_OVER, RESET, MODE, FIND, FREE, WRITE, RUN, CALLS };

static void (*const calls[CALLS])(void) = {
    nothing, size, open_map, bind, change_map, key, pop, repeat, repeat_over, reset, mode, find, free_nodes, write_map, run};
static const char *const names[CALLS] = {"", "size", "open", "bind", "change", "key", "pop", "repeat", "repeat_over", "reset",
                                         "mode", "find", "free", "write", "run"};
/* The most that each may take, in KiB. A key, a pop and a reset may be made where little stack is left. */
static const unsigned limits[CALLS] = {0, 384, 384, 384, 384, 32, 32, 384, 384, 32, 384, 384, 384, 384, 256};
static uint64_t stacks[CALLS][STACK / 8];

/* The refusals that must be met and those that were, a bit for each number; bit 0 is acceptance. */
static const unsigned wanted[CALLS] = {0, 0, 0xa1f, 0xa1f, 0xa1f, 0x11e1, 0, 0x23, 0x23, 0x61, 0, 0x3, 0, 0x401, 0x1fff};
static unsigned met[CALLS];

/* Makes the call on its stack. */
static void make(int call) {
    static ucontext_t here;
    static ucontext_t there;
    getcontext(&there);
    there.uc_stack.ss_sp = stacks[call];
    there.uc_stack.ss_size = STACK;
    there.uc_link = &here;
    makecontext(&there, calls[call], 0);
    swapcontext(&here, &there);
    met[call] |= 1u << KEYMAP_REFUSAL(result);
}

/* From the top of a stack to the lowest byte that is no longer painted. */
static size_t depth(int call) {
    const uint8_t *bytes = (const uint8_t *)stacks[call];
    size_t untouched = 0;
    while (untouched < STACK && bytes[untouched] == PAINT)
        untouched++;
    return STACK - untouched;
}

static unsigned below(unsigned most) {
    static uint64_t seed = 1;
    seed = seed * 6364136223846793005u + 1442695040888963407u;
    return (unsigned)(seed >> 33) % most;
}

static void put(unsigned number) {
    for (; number >= 0x80; number >>= 7)
        map[map_count++] = (uint8_t)(number | 0x80);
    map[map_count++] = (uint8_t)number;
}

/* 0 mostly, else a number below. */
static void put_rarely(unsigned most) {
    put(below(4) == 0 ? below(most) : 0);
}

static void put_actions(void) {
    unsigned count = below(3);
    put(count);
    while (count-- > 0)
        put(below(8));
}

/* The classes, modes and rules; those of the strict kind track all that they can. */
static void put_tables(int strict) {
    unsigned count;
    for (put(count = below(4)); count > 0; count--) {
        put(below(3));
        put(48);
        put(49 + below(9));
    }
    for (put(count = below(3)); count > 0; count--) {
        put_actions();
        put_actions();
        put_rarely(3);
    }
    for (put(count = strict ? 64 : below(6)); count > 0; count--) {
        put(strict ? 0 : below(2));
        put(0);
        put(strict ? 9 : below(9));
        put(below(2));
        put(strict ? 4 : below(5));
    }
}

static void put_binding(unsigned most_repeats) {
    unsigned kind = below(3);
    unsigned parts = below(5);
    put(kind);
    put(below(2));
    for (put(parts); parts > 0; parts--) {
        unsigned times = below(4) % 3;
        unsigned event = below(4);
        put(times);
        if (times > 0)
            put(below(most_repeats));
        put(event);
        if (event < 2)
            put(event == 0 ? 48 + below(6) : below(3));
    }
    if (kind == 1)
        return;
    put(below(8) == 0);
    put_actions();
    put_rarely(3);
    put_rarely(3);
    put_rarely(9);
}

/* Some bytes fewer, or one byte changed; or, mostly, nothing. */
static void damage(void) {
    unsigned kind = below(6);
    if (kind == 0)
        map_count = below((unsigned)map_count);
    else if (kind == 1)
        map[below((unsigned)map_count)] ^= (uint8_t)(1u << below(8));
}

static void choose_key(void) {
    first = (uint16_t)(below(9) == 0 ? 32768 + 48 : 48 + below(7));
    second = (uint16_t)(below(9) == 0 ? below(20) : 2000);
}

/* A prefix of one key takes an edge and no node. */
static void put_edge(unsigned key_number) {
    put(1);
    put(0);
    put(1);
    put(0);
    put(0);
    put(key_number);
}

/* A mapping of four parts, each a key at most 255 times, takes 2,040 edges. */
static void put_many_edges(void) {
    put(0);
    put(0);
    put(4);
    for (unsigned i = 0; i < 4; i++) {
        put(2);
        put(255);
        put(0);
        put(1000 + i);
    }
    put(0);
    put(1);
    put(7);
    put(0);
    put(0);
    put(0);
}

/* The map is run, and a machine is opened with it and changed to it. */
static void make_of_map(void) {
    make(RUN);
    make(OPEN);
    make(CHANGE);
}

/* A map of so many edges, 2,040 or more, is run, opened and changed to, and one edge more is bound. */
static void work_with_edges(unsigned count) {
    map_count = 0;
    put(0);
    put(0);
    put(0);
    put(1 + count - 2040);
    put_many_edges();
    for (unsigned i = 2040; i < count; i++)
        put_edge(i);
    make_of_map();
    map_count = 0;
    put_edge(count);
    make(BIND);
}

/* A count and so many numbers of the longest form. */
static void put_full_list(unsigned count) {
    put(count);
    while (count-- > 0)
        put(65535);
}

/* As many classes, modes and rules as there can be. */
static void put_full_tables(void) {
    put(16);
    for (unsigned i = 0; i < 16; i++) {
        put(255);
        put(65535);
        put(65535);
    }
    put(16);
    for (unsigned i = 0; i < 16; i++) {
        put_full_list(4);
        put_full_list(4);
        put(16);
    }
    put(64);
    for (unsigned i = 0; i < 64; i++) {
        put(15);
        put(65535);
        put(65535);
        put(7);
        put(4);
    }
}

/*
 * A mapping of 32 keys, always the same, with four actions, both modes and a mark. The first makes the nodes. The others have
 * repeats, for more bytes: a part before the last follows an edge that is there, whatever its repeat.
 */
static void put_full_binding(int repeats) {
    put(0);
    put(0);
    put(32);
    for (unsigned i = 0; i < 32; i++) {
        if (repeats && i < 31) {
            put(2);
            put(255);
        } else {
            put(0);
        }
        put(0);
        put(65000 + i);
    }
    put(1);
    put_full_list(4);
    put(16);
    put(16);
    put(65535);
}

/* A map of so many bindings is run, opened and changed to, the machine's map is written, and one binding more is bound. */
static void work_with_bindings(unsigned count) {
    map_count = 0;
    put_full_tables();
    put(count);
    for (unsigned i = 0; i < count; i++)
        put_full_binding(i > 0);
    make_of_map();
    output_count = map_count;
    make(WRITE);
    output_count--;
    make(WRITE);
    map_count = 0;
    put_full_binding(1);
    make(BIND);
}

/* Key 97 falls through to mode 1, and a path of mode 0 ends there: KEYMAP_MODE. */
static void work_with_falling(void) {
    static const uint8_t falling[] = {0, 0, 0, 2, 0, 0, 1, 0, 0, 97, 0, 1, 7, 0, 2, 0, 0, 0, 2, 0, 0, 97, 0, 3, 0, 1, 7, 0, 0, 0};
    memcpy(map, falling, sizeof falling);
    map_count = sizeof falling;
    make_of_map();
}

/* A map from the seed, whole or damaged. */
static void choose_map(int strict, unsigned most_repeats) {
    unsigned bindings = below(BINDINGS);
    map_count = 0;
    put_tables(strict);
    put(bindings);
    while (bindings-- > 0)
        put_binding(most_repeats);
    damage();
}

/* A map is run and opened; then keys are pressed, with all the other calls among them, and bindings and whole maps follow. */
static void work_with(int strict, unsigned most_repeats) {
    choose_map(strict, most_repeats);
    for (keys_count = 0; keys_count < KEYS; keys_count++)
        keys[keys_count] = (uint8_t)(below(200) == 0 ? 0x80 : 48 + below(7));
    choose_key();
    output_count = below(2) * MOST_PAIRS;
    make(RUN);
    make(OPEN);
    for (unsigned i = 0; i < KEYS; i++) {
        choose_key();
        make(KEY);
        make(MODE);
        make(FREE);
        first = (uint16_t)below(9);
        second = (uint16_t)below(65536);
        make(below(2) ? REPEAT : REPEAT_OVER);
        first = (uint16_t)below(17);
        second = (uint16_t)below(9);
        make(FIND);
        if (below(9) == 0)
            make(RESET);
        if (below(99) == 0)
            do
                make(POP);
            while (KEYMAP_WAITS(result));
        if (below(2)) {
            map_count = 0;
            put_binding(most_repeats);
            damage();
            make(BIND);
        }
        if (below(9) == 0) {
            output_count = below(2) * sizeof output;
            make(WRITE);
        }
        if (below(99) == 0) {
            choose_map(strict, most_repeats);
            make(CHANGE);
        }
    }
}

int main(void) {
    int over = 0;
    /* What is linked late is linked by the first round, whose stacks are painted over. */
    for (int round = 0; round < 2; round++) {
        memset(stacks, PAINT, sizeof stacks);
        for (unsigned i = 0; i < MAPS; i++)
            work_with(i % 4 == 0, i % 3 == 0 ? 256 : 4);
        work_with_edges(2049);
        work_with_edges(2048);
        work_with_bindings(1025);
        work_with_bindings(1024);
        work_with_falling();
        make(NOTHING);
        make(SIZE);
    }
    for (int call = SIZE; call < CALLS; call++) {
        unsigned taken = (unsigned)((depth(call) - depth(NOTHING) + 1023) / 1024);
        if ((wanted[call] & ~met[call]) != 0) {
            fprintf(stderr, "stack: keymap_%s has not met every refusal\n", names[call]);
            return 1;
        }
        printf("keymap_%-12s %3u KiB\n", names[call], taken);
        if (taken > limits[call]) {
            fprintf(stderr, "stack: keymap_%s takes %u KiB, and %u is the most\n", names[call], taken, limits[call]);
            over = 1;
        }
    }
    return over;
}
