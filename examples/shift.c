/*
 * A shift with a scanner, to be copied: a machine in static storage, keys and the pairs that they give, a sequence that is
 * repeated, bindings that are added on the way, how many more fit, refusals that are handled, what a help screen asks, and a new
 * map that comes while a pair waits and a path is half typed. It prints what it does; shift.out is what it must print.
 */
#include "../include/keymap.h"

#include <stdio.h>

/* Words of 8 bytes lie as KEYMAP_ALIGN asks, and static storage is written: zeros. */
static uint64_t storage[KEYMAP_SIZE / 8];
static keymap_machine *const machine = (keymap_machine *)storage;

/* Rounds for a key: many more than these maps need. */
enum { BUDGET = 1000 };

/* A key that the maps of this firmware leave unbound. */
enum { CLEAR = '#' };

/* The actions, as this firmware and its map have agreed. */
enum { BEEP = 1, PICK = 10, PUT = 11, STOCK = 12, DONE = 13, LABEL = 14, LAMP = 20 };

static const struct {
    unsigned action;
    const char *name;
} names[] = {
    {BEEP, "beep"}, {PICK, "pick"}, {PUT, "put"}, {STOCK, "stock"}, {DONE, "done"}, {LABEL, "label"}, {LAMP, "lamp"},
};

enum { NAMES = sizeof names / sizeof names[0] };

/* Mode 0 is for picking, mode 1 for counting the stock. docs/KEYMAPS.md explains the layout. */
static const uint8_t map[] = {
    1,                                        /* one class */
    0, '0', '9',                              /* class 0: the digits, which make a count */
    2,                                        /* two modes */
    0, 1, BEEP, 0,                            /* mode 0: nothing on entering; an unmapped key beeps and stays in the mode */
    1, LAMP, 1, BEEP, 0,                      /* mode 1: the lamp on entering; the same */
    2,                                        /* two rules, for actions that are given in mode 0 */
    0, PICK, PUT, 0, 4,                       /* from PICK to PUT: sequence 0 tracks them (4) */
    0, STOCK, STOCK, 0, 1,                    /* STOCK breaks sequence 0 (1) */
    5,                                        /* five bindings */
    1, 0, 1, 0, 1, 0,                         /* prefix (1) in mode 0, one part: once (0) class (1) 0 */
    0, 0, 1, 0, 0, 'p', 0, 1, PICK, 0, 0, 0,  /* mapping (0) in mode 0, one part: once key (0) p; its step: PICK */
    0, 0, 2, 0, 0, 'b', 0, 2,                 /* mapping in mode 0, two parts: once key b, once any (2) */
    0, 1, PUT, 0, 0, 0,                       /* its step: PUT; the mark is the key that any took */
    0, 0, 1, 0, 0, 's', 0, 1, STOCK, 2, 0, 0, /* mapping in mode 0: key s; its step: STOCK, next mode 1 (1 + 1) */
    0, 1, 1, 0, 0, 'd', 0, 1, DONE, 1, 0, 0,  /* mapping in mode 1: key d; its step: DONE, next mode 0 (0 + 1) */
};

/* A further mapping in mode 0: key x; its step: LABEL. */
static const uint8_t binding[] = {0, 0, 1, 0, 0, 'x', 0, 1, LABEL, 0, 0, 0};

/* And another for the same action: key l. */
static const uint8_t another[] = {0, 0, 1, 0, 0, 'l', 0, 1, LABEL, 0, 0, 0};

/* The map for the second half of the shift: a bin also gets a label, and there is no stock to count. */
static const uint8_t next_map[] = {
    1, 0, '0', '9',                           /* the digits, as before */
    1, 0, 1, BEEP, 0,                         /* one mode; an unmapped key beeps */
    1, 0, PICK, PUT, 0, 4,                    /* the rule that tracks; STOCK needs none */
    3,                                        /* three bindings */
    1, 0, 1, 0, 1, 0,                         /* the prefix for the count */
    0, 0, 1, 0, 0, 'p', 0, 1, PICK, 0, 0, 0,  /* p: PICK */
    0, 0, 2, 0, 0, 'b', 0, 2,                 /* b and any key: */
    0, 2, PUT, LABEL, 0, 0, 0,                /* PUT, and now LABEL too */
};

static const char *name_of(unsigned action) {
    for (size_t i = 0; i < NAMES; i++)
        if (names[i].action == action)
            return names[i].name;
    return "?";
}

static void print_pair(uint64_t pair, unsigned times) {
    printf("    %s, ", name_of(KEYMAP_ACTION(pair)));
    if (KEYMAP_TYPED(pair))
        printf("count %u", KEYMAP_COUNT(pair));
    else
        printf("no count");
    printf(", mark %u", KEYMAP_MARK(pair));
    if (times > 1)
        printf(", %u times", times);
    printf("\n");
}

/* Does what the keys asked for: here it prints the pairs, and equal ones in one line. */
static void do_waiting(void) {
    uint64_t pair = keymap_pop(machine);
    while (KEYMAP_WAITS(pair)) {
        uint64_t next = keymap_pop(machine);
        unsigned times = 1;
        for (; next == pair; next = keymap_pop(machine))
            times++;
        print_pair(pair, times);
        pair = next;
    }
}

static unsigned press_once(char key, uint16_t budget) {
    uint64_t result = keymap_key(machine, (uint16_t)key, budget);
    if (KEYMAP_REFUSAL(result) == KEYMAP_ACCEPTED)
        printf("key %c: rounds %u\n", key, KEYMAP_ROUNDS(result));
    else
        printf("key %c: refused %u, rounds %u\n", key, KEYMAP_REFUSAL(result), KEYMAP_ROUNDS(result));
    return KEYMAP_REFUSAL(result);
}

/* A number over 65,535 was typed. Its last digit was refused, and those before it would count for the next key. So CLEAR is
   pressed, which takes them and beeps, and the clerk types the number again. No path of these maps keeps digits on the trail, so
   CLEAR cannot be refused as they are tried again. */
static void clear_number(void) {
    printf("the number is too large: type it again\n");
    do_waiting();
    press_once(CLEAR, BUDGET);
    do_waiting();
}

/* Presses a key. A refused key has changed nothing, so it is pressed again where that can help. */
static void press(char key, uint16_t budget) {
    unsigned refusal = press_once(key, budget);
    if (refusal == KEYMAP_BUDGET)
        refusal = press_once(key, BUDGET);
    if (refusal == KEYMAP_QUEUE) {
        do_waiting();
        refusal = press_once(key, BUDGET);
    }
    if (refusal == KEYMAP_COUNT_OVERFLOW)
        clear_number();
    else if (refusal == KEYMAP_ACCEPTED)
        do_waiting();
}

static void press_all(const char *keys) {
    while (*keys != '\0')
        press(*keys++, BUDGET);
}

/* Says what came of a call whose result is its refusal alone. */
static void say(const char *call, uint64_t refusal) {
    if (refusal == KEYMAP_ACCEPTED)
        printf("%s: accepted\n", call);
    else
        printf("%s: refused %u\n", call, (unsigned)refusal);
}

/* The same, and does what waits. */
static void tell(const char *call, uint64_t refusal) {
    say(call, refusal);
    do_waiting();
}

static void tell_mode(void) {
    printf("mode %u\n", (unsigned)keymap_mode(machine));
}

/* For a supervisor who plans bindings: each key of a path takes a node, mostly none where an earlier path begins the same. The
   first map takes 5, for p, b, any, s and d; its prefix takes none. */
static void tell_free(void) {
    printf("%u nodes are left\n", KEYMAP_FREE(keymap_free(machine)));
}

/* The help screen: in which mode a key does what. Of several keys for one action that with the lowest node is shown, mostly the
   first that was bound; so two scanners with the same map show the same. */
static void tell_help(void) {
    for (size_t i = 0; i < NAMES; i++) {
        int bound = 0;
        for (uint16_t mode = 0; mode < 2; mode++) {
            uint64_t result = keymap_find(machine, mode, (uint16_t)names[i].action);
            if (KEYMAP_FOUND(result)) {
                printf("help: %s is bound in mode %u, node %u\n", names[i].name, mode, KEYMAP_NODE(result));
                bound = 1;
            }
        }
        if (!bound)
            printf("help: %s is on no key\n", names[i].name);
    }
}

int main(void) {
    uint64_t refusal;
    if (keymap_size() != KEYMAP_SIZE) {
        fprintf(stderr, "shift: keymap.h is for machines of %u bytes, and libkeymap.a for %u\n", (unsigned)KEYMAP_SIZE,
                (unsigned)keymap_size());
        return 1;
    }
    refusal = keymap_open(machine, map, sizeof map);
    tell("open", refusal);
    if (refusal != KEYMAP_ACCEPTED)
        return 1;
    tell_mode();

    /* Pick 42 pieces, and put them into bin A. */
    press_all("42pbA");

    /* The same again; then the same with 7 pieces, told as 7 + 1, which is also what a further repeat gives. */
    tell("repeat", keymap_repeat(machine, 0));
    tell("repeat over count 7", keymap_repeat_over(machine, 0, 7 + 1, 0));
    tell("repeat", keymap_repeat(machine, 0));
    tell("repeat sequence 8", keymap_repeat(machine, 8));

    /* x has no binding yet. A binding that was cut off is refused and takes no node. The whole one is accepted. */
    press_all("x");
    tell_free();
    tell("bind, cut off", keymap_bind(machine, binding, sizeof binding - 1));
    tell_free();
    tell("bind", keymap_bind(machine, binding, sizeof binding));
    tell_free();
    press_all("x");
    tell("bind another", keymap_bind(machine, another, sizeof another));
    press_all("l");
    tell_free();

    /* A budget of 0 refuses any key; pressed again, the 5 counts once. */
    press('5', 0);
    press_all("x");

    /* The clerk leans on x while nobody pops. The queue is full then, and press makes room for the next key. */
    for (int i = 0; i < 256; i++)
        keymap_key(machine, 'x', BUDGET);
    press_all("x");

    /* Pick 700 pieces. The clerk types 70000 first: the 7000 before the last 0 must not be picked. */
    press_all("70000");
    press_all("700p");

    /* Count the stock in mode 1, where p is not bound. That broke the sequence: the next pick starts it anew. */
    press_all("3s");
    tell_mode();
    press_all("pd");
    tell_mode();
    press_all("9p");
    tell("repeat", keymap_repeat(machine, 0));

    tell_help();

    /* A new map comes. The firmware has not popped yet, so a pick waits, and the clerk has typed b and not the bin. A map that is
       cut off is refused, and the old one goes on. With the whole one, which takes 3 nodes, the pick waits on, and b C ends as the
       new map says. What the sequence remembers passes over. */
    press_once('8', BUDGET);
    press_once('p', BUDGET);
    press_once('b', BUDGET);
    say("change, cut off", keymap_change(machine, next_map, sizeof next_map - 1));
    say("change", keymap_change(machine, next_map, sizeof next_map));
    tell_free();
    press_all("C");
    tell("repeat", keymap_repeat(machine, 0));

    /* The next clerk begins anew: a count that was typed is gone, and the sequence is broken. */
    press_all("6");
    tell("reset", keymap_reset(machine));
    tell_mode();
    press_all("p");
    tell("repeat", keymap_repeat(machine, 0));
    return 0;
}
