/*
 * Key maps for scanner firmware: link libkeymap.a.
 *
 * The firmware keeps a machine and opens it with a map. Then it presses each key of the clerk and pops the pairs that the
 * key gave. A new map may come at any time. examples/shift.c is a whole shift. What was bound since the map came is sent back as
 * a map: examples/shelf.c. Zero pieces and no count are two things: examples/empty.c.
 *
 *   key       What the clerk presses, 0 to 65,535; one from 32,768 on that nothing is bound to is tried as 27 and the rest.
 *   class     A number, 0 to 255, by which a binding names all keys of some ranges.
 *   mode      One of 16 sets of bindings, 0 to 15; a machine is in one at a time, at first in mode 0.
 *   binding   A path of keys in a mode, and what it does: actions, another mode, a mark.
 *   map       The classes, modes, rules and bindings of a machine as bytes, laid out as docs/KEYMAPS.md says.
 *   action    What the firmware is to do, by a number that is agreed between the map and the firmware.
 *   count     The number that was typed before an action, at most 65,535 (a digit past that is refused). A 0 may be typed, for an
 *             empty shelf, and is not the same as no count. keymap_repeat_over takes and keymap_run writes a count as
 *             count + 1, and 0 for none.
 *   mark      The key that a path took as "any key", or the number that a binding sets; 0 if neither.
 *   pair      An action with its count and its mark, which waits until it is popped.
 *   sequence  One of 8 lists, 0 to 7, of at most 64 pairs that the map's rules track, kept to be repeated.
 *   round     One search for a key in the map.
 *   budget    How many rounds a key may take.
 *   trail     The keys of a path that was begun and needs more.
 */
#ifndef KEYMAP_H
#define KEYMAP_H

#include <stddef.h>
#include <stdint.h>

#ifdef __cplusplus
extern "C" {
#endif

/*
 * A machine is KEYMAP_SIZE bytes at an address that is a multiple of KEYMAP_ALIGN. Words of 8 bytes lie so:
 *
 *     static uint64_t storage[KEYMAP_SIZE / 8];
 *     keymap_machine *machine = (keymap_machine *)storage;
 *
 * Header and archive must be of one version: test once that keymap_size() is KEYMAP_SIZE, as examples/shift.c does. The bytes
 * must have been written before the first call, as static storage and calloc's are; then open the machine. It holds no
 * pointer, so its bytes may be copied, stored and put back, but into the same version of the library only.
 *
 * During a call nobody else may use the machine or the bytes lent with it, and these must not overlap. Nothing else is shared:
 * two machines know nothing of each other. Bytes are lent as a pointer and their count; the pointer is never null, even
 * where the count is 0.
 *
 * The archive calls memcpy and memset and nothing else, takes no heap and has no data of its own. On x86-64 its code is for
 * processors that have x86-64-v2 (SSE4.2 and POPCNT). No call took more stack than this on x86-64 in the runs of
 * examples/stack.c, which measures it; that is no proof of a bound:
 *
 *     keymap_size          1 KiB
 *     keymap_open        202 KiB
 *     keymap_bind        121 KiB
 *     keymap_change      215 KiB
 *     keymap_key          20 KiB
 *     keymap_pop           3 KiB
 *     keymap_repeat        3 KiB
 *     keymap_repeat_over   3 KiB
 *     keymap_reset         7 KiB
 *     keymap_mode          1 KiB
 *     keymap_find          1 KiB
 *     keymap_free          1 KiB
 *     keymap_write         1 KiB
 *     keymap_run         222 KiB
 *
 * examples/stack.c also holds a key, a pop and a reset to 32 KiB, the run to 256 KiB and every call to 384 KiB, on any
 * processor that it is built for.
 */
typedef struct keymap_machine keymap_machine;

#define KEYMAP_SIZE 187896
#define KEYMAP_ALIGN 8

/*
 * The refusals, and what to do then. A refused call tells the first that it meets and leaves the machine as it was, so it can
 * be made again.
 */
enum {
    KEYMAP_ACCEPTED = 0,
    KEYMAP_RANGE = 1,          /* a number is out of its range: mend the map, or the call's argument */
    KEYMAP_NODES = 2,          /* a binding needs a node and none of 1,024 is left: bind fewer or shorter paths */
    KEYMAP_EDGES = 3,          /* a binding needs an edge and none of 2,048 is left: likewise */
    KEYMAP_MODE = 4,           /* a binding's path falls through to a node of another mode: bind it in that mode */
    KEYMAP_QUEUE = 5,          /* more than 256 pairs would wait: pop, and call again; if none waits, the map gives too many */
    KEYMAP_SEQUENCE = 6,       /* a sequence would pass 64 pairs: reset, and begin anew; the map needs a rule that breaks it */
    KEYMAP_TRAIL = 7,          /* the trail would pass 64 keys: press a key that ends the path, or open the map again */
    KEYMAP_BUDGET = 8,         /* the budget is used up: press again with a larger one; if 65,535 are too few, the map loops */
    KEYMAP_NUMBER = 9,         /* the bytes end early, go on behind the end or hold a bad number: they are damaged or cut off */
    KEYMAP_OUTPUT = 10,        /* the pairs or the map do not fit: lend more output, or run fewer keys at once */
    KEYMAP_BINDINGS = 11,      /* 1,024 bindings are kept already: open or change to a map that has fewer, and bind to that */
    KEYMAP_COUNT_OVERFLOW = 12 /* the count would pass 65,535: press an unbound key, which takes what was typed; type again */
};

/* The refusal in a result; not for keymap_size, keymap_pop and keymap_mode, which are never refused. */
#define KEYMAP_REFUSAL(result) ((unsigned)((result) % 32))

/* The bytes of a machine of the linked archive. */
size_t keymap_size(void);

/*
 * Reads a map whole. The machine is then fresh with it: in mode 0, with no pair, no trail and empty sequences. The bindings
 * kept are those of the map. The map's bytes are not needed afterwards.
 * The result is the refusal: RANGE, NODES, EDGES, MODE, NUMBER or BINDINGS.
 */
uint64_t keymap_open(keymap_machine *machine, const uint8_t *map, size_t map_count);

/*
 * Adds one binding, laid out as in a map and with nothing behind it. It is read to its end before it is added. It is kept for
 * keymap_write, behind those before it; so is one that replaces another, and one of an empty path, which does nothing. A
 * machine keeps 1,024, and BINDINGS is met last. All else stays as it is.
 * The result is the refusal: RANGE, NODES, EDGES, MODE, NUMBER or BINDINGS.
 */
uint64_t keymap_bind(keymap_machine *machine, const uint8_t *binding, size_t binding_count);

/*
 * Changes the map in the middle of a shift. The new one is read whole, as by keymap_open, and takes the place of tables and
 * bindings, those added by keymap_bind too: the bindings kept are its own, and keymap_free begins anew with its nodes. Pairs that
 * wait, sequences, the mode and the count and mark so far pass over, and no pair is given.
 * The trail is followed in the new map, from the start of the mode that the machine is in. If each of its keys needs more there
 * and none falls through, the path goes on in the new map with the next key. Otherwise the trail is dropped, and the next key
 * begins in that mode anew. Keys that are followed do not count or mark again, and none is tried as 27 and the rest.
 * The result is the refusal, the first met in the file: RANGE or NUMBER at a number; NODES, EDGES, MODE or BINDINGS after a
 * binding's last number; NUMBER for bytes left over. Refused, the old map goes on.
 */
uint64_t keymap_change(keymap_machine *machine, const uint8_t *map, size_t map_count);

/*
 * Presses a key. Its pairs wait behind those that wait already. A key mostly takes one round, and more where it ends a trail
 * in vain, since the keys of the trail are tried again: a budget of 1,000 does for common maps.
 * A digit that would take the count past 65,535 is refused with COUNT_OVERFLOW, and those before it stay in the count, for the
 * next pair. So the firmware tells the clerk and presses a key that nothing is bound to, whose pair takes them, as
 * examples/shift.c does. If that is refused with COUNT_OVERFLOW too, digits of the trail are too many as they are tried again:
 * then reset, and press a key that is bound alone in mode 0.
 * The result is rounds * 32 + refusal: QUEUE, SEQUENCE, TRAIL, BUDGET or COUNT_OVERFLOW. The rounds made are told of a refused
 * key too.
 */
uint64_t keymap_key(keymap_machine *machine, uint16_t key, uint16_t budget);

#define KEYMAP_ROUNDS(result) ((unsigned)((result) / 32))

/*
 * Takes the first pair that waits. Never refused.
 * The result is 0 if none waits, else the pair: action + count * 2^16 + mark * 2^32 + 2^48 + typed * 2^49. Typed is 1 if a count
 * was typed, which may be 0; else it is 0, and so is the count.
 */
uint64_t keymap_pop(keymap_machine *machine);

#define KEYMAP_WAITS(result) ((result) != 0)
#define KEYMAP_ACTION(result) ((unsigned)((result) & 0xffff))
#define KEYMAP_COUNT(result) ((unsigned)((result) >> 16 & 0xffff))
#define KEYMAP_MARK(result) ((unsigned)((result) >> 32 & 0xffff))
#define KEYMAP_TYPED(result) ((unsigned)((result) >> 49 & 1))

/*
 * Puts the pairs of a sequence before those that wait. They are not tracked again.
 * The result is the refusal: RANGE (a sequence over 7) or QUEUE.
 */
uint64_t keymap_repeat(keymap_machine *machine, uint16_t sequence);

/*
 * The same with another count and another mark in every pair, each unless 0 is given. The count is given as count + 1, so 1 is
 * zero pieces, and 0 leaves each pair the count that it has, or none. The sequence keeps the pairs so.
 * The result is the refusal: RANGE (a sequence over 7, a number over 65,536 for the count) or QUEUE.
 */
uint64_t keymap_repeat_over(keymap_machine *machine, uint16_t sequence, uint32_t count, uint16_t mark);

/*
 * Enters mode 0 and breaks every sequence: the next pair tracked starts it anew. If the map gives pairs for entering mode 0,
 * they wait then; a count or mark that was typed goes with them, and else is forgotten. Pairs that wait and the trail stay.
 * The result is the refusal: QUEUE or SEQUENCE.
 */
uint64_t keymap_reset(keymap_machine *machine);

/* The mode that the machine is in. Never refused. */
uint64_t keymap_mode(const keymap_machine *machine);

/*
 * Looks for a binding of the mode that has the action, for a help screen: the one whose node has the lowest number. Nodes are
 * numbered as they are made, so machines with the same map give the same. A flagged binding counts, and so does one whose keys
 * lead elsewhere by now. One that only enters a mode gives action 0 but does not have it.
 * The result is (node + 1) * 32, or 0 if no node has the action, or the refusal: RANGE (a mode over 15).
 */
uint64_t keymap_find(const keymap_machine *machine, uint16_t mode, uint16_t action);

#define KEYMAP_FOUND(result) ((result) >= 32)
#define KEYMAP_NODE(result) ((unsigned)((result) / 32 - 1))

/*
 * How many nodes are left for bindings: exactly 1,024 less those that accepted bindings have made since the last accepted
 * keymap_open or keymap_change, those of its map among them. So a supervisor can plan: each key of a path takes at most one node,
 * and mostly none where an earlier path begins the same; a repeat takes more. docs/KEYMAPS.md says it exactly. A refused call
 * takes none, and no call but keymap_open and keymap_change gives any back. Edges and bindings have limits of their own. Never
 * refused.
 * The result is nodes * 32.
 */
uint64_t keymap_free(const keymap_machine *machine);

#define KEYMAP_FREE(result) ((unsigned)((result) / 32))

/*
 * Writes the machine's map to the front of the output: classes, modes and rules as they were read, and the bindings kept, in
 * their order. keymap_open and keymap_change take those bytes; the machine then has the same map, keeps the same bindings, and
 * writes the same bytes. Keys, pairs, sequences and the entered mode are no part of a map. The whole output may be used, and
 * KEYMAP_LONGEST bytes are enough for every map; most are far shorter.
 * The result is length * 32 + refusal: OUTPUT. So many bytes were written, and the output behind them stays; refused, all of it
 * is zeros.
 */
uint64_t keymap_write(const keymap_machine *machine, uint8_t *output, size_t output_count);

/* Bytes of a map whose tables, lists, paths and bindings are as many as can be, each number in its longest form: reckoned from
 * the ranges. A map that is longer would be refused with OUTPUT. */
#define KEYMAP_LONGEST 253045

/* Of what keymap_write and keymap_run wrote. */
#define KEYMAP_LENGTH(result) ((size_t)((result) / 32))

/*
 * Plays keys on a fresh machine of its own: reads the map, then all keys, presses each with the budget, and writes the pairs
 * after each to the output: action, count and mark. The count is written as 0 if none was typed, else as count + 1, so it is up to
 * 65,536. Keys and output are numbers as in a map: seven bits to a byte, the lowest first, and 0x80 set on each byte but the last.
 * No more of the output is used than its first 65,536 bytes.
 * The result is length * 32 + refusal: any of 1 to 12. So many bytes were written, and the output behind them stays; refused,
 * the length is 0 and every byte of the output is 0.
 */
uint64_t keymap_run(
    const uint8_t *map, size_t map_count,
    const uint8_t *keys, size_t keys_count,
    uint8_t *output, size_t output_count,
    uint16_t budget);

#ifdef __cplusplus
}
#endif

#endif
