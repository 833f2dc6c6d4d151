/*
 * A table of numbers by identifier, for the reference and the replay: open addressing, never more than a quarter full,
 * so that few walks meet another. A slot holds a number from 1, or 0. Whose identifier a number stands for its user
 * knows, who therefore does the walk.
 */
#ifndef SLOTS_H
#define SLOTS_H

#include <stdbool.h>
#include <stddef.h>
#include <stdint.h>
#include <string.h>

enum { IDENTIFIER_WIDTH = 13, MOST_SLOTS = 4096, LEAST_SLOT_BITS = 4 };

struct slots {
    unsigned bits;
    uint16_t numbers[MOST_SLOTS];
};

/* For so many numbers, up to 1,024. Few clear a small table. */
static inline void clear_slots(struct slots *slots, size_t numbers)
{
    slots->bits = LEAST_SLOT_BITS;
    while (((size_t)1 << slots->bits) < 4 * numbers)
        slots->bits++;
    memset(slots->numbers, 0, sizeof slots->numbers[0] << slots->bits);
}

/* An identifier in two words that overlap, so that no byte past it is read. */
struct key {
    uint64_t head, tail;
};

static inline struct key key_of(const uint8_t *identifier)
{
    struct key key;
    memcpy(&key.head, identifier, sizeof key.head);
    memcpy(&key.tail, identifier + IDENTIFIER_WIDTH - sizeof key.tail, sizeof key.tail);
    return key;
}

static inline bool same_key(struct key a, struct key b)
{
    return a.head == b.head && a.tail == b.tail;
}

static inline size_t first_slot(const struct slots *slots, struct key key)
{
    uint64_t mixed = key.head * 0x9e3779b97f4a7c15u ^ key.tail;
    mixed ^= mixed >> 32;
    return (mixed * 0xd6e8feb86659fd93u) >> (64 - slots->bits);
}

static inline size_t next_slot(const struct slots *slots, size_t slot)
{
    return (slot + 1) & (((size_t)1 << slots->bits) - 1);
}

#endif
