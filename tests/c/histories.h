/*
 * Judged histories of a batch. An item has the lengths of the file and of the journal, four bytes each, the table of
 * postcodes, and then steps: one byte that says what is done, four bytes of length, and as many bytes. Lowest bytes come
 * first.
 */
#ifndef HISTORIES_H
#define HISTORIES_H

#include "fuganorezi.h"
#include "judged.h"

enum { COUNTS = 6 };

/* The first five are calls; the next change something behind the batch's back; and then the table is another. */
enum op { OPEN, ADD, CANCEL, AMEND, UNDO, SPOIL_FILE, SPOIL_JOURNAL, SPOIL_COUNT, SET_TABLE };

/* A batch, the table that its calls are given, and what the latest answered. */
struct batch {
    uint8_t *file, *journal;
    size_t file_length, journal_length;
    const uint32_t *table;
    size_t entries;
    fuganorezi_counts counts;
    uint32_t code, place;
};

struct step {
    enum op op;
    const uint8_t *bytes;
    size_t length;
};

/* What stands before the first step: the lengths of both buffers, and the table, whose entries the caller frees. */
static inline size_t history_file_length(const struct item *item)
{
    return four_bytes(item->bytes);
}

static inline size_t history_journal_length(const struct item *item)
{
    return four_bytes(item->bytes + 4);
}

enum { BEHIND_LENGTHS = 8 };

static inline struct table history_table(const struct item *item)
{
    return table_in(item->bytes + BEHIND_LENGTHS, item->length - BEHIND_LENGTHS);
}

/* The step at a place, first 0, which moves on to the next; 0 behind the last. */
static inline int next_step(const struct item *item, size_t *at, struct step *step)
{
    if (*at == 0)
        *at = BEHIND_LENGTHS + table_length(item->bytes + BEHIND_LENGTHS);
    if (*at >= item->length)
        return 0;
    step->op = (enum op)item->bytes[*at];
    step->length = four_bytes(item->bytes + *at + 1);
    step->bytes = item->bytes + *at + 5;
    *at += 5 + step->length;
    return 1;
}

static inline uint64_t *count_of(fuganorezi_counts *counts, unsigned which)
{
    uint64_t *const all[COUNTS] = {&counts->live,  &counts->cancelled, &counts->cash,
                                   &counts->price, &counts->held,      &counts->used};
    if (which >= COUNTS)
        give_up("a history", "names a count that there is not");
    return all[which];
}

static inline uint64_t count_in(fuganorezi_counts counts, unsigned which)
{
    return *count_of(&counts, which);
}

static inline void set_byte(uint8_t *buffer, size_t length, const uint8_t bytes[5])
{
    size_t at = four_bytes(bytes);
    if (at < length)
        buffer[at] = bytes[4];
}

/* Changes something behind the batch's back: no table. */
static inline void spoil(struct batch *b, enum op op, const uint8_t *bytes)
{
    if (op == SPOIL_FILE)
        set_byte(b->file, b->file_length, bytes);
    else if (op == SPOIL_JOURNAL)
        set_byte(b->journal, b->journal_length, bytes);
    else
        *count_of(&b->counts, bytes[0]) = eight_bytes(bytes + 1);
    b->code = b->place = 0;
}

static inline fuganorezi_outcome call(const struct batch *b, enum op op, const uint8_t *bytes, size_t length)
{
    static const fuganorezi_outcome none;
    uint8_t *file = b->file, *journal = b->journal;
    const uint32_t *table = b->table;
    size_t n = b->file_length, m = b->journal_length, entries = b->entries;
    switch (op) {
    case OPEN:
        return fuganorezi_batch_open(file, n, journal, m);
    case ADD:
        return fuganorezi_batch_add(file, n, journal, m, b->counts, bytes, length, table, entries);
    case CANCEL:
        return fuganorezi_batch_cancel(file, n, journal, m, b->counts, bytes, length, table, entries);
    case AMEND:
        return fuganorezi_batch_amend(file, n, journal, m, b->counts, bytes, length, table, entries);
    case UNDO:
        return fuganorezi_batch_undo(file, n, journal, m, b->counts, table, entries);
    default:
        give_up("a test", "calls what is no call");
        return none;
    }
}

#endif
