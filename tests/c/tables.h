/*
 * Tables of postcodes, right ones and wrong ones, for the tests of all calls that take one. The table lent to a call ends
 * where memory that cannot be read begins, and cannot be written.
 */
#ifndef TABLES_H
#define TABLES_H

#include "fenced.h"
#include "fuganorezi.h"

#include <stdbool.h>

enum { MOST_ENTRIES = FUGANOREZI_TABLE_MOST, LONGEST_TABLE = MOST_ENTRIES + 1 };

/* The table that calls are given. */
static struct {
    struct fenced memory;
    const uint32_t *entries;
    size_t count;
} lent;

static inline void lend_table(const uint32_t *entries, size_t count)
{
    if (lent.memory.start == NULL)
        lent.memory = fenced_memory(LONGEST_TABLE * sizeof entries[0]);
    protect(lent.memory, PROT_READ | PROT_WRITE);
    lent.entries = (const uint32_t *)put_before_fence(lent.memory, (const uint8_t *)entries, count * sizeof entries[0]);
    lent.count = count;
    protect(lent.memory, PROT_READ);
}

/* What is tried with each wrong table, which is lent. */
typedef void try_wrong(const char *what);

/* What is tried with a right table, which is lent, and a postcode. */
typedef void try_lookup(const char *what, uint32_t postcode, bool there);

/* So many entries, from the first one on in equal steps. */
static inline const uint32_t *rising(uint32_t first, uint32_t step, size_t count)
{
    static uint32_t table[LONGEST_TABLE];
    for (size_t i = 0; i < count; i++)
        table[i] = first + step * (uint32_t)i;
    return table;
}

static inline void try_each_wrong_table(try_wrong *try)
{
    static const struct {
        const char *what;
        size_t count;
        uint32_t entries[4];
    } wrong_tables[] = {
        {"two equal", 2, {11000, 11000}},
        {"two equal first", 4, {10000, 10000, 11000, 60200}},
        {"two equal last", 4, {10000, 11000, 60200, 60200}},
        {"two zeros", 2, {0, 0}},
        {"falling", 2, {11000, 10999}},
        {"falling first", 4, {10001, 10000, 11000, 60200}},
        {"falling last", 4, {10000, 11000, 60200, 60199}},
        {"falling to zero", 3, {10000, 11000, 0}},
        {"100000 alone", 1, {100000}},
        {"100000 last", 3, {10000, 11000, 100000}},
        {"100000 inside", 4, {10000, 11000, 100000, 99999}},
        {"the highest number alone", 1, {UINT32_MAX}},
        {"the highest number last", 3, {10000, 11000, UINT32_MAX}},
        {"a negative number last, if it had a sign", 2, {11000, UINT32_C(0x80000000) + 11001}},
    };
    for (size_t i = 0; i < sizeof wrong_tables / sizeof wrong_tables[0]; i++) {
        lend_table(wrong_tables[i].entries, wrong_tables[i].count);
        try(wrong_tables[i].what);
    }
    lend_table(rising(0, 1, LONGEST_TABLE), LONGEST_TABLE);
    try("16,001 entries");
    lend_table(rising(84000, 1, MOST_ENTRIES + 1), LONGEST_TABLE);
    try("16,001 entries, the last 100000");
    lend_table(rising(84001, 1, MOST_ENTRIES), MOST_ENTRIES);
    try("16,000 entries, the last 100000");
}

/* The postcodes from one up to another, this one not, and so many apart: each is there if it is one of the entries. */
static inline void try_postcodes(const char *what, uint32_t from, uint32_t to, uint32_t apart, try_lookup *try)
{
    for (uint32_t postcode = from; postcode < to; postcode += apart) {
        size_t i = 0;
        while (i < lent.count && lent.entries[i] < postcode)
            i++;
        try(what, postcode, i < lent.count && lent.entries[i] == postcode);
    }
}

/* No entries, one, and as many as there may be, among them the lowest and the highest; and each small number of them. */
static inline void try_lookups(try_lookup *try)
{
    const uint32_t highest = FUGANOREZI_POSTCODE_MOST;
    lend_table(NULL, 0);
    try_postcodes("no entries", 0, highest + 1, highest, try);
    for (uint32_t count = 1; count <= 20; count++) {
        lend_table(rising(3, 3, count), count);
        try_postcodes("few entries", 0, 3 * count + 5, 1, try);
    }
    lend_table(&highest, 1);
    try_postcodes("99999 alone", highest - 2, highest + 1, 1, try);
    lend_table(rising(0, 1, MOST_ENTRIES), MOST_ENTRIES);
    try_postcodes("16,000 from 0", 0, 3, 1, try);
    try_postcodes("16,000 from 0", MOST_ENTRIES - 2, MOST_ENTRIES + 2, 1, try);
    lend_table(rising(84000, 1, MOST_ENTRIES), MOST_ENTRIES);
    try_postcodes("16,000 to 99999", 83998, 84002, 1, try);
    try_postcodes("16,000 to 99999", highest - 2, highest + 1, 1, try);
    lend_table(rising(3, 6, MOST_ENTRIES), MOST_ENTRIES);
    try_postcodes("16,000 in steps of 6", 0, 20, 1, try);
    try_postcodes("16,000 in steps of 6", 6 * MOST_ENTRIES - 20, 6 * MOST_ENTRIES + 20, 1, try);
    try_postcodes("16,000 in steps of 6", 0, highest + 1, 501, try);
}

#endif
