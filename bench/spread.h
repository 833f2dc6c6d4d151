/* The longest table of postcodes, and good files whose postcodes are spread over it. */
#ifndef SPREAD_H
#define SPREAD_H

#include "good_file.h"

enum { MOST_ENTRIES = FUGANOREZI_TABLE_MOST };

static inline uint32_t longest_table_entry(uint32_t number)
{
    return 3 + 6 * number;
}

static inline void put_longest_table(uint32_t table[MOST_ENTRIES])
{
    for (uint32_t i = 0; i < MOST_ENTRIES; i++)
        table[i] = longest_table_entry(i);
}

/* Spread over the whole table, in no order that a processor could guess; no two are the same. */
static inline uint32_t spread_postcode(unsigned number)
{
    return longest_table_entry(number * 7919 % MOST_ENTRIES);
}

/* The good records, those at home with one of so many postcodes. */
static inline void put_spread_file(uint8_t *file, unsigned records, unsigned postcodes)
{
    put_good_file(file, records);
    for (unsigned i = 0; i < records; i++)
        if (good_kind(i + 1) != GOOD_ABROAD)
            put_postcode(file + (size_t)i * GOOD_STEP, spread_postcode(i % postcodes));
}

#endif
