/* Good K files with sets that travel together, for tests and measurements. Records are counted from 1. */
#ifndef GOOD_SETS_H
#define GOOD_SETS_H

#include "good_file.h"

/* The good records under these numbers are plain parcels at home: no cash, no price. */
static inline unsigned plain(unsigned number)
{
    return number * GOOD_KINDS;
}

static inline uint8_t *record_of(uint8_t *file, unsigned number)
{
    return file + (size_t)(number - 1) * GOOD_STEP;
}

static inline void put_parcel(uint8_t *file, unsigned number)
{
    put_good_record(record_of(file, number), plain(number));
}

static inline void put_number(uint8_t *file, unsigned number, unsigned field, unsigned value)
{
    char text[16];
    snprintf(text, sizeof text, "%02u", value % 100);
    put_field(record_of(file, number), field, text);
}

/* A piece of the set whose first piece is record `main`. */
static inline void put_piece(uint8_t *file, unsigned number, unsigned main, unsigned serial, unsigned pieces)
{
    char identifier[14];
    put_parcel(file, number);
    good_identifier(plain(main), identifier);
    put_field(record_of(file, number), 18, "70");
    put_field(record_of(file, number), 22, identifier);
    put_number(file, number, 23, serial);
    put_number(file, number, 24, pieces);
}

/* Whole sets, one behind the other, with so many pieces each; the last has what is left over. */
static inline void put_sets(uint8_t *file, unsigned records, unsigned pieces)
{
    for (unsigned number = 1; number <= records; number++) {
        unsigned main = number - (number - 1) % pieces;
        unsigned left = records - main + 1;
        put_piece(file, number, main, number - main + 1, left < pieces ? left : pieces);
    }
}

static inline void put_parcels(uint8_t *file, unsigned records)
{
    for (unsigned number = 1; number <= records; number++)
        put_parcel(file, number);
}

#endif
