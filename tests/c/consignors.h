/*
 * Good records of several consignors, for tests of what may stand together in a file and in a batch. They are plain parcels
 * at home, without amounts.
 */
#ifndef CONSIGNORS_H
#define CONSIGNORS_H

#include "good_file.h"

/* Ours is that of the good records, and each other differs from it in as little as can be. */
enum whose { OURS, OTHER_FIRST_DIGIT, OTHER_LAST_DIGIT, OTHER_TYPE, OTHER_WIDTH, OTHER_NUMBER_IN_SAME_DIGITS, NOBODYS, WHOSE };

/* Type and number as the calls give them, and the nine digits with the number in front. */
static const struct {
    fuganorezi_consignor consignor;
    unsigned nine_digits;
} consignors[WHOSE] = {
    [OURS] = {{'F', 54}, 540000000},
    [OTHER_FIRST_DIGIT] = {{'F', 14}, 140000000},
    [OTHER_LAST_DIGIT] = {{'F', 55}, 550000000},
    [OTHER_TYPE] = {{'E', 54}, 540000000},
    [OTHER_WIDTH] = {{'U', 54}, 54000000},
    [OTHER_NUMBER_IN_SAME_DIGITS] = {{'C', 5400}, 540000000},
    [NOBODYS] = {{0, 0}, 0},
};

/* The record's number is the posting number. */
static inline void identifier_of(enum whose whose, unsigned number, char text[14])
{
    if (whose == NOBODYS)
        identifier_with_cz(number, text);
    else
        identifier_with(consignors[whose].nine_digits + number, (char)consignors[whose].consignor.type, text);
}

/* Writes the 401 bytes of a live record. */
static inline void put_record_of(uint8_t *record, enum whose whose, unsigned number)
{
    char identifier[14];
    identifier_of(whose, number, identifier);
    put_good_record(record, good_number(GOOD_PLAIN));
    put_field(record, 1, identifier);
}

/* Both name a consignor, and not the same. */
static inline bool different(enum whose one, enum whose other)
{
    return one != other && one != NOBODYS && other != NOBODYS;
}

/* Rows of so many records: how many there are, and whose each record is in the row of this number. */
static inline unsigned rows_of(unsigned records)
{
    return records == 0 ? 1 : WHOSE * rows_of(records - 1);
}

static inline void put_row(enum whose *row, unsigned records, unsigned number)
{
    for (unsigned i = 0; i < records; i++, number /= WHOSE)
        row[i] = (enum whose)(number % WHOSE);
}

static inline void put_file_of(uint8_t *file, const enum whose *row, unsigned records)
{
    for (unsigned i = 0; i < records; i++)
        put_record_of(file + (size_t)i * GOOD_STEP, row[i], i + 1);
}

/* The first record, counted from 1, that names a consignor where an earlier one names another; 0 if none does. */
static inline unsigned first_other(const enum whose *row, unsigned records)
{
    for (unsigned i = 1; i < records; i++)
        for (unsigned earlier = 0; earlier < i; earlier++)
            if (different(row[i], row[earlier]))
                return i + 1;
    return 0;
}

#endif
