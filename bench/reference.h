/*
 * The same rules as the library's, written by hand in C: the measure of its speed, and a second
 * opinion on its answers. Nothing here is proved.
 */
#ifndef REFERENCE_H
#define REFERENCE_H

#include <stdbool.h>
#include <stddef.h>
#include <stdint.h>

/* Whether a table of postcodes has at most 16,000 entries, rises and does not pass 99999. */
bool reference_right_table(const uint32_t *table, size_t entries);

/*
 * As fuganorezi_file_check: the code; out: code, record, place, live, cancelled, haléře on delivery, haléře
 * specified.
 */
uint32_t reference_file_check(const uint8_t *bytes, size_t length, const uint32_t *table, size_t entries,
                              uint64_t out[7]);

/*
 * One record without its line end: the code, and the place that it speaks of; 238 for a wrong table, then 236 unless
 * there are 399 bytes.
 */
uint32_t reference_record_check(const uint8_t *bytes, size_t length, const uint32_t *table, size_t entries,
                                uint32_t *place);

/*
 * What a record to be posted is answered with, its amounts in haléře, and whose it is: a number of our own for each
 * consignor, and 0 for nobody. All these are 0 where it is refused.
 */
struct reference_posting {
    uint32_t code, place;
    uint64_t cash, price;
    uint64_t consignor;
};

/* One record of 399 bytes, to be posted: a status that is not blank is malformed. The table is a right one. */
struct reference_posting reference_posting_check(const uint8_t record[399], const uint32_t *table, size_t entries);

#endif
