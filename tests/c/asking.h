/*
 * What the tests of the file check and of the closing check share. The bytes asked about and the table always end where
 * memory that cannot be read begins, and cannot be written during the call.
 */
#ifndef ASKING_H
#define ASKING_H

#include "consignors.h"
#include "fenced.h"
#include "fuganorezi.h"
#include "good_file.h"
#include "tables.h"

enum { MOST_RECORDS = FUGANOREZI_MOST_RECORDS, NUMBERS = FUGANOREZI_OUT_NUMBERS };

typedef uint32_t file_check(const uint8_t *bytes, size_t length, const uint32_t *table, size_t entries,
                            uint64_t out[NUMBERS]);

/* The call that is asked. */
static file_check *check;

/* Memory for one byte and one record more than the largest file. */
static struct fenced memory;

static inline void start(file_check *call)
{
    check = call;
    memory = fenced_memory((size_t)(MOST_RECORDS + 1) * GOOD_STEP + 1);
    lend_table(good_table, GOOD_ENTRIES);
}

static inline void expect_numbers(const char *what, unsigned long number, uint32_t code, const uint64_t out[NUMBERS],
                                  const uint64_t expected[NUMBERS])
{
    expect(what, number, code, expected[0]);
    for (int i = 0; i < NUMBERS; i++)
        expect(what, number, out[i], expected[i]);
}

static inline void ask(const char *what, unsigned long number, const uint8_t *bytes, size_t length,
                       const uint64_t expected[NUMBERS])
{
    const uint64_t untouched = UINT64_C(0x5a5a5a5a5a5a5a5a);
    uint64_t around[NUMBERS + 2];
    const uint8_t *there = put_before_fence(memory, bytes, length);
    for (int i = 0; i < NUMBERS + 2; i++)
        around[i] = untouched;
    protect(memory, PROT_READ);
    uint32_t code = check(there, length, lent.entries, lent.count, around + 1);
    protect(memory, PROT_READ | PROT_WRITE);
    expect_numbers(what, number, code, around + 1, expected);
    expect(what, number, around[0], untouched);
    expect(what, number, around[NUMBERS + 1], untouched);
}

static inline void ask_refused(const char *what, const uint8_t *bytes, size_t length, uint64_t code, uint64_t record,
                               uint64_t place)
{
    const uint64_t expected[NUMBERS] = {code, record, place};
    ask(what, length, bytes, length, expected);
}

static inline void ask_no_bytes(void)
{
    const uint64_t zeros[NUMBERS] = {0};
    uint64_t out[NUMBERS] = {1, 1, 1, 1, 1, 1, 1};
    uint32_t code = check(NULL, 0, NULL, 0, out);
    expect_numbers("NULL", 0, code, out, zeros);
}

/* ---- consignors */

/* The first records of a file: accepted, all of them live or all cancelled, or one is of another consignor. */
static inline void ask_one_consignor(const char *what, unsigned long number, const uint8_t *file, unsigned records,
                                     unsigned other)
{
    bool cancelled = file[GOOD_STATUS] == '0';
    const uint64_t good[NUMBERS] = {0, 0, 0, cancelled ? 0 : records, cancelled ? records : 0};
    const uint64_t refused[NUMBERS] = {FUGANOREZI_OTHER_CONSIGNOR, other, 1};
    ask(what, number, file, (size_t)records * GOOD_STEP, other == 0 ? good : refused);
}

/* Each row of four records: as it is, and with all of them cancelled. */
static inline void ask_rows(void)
{
    enum { RECORDS = 4 };
    uint8_t file[RECORDS * GOOD_STEP];
    enum whose row[RECORDS];
    for (unsigned number = 0; number < rows_of(RECORDS); number++) {
        put_row(row, RECORDS, number);
        put_file_of(file, row, RECORDS);
        ask_one_consignor("row of consignors", number, file, RECORDS, first_other(row, RECORDS));
        for (unsigned i = 0; i < RECORDS; i++)
            file[i * GOOD_STEP + GOOD_STATUS] = '0';
        ask_one_consignor("row of consignors, cancelled", number, file, RECORDS, first_other(row, RECORDS));
    }
}

/* Of the most records only the first and the last name one. */
static inline void ask_far_apart(void)
{
    static uint8_t file[MOST_RECORDS * GOOD_STEP];
    uint8_t *last = file + (MOST_RECORDS - 1) * GOOD_STEP;
    for (unsigned i = 0; i < MOST_RECORDS; i++)
        put_record_of(file + (size_t)i * GOOD_STEP, i == 0 ? OURS : NOBODYS, i + 1);
    for (enum whose whose = OURS; whose < WHOSE; whose++) {
        put_record_of(last, whose, MOST_RECORDS);
        ask_one_consignor("far apart", whose, file, MOST_RECORDS, different(OURS, whose) ? MOST_RECORDS : 0);
    }
}

/* Behind all rules of the record, and behind its line end. */
static inline void ask_other_rules_first(void)
{
    uint8_t file[2 * GOOD_STEP], *second = file + GOOD_STEP;
    put_record_of(file, OURS, 1);
    put_record_of(second, OTHER_TYPE, 2);
    ask_refused("another consignor", file, sizeof file, FUGANOREZI_OTHER_CONSIGNOR, 2, 1);
    put_field(second, 24, "02");
    ask_refused("another consignor, and pieces", file, sizeof file, FUGANOREZI_PIECES_DISAGREE, 2, 24);
    put_field(second, 15, "      ");
    ask_refused("another consignor, and no weight", file, sizeof file, FUGANOREZI_WEIGHT_MISSING, 2, 15);
    put_field(second, 1, "?");
    ask_refused("another consignor, and no identifier", file, sizeof file, FUGANOREZI_WRONG_IDENTIFIER, 2, 1);
    second[GOOD_STEP - 1] = ' ';
    ask_refused("another consignor, and no line end", file, sizeof file, FUGANOREZI_LINE_END, 2, 0);
}

static inline void ask_consignors(void)
{
    ask_rows();
    ask_far_apart();
    ask_other_rules_first();
}

/* ---- tables */

/* A wrong table is told of first, whatever the bytes are. */
static inline void ask_under_wrong_table(const char *what)
{
    static uint8_t file[(MOST_RECORDS + 1) * GOOD_STEP];
    put_good_file(file, MOST_RECORDS + 1);
    ask_refused(what, file, GOOD_STEP, FUGANOREZI_WRONG_TABLE, 0, 0);
    ask_refused(what, file, 0, FUGANOREZI_WRONG_TABLE, 0, 0);
    ask_refused(what, file, GOOD_STEP - 1, FUGANOREZI_WRONG_TABLE, 0, 0);
    ask_refused(what, file, sizeof file, FUGANOREZI_WRONG_TABLE, 0, 0);
    file[GOOD_STEP - 1] = ' ';
    ask_refused(what, file, GOOD_STEP, FUGANOREZI_WRONG_TABLE, 0, 0);
}

/* In the second record of a file whose first goes abroad, without service 41 and with it. */
static inline void ask_postcode(const char *what, uint32_t postcode, bool there)
{
    static const enum good_kind kinds[] = {GOOD_PLAIN, GOOD_ON_DELIVERY};
    uint8_t file[2 * GOOD_STEP];
    put_good_record(file, good_number(GOOD_ABROAD));
    for (int i = 0; i < 2; i++) {
        unsigned number = good_number(kinds[i]);
        const uint64_t good[NUMBERS] = {0, 0, 0, 2, 0, good_cash(number), good_price(number)};
        const uint64_t unknown[NUMBERS] = {kinds[i] == GOOD_ON_DELIVERY ? 21 : 24, 2, 5};
        put_good_record(file + GOOD_STEP, number);
        put_postcode(file + GOOD_STEP, postcode);
        ask(what, postcode, file, sizeof file, there ? good : unknown);
    }
}

/* Abroad none is looked up, so NULL serves. */
static inline void ask_no_table(void)
{
    uint8_t file[2 * GOOD_STEP];
    uint64_t out[NUMBERS];
    put_good_record(file, good_number(GOOD_ABROAD));
    put_good_record(file + GOOD_STEP, good_number(GOOD_PLAIN));
    expect("NULL, one abroad", 0, check(file, GOOD_STEP, NULL, 0, out), FUGANOREZI_GOOD);
    expect("NULL, one abroad", 1, out[FUGANOREZI_OUT_LIVE], 1);
    expect("NULL, one at home", 0, check(file, sizeof file, NULL, 0, out), FUGANOREZI_POSTCODE_UNKNOWN);
    expect("NULL, one at home", 1, out[FUGANOREZI_OUT_RECORD], 2);
    expect("NULL, one at home", 2, out[FUGANOREZI_OUT_PLACE], 5);
}

static inline void ask_tables(void)
{
    try_each_wrong_table(ask_under_wrong_table);
    try_lookups(ask_postcode);
    ask_no_table();
    lend_table(good_table, GOOD_ENTRIES);
}

#endif
