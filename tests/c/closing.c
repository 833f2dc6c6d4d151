/*
 * The closing check from C: the judged vectors, every prefix of a file of sets, the largest files with a set broken in
 * each way, records of several consignors, and tables of postcodes.
 */
#define _DEFAULT_SOURCE /* for fenced.h */
#include "asking.h"
#include "good_sets.h"

enum { PIECES = 3, SETS = MOST_RECORDS / PIECES, MOST_PIECES = 99, JUDGED_NUMBERS = 3 };

static uint8_t file[MOST_RECORDS * GOOD_STEP];

/* Records are counted from 1. */
static void cancel(unsigned number)
{
    put_field(record_of(file, number), 19, "0");
}

/* Spread over the file: first all the first pieces, then all the second ones, then all the third ones. */
static void put_spread_sets(void)
{
    for (unsigned number = 1; number <= MOST_RECORDS; number++)
        put_piece(file, number, (number - 1) % SETS + 1, (number - 1) / SETS + 1, PIECES);
}

/* ---- asking about the first records */

static void ask_may_close(const char *what, unsigned records, unsigned cancelled)
{
    const uint64_t expected[NUMBERS] = {0, 0, 0, records - cancelled, cancelled};
    ask(what, records, file, (size_t)records * GOOD_STEP, expected);
}

static void ask_offends(const char *what, unsigned records, unsigned number, unsigned place)
{
    ask_refused(what, file, (size_t)records * GOOD_STEP, 240, number, place);
}

/* ---- what is asked */

/* Of each prefix by records the last set is whole, or its last pieces are missing. */
static void ask_prefixes(void)
{
    put_sets(file, MOST_RECORDS, PIECES);
    for (unsigned length = 1; length <= 2 * PIECES * GOOD_STEP; length++)
        if (length % GOOD_STEP != 0)
            ask_refused("prefix", file, length, 211, 0, 0);
    for (unsigned records = 0; records <= MOST_RECORDS; records++) {
        if (records % PIECES == 0)
            ask_may_close("prefix of whole sets", records, 0);
        else
            ask_offends("prefix with a broken set", records, records - records % PIECES + 1, 22);
    }
}

/* The set of these three records, in the order of their serials, broken in each way and made whole again. */
static void ask_broken(unsigned first, unsigned second, unsigned third)
{
    put_parcel(file, third);
    ask_offends("piece 3 missing", MOST_RECORDS, first, 22);
    put_piece(file, third, first, 3, PIECES);
    cancel(third);
    ask_offends("piece 3 cancelled", MOST_RECORDS, first, 22);
    cancel(second);
    ask_offends("pieces 2 and 3 cancelled", MOST_RECORDS, first, 22);
    cancel(first);
    ask_may_close("the whole set cancelled", MOST_RECORDS, PIECES);
    put_piece(file, third, first, 3, PIECES);
    ask_offends("pieces 1 and 2 cancelled", MOST_RECORDS, third, 22);
    put_piece(file, second, first, 2, PIECES);
    ask_offends("piece 1 cancelled", MOST_RECORDS, second, 22);
    put_piece(file, first, first, 1, PIECES);
    put_number(file, third, 23, 2);
    ask_offends("piece 2 twice", MOST_RECORDS, first, 23);
    put_number(file, third, 24, 2);
    ask_offends("piece 2 twice, of three and of two", MOST_RECORDS, first, 24);
    put_number(file, third, 23, 3);
    put_number(file, third, 24, 4);
    ask_offends("piece 3 of four", MOST_RECORDS, first, 24);
    put_number(file, second, 24, 4);
    put_number(file, first, 24, 4);
    ask_offends("piece 4 missing", MOST_RECORDS, first, 22);
    put_piece(file, first, first, 1, PIECES);
    put_piece(file, second, first, 2, PIECES);
    put_piece(file, third, first, 3, PIECES);
    ask_may_close("made whole again", MOST_RECORDS, 0);
}

/* Where two sets offend, the one with the earlier record is told of, though its own fault lies behind the other's. */
static void ask_earliest(void)
{
    const unsigned earlier = 5, later = 7;
    put_number(file, later, 24, PIECES + 1);
    cancel(2 * SETS + earlier);
    ask_offends("two sets", MOST_RECORDS, earlier, 22);
    put_piece(file, 2 * SETS + earlier, earlier, 3, PIECES);
    ask_offends("the later set", MOST_RECORDS, later, 24);
    put_number(file, later, 24, PIECES);
}

static void ask_own_refusal_first(void)
{
    put_parcel(file, PIECES);
    put_field(record_of(file, MOST_RECORDS), 15, "      ");
    ask_refused("a broken set, and a file that is no good", file, sizeof file, 34, MOST_RECORDS, 15);
    put_postcode(record_of(file, MOST_RECORDS), 11001);
    ask_refused("a broken set, and a postcode that is not there", file, sizeof file, 24, MOST_RECORDS, 5);
    put_record_of(record_of(file, MOST_RECORDS), OTHER_TYPE, MOST_RECORDS);
    ask_refused("a broken set, and another consignor", file, sizeof file, 241, MOST_RECORDS, 1);
    put_sets(file, MOST_RECORDS, PIECES);
}

/* The most pieces that a set can have, each of them missing once. */
static void ask_most_pieces(void)
{
    put_sets(file, MOST_RECORDS, MOST_PIECES);
    ask_may_close("sets of 99 and one of 9", MOST_RECORDS, 0);
    for (unsigned number = 1; number <= MOST_PIECES; number++) {
        cancel(number);
        ask_offends("a piece of 99 missing", MOST_RECORDS, number == 1 ? 2 : 1, 22);
        put_piece(file, number, 1, number, MOST_PIECES);
    }
    put_parcel(file, MOST_RECORDS);
    ask_offends("the last piece missing", MOST_RECORDS, MOST_RECORDS - 8, 22);
}

static void ask_sets(void)
{
    ask_prefixes();
    ask_broken(1, 2, 3);
    ask_broken(499, 500, 501);
    ask_broken(997, 998, 999);
    ask_own_refusal_first();
    put_spread_sets();
    ask_may_close("spread sets", MOST_RECORDS, 0);
    ask_broken(1, SETS + 1, 2 * SETS + 1);
    ask_broken(SETS, 2 * SETS, 3 * SETS);
    ask_earliest();
    ask_most_pieces();
    put_sets(file, MOST_RECORDS, 1);
    ask_may_close("sets of one", MOST_RECORDS, 0);
    put_parcels(file, MOST_RECORDS);
    ask_may_close("no sets", MOST_RECORDS, 0);
}

/* A line has no totals: those of a file that may be closed are the file check's. */
static void ask_judged(const char *path, unsigned long number, const struct table *table, const struct item *item,
                       const uint64_t *expected)
{
    uint64_t numbers[NUMBERS] = {0};
    lend_table(table->entries, table->count);
    if (expected[0] == 0)
        fuganorezi_file_check(item->bytes, item->length, table->entries, table->count, numbers);
    memcpy(numbers, expected, JUDGED_NUMBERS * sizeof expected[0]);
    ask(path, number, item->bytes, item->length, numbers);
}

int main(int count, char **words)
{
    if (count != 3)
        give_up(words[0], "wants a file of items and one of their lines");
    start(fuganorezi_closing_check);
    ask_no_bytes();
    ask_sets();
    ask_consignors();
    ask_tables();
    ask_each(words[1], words[2], UNDER_TABLE, JUDGED_NUMBERS, ask_judged);
    return summary("closing");
}
