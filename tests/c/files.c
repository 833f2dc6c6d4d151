/*
 * The file check from C: the judged vectors, every prefix of a good file, the largest files, the paper's example 14,
 * records of several consignors, and tables of postcodes.
 */
#define _DEFAULT_SOURCE /* for fenced.h */
#include "asking.h"

enum { PREFIX_RECORDS = 2 * GOOD_KINDS };

static void ask_accepted(const char *what, const uint8_t *bytes, unsigned records)
{
    struct good_totals totals = good_totals(records);
    const uint64_t expected[NUMBERS] = {0, 0, 0, totals.live, totals.cancelled, totals.cash, totals.price};
    ask(what, records, bytes, (size_t)records * GOOD_STEP, expected);
}

static void ask_example_14(void)
{
    uint8_t spaces[GOOD_STEP];
    memset(spaces, ' ', sizeof spaces);
    ask_refused("400 spaces", spaces, 400, 211, 0, 0);
    ask_refused("401 spaces", spaces, 401, 212, 1, 0);
}

static void ask_prefixes(const uint8_t *file)
{
    for (unsigned length = 0; length <= PREFIX_RECORDS * GOOD_STEP; length++) {
        if (length % GOOD_STEP == 0)
            ask_accepted("prefix of whole records", file, length / GOOD_STEP);
        else
            ask_refused("prefix", file, length, 211, 0, 0);
    }
}

/* An earlier record once more at the end, live and cancelled: neither status hides that it was there. */
static void ask_repeated(uint8_t *file, unsigned records, unsigned earlier)
{
    uint8_t *last = file + (size_t)(records - 1) * GOOD_STEP;
    put_good_record(last, earlier);
    last[GOOD_STATUS] = ' ';
    ask_refused("repeated identifier, live", file, (size_t)records * GOOD_STEP, 2, records, 1);
    last[GOOD_STATUS] = '0';
    ask_refused("repeated identifier, cancelled", file, (size_t)records * GOOD_STEP, 2, records, 1);
    put_good_record(last, records);
}

/* The last of the most records broken, in several ways: the totals of those before it are not told. */
static void ask_broken_last(uint8_t *file)
{
    const size_t length = (size_t)MOST_RECORDS * GOOD_STEP;
    uint8_t *last = file + length - GOOD_STEP;
    put_field(last, 15, "      ");
    ask_refused("last record without weight", file, length, 34, MOST_RECORDS, 15);
    put_field(last, 18, "41+45");
    ask_refused("last record without weight under service 41", file, length, 31, MOST_RECORDS, 15);
    put_postcode(last, 11001);
    ask_refused("last record with another postcode under service 41", file, length, 21, MOST_RECORDS, 5);
    put_field(last, 18, "4+45 ");
    ask_refused("last record with another postcode", file, length, 24, MOST_RECORDS, 5);
    put_field(last, 1, "?");
    ask_refused("last record without identifier", file, length, 1, MOST_RECORDS, 1);
    last[GOOD_STEP - 1] = ' ';
    ask_refused("last record without line end", file, length, 212, MOST_RECORDS, 0);
    put_good_record(last, MOST_RECORDS);
}

static void ask_large(uint8_t *file)
{
    const size_t over = (size_t)(MOST_RECORDS + 1) * GOOD_STEP;
    ask_accepted("998 records", file, MOST_RECORDS - 1);
    ask_accepted("999 records", file, MOST_RECORDS);
    ask_repeated(file, MOST_RECORDS, 1);
    ask_repeated(file, MOST_RECORDS, MOST_RECORDS / 2);
    ask_repeated(file, MOST_RECORDS, MOST_RECORDS - 1);
    ask_broken_last(file);
    ask_refused("1000 records", file, over, 213, 0, 0);
    ask_refused("1000 records and a byte", file, over + 1, 211, 0, 0);
}

/* Of each kind of record, the cancelled one among them. */
static void ask_repeated_kinds(uint8_t *file)
{
    for (unsigned number = 1; number <= GOOD_KINDS; number++)
        ask_repeated(file, GOOD_KINDS + 1, number);
}

/* A line end is asked for before the record is looked at, and only of the first record that is wrong. */
static void ask_line_ends(uint8_t *file)
{
    static const char *const wrong_ends[] = {"\n\r", "\r\r", "\n\n", "  ", " \n", "\r "};
    const size_t length = 3 * GOOD_STEP;
    uint8_t *end = file + 2 * GOOD_STEP - 2;
    for (size_t i = 0; i < sizeof wrong_ends / sizeof wrong_ends[0]; i++) {
        memcpy(end, wrong_ends[i], 2);
        ask_refused("line end", file, length, 212, 2, 0);
    }
    file[GOOD_STEP] = '?';
    ask_refused("line end before identifier", file, length, 212, 2, 0);
    file[0] = '?';
    ask_refused("first record first", file, length, 1, 1, 1);
    put_good_file(file, 2);
}

static void ask_made_files(void)
{
    static uint8_t file[(MOST_RECORDS + 1) * GOOD_STEP + 1];
    put_good_file(file, MOST_RECORDS + 1);
    ask_prefixes(file);
    ask_large(file);
    ask_repeated_kinds(file);
    ask_line_ends(file);
    ask_accepted("999 records again", file, MOST_RECORDS);
}

/* The main consignment of a piece may be anybody's. */
static void ask_main_consignment(void)
{
    uint8_t file[2 * GOOD_STEP], *second = file + GOOD_STEP;
    for (enum whose whose = OURS; whose < WHOSE; whose++) {
        char main[14];
        identifier_of(whose, 3, main);
        put_record_of(file, OURS, 1);
        put_record_of(second, OURS, 2);
        put_field(second, 18, "70");
        put_field(second, 22, main);
        put_field(second, 23, "02");
        put_field(second, 24, "02");
        ask_one_consignor("main consignment", whose, file, 2, 0);
    }
}

static void ask_judged(const char *path, unsigned long number, const struct table *table, const struct item *item,
                       const uint64_t *expected)
{
    lend_table(table->entries, table->count);
    ask(path, number, item->bytes, item->length, expected);
}

int main(int count, char **words)
{
    if (count != 3)
        give_up(words[0], "wants a file of items and one of their lines");
    start(fuganorezi_file_check);
    ask_no_bytes();
    ask_example_14();
    ask_made_files();
    ask_consignors();
    ask_main_consignment();
    ask_tables();
    ask_each(words[1], words[2], UNDER_TABLE, NUMBERS, ask_judged);
    return summary("files");
}
