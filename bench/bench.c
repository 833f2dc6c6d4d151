/*
 * The library's file check beside the reference in C: first that both answer judged files as judged, and files of
 * several consignors as they should; then the time of each on good files of several sizes, under a short table of
 * postcodes and under the longest.
 */
#define _POSIX_C_SOURCE 199309L /* for times.h */
#include "consignors.h"
#include "file_checks.h"
#include "fuganorezi.h"
#include "judged.h"
#include "reference.h"
#include "spread.h"

static const double aim = 1.00;

/* Good files under a table. */
struct good {
    uint8_t *file;
    struct table table;
};

/* Answers */

static void compare(const char *who, unsigned long number, file_check *check, const struct table *table,
                    const struct item *item, const uint64_t expected[NUMBERS])
{
    uint64_t out[NUMBERS];
    uint32_t code = check(item->bytes, item->length, table->entries, table->count, out);
    expect(who, number, code, expected[0]);
    for (int i = 0; i < NUMBERS; i++)
        expect(who, number, out[i], expected[i]);
}

static void compare_both(const char *what, unsigned long number, const struct table *table, const struct item *item,
                         const uint64_t expected[NUMBERS])
{
    char who[64];
    snprintf(who, sizeof who, "%s: library", what);
    compare(who, number, fuganorezi_file_check, table, item, expected);
    snprintf(who, sizeof who, "%s: C", what);
    compare(who, number, reference_file_check, table, item, expected);
}

static void compare_judged(const char *path, unsigned long number, const struct table *table, const struct item *item,
                           const uint64_t *expected)
{
    (void)path;
    compare_both("judged file", number, table, item, expected);
}

static void compare_on_file(const char *what, unsigned long number, const struct good *good, unsigned records,
                            const uint64_t expected[NUMBERS])
{
    struct item item = {good->file, (size_t)records * GOOD_STEP};
    compare_both(what, number, &good->table, &item, expected);
}

static void compare_on_good_file(const struct good *good, unsigned records)
{
    struct good_totals totals = good_totals(records);
    const uint64_t expected[NUMBERS] = {0, 0, 0, totals.live, totals.cancelled, totals.cash, totals.price};
    compare_on_file("good file", records, good, records, expected);
}

/* Each row of four records. */
static void compare_on_consignors(struct table table)
{
    enum { RECORDS = 4 };
    uint8_t file[RECORDS * GOOD_STEP];
    const struct good rows = {file, table};
    enum whose row[RECORDS];
    for (unsigned number = 0; number < rows_of(RECORDS); number++) {
        put_row(row, RECORDS, number);
        put_file_of(file, row, RECORDS);
        const uint64_t accepted[NUMBERS] = {0, 0, 0, RECORDS};
        const uint64_t refused[NUMBERS] = {FUGANOREZI_OTHER_CONSIGNOR, first_other(row, RECORDS), 1};
        compare_on_file("row of consignors", number, &rows, RECORDS, refused[1] == 0 ? accepted : refused);
    }
}

/* Times */

/* The runs take turns, so that what else the machine does falls on both. */
static void print_times(const struct good *good, unsigned records)
{
    uint64_t library[RUNS], reference[RUNS];
    const struct asked asked = {good->file, records, good->table.entries, good->table.count};
    unsigned long calls = calls_for(reference_file_check, &asked);
    for (int i = 0; i < RUNS; i++) {
        library[i] = time_of_calls(fuganorezi_file_check, &asked, calls);
        reference[i] = time_of_calls(reference_file_check, &asked, calls);
    }
    double of_library = median(library, RUNS) / 1000 / (double)calls;
    double of_reference = median(reference, RUNS) / 1000 / (double)calls;
    double ratio = of_library / of_reference;
    printf("%7zu %9u %14.2f %14.2f %12.2f %5.2f %s\n", good->table.count, records, of_library, of_reference, ratio, aim,
           ratio <= aim ? "met" : "missed");
}

int main(int count, char **words)
{
    static const unsigned sizes[] = {1, 10, 100, MOST_RECORDS};
    static uint8_t short_file[MOST_RECORDS * GOOD_STEP], spread_file[MOST_RECORDS * GOOD_STEP];
    static uint32_t short_table[GOOD_ENTRIES], longest_table[MOST_ENTRIES];
    const struct good files[] = {
        {short_file, {short_table, GOOD_ENTRIES}},
        {spread_file, {longest_table, MOST_ENTRIES}},
    };
    if (count != 3)
        give_up(words[0], "wants a file of items and one of their lines");
    put_good_file(short_file, MOST_RECORDS);
    put_spread_file(spread_file, MOST_RECORDS, MOST_RECORDS);
    memcpy(short_table, good_table, sizeof short_table);
    put_longest_table(longest_table);
    ask_each(words[1], words[2], UNDER_TABLE, NUMBERS, compare_judged);
    for (size_t k = 0; k < sizeof files / sizeof files[0]; k++)
        for (size_t i = 0; i < sizeof sizes / sizeof sizes[0]; i++)
            compare_on_good_file(&files[k], sizes[i]);
    compare_on_consignors(files[0].table);
    if (summary("answers of the library and of C") != 0)
        return 1;
    printf("Microseconds for one call, medians of %d runs that take turns:\n", RUNS);
    printf("entries   records        library              C  library / C   aim\n");
    for (size_t k = 0; k < sizeof files / sizeof files[0]; k++)
        for (size_t i = 0; i < sizeof sizes / sizeof sizes[0]; i++)
            print_times(&files[k], sizes[i]);
    return 0;
}
