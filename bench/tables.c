/*
 * What the table of postcodes costs: the file check of the same records under a table of just their postcodes, and under
 * one of as many entries as there may be; beside the reference in C. Then the table alone, with no record.
 */
#define _POSIX_C_SOURCE 199309L /* for times.h */
#include "file_checks.h"
#include "fuganorezi.h"
#include "reference.h"
#include "spread.h"

enum { AIM_IN_PERCENT = 15 };

static uint8_t file[MOST_RECORDS * GOOD_STEP];
static uint32_t all[MOST_ENTRIES], own[MOST_RECORDS];

static int by_number(const void *left, const void *right)
{
    uint32_t a = *(const uint32_t *)left, b = *(const uint32_t *)right;
    return (a > b) - (a < b);
}

/* The good records with so many postcodes, and the table of these. */
static void put_spread(unsigned postcodes)
{
    put_spread_file(file, MOST_RECORDS, postcodes);
    for (unsigned i = 0; i < postcodes; i++)
        own[i] = spread_postcode(i);
    qsort(own, postcodes, sizeof own[0], by_number);
}

/* Each record abroad: there is nothing to look up. */
static void put_abroad(void)
{
    for (unsigned i = 0; i < MOST_RECORDS; i++)
        put_good_record(file + (size_t)i * GOOD_STEP, i * GOOD_KINDS + GOOD_ABROAD);
}

/* Microseconds for one call under either table, by the library and in C. */
struct times {
    double library_own, library_all, c_own, c_all;
};

/* The runs take turns, so that what else the machine does falls on all. */
static struct times measure(unsigned records, unsigned postcodes)
{
    static uint64_t runs[4][RUNS];
    const struct asked under_own = {file, records, own, postcodes}, under_all = {file, records, all, MOST_ENTRIES};
    unsigned long calls = calls_for(reference_file_check, &under_all);
    for (int i = 0; i < RUNS; i++) {
        runs[0][i] = time_of_calls(fuganorezi_file_check, &under_own, calls);
        runs[1][i] = time_of_calls(fuganorezi_file_check, &under_all, calls);
        runs[2][i] = time_of_calls(reference_file_check, &under_own, calls);
        runs[3][i] = time_of_calls(reference_file_check, &under_all, calls);
    }
    double in_one_call = 1000 * (double)calls;
    return (struct times){median(runs[0], RUNS) / in_one_call, median(runs[1], RUNS) / in_one_call,
                          median(runs[2], RUNS) / in_one_call, median(runs[3], RUNS) / in_one_call};
}

static double more_in_percent(double before, double after)
{
    return 100 * (after / before - 1);
}

static void print_row(const char *what, unsigned records, unsigned postcodes)
{
    struct times times = measure(records, postcodes);
    printf("%-12s %9u %12.2f %12.2f %7.1f %5d %12.2f %12.2f %7.1f\n", what, postcodes, times.library_own,
           times.library_all, more_in_percent(times.library_own, times.library_all), AIM_IN_PERCENT, times.c_own,
           times.c_all, more_in_percent(times.c_own, times.c_all));
}

/* Twice as long a table takes twice as long, if a call passes over it once. */
static void print_pass(void)
{
    static const size_t entries[] = {MOST_ENTRIES / 4, MOST_ENTRIES / 2, MOST_ENTRIES};
    printf("A table alone, with no record:\n");
    printf("entries       library            C\n");
    for (size_t k = 0; k < sizeof entries / sizeof entries[0]; k++) {
        static uint64_t library[RUNS], reference[RUNS];
        const struct asked asked = {file, 0, all, entries[k]};
        unsigned long calls = calls_for(fuganorezi_file_check, &asked);
        for (int i = 0; i < RUNS; i++) {
            library[i] = time_of_calls(fuganorezi_file_check, &asked, calls);
            reference[i] = time_of_calls(reference_file_check, &asked, calls);
        }
        printf("%7zu %13.2f %12.2f\n", entries[k], median(library, RUNS) / 1000 / (double)calls,
               median(reference, RUNS) / 1000 / (double)calls);
    }
}

int main(void)
{
    static const unsigned postcodes[] = {1, 10, 100, MOST_RECORDS};
    put_longest_table(all);
    printf("%d records under a table of just their postcodes, and under one of %d. Microseconds for one call, medians\n"
           "of %d runs that take turns, and how much more in percent:\n", MOST_RECORDS, MOST_ENTRIES, RUNS);
    printf("records      postcodes  library own       16,000    more   aim        C own       16,000    more\n");
    put_abroad();
    print_row("all abroad", MOST_RECORDS, 0);
    for (size_t i = 0; i < sizeof postcodes / sizeof postcodes[0]; i++) {
        put_spread(postcodes[i]);
        print_row("mixed", MOST_RECORDS, postcodes[i]);
    }
    print_pass();
    return 0;
}
