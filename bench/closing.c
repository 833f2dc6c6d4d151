/* The closing check beside the file check of the same file: without sets, and with every record in one. */
#define _POSIX_C_SOURCE 199309L /* for times.h */
#include "file_checks.h"
#include "fuganorezi.h"
#include "good_sets.h"

static uint8_t file[MOST_RECORDS * GOOD_STEP];

/* The runs take turns, so that what else the machine does falls on both. */
static void print_times(const char *what, unsigned records)
{
    uint64_t checks[RUNS], closings[RUNS];
    const struct asked asked = {file, records, good_table, GOOD_ENTRIES};
    unsigned long calls = MOST_RECORDS / records;
    for (int i = 0; i < RUNS; i++) {
        checks[i] = time_of_calls(fuganorezi_file_check, &asked, calls);
        closings[i] = time_of_calls(fuganorezi_closing_check, &asked, calls);
    }
    double of_check = median(checks, RUNS) / 1000 / (double)calls;
    double of_closing = median(closings, RUNS) / 1000 / (double)calls;
    printf("%-14s %7u %12.2f %12.2f %15.2f\n", what, records, of_check, of_closing, of_closing / of_check);
}

int main(void)
{
    static const unsigned sizes[] = {1, 10, 100, MOST_RECORDS};
    static const unsigned pieces[] = {1, 3, 99};
    printf("Microseconds for one call, medians of %d runs that take turns:\n", RUNS);
    printf("file           records        check      closing  closing / check\n");
    put_parcels(file, MOST_RECORDS);
    for (size_t i = 0; i < sizeof sizes / sizeof sizes[0]; i++)
        print_times("no sets", sizes[i]);
    for (size_t k = 0; k < sizeof pieces / sizeof pieces[0]; k++)
        for (size_t i = 0; i < sizeof sizes / sizeof sizes[0]; i++) {
            char what[32];
            snprintf(what, sizeof what, "sets of %u", pieces[k]);
            put_sets(file, sizes[i], pieces[k]);
            print_times(what, sizes[i]);
        }
    return 0;
}
