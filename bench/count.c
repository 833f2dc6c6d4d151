/*
 * One call of the file check on a good file, for bench/instructions: of the library or of the reference in C, and under
 * the table of the good records or under the longest, over which the postcodes are spread.
 */
#define _POSIX_C_SOURCE 199309L /* for times.h */
#include "file_checks.h"
#include "fuganorezi.h"
#include "reference.h"
#include "spread.h"

int main(int count, char **words)
{
    static uint8_t file[MOST_RECORDS * GOOD_STEP];
    static uint32_t longest_table[MOST_ENTRIES];
    if (count != 4)
        give_up(words[0], "wants library or c, a number of records, and 3 or 16000 entries");
    file_check *check = strcmp(words[1], "library") == 0 ? fuganorezi_file_check : reference_file_check;
    unsigned records = (unsigned)atoi(words[2]) % (MOST_RECORDS + 1);
    bool longest = atoi(words[3]) == MOST_ENTRIES;
    const struct asked under_good = {file, records, good_table, GOOD_ENTRIES};
    const struct asked under_longest = {file, records, longest_table, MOST_ENTRIES};
    put_longest_table(longest_table);
    if (longest)
        put_spread_file(file, records, MOST_RECORDS);
    else
        put_good_file(file, records);
    time_of_calls(check, longest ? &under_longest : &under_good, 1);
    return 0;
}
