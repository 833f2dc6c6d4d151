/* How long calls of a check over a whole file take. */
#ifndef FILE_CHECKS_H
#define FILE_CHECKS_H

#include "good_file.h"
#include "times.h"

enum { MOST_RECORDS = 999, RUNS = 201, NUMBERS = 7 };

typedef uint32_t file_check(const uint8_t *bytes, size_t length, const uint32_t *table, size_t entries,
                            uint64_t out[NUMBERS]);

/* A good file under a right table. */
struct asked {
    const uint8_t *file;
    unsigned records;
    const uint32_t *table;
    size_t entries;
};

static inline uint64_t time_of_calls(file_check *check, const struct asked *asked, unsigned long calls)
{
    uint64_t out[NUMBERS];
    uint64_t start = now_in_nanoseconds();
    for (unsigned long i = 0; i < calls; i++)
        if (check(asked->file, (size_t)asked->records * GOOD_STEP, asked->table, asked->entries, out) != 0)
            give_up("a good file", "was refused");
    return now_in_nanoseconds() - start;
}

/* So many calls that one run is long beside the clock's own step. */
static inline unsigned long calls_for(file_check *check, const struct asked *asked)
{
    const uint64_t long_enough = 1000000;
    unsigned long calls = 1;
    while (time_of_calls(check, asked, calls) < long_enough)
        calls *= 2;
    return calls;
}

#endif
