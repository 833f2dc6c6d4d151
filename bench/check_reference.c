/* Whether the reference in C answers as judged: whole files and, where they are given too, single records. */
#include "judged.h"
#include "reference.h"

static void check_file(const char *path, unsigned long number, const struct table *table, const struct item *item,
                       const uint64_t *expected)
{
    uint64_t out[7];
    uint32_t code = reference_file_check(item->bytes, item->length, table->entries, table->count, out);
    expect(path, number, code, out[0]);
    for (int i = 0; i < 7; i++)
        expect(path, number, out[i], expected[i]);
}

static void check_record(const char *path, unsigned long number, const struct table *table, const struct item *item,
                         const uint64_t *expected)
{
    uint32_t place;
    uint32_t code = reference_record_check(item->bytes, item->length, table->entries, table->count, &place);
    expect(path, number, code, expected[0]);
    expect(path, number, place, expected[1]);
}

int main(int count, char **words)
{
    if (count < 3 || count % 2 == 0)
        give_up(words[0], "wants files and their lines and, if need be, records and their lines, once or more");
    ask_each(words[1], words[2], UNDER_TABLE, 7, check_file);
    for (int i = 3; i < count; i += 2)
        ask_each(words[i], words[i + 1], UNDER_TABLE, 2, check_record);
    return summary("reference");
}
