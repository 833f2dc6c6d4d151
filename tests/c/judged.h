/*
 * What the C tests share: counting what was asked, and reading judged items. A file of items has,
 * for each, four bytes of length, little-endian, and the bytes.
 */
#ifndef JUDGED_H
#define JUDGED_H

#include <inttypes.h>
#include <stdint.h>
#include <stdio.h>
#include <stdlib.h>

struct item {
    uint8_t *bytes;
    size_t length;
};

/* A table of postcodes. */
struct table {
    uint32_t *entries;
    size_t count;
};

static unsigned long asked, wrong;

/* Ends the test where what it was given cannot serve. */
static inline void give_up(const char *what, const char *why)
{
    fprintf(stderr, "%s: %s\n", what, why);
    exit(2);
}

/* Counts one answer, and tells of it where it is not the expected one. */
static inline void expect(const char *what, unsigned long number, uint64_t got, uint64_t expected)
{
    asked++;
    if (got != expected) {
        wrong++;
        fprintf(stderr, "%s %lu: answered %" PRIu64 ", expected %" PRIu64 "\n", what, number, got, expected);
    }
}

static inline FILE *open_or_give_up(const char *path)
{
    FILE *file = fopen(path, "rb");
    if (file == NULL)
        give_up(path, "cannot be opened");
    return file;
}

/* The number that four bytes write, the lowest first. */
static inline size_t four_bytes(const uint8_t bytes[4])
{
    return bytes[0] | (size_t)bytes[1] << 8 | (size_t)bytes[2] << 16 | (size_t)bytes[3] << 24;
}

static inline uint64_t eight_bytes(const uint8_t bytes[8])
{
    return four_bytes(bytes) | (uint64_t)four_bytes(bytes + 4) << 32;
}

/* The sum of bytes that a judged line gives for a lent part or buffer. */
static inline uint32_t adler_32(const uint8_t *bytes, size_t length)
{
    uint32_t a = 1, b = 0;
    for (size_t i = 0; i < length; i++) {
        a = (a + bytes[i]) % 65521;
        b = (b + a) % 65521;
    }
    return b << 16 | a;
}

/* The next item, in memory of exactly its length, which the caller frees; 0 at the file's end. */
static inline int next_item(FILE *from, const char *path, struct item *item)
{
    uint8_t head[4];
    size_t got = fread(head, 1, sizeof head, from);
    if (got == 0 && feof(from))
        return 0;
    if (got != sizeof head)
        give_up(path, "cut short in a length");
    item->length = four_bytes(head);
    item->bytes = malloc(item->length);
    if (item->bytes == NULL && item->length != 0)
        give_up(path, "an item too long for the memory");
    if (fread(item->bytes, 1, item->length, from) != item->length)
        give_up(path, "cut short in an item");
    return 1;
}

/* How many bytes a table takes that stands here: four with the number of its entries, and four for each. */
static inline size_t table_length(const uint8_t *bytes)
{
    return 4 + 4 * four_bytes(bytes);
}

/* The table at the front of these bytes, in memory of exactly its length, which the caller frees. */
static inline struct table table_in(const uint8_t *bytes, size_t length)
{
    if (length < 4 || length < table_length(bytes))
        give_up("an item", "cut short in its table");
    struct table table = {NULL, four_bytes(bytes)};
    if (table.count != 0 && (table.entries = malloc(table.count * sizeof table.entries[0])) == NULL)
        give_up("an item", "a table too long for the memory");
    for (size_t i = 0; i < table.count; i++)
        table.entries[i] = (uint32_t)four_bytes(bytes + 4 + 4 * i);
    return table;
}

/* The numbers of the next line. */
static inline void read_line(FILE *lines, const char *path, uint64_t *numbers, size_t count)
{
    for (size_t i = 0; i < count; i++)
        if (fscanf(lines, "%" SCNu64, &numbers[i]) != 1)
            give_up(path, "fewer lines than answers");
}

static inline void expect_no_line(FILE *lines, const char *path)
{
    uint64_t number;
    if (fscanf(lines, "%" SCNu64, &number) == 1)
        give_up(path, "more lines than answers");
}

enum { MOST_NUMBERS = 7 };

/* Whether a table stands at the front of each item. */
enum form { BARE, UNDER_TABLE };

/* What is asked of an item, under a table that has no entries where the items are bare. The line has these numbers. */
typedef void ask_item(const char *path, unsigned long number, const struct table *table, const struct item *item,
                      const uint64_t *expected);

static inline void ask_one(const char *path, unsigned long number, enum form form, const struct item *item,
                           const uint64_t *expected, ask_item *ask)
{
    struct table table = {NULL, 0};
    struct item rest = *item;
    if (form == UNDER_TABLE) {
        table = table_in(item->bytes, item->length);
        rest.bytes += table_length(item->bytes);
        rest.length -= table_length(item->bytes);
    }
    ask(path, number, &table, &rest, expected);
    free(table.entries);
}

/* Asks about each item of a file; the line of each has so many numbers. */
static inline void ask_each(const char *items_path, const char *lines_path, enum form form, size_t count, ask_item *ask)
{
    FILE *items = open_or_give_up(items_path);
    FILE *lines = open_or_give_up(lines_path);
    struct item item;
    uint64_t expected[MOST_NUMBERS];
    for (unsigned long number = 1; next_item(items, items_path, &item); number++) {
        read_line(lines, lines_path, expected, count);
        ask_one(items_path, number, form, &item, expected, ask);
        free(item.bytes);
    }
    expect_no_line(lines, lines_path);
    fclose(items);
    fclose(lines);
}

/* Prints the summary, and gives the status to end with. */
static inline int summary(const char *test)
{
    printf("%s: %lu answers, %lu wrong\n", test, asked, wrong);
    return wrong == 0 ? 0 : 1;
}

#endif
