/*
 * A warehouse's check before a K file goes to the post: what is wrong in it, in words, or its totals in crowns.
 *
 * Build, at the repository's root, after `rt lib` in crates/fuganorezi:
 *
 *     cc -std=c11 -O2 -Iinclude -o warehouse examples/c/warehouse.c crates/fuganorezi/out/libfuganorezi.a
 *
 * Use: warehouse [--closing] TABLE FILE
 * TABLE has the postcodes that exist, as psc.txt has them: five digits and a line feed a line, rising.
 * With --closing it also looks whether the sets that travel together are whole.
 * Status 0: FILE is good. 1: it or TABLE is wrong. 2: one of them cannot be read.
 */
#include "fuganorezi_words.h"

#include <errno.h>
#include <inttypes.h>
#include <stdbool.h>
#include <stdio.h>
#include <stdlib.h>
#include <string.h>

enum { FILE_IS_GOOD = 0, FILE_IS_WRONG = 1, CANNOT_BE_READ = 2 };

/* The file check or the closing check. */
typedef uint32_t file_check(const uint8_t *bytes, size_t length, const uint32_t *table, size_t entries,
                            uint64_t out[FUGANOREZI_OUT_NUMBERS]);

/* The postcodes that exist. */
static uint32_t table[FUGANOREZI_TABLE_MOST];

/* All that is there, which the caller frees; NULL, with errno set, if it cannot be read. */
static uint8_t *read_all(FILE *from, size_t *length)
{
    size_t room = 1 << 16;
    uint8_t *bytes = malloc(room);
    *length = 0;
    while (bytes != NULL) {
        *length += fread(bytes + *length, 1, room - *length, from);
        if (*length < room)
            break;
        room *= 2;
        uint8_t *more = realloc(bytes, room);
        if (more == NULL)
            free(bytes);
        bytes = more;
    }
    if (bytes != NULL && ferror(from)) {
        free(bytes);
        return NULL;
    }
    return bytes;
}

/* A whole file, which the caller frees. Where it cannot be read, the program ends. */
static uint8_t *read_file(const char *path, size_t *length)
{
    FILE *file = fopen(path, "rb");
    uint8_t *bytes = file == NULL ? NULL : read_all(file, length);
    if (bytes == NULL) {
        fprintf(stderr, "%s: cannot be read: %s\n", path, strerror(errno));
        exit(CANNOT_BE_READ);
    }
    fclose(file);
    return bytes;
}

/* Sets `table`, and gives how many entries it has. Where the file has no table, the program ends. */
static size_t read_table(const char *path)
{
    size_t length;
    uint8_t *text = read_file(path, &length);
    fuganorezi_table read = fuganorezi_table_read(text, length, table, FUGANOREZI_TABLE_MOST);
    free(text);
    if (read.code != FUGANOREZI_GOOD) {
        printf("%s: %s [code %" PRIu32 "]\n", path, fuganorezi_words(read.code, read.place), read.code);
        exit(FILE_IS_WRONG);
    }
    return read.entries;
}

/* A record by its number and, if its identifier is right and so fit to be printed, by that too. */
static void print_record(const uint8_t *bytes, uint64_t number)
{
    const uint8_t *identifier = bytes + (number - 1) * FUGANOREZI_LINE_LENGTH;
    printf(": record %" PRIu64, number);
    if (fuganorezi_identifier_check(identifier, FUGANOREZI_IDENTIFIER_LENGTH) == FUGANOREZI_GOOD)
        printf(" (%.*s)", FUGANOREZI_IDENTIFIER_LENGTH, (const char *)identifier);
}

static void print_what_is_wrong(const char *path, const uint8_t *bytes, const uint64_t *numbers)
{
    const uint64_t code = numbers[FUGANOREZI_OUT_CODE], place = numbers[FUGANOREZI_OUT_PLACE];
    const fuganorezi_field *field = fuganorezi_field_at(place);
    printf("%s", path);
    if (numbers[FUGANOREZI_OUT_RECORD] != 0)
        print_record(bytes, numbers[FUGANOREZI_OUT_RECORD]);
    if (field != NULL)
        printf(", field %" PRIu64 " (%s)", place, field->name);
    printf(": %s", fuganorezi_words(code, place));
    if (code == FUGANOREZI_MALFORMED && field != NULL)
        printf(", expected %s", field->form);
    printf(" [code %" PRIu64 "]\n", code);
}

/* In groups of three digits: the highest group as it is, each other with its zeros. */
static void print_grouped(uint64_t number)
{
    if (number < 1000) {
        printf("%" PRIu64, number);
        return;
    }
    print_grouped(number / 1000);
    printf(" %03" PRIu64, number % 1000);
}

static void print_crowns(const char *what, uint64_t hellers)
{
    printf("  %s ", what);
    print_grouped(hellers / 100);
    printf(".%02" PRIu64 " Kč\n", hellers % 100);
}

static void print_totals(const char *path, const uint64_t *numbers)
{
    printf("%s: good\n", path);
    printf("  to be posted     %" PRIu64 "\n", numbers[FUGANOREZI_OUT_LIVE]);
    printf("  cancelled        %" PRIu64 "\n", numbers[FUGANOREZI_OUT_CANCELLED]);
    print_crowns("cash on delivery", numbers[FUGANOREZI_OUT_CASH]);
    print_crowns("price specified ", numbers[FUGANOREZI_OUT_PRICE]);
}

static int check(file_check *call, size_t entries, const char *path)
{
    uint64_t numbers[FUGANOREZI_OUT_NUMBERS];
    size_t length;
    uint8_t *bytes = read_file(path, &length);
    bool good = call(bytes, length, table, entries, numbers) == FUGANOREZI_GOOD;
    if (good)
        print_totals(path, numbers);
    else
        print_what_is_wrong(path, bytes, numbers);
    free(bytes);
    return good ? FILE_IS_GOOD : FILE_IS_WRONG;
}

int main(int count, char **words)
{
    bool closing = count == 4 && strcmp(words[1], "--closing") == 0;
    if (count != 3 && !closing) {
        fprintf(stderr, "usage: %s [--closing] TABLE FILE\n", count > 0 ? words[0] : "warehouse");
        return CANNOT_BE_READ;
    }
    size_t entries = read_table(words[count - 2]);
    return check(closing ? fuganorezi_closing_check : fuganorezi_file_check, entries, words[count - 1]);
}
