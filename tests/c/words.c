/*
 * The words for C: each code at each place that a judged line has, or that the tests of other calls ask for, has words;
 * what no call gives has none; and there is a field for each number from 1 to 26.
 */
#include "fuganorezi_words.h"
#include "judged.h"

#include <string.h>

static void expect_words(const char *what, unsigned long number, uint64_t code, uint64_t place)
{
    if (code != FUGANOREZI_GOOD)
        expect(what, number, fuganorezi_rule_for(code, place) != NULL, 1);
}

/* Each line of the file has so many numbers: the code is the first, and the place is this one, counted from 0. */
static void ask_lines(const char *path, size_t count, size_t place)
{
    FILE *lines = open_or_give_up(path);
    uint64_t numbers[16];
    int next;
    for (unsigned long number = 1; (next = fgetc(lines)) != EOF; number++) {
        ungetc(next, lines);
        read_line(lines, path, numbers, count);
        expect_words(path, number, numbers[0], numbers[place]);
        while ((next = fgetc(lines)) != '\n' && next != EOF)
            ;
    }
    fclose(lines);
}

static void ask_no_words(void)
{
    expect("good", 0, fuganorezi_rule_for(FUGANOREZI_GOOD, 0) != NULL, 0);
    expect("no such code", 0, fuganorezi_rule_for(3, 0) != NULL, 0);
    expect("no such place", 0, fuganorezi_rule_for(FUGANOREZI_WEIGHT_MISSING, 14) != NULL, 0);
    expect("no such field", 0, fuganorezi_rule_for(FUGANOREZI_MALFORMED, 27) != NULL, 0);
    expect("a number too large", 0, fuganorezi_rule_for(FUGANOREZI_MALFORMED, FUGANOREZI_ANY_FIELD) != NULL, 0);
    expect("no words are words too", 0, strlen(fuganorezi_words(3, 0)) != 0, 1);
}

/* The fields lie behind each other and are the record. */
static void ask_fields(void)
{
    uint32_t start = 0;
    for (unsigned number = 1; number <= FUGANOREZI_FIELDS; number++) {
        const fuganorezi_field *field = fuganorezi_field_at(number);
        expect("start", number, field->start, start);
        expect("name and form", number, field->name[0] != 0 && field->form[0] != 0, 1);
        start += field->width;
    }
    expect("all fields", 0, start, FUGANOREZI_RECORD_LENGTH);
    expect("field 0", 0, fuganorezi_field_at(0) == NULL, 1);
    expect("field 27", 0, fuganorezi_field_at(FUGANOREZI_FIELDS + 1) == NULL, 1);
}

static void ask_version(void)
{
    char version[32];
    snprintf(version, sizeof version, "%d.%d.%d", FUGANOREZI_VERSION_MAJOR, FUGANOREZI_VERSION_MINOR, FUGANOREZI_VERSION_PATCH);
    expect(FUGANOREZI_VERSION, 0, strcmp(version, FUGANOREZI_VERSION) == 0, 1);
}

int main(int count, char **words)
{
    if (count != 9)
        give_up(words[0], "wants the lines of identifiers, records, rules, files, closing, kcheck, consignors and histories");
    ask_lines(words[1], 2, 1);
    ask_lines(words[2], 2, 1);
    ask_lines(words[3], 2, 1);
    ask_lines(words[4], 7, 2);
    ask_lines(words[5], 3, 2);
    ask_lines(words[6], 7, 2);
    ask_lines(words[7], 4, 1);
    ask_lines(words[8], 10, 1);
    ask_no_words();
    ask_fields();
    ask_version();
    return summary("words");
}
