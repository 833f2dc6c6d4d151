/*
 * The table of postcodes from its text: what is written is read, each text that is otherwise written is refused, and a
 * refused one changes nothing. Then the judged cases of the checking program: its psc.txt is read, and where it takes the
 * input the file check answers the same. Text and lent table end where memory that cannot be read begins.
 */
#define _DEFAULT_SOURCE /* for fenced.h */
#include "good_file.h"
#include "tables.h"

enum {
    LINE = 6,
    LONGEST_TEXT = LONGEST_TABLE * LINE,
    MOST_INPUT = 64160, /* of the checking program */
    NUMBERS = FUGANOREZI_OUT_NUMBERS
};

static const uint32_t untouched = 0x07070707;

/* What comes by value has to lie as in the archive. */
_Static_assert(offsetof(fuganorezi_table, place) == 4, "behind the code");
_Static_assert(offsetof(fuganorezi_table, entries) == 8, "behind the place");
_Static_assert(sizeof(fuganorezi_table) == 16, "and nothing more");
_Static_assert(FUGANOREZI_TABLE_TEXT_MOST == MOST_ENTRIES * LINE, "a line for each entry");

static struct fenced text_memory, table_memory;

/* All entries that there are at the fence, whether lent or not, are set to what is told from a postcode. */
static uint32_t *fresh_table(size_t entries)
{
    uint32_t *all = (uint32_t *)table_memory.start;
    for (size_t i = 0; i < (size_t)(table_memory.fence - table_memory.start) / sizeof all[0]; i++)
        all[i] = untouched;
    return (uint32_t *)before_fence(table_memory, entries * sizeof all[0]);
}

/* Of all these entries, those behind the ones that were read and those before the lent table. */
static void expect_untouched(const char *what, unsigned long number, const uint32_t *table, size_t entries, size_t read)
{
    size_t touched = 0;
    for (const uint32_t *at = (const uint32_t *)table_memory.start; at < table; at++)
        touched += *at != untouched;
    for (size_t i = read; i < entries; i++)
        touched += table[i] != untouched;
    expect(what, number, touched, 0);
}

/* Reads into a fresh table of so many entries, which has to change as the answer says. */
static const uint32_t *ask(const char *what, unsigned long number, const uint8_t *text, size_t length, size_t entries,
                           uint32_t code, size_t read)
{
    const uint8_t *there = put_before_fence(text_memory, text, length);
    uint32_t *table = fresh_table(entries);
    protect(text_memory, PROT_READ);
    fuganorezi_table answer = fuganorezi_table_read(there, length, table, entries);
    protect(text_memory, PROT_READ | PROT_WRITE);
    expect(what, number, answer.code, code);
    expect(what, number, answer.place, 0);
    expect(what, number, answer.entries, read);
    expect_untouched(what, number, table, entries, read);
    return table;
}

/* ---- texts of our own */

static size_t put_lines(uint8_t *text, const uint32_t *table, size_t count)
{
    char line[LINE + 1];
    for (size_t i = 0; i < count; i++) {
        snprintf(line, sizeof line, "%05u\n", (unsigned)table[i] % 100000);
        memcpy(text + i * LINE, line, LINE);
    }
    return count * LINE;
}

/* What is written is read: into a table that just fits, and into a longer one; and not into one that is too short. */
static void ask_written(const uint32_t *table, size_t count)
{
    static uint8_t text[LONGEST_TEXT];
    size_t length = put_lines(text, table, count);
    const uint32_t *read = ask("just fitting", count, text, length, count, FUGANOREZI_GOOD, count);
    expect("entries", count, count == 0 || memcmp(read, table, count * sizeof table[0]) == 0, 1);
    read = ask("longer", count, text, length, count + 1, FUGANOREZI_GOOD, count);
    expect("entries", count, count == 0 || memcmp(read, table, count * sizeof table[0]) == 0, 1);
    if (count == 0)
        return;
    ask("too short", count, text, length, count - 1, FUGANOREZI_WRONG_LENGTH, 0);
    ask("no entries lent", count, text, length, 0, FUGANOREZI_WRONG_LENGTH, 0);
    /* the text is judged before the lent table */
    ask("no line feed, and too short", count, text, length - 1, count - 1, FUGANOREZI_WRONG_TABLE, 0);
    ask("no line feed", count, text, length - 1, count, FUGANOREZI_WRONG_TABLE, 0);
}

static void ask_all_written(void)
{
    static const uint32_t ends[] = {0, 1, 9, 10, 99, 100, 999, 1000, 9999, 10000, 99998, 99999};
    for (size_t count = 0; count <= sizeof ends / sizeof ends[0]; count++)
        ask_written(ends, count);
    ask_written(good_table, GOOD_ENTRIES);
    ask_written(rising(0, 1, MOST_ENTRIES), MOST_ENTRIES);
    ask_written(rising(84000, 1, MOST_ENTRIES), MOST_ENTRIES);
    ask_written(rising(7, 6, MOST_ENTRIES - 1), MOST_ENTRIES - 1);
}

static void ask_too_many(void)
{
    static uint8_t text[LONGEST_TEXT];
    size_t length = put_lines(text, rising(0, 1, LONGEST_TABLE), LONGEST_TABLE);
    ask("16,001 lines", 0, text, length, LONGEST_TABLE, FUGANOREZI_WRONG_TABLE, 0);
    ask("16,001 lines, too short", 0, text, length, 1, FUGANOREZI_WRONG_TABLE, 0);
    ask("16,000 lines and a byte", 0, text, length - LINE + 1, LONGEST_TABLE, FUGANOREZI_WRONG_TABLE, 0);
    ask("16,001 lines, the last not ended", 0, text, length - 1, LONGEST_TABLE, FUGANOREZI_WRONG_TABLE, 0);
    /* the last line of 16,000 does not rise */
    put_lines(text + (MOST_ENTRIES - 1) * LINE, rising(MOST_ENTRIES - 2, 1, 1), 1);
    ask("16,000 lines, the last two equal", 0, text, FUGANOREZI_TABLE_TEXT_MOST, MOST_ENTRIES, FUGANOREZI_WRONG_TABLE, 0);
}

/* How many lines a text has, as the header says it; -1 for one that is otherwise written. */
static long lines_of(const uint8_t *text, size_t length)
{
    long before = -1;
    for (size_t at = 0; at < length; at += LINE) {
        long number = 0;
        if (length - at < LINE || text[at + LINE - 1] != '\n')
            return -1;
        for (size_t i = at; i < at + LINE - 1; i++) {
            if (text[i] < '0' || text[i] > '9')
                return -1;
            number = number * 10 + (text[i] - '0');
        }
        if (number <= before)
            return -1;
        before = number;
    }
    return (long)(length / LINE);
}

static void ask_as_written(const char *what, unsigned long number, const uint8_t *text, size_t length)
{
    long lines = lines_of(text, length);
    ask(what, number, text, length, 4, lines < 0 ? FUGANOREZI_WRONG_TABLE : FUGANOREZI_GOOD, lines < 0 ? 0 : (size_t)lines);
}

/* Each byte of three lines in the place of each other, taken away and put in twice; and every prefix. */
static void ask_changed(void)
{
    static const char lines[] = "10000\n11000\n60200\n";
    enum { LENGTH = sizeof lines - 1 };
    uint8_t text[LENGTH + 1];
    for (size_t at = 0; at < LENGTH; at++) {
        for (unsigned byte = 0; byte < 256; byte++) {
            memcpy(text, lines, LENGTH);
            text[at] = (uint8_t)byte;
            ask_as_written("another byte", at * 256 + byte, text, LENGTH);
        }
        ask_as_written("prefix", at, (const uint8_t *)lines, at);
        memcpy(text, lines, at);
        memcpy(text + at, lines + at + 1, LENGTH - at - 1);
        ask_as_written("a byte missing", at, text, LENGTH - 1);
        memcpy(text + at, lines + at, LENGTH - at);
        memmove(text + at + 1, text + at, LENGTH - at);
        ask_as_written("a byte twice", at, text, LENGTH + 1);
    }
}

static void ask_bad_texts(void)
{
    static const char *const texts[] = {
        "\n",     "1\n",     "1100\n",         "110000\n",       "11000\r\n", " 11000\n", "11000 \n", "+1100\n",
        "-1100\n", "11 00\n", "1100a\n",        "11000\n\n",      "\n11000\n", "11000",    "11000\n6", "11000\n60200",
        "11000,",  "11000\r", "11000\n11000\n", "60200\n11000\n", "11000\n\x1a",
    };
    for (size_t i = 0; i < sizeof texts / sizeof texts[0]; i++) {
        const uint8_t *text = (const uint8_t *)texts[i];
        ask(texts[i], i, text, strlen(texts[i]), 4, FUGANOREZI_WRONG_TABLE, 0);
        ask(texts[i], i, text, strlen(texts[i]), 0, FUGANOREZI_WRONG_TABLE, 0);
    }
    /* a zero byte ends no text */
    ask("zero byte", 0, (const uint8_t *)"11000\n\0", 7, 4, FUGANOREZI_WRONG_TABLE, 0);
    ask("zero byte first", 0, (const uint8_t *)"\0" "1100\n", 6, 4, FUGANOREZI_WRONG_TABLE, 0);
}

static void ask_nothing(void)
{
    uint32_t table[2] = {untouched, untouched};
    fuganorezi_table answer = fuganorezi_table_read(NULL, 0, NULL, 0);
    expect("NULL and NULL", 0, answer.code, FUGANOREZI_GOOD);
    expect("NULL and NULL", 1, answer.entries, 0);
    answer = fuganorezi_table_read(NULL, 0, table, 2);
    expect("NULL", 0, answer.code, FUGANOREZI_GOOD);
    expect("NULL", 1, answer.entries, 0);
    expect("NULL", 2, table[0] == untouched && table[1] == untouched, 1);
    answer = fuganorezi_table_read((const uint8_t *)"11000\n", LINE, NULL, 0);
    expect("no table", 0, answer.code, FUGANOREZI_WRONG_LENGTH);
}

/* ---- judged cases: the length of psc.txt, all ones where there is none, its bytes, and the input */

static size_t length_of_psc(const struct item *item)
{
    size_t length = four_bytes(item->bytes);
    return length == UINT32_MAX ? 0 : length;
}

static void ask_file(const char *path, unsigned long number, const uint8_t *input, size_t length, const uint32_t *table,
                     size_t entries, const uint64_t expected[NUMBERS])
{
    uint64_t out[NUMBERS];
    fuganorezi_file_check(input, length, table, entries, out);
    for (int i = 0; i < NUMBERS; i++)
        expect(path, number, out[i], expected[i]);
}

static void ask_judged(const char *path, unsigned long number, const struct table *none, const struct item *item,
                       const uint64_t *expected)
{
    size_t length = length_of_psc(item), behind = item->length - 4 - length;
    bool right = expected[0] != FUGANOREZI_WRONG_TABLE;
    (void)none;
    const uint32_t *table = ask(path, number, item->bytes + 4, length, MOST_ENTRIES, right ? 0 : FUGANOREZI_WRONG_TABLE,
                                right ? length / LINE : 0);
    if (right && behind <= MOST_INPUT)
        ask_file(path, number, item->bytes + 4 + length, behind, table, length / LINE, expected);
}

int main(int count, char **words)
{
    if (count != 3)
        give_up(words[0], "wants a file of items and one of their lines");
    text_memory = fenced_memory(LONGEST_TEXT);
    table_memory = fenced_memory((LONGEST_TABLE + 1) * sizeof(uint32_t));
    ask_all_written();
    ask_too_many();
    ask_changed();
    ask_bad_texts();
    ask_nothing();
    ask_each(words[1], words[2], BARE, NUMBERS, ask_judged);
    return summary("tables");
}
