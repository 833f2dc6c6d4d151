/*
 * The writers from C: the judged vectors, the paper's examples, each way to have no writing, and every length. The bytes
 * lent end where memory that cannot be read begins.
 */
#define _DEFAULT_SOURCE /* for fenced.h */
#include "fenced.h"
#include "fuganorezi.h"

enum {
    IDENTIFIER = FUGANOREZI_IDENTIFIER_LENGTH,
    WEIGHT = FUGANOREZI_WIDTH_15,
    AMOUNT = FUGANOREZI_WIDTH_16,
    LONGEST = 256, /* of a lent part */
    UNTOUCHED = 7  /* what a lent part holds before the call */
};

/* What goes by value has to lie as in the archive. */
_Static_assert(offsetof(fuganorezi_parts, last) == 2, "behind the prefix");
_Static_assert(offsetof(fuganorezi_parts, consignor) == 8, "behind the last byte, aligned");
_Static_assert(offsetof(fuganorezi_parts, posting) == 16, "behind the consignor");
_Static_assert(sizeof(fuganorezi_parts) == 24, "and nothing more");

static struct fenced memory;

static uint8_t *lent(size_t length)
{
    uint8_t *part = before_fence(memory, length);
    memset(memory.start, UNTOUCHED, (size_t)(memory.fence - memory.start));
    return part;
}

/* What stands before the part is never touched, and all of a refused one is as it was. */
static void expect_around(const char *what, unsigned long number, const uint8_t *part, size_t length, uint32_t code)
{
    const uint8_t *end = code == 0 ? part : part + length;
    size_t touched = 0;
    for (const uint8_t *at = memory.start; at < end; at++)
        touched += *at != UNTOUCHED;
    expect(what, number, touched, 0);
}

static void expect_answer(const char *what, unsigned long number, fuganorezi_answer answer, uint64_t code, uint64_t place)
{
    expect(what, number, answer.code, code);
    expect(what, number, answer.place, place);
}

static void expect_text(const char *what, const uint8_t *part, size_t length, const char *text)
{
    if (strlen(text) != length)
        give_up(text, "is not as long as the field");
    expect(what, 0, memcmp(part, text, length) == 0, 1);
}

/* ---- identifiers */

static fuganorezi_parts parts_of(const char *prefix, char last, uint64_t consignor, uint64_t posting)
{
    fuganorezi_parts parts = {(uint8_t)prefix[0], (uint8_t)prefix[1], (uint8_t)last, consignor, posting};
    return parts;
}

static void ask_written(const char *text, fuganorezi_parts parts)
{
    uint8_t *part = lent(IDENTIFIER);
    fuganorezi_answer answer = fuganorezi_identifier_write(part, IDENTIFIER, parts);
    expect_answer(text, 0, answer, FUGANOREZI_GOOD, 0);
    expect_around(text, 0, part, IDENTIFIER, answer.code);
    expect_text(text, part, IDENTIFIER, text);
    expect(text, 0, fuganorezi_identifier_check(part, IDENTIFIER), 0);
}

static void ask_not_written(const char *what, size_t length, fuganorezi_parts parts, uint32_t code, uint32_t place)
{
    uint8_t *part = lent(length);
    fuganorezi_answer answer = fuganorezi_identifier_write(part, length, parts);
    expect_answer(what, length, answer, code, place);
    expect_around(what, length, part, length, code);
}

static void ask_identifiers(void)
{
    ask_written("BO5412345671F", parts_of("BO", 'F', 54, 1234567));
    ask_written("EE021831216CZ", parts_of("EE", 'Z', 0, 2183121));
    ask_written("BO3601002029C", parts_of("BO", 'C', 3601, 202));
    ask_written("BO0800000020F", parts_of("BO", 'F', 8, 2));
    ask_written("BO0810000024U", parts_of("BO", 'U', 81, 2));
    ask_written("BO3615102027M", parts_of("BO", 'M', 36151, 202));
    ask_written("BO0100010005F", parts_of("BO", 'F', 1, 1000));
    ask_not_written("small letter", IDENTIFIER, parts_of("Bo", 'F', 54, 1), FUGANOREZI_WRONG_IDENTIFIER, 1);
    ask_not_written("space first", IDENTIFIER, parts_of(" B", 'F', 54, 1), FUGANOREZI_WRONG_IDENTIFIER, 1);
    ask_not_written("no such end", IDENTIFIER, parts_of("BO", 'A', 54, 1), FUGANOREZI_WRONG_IDENTIFIER, 1);
    ask_not_written("no consignor", IDENTIFIER, parts_of("BO", 'F', 0, 1), FUGANOREZI_WRONG_IDENTIFIER, 1);
    ask_not_written("long consignor", IDENTIFIER, parts_of("BO", 'F', 100, 1), FUGANOREZI_WRONG_IDENTIFIER, 1);
    ask_not_written("no posting number", IDENTIFIER, parts_of("BO", 'F', 54, 0), FUGANOREZI_WRONG_IDENTIFIER, 1);
    ask_not_written("long posting number", IDENTIFIER, parts_of("BO", 'F', 54, 10000000), FUGANOREZI_WRONG_IDENTIFIER, 1);
    ask_not_written("consignor of CZ", IDENTIFIER, parts_of("EE", 'Z', 1, 1), FUGANOREZI_WRONG_IDENTIFIER, 1);
    ask_not_written("highest numbers", IDENTIFIER, parts_of("BO", 'F', UINT64_MAX, UINT64_MAX), FUGANOREZI_WRONG_IDENTIFIER, 1);
    for (size_t length = 0; length <= LONGEST; length++)
        if (length != IDENTIFIER)
            ask_not_written("of another length", length, parts_of("BO", 'F', 54, 1), FUGANOREZI_WRONG_LENGTH, 0);
}

/* ---- amounts and weights */

typedef fuganorezi_answer number_writer(uint8_t *bytes, size_t length, uint64_t number);

static fuganorezi_answer ask_number(number_writer *write, size_t length, uint64_t number, uint64_t code)
{
    uint8_t *part = lent(length);
    fuganorezi_answer answer = write(part, length, number);
    expect_answer("a number", number, answer, code, 0);
    expect_around("a number", number, part, length, answer.code);
    return answer;
}

static void ask_text(number_writer *write, size_t width, uint64_t number, const char *text)
{
    ask_number(write, width, number, FUGANOREZI_GOOD);
    expect_text(text, before_fence(memory, width), width, text);
}

static void ask_numbers(number_writer *write, size_t width, uint64_t most)
{
    ask_number(write, width, most, FUGANOREZI_GOOD);
    ask_number(write, width, most + 1, FUGANOREZI_MALFORMED);
    ask_number(write, width, UINT64_MAX, FUGANOREZI_MALFORMED);
    for (size_t length = 0; length <= LONGEST; length++)
        if (length != width) {
            ask_number(write, length, 1, FUGANOREZI_WRONG_LENGTH);
            ask_number(write, length, most + 1, FUGANOREZI_WRONG_LENGTH);
        }
}

static void ask_amounts_and_weights(void)
{
    ask_text(fuganorezi_amount_write, AMOUNT, 0, "0.00        ");
    ask_text(fuganorezi_amount_write, AMOUNT, 123450, "1234.50     ");
    ask_text(fuganorezi_amount_write, AMOUNT, FUGANOREZI_AMOUNT_MOST, "999999999.99");
    ask_text(fuganorezi_weight_write, WEIGHT, 1, " 0.001");
    ask_text(fuganorezi_weight_write, WEIGHT, 2350, " 2.350");
    ask_text(fuganorezi_weight_write, WEIGHT, FUGANOREZI_WEIGHT_MOST, "99.999");
    ask_numbers(fuganorezi_amount_write, AMOUNT, FUGANOREZI_AMOUNT_MOST);
    ask_numbers(fuganorezi_weight_write, WEIGHT, FUGANOREZI_WEIGHT_MOST);
}

/* ---- judged vectors: the calls below the record, of which those that write are for C too */

enum judged_call { OTHER_CALL = 0, NUMBER_WRITTEN = 2, IDENTIFIER_WRITTEN = 3 };

/* The call of an item. A number that is absent is written as blanks, for which C has no call. */
static enum judged_call call_of(const struct item *item)
{
    enum judged_call call = (enum judged_call)item->bytes[0];
    return call == IDENTIFIER_WRITTEN || (call == NUMBER_WRITTEN && item->bytes[6] == 0) ? call : OTHER_CALL;
}

static void expect_line(const char *path, unsigned long number, fuganorezi_answer answer, size_t length,
                        const uint64_t expected[3])
{
    const uint8_t *part = before_fence(memory, length);
    expect_answer(path, number, answer, expected[0], expected[1]);
    expect_around(path, number, part, length, answer.code);
    expect(path, number, adler_32(part, length), expected[2]);
}

static void ask_number_written(const char *path, unsigned long number, const uint8_t *bytes, const uint64_t expected[3])
{
    size_t length = four_bytes(bytes + 2);
    number_writer *write = bytes[1] == 15 ? fuganorezi_weight_write : fuganorezi_amount_write;
    expect_line(path, number, write(lent(length), length, eight_bytes(bytes + 7)), length, expected);
}

static void ask_identifier_written(const char *path, unsigned long number, const uint8_t *bytes, const uint64_t expected[3])
{
    size_t length = four_bytes(bytes + 1);
    fuganorezi_parts parts = {bytes[5], bytes[6], bytes[7], eight_bytes(bytes + 8), eight_bytes(bytes + 16)};
    expect_line(path, number, fuganorezi_identifier_write(lent(length), length, parts), length, expected);
}

/* Lines of other calls have other numbers, so each is read as a line. */
static void ask_judged(const char *items_path, const char *lines_path)
{
    FILE *items = open_or_give_up(items_path);
    FILE *lines = open_or_give_up(lines_path);
    struct item item;
    char line[256];
    unsigned long before = asked;
    for (unsigned long number = 1; next_item(items, items_path, &item); number++) {
        uint64_t expected[3] = {0, 0, 0};
        if (fgets(line, sizeof line, lines) == NULL)
            give_up(lines_path, "fewer lines than answers");
        sscanf(line, "%" SCNu64 " %" SCNu64 " %" SCNu64, &expected[0], &expected[1], &expected[2]);
        if (call_of(&item) == NUMBER_WRITTEN)
            ask_number_written(items_path, number, item.bytes, expected);
        else if (call_of(&item) == IDENTIFIER_WRITTEN)
            ask_identifier_written(items_path, number, item.bytes, expected);
        free(item.bytes);
    }
    if (asked == before)
        give_up(items_path, "has nothing that is written");
    fclose(items);
    fclose(lines);
}

int main(int count, char **words)
{
    if (count != 3)
        give_up(words[0], "wants a file of items and one of their lines");
    memory = fenced_memory(LONGEST);
    ask_identifiers();
    ask_amounts_and_weights();
    ask_judged(words[1], words[2]);
    return summary("writers");
}
