/*
 * The identifier from C, checked and read: the paper's examples 1 to 8, no bytes at all, every length, each byte in each
 * place of a right one, the judged vectors, and what the writer wrote. What is asked about ends where memory that cannot be
 * read begins, and cannot be written during the call.
 */
#define _DEFAULT_SOURCE /* for fenced.h */
#include "fenced.h"
#include "fuganorezi.h"

enum { IDENTIFIER = FUGANOREZI_IDENTIFIER_LENGTH, LONGEST = 65536 };

/* What comes by value has to lie as in the archive. */
_Static_assert(offsetof(fuganorezi_consignor, number) == 8, "behind the type, aligned");
_Static_assert(sizeof(fuganorezi_consignor) == 16, "and nothing more");
_Static_assert(offsetof(fuganorezi_identifier, place) == 4, "behind the code");
_Static_assert(offsetof(fuganorezi_identifier, consignor) == 8, "behind the place");
_Static_assert(offsetof(fuganorezi_identifier, parts) == 24, "behind the consignor");
_Static_assert(sizeof(fuganorezi_identifier) == 24 + sizeof(fuganorezi_parts), "and nothing more");

static struct fenced memory;

/* ---- what is expected */

static const fuganorezi_identifier refused = {.code = FUGANOREZI_WRONG_IDENTIFIER, .place = 1};

static fuganorezi_identifier accepted(fuganorezi_parts parts)
{
    fuganorezi_identifier identifier = {.parts = parts};
    if (parts.last != 'Z')
        identifier.consignor = (fuganorezi_consignor){parts.last, parts.consignor};
    return identifier;
}

static void expect_parts(const char *what, unsigned long number, fuganorezi_parts got, fuganorezi_parts expected)
{
    expect(what, number, got.first, expected.first);
    expect(what, number, got.second, expected.second);
    expect(what, number, got.last, expected.last);
    expect(what, number, got.consignor, expected.consignor);
    expect(what, number, got.posting, expected.posting);
}

static void expect_identifier(const char *what, unsigned long number, fuganorezi_identifier got,
                              fuganorezi_identifier expected)
{
    expect(what, number, got.code, expected.code);
    expect(what, number, got.place, expected.place);
    expect(what, number, got.consignor.type, expected.consignor.type);
    expect(what, number, got.consignor.number, expected.consignor.number);
    expect_parts(what, number, got.parts, expected.parts);
}

/* ---- asking */

/* What reading gives; the check has to give the same code. */
static fuganorezi_identifier ask(const char *what, unsigned long number, const uint8_t *bytes, size_t length)
{
    const uint8_t *there = put_before_fence(memory, bytes, length);
    protect(memory, PROT_READ);
    fuganorezi_identifier got = fuganorezi_identifier_read(there, length);
    uint32_t code = fuganorezi_identifier_check(there, length);
    protect(memory, PROT_READ | PROT_WRITE);
    expect(what, number, code, got.code);
    return got;
}

/* What is read from a right one is written as the same bytes, and of any other nothing is given. */
static fuganorezi_identifier ask_whole(const char *what, unsigned long number, const uint8_t *bytes, size_t length)
{
    uint8_t written[IDENTIFIER] = {0};
    fuganorezi_identifier got = ask(what, number, bytes, length);
    expect_identifier(what, number, got, got.code == 0 ? accepted(got.parts) : refused);
    if (got.code == 0) {
        expect(what, number, fuganorezi_identifier_write(written, IDENTIFIER, got.parts).code, 0);
        expect(what, number, length == IDENTIFIER && memcmp(written, bytes, IDENTIFIER) == 0, 1);
    }
    return got;
}

/* ---- the paper's examples */

struct example {
    const char *text;
    uint32_t code;
    fuganorezi_parts parts; /* none of a wrong one */
};

static const struct example examples[] = {
    {"BO5412345671F", 0, {'B', 'O', 'F', 54, 1234567}}, /* 1 */
    {"EE021831216CZ", 0, {'E', 'E', 'Z', 0, 2183121}},  /* 2 */
    {"BO3601002029C", 0, {'B', 'O', 'C', 3601, 202}},   /* 3 */
    {"BO0800000026F", 1, {0}},                          /* 4, as printed */
    {"BO0800000020F", 0, {'B', 'O', 'F', 8, 2}},        /* 4, corrected */
    {"BO0810000026U", 1, {0}},                          /* 5, as printed */
    {"BO0810000024U", 0, {'B', 'O', 'U', 81, 2}},       /* 5, corrected */
    {"BO3615102029M", 1, {0}},                          /* 6, as printed */
    {"BO3615102027M", 0, {'B', 'O', 'M', 36151, 202}},  /* 6, corrected */
    {"BO0100010005F", 0, {'B', 'O', 'F', 1, 1000}},     /* 7, remainder 0 */
    {"BO0100010045F", 0, {'B', 'O', 'F', 1, 1004}},     /* 7, remainder 6 */
    {"BO0000000014F", 1, {0}},                          /* 8, consignor 0 */
    {"BO0100000003F", 1, {0}},                          /* 8, posting number 0 */
};

static void ask_examples(void)
{
    for (size_t i = 0; i < sizeof examples / sizeof examples[0]; i++) {
        const struct example *example = &examples[i];
        fuganorezi_identifier got = ask_whole(example->text, i, (const uint8_t *)example->text, strlen(example->text));
        expect_identifier(example->text, i, got, example->code == 0 ? accepted(example->parts) : refused);
    }
}

static void ask_no_bytes(void)
{
    expect("NULL", 0, fuganorezi_identifier_check(NULL, 0), FUGANOREZI_WRONG_IDENTIFIER);
    expect_identifier("NULL", 1, fuganorezi_identifier_read(NULL, 0), refused);
}

/* ---- lengths and bytes */

static void ask_lengths(void)
{
    static const char two[] = "BO5412345671FBO5412345671F";
    for (size_t length = 0; length < sizeof two; length++)
        expect("of this length", length, ask_whole("of this length", length, (const uint8_t *)two, length).code,
               length == IDENTIFIER ? FUGANOREZI_GOOD : FUGANOREZI_WRONG_IDENTIFIER);
}

/* Of a right one, each byte in each place. */
static void ask_each_byte(const char *text)
{
    for (unsigned at = 0; at < IDENTIFIER; at++)
        for (unsigned byte = 0; byte < 256; byte++) {
            uint8_t bytes[IDENTIFIER];
            memcpy(bytes, text, IDENTIFIER);
            bytes[at] = (uint8_t)byte;
            ask_whole(text, at * 256 + byte, bytes, IDENTIFIER);
        }
}

static void ask_bytes(void)
{
    for (size_t i = 0; i < sizeof examples / sizeof examples[0]; i++)
        if (examples[i].code == 0)
            ask_each_byte(examples[i].text);
}

/* ---- what the writer wrote */

static void ask_written(fuganorezi_parts parts)
{
    uint8_t bytes[IDENTIFIER];
    expect("written", parts.posting, fuganorezi_identifier_write(bytes, IDENTIFIER, parts).code, 0);
    expect_identifier("read", parts.posting, ask("read", parts.posting, bytes, IDENTIFIER), accepted(parts));
}

static uint64_t power_of_ten(unsigned digits)
{
    return digits == 0 ? 1 : 10 * power_of_ten(digits - 1);
}

/* Consignors of so many digits: the lowest numbers, some between, and the highest. */
static void ask_written_of(const char *prefix, char last, unsigned digits)
{
    const uint64_t consignors = power_of_ten(digits), postings = power_of_ten(9 - digits);
    fuganorezi_parts parts = {(uint8_t)prefix[0], (uint8_t)prefix[1], (uint8_t)last, 0, 0};
    for (parts.consignor = 1; parts.consignor < consignors; parts.consignor += consignors / 7)
        for (parts.posting = 1; parts.posting < postings; parts.posting += postings / 7)
            ask_written(parts);
    parts.consignor = consignors - 1;
    parts.posting = postings - 1;
    ask_written(parts);
}

static void ask_written_cz(const char *prefix)
{
    fuganorezi_parts parts = {(uint8_t)prefix[0], (uint8_t)prefix[1], 'Z', 0, 0};
    for (; parts.posting <= 99999999; parts.posting += 11111111)
        ask_written(parts);
}

static void ask_all_written(const char *prefix)
{
    static const char *const rows[] = {"FEP", "UT", "CB", "ML"};
    for (unsigned digits = 2; digits <= 5; digits++)
        for (const char *last = rows[digits - 2]; *last != 0; last++)
            ask_written_of(prefix, *last, digits);
    ask_written_cz(prefix);
}

/* ---- judged vectors */

static void ask_judged(const char *path, unsigned long number, const struct table *none, const struct item *item,
                       const uint64_t *code_and_place)
{
    (void)none;
    fuganorezi_identifier got = ask_whole(path, number, item->bytes, item->length);
    expect(path, number, got.code, code_and_place[0]);
    expect(path, number, got.place, code_and_place[1]);
}

static void ask_judged_consignor(const char *path, unsigned long number, const struct table *none, const struct item *item,
                                 const uint64_t *expected)
{
    (void)none;
    fuganorezi_identifier got = ask_whole(path, number, item->bytes, item->length);
    expect(path, number, got.code, expected[0]);
    expect(path, number, got.place, expected[1]);
    expect(path, number, got.consignor.type, expected[2]);
    expect(path, number, got.consignor.number, expected[3]);
}

int main(int count, char **words)
{
    if (count != 5)
        give_up(words[0], "wants identifiers and their lines, and consignors and theirs");
    memory = fenced_memory(LONGEST);
    ask_examples();
    ask_no_bytes();
    ask_lengths();
    ask_bytes();
    ask_all_written("BO");
    ask_all_written("A ");
    ask_each(words[1], words[2], BARE, 2, ask_judged);
    ask_each(words[3], words[4], BARE, 4, ask_judged_consignor);
    return summary("identifiers");
}
