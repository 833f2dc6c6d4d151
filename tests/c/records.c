/*
 * The record check from C: the judged vectors, our own records of each code and place, every length, a byte that no field
 * may hold at each place, a record that is to be posted, services, consignors, and tables of postcodes. What is asked about
 * and the table end where memory that cannot be read begins, and cannot be written during the call.
 */
#define _DEFAULT_SOURCE /* for fenced.h */
#include "consignors.h"
#include "fenced.h"
#include "fuganorezi.h"
#include "good_file.h"
#include "services.h"
#include "tables.h"

enum { RECORD = FUGANOREZI_RECORD_LENGTH, LONGEST = 65536, CONTROL_BYTE = 1 };

/* What comes by value has to lie as in the archive. */
_Static_assert(offsetof(fuganorezi_record, place) == 4, "behind the code");
_Static_assert(offsetof(fuganorezi_record, consignor) == 8, "behind the place");
_Static_assert(sizeof(fuganorezi_record) == 8 + sizeof(fuganorezi_consignor), "and nothing more");

typedef fuganorezi_record record_check(const uint8_t *bytes, size_t length, const uint32_t *table, size_t entries);

static record_check *const both_checks[] = {fuganorezi_record_check, fuganorezi_record_check_posting};

static struct fenced memory;

/* Whose a record is: what reading field 1 gives, which is tested by itself. */
static fuganorezi_consignor consignor_in(const uint8_t *bytes, size_t length)
{
    const fuganorezi_consignor nobody = {0, 0};
    return length == RECORD ? fuganorezi_identifier_read(bytes, FUGANOREZI_WIDTH_1).consignor : nobody;
}

static void ask(const char *what, unsigned long number, record_check *check, const uint8_t *bytes, size_t length,
                uint64_t code, uint64_t place)
{
    const uint8_t *there = put_before_fence(memory, bytes, length);
    const fuganorezi_consignor whose = consignor_in(bytes, length);
    protect(memory, PROT_READ);
    fuganorezi_record answer = check(there, length, lent.entries, lent.count);
    protect(memory, PROT_READ | PROT_WRITE);
    expect(what, number, answer.code, code);
    expect(what, number, answer.place, place);
    expect(what, number, answer.consignor.type, whose.type);
    expect(what, number, answer.consignor.number, whose.number);
}

static void ask_both(const char *what, unsigned long number, const uint8_t *bytes, size_t length, uint64_t code,
                     uint64_t place)
{
    ask(what, number, fuganorezi_record_check, bytes, length, code, place);
    ask(what, number, fuganorezi_record_check_posting, bytes, length, code, place);
}

static void ask_lengths(void)
{
    uint8_t two[2 * GOOD_STEP];
    put_good_file(two, 2);
    for (unsigned length = 0; length <= 2 * RECORD; length++)
        if (length == RECORD)
            ask_both("a good record", length, two, length, FUGANOREZI_GOOD, 0);
        else
            ask_both("of another length", length, two, length, FUGANOREZI_WRONG_LENGTH, 0);
    fuganorezi_record answer = fuganorezi_record_check(NULL, 0, NULL, 0);
    expect("NULL", 0, answer.code, FUGANOREZI_WRONG_LENGTH);
    expect("NULL", 1, answer.consignor.type, 0);
    expect("NULL", 2, answer.consignor.number, 0);
}

/* The field that the constants of the header say has this byte. */
static unsigned field_with(unsigned at)
{
    unsigned number = 1;
    while (at >= fuganorezi_field_at(number)->start + fuganorezi_field_at(number)->width)
        number++;
    return number;
}

/* So each start and each width of the header is held to the table that is proved. */
static void ask_each_place(void)
{
    uint8_t record[GOOD_STEP];
    for (unsigned at = 0; at < RECORD; at++) {
        unsigned field = field_with(at);
        put_good_record(record, GOOD_ON_DELIVERY);
        record[at] = CONTROL_BYTE;
        ask_both("control byte", at, record, RECORD, field == 1 ? FUGANOREZI_WRONG_IDENTIFIER : FUGANOREZI_MALFORMED, field);
    }
}

static void ask_cancelled(void)
{
    uint8_t record[GOOD_STEP];
    put_good_record(record, GOOD_CANCELLED);
    ask("cancelled, in a file", 0, fuganorezi_record_check, record, RECORD, FUGANOREZI_GOOD, 0);
    ask("cancelled, to be posted", 0, fuganorezi_record_check_posting, record, RECORD, FUGANOREZI_MALFORMED, 19);
}

/* ---- services */

/* A plain parcel with this field 18 and all that the services there ask for: nothing else can be wrong in it. */
static void put_services(uint8_t *record, const uint8_t field[SERVICES_WIDTH], const struct services *found)
{
    const unsigned *times = found->times;
    put_good_record(record, good_number(GOOD_PLAIN));
    put_field(record, 12, "+420601123456");
    put_field(record, 13, "jiri.kucera@priklad.cz");
    if (times[2] + times[4] + times[5] + times[41] != 0) {
        put_amount(record, 16, 1);
        put_field(record, 21, "0000012345");
    }
    if (times[7] != 0)
        put_amount(record, 17, 1);
    if (times[70] != 0) {
        memcpy(record + FUGANOREZI_START_22, record, FUGANOREZI_WIDTH_1);
        put_field(record, 23, "01");
        put_field(record, 24, "01");
    }
    memcpy(record + FUGANOREZI_START_18, field, SERVICES_WIDTH);
}

/* These are many, so they are quick: the record may be written, and whose it is is not asked. */
static void ask_services(const char *what, unsigned long number, const uint8_t field[SERVICES_WIDTH])
{
    const struct services found = services_in(field);
    const fuganorezi_answer expected = services_answer(&found);
    uint8_t record[GOOD_STEP];
    put_services(record, field, &found);
    const uint8_t *there = put_before_fence(memory, record, RECORD);
    for (size_t i = 0; i < 2; i++) {
        fuganorezi_record answer = both_checks[i](there, RECORD, lent.entries, lent.count);
        expect(what, number, answer.code, expected.code);
        expect(what, number, answer.place, expected.place);
    }
}

/* All pairs of bytes. Where a space is the second, one byte stands alone. */
static void ask_byte_pairs(void)
{
    uint8_t field[SERVICES_WIDTH];
    memset(field, ' ', sizeof field);
    for (unsigned number = 0; number < 256 * 256; number++) {
        field[0] = (uint8_t)(number / 256);
        field[1] = (uint8_t)(number % 256);
        ask_services("services of two bytes", number, field);
    }
}

/* All texts of four bytes of which codes are made, or nearly. */
static void ask_telling_bytes(void)
{
    static const char telling[] = "0179ABDKNSMLX+ a";
    enum { LENGTH = 4, TELLING = sizeof telling - 1 };
    uint8_t field[SERVICES_WIDTH];
    memset(field, ' ', sizeof field);
    for (unsigned number = 0; number < TELLING * TELLING * TELLING * TELLING; number++) {
        unsigned rest = number;
        for (unsigned at = 0; at < LENGTH; at++, rest /= TELLING)
            field[at] = (uint8_t)telling[rest % TELLING];
        ask_services("services of four bytes", number, field);
    }
}

static void ask_joined(const char *what, unsigned long number, const char *const *codes, size_t count)
{
    uint8_t field[SERVICES_WIDTH];
    size_t at = 0;
    memset(field, ' ', sizeof field);
    for (size_t i = 0; i < count; i++) {
        if (i != 0)
            field[at++] = '+';
        memcpy(field + at, codes[i], strlen(codes[i]));
        at += strlen(codes[i]);
    }
    ask_services(what, number, field);
}

/* Each code beside each. */
static void ask_pairs_of_codes(void)
{
    for (unsigned one = 1; one <= LAST_CODE; one++)
        for (unsigned other = 1; other <= LAST_CODE; other++) {
            const char *const two[] = {service_codes[one], service_codes[other]};
            ask_joined("two services", one * 1000 + other, two, 2);
        }
}

/* Three of those with letters, of those that exclude each other, and of those that begin as 1A does. */
static void ask_threes_of_codes(void)
{
    static const char *const telling[] = {"1", "11", "34", "45", "46", "1A", "1B", "1D", "1K", "1N", "S", "M", "L", "XL"};
    enum { TELLING = sizeof telling / sizeof telling[0] };
    for (unsigned i = 0; i < TELLING * TELLING * TELLING; i++) {
        const char *const three[] = {telling[i / TELLING / TELLING], telling[i / TELLING % TELLING], telling[i % TELLING]};
        ask_joined("three services", i, three, 3);
    }
}

/* Filled to the last byte, and with each byte in each place. */
static void ask_full_services(void)
{
    static const char *const full[] = {
        "1A+1B+1D+1K+1N+10+11+12+13+S+1", "S+1+1A+1B+1D+1K+1N+10+11+12+13", "1+3+1B+1D+1K+1N+10+11+XL+12+1A",
        "1+3+1A+1B+1D+1K+1N+10+11+12+XL",
    };
    uint8_t field[SERVICES_WIDTH];
    for (size_t i = 0; i < sizeof full / sizeof full[0]; i++) {
        expect("services fill the field", i, strlen(full[i]), SERVICES_WIDTH);
        for (unsigned at = 0; at < SERVICES_WIDTH; at++)
            for (unsigned byte = 0; byte < 256; byte++) {
                memcpy(field, full[i], SERVICES_WIDTH);
                field[at] = (uint8_t)byte;
                ask_services("full services, another byte", (i * 100 + at) * 1000 + byte, field);
            }
    }
}

static void ask_all_services(void)
{
    ask_byte_pairs();
    ask_telling_bytes();
    ask_pairs_of_codes();
    ask_threes_of_codes();
    ask_full_services();
}

/* ---- consignors */

static void expect_consignor(const char *what, unsigned long number, const uint8_t *record, size_t length,
                             enum whose expected)
{
    const fuganorezi_consignor whose = consignors[expected].consignor;
    for (size_t i = 0; i < 2; i++) {
        fuganorezi_record answer = both_checks[i](record, length, lent.entries, lent.count);
        expect(what, number, answer.consignor.type, whose.type);
        expect(what, number, answer.consignor.number, whose.number);
    }
}

/* Of a record of each consignor, accepted, refused by any rule but that of its identifier, and under a wrong table. */
static void ask_consignors(void)
{
    static const uint32_t falling[] = {60200, 11000};
    uint8_t record[GOOD_STEP];
    char main[14];
    for (enum whose whose = OURS; whose < WHOSE; whose++) {
        put_record_of(record, whose, 1);
        expect_consignor("consignor of a good record", whose, record, RECORD, whose);
        expect_consignor("consignor of a short record", whose, record, RECORD - 1, NOBODYS);
        identifier_of(whose == OURS ? OTHER_TYPE : OURS, 2, main);
        put_field(record, 22, main);
        expect_consignor("consignor beside a main consignment", whose, record, RECORD, whose);
        put_field(record, 15, "      ");
        expect_consignor("consignor without weight", whose, record, RECORD, whose);
        put_field(record, 2, "?");
        expect_consignor("consignor of a malformed record", whose, record, RECORD, whose);
        lend_table(falling, 2);
        expect_consignor("consignor under a wrong table", whose, record, RECORD, whose);
        expect_consignor("consignor of a short record under a wrong table", whose, record, RECORD - 1, NOBODYS);
        put_field(record, 1, "?");
        expect_consignor("consignor without identifier under a wrong table", whose, record, RECORD, NOBODYS);
        lend_table(good_table, GOOD_ENTRIES);
        expect_consignor("consignor without identifier", whose, record, RECORD, NOBODYS);
    }
}

/* ---- tables */

/* A wrong table is told of first, whatever the bytes are. */
static void ask_under_wrong_table(const char *what)
{
    uint8_t record[GOOD_STEP];
    put_good_record(record, good_number(GOOD_PLAIN));
    ask_both(what, 0, record, RECORD, FUGANOREZI_WRONG_TABLE, 0);
    ask_both(what, 1, record, RECORD - 1, FUGANOREZI_WRONG_TABLE, 0);
    ask_both(what, 2, record, 0, FUGANOREZI_WRONG_TABLE, 0);
    record[0] = '?';
    ask_both(what, 3, record, RECORD, FUGANOREZI_WRONG_TABLE, 0);
}

static void ask_postcode(const char *what, uint32_t postcode, bool there)
{
    uint8_t record[GOOD_STEP];
    uint32_t place = there ? 0 : 5;
    put_good_record(record, good_number(GOOD_PLAIN));
    put_postcode(record, postcode);
    ask_both(what, postcode, record, RECORD, there ? FUGANOREZI_GOOD : FUGANOREZI_POSTCODE_UNKNOWN, place);
    put_good_record(record, good_number(GOOD_ON_DELIVERY));
    put_postcode(record, postcode);
    ask_both(what, postcode, record, RECORD, there ? FUGANOREZI_GOOD : FUGANOREZI_POSTCODE_UNKNOWN_41, place);
    put_good_record(record, good_number(GOOD_ABROAD));
    put_postcode(record, postcode);
    ask_both(what, postcode, record, RECORD, FUGANOREZI_GOOD, 0);
}

static void ask_tables(void)
{
    try_each_wrong_table(ask_under_wrong_table);
    try_lookups(ask_postcode);
    lend_table(good_table, GOOD_ENTRIES);
}

static void ask_judged(const char *path, unsigned long number, const struct table *table, const struct item *item,
                       const uint64_t *expected)
{
    lend_table(table->entries, table->count);
    ask(path, number, fuganorezi_record_check, item->bytes, item->length, expected[0], expected[1]);
}

int main(int count, char **words)
{
    if (count != 5)
        give_up(words[0], "wants a file of items and one of their lines, twice");
    memory = fenced_memory(LONGEST);
    lend_table(good_table, GOOD_ENTRIES);
    ask_lengths();
    ask_each_place();
    ask_cancelled();
    ask_all_services();
    ask_consignors();
    ask_tables();
    ask_each(words[1], words[2], UNDER_TABLE, 2, ask_judged);
    ask_each(words[3], words[4], UNDER_TABLE, 2, ask_judged);
    return summary("records");
}
