/*
 * A million mutated files: the library and the reference in C have to answer alike, of each file
 * and of its first record. And each answer that a file can get has to come, so that no rule goes unasked.
 */
#include "consignors.h"
#include "fuganorezi.h"
#include "judged.h"
#include "reference.h"

enum { FILES = 1000000, MOST_WRONG = 20, NUMBERS = FUGANOREZI_OUT_NUMBERS };

/* Chance, by xorshift: the same in each run and everywhere */

static uint64_t chance(void)
{
    static uint64_t state = UINT64_C(0x9e3779b97f4a7c15);
    state ^= state << 13;
    state ^= state >> 7;
    state ^= state << 17;
    return state;
}

static size_t below(size_t bound)
{
    return chance() % bound;
}

static bool one_in(size_t times)
{
    return below(times) == 0;
}

#define ONE_OF(array) ((array)[below(sizeof(array) / sizeof(array)[0])])

/* Fields */

struct value {
    unsigned field;
    const char *text;
};

static uint8_t *field_in(uint8_t *record, unsigned field)
{
    return record + fuganorezi_field_at(field)->start;
}

static size_t width_of(unsigned field)
{
    return fuganorezi_field_at(field)->width;
}

static unsigned any_field(void)
{
    return 1 + (unsigned)below(FUGANOREZI_FIELDS);
}

static void put_value(uint8_t *record, struct value value)
{
    if (strlen(value.text) > width_of(value.field))
        give_up(value.text, "does not fit into its field");
    memset(field_in(record, value.field), ' ', width_of(value.field));
    put_field(record, value.field, value.text);
}

/* Good records, of which files are made */

enum { STOCK = 600, MOST_VALUES = 4 };

/* What a plain parcel at home may have besides. */
static const struct value variations[][MOST_VALUES] = {
    {{18, "1A"}},
    {{18, "1B+1D+1K+1N"}},
    {{18, "S"}},
    {{18, "XL+1A+9"}},
    {{18, "10+M+99+76"}},
    {{18, "1+3+6+8+9+10+11+12+13+14+15+16"}},
    {{18, "34"}, {12, "+420601123456"}},
    {{18, "46"}, {13, "a@b.c"}},
    {{18, "45+L"}, {12, "+420601123456"}, {13, "jiri@posta.priklad.cz.jiri.posta.priklad.cz.jir.cz"}},
    {{18, "2"}, {16, "0.01"}},
    {{18, "5+7"}, {16, "12345678.90"}, {17, "123456789.01"}, {21, "9876543210"}},
    {{18, "41"}, {16, "1.00"}, {21, "0000000000"}},
    {{18, "7"}, {17, "999999999.99"}},
    {{18, "70"}, {22, "BO5412345671F"}, {23, "02"}, {24, "02"}},
    {{18, "70+S"}, {22, "EE021831216CZ"}, {23, "98"}, {24, "99"}},
    {{5, "10000"}, {15, "99.999"}},
    {{5, "60200"}, {15, " 0.001"}},
    {{5, ""}, {6, "DE"}},
    {{5, "SW1A"}, {6, "GB"}},
    {{2, "20000101"}, {3, "00:00:00"}},
    {{2, "20991231"}, {3, "19:09:09"}},
    {{4, "123456789012345678901234567890"}, {7, "1234567890123456789012345678901234567890"}, {10, "123456"}},
    {{12, "+420601123456"}, {13, "\x80@\xff.~"}},
    {{20, "machine 12"}, {26, "symbol"}},
};

static uint8_t stock[STOCK][GOOD_STEP];

static void put_stock(void)
{
    for (unsigned i = 0; i < STOCK; i++) {
        const struct value *variation = variations[i / GOOD_KINDS % (sizeof variations / sizeof variations[0])];
        put_good_record(stock[i], i + 1);
        if (good_kind(i + 1) == GOOD_PLAIN)
            for (unsigned k = 0; k < MOST_VALUES && variation[k].field != 0; k++)
                put_value(stock[i], variation[k]);
        if (fuganorezi_record_check(stock[i], FUGANOREZI_RECORD_LENGTH, good_table, GOOD_ENTRIES).code != 0)
            give_up("a record of the stock", "is refused");
    }
}

/* The file that is asked about */

enum { TOO_MANY_RECORDS = FUGANOREZI_MOST_RECORDS + 1, SOME_RECORDS = 40 };

static uint8_t file[(TOO_MANY_RECORDS + 1) * GOOD_STEP];
static unsigned records;

static uint8_t *record_at(unsigned number)
{
    return file + (size_t)number * GOOD_STEP;
}

/* Mutations */

static const uint8_t telling_bytes[] = {
    ' ',  '0',  '1',  '2',  '3',  '4',  '5',  '6',  '7',  '8',  '9',  '/',  ':',  ';',  '+',  '-',
    ',',  '.',  '@',  '~',  'A',  'B',  'C',  'D',  'K',  'L',  'M',  'N',  'S',  'X',  'Z',  '[',
    'a',  'z',  0x00, 0x0a, 0x0d, 0x1f, 0x21, 0x7f, 0x80, 0xa0, 0xb0, 0xff,
};

/* Right ones, near misses, and what brings another rule. */
static const struct value telling_values[] = {
    {2, "20000229"}, {2, "20230229"}, {2, "20240230"}, {2, "20240431"}, {2, "20240132"}, {2, "20241231"},
    {2, "20240100"}, {2, "20240001"}, {2, "20241301"}, {2, "19991231"}, {2, "21000101"}, {2, "2024022"},
    {3, "24:00:00"}, {3, "19:59:59"}, {3, "29:00:00"}, {3, "23:60:00"}, {3, "23:00:60"}, {3, "23.00.00"},
    {4, " name"},
    {5, "10000"}, {5, "00000"}, {5, "60201"}, {5, "99999"}, {5, "1030"}, {5, "A"}, {5, " 1"},
    {6, "AT"}, {6, "CZ"}, {6, "CA"}, {6, "ZZ"}, {6, "A"}, {6, " A"}, {6, "at"},
    {7, " m"},
    {12, "+420601123456"}, {12, "+4206011234567"}, {12, "+42060112345"}, {12, "420601123456"},
    {12, "+420601123456      1"},
    {13, "a@b.c"}, {13, "@b.c"}, {13, "a@.c"}, {13, "a@.b.c"}, {13, "a@b."}, {13, "a@b.."}, {13, "a@b.c@d"},
    {13, "a@b@d.c"}, {13, "a.b@c"}, {13, "a@b.c d"}, {13, "a@@b.c"}, {13, "a@"}, {13, "a"},
    {13, "12345678901234567890123456789012345678901234567@b."},
    {13, "1234567890123456789012345678901234567890123456@b.c"},
    {14, "1"}, {14, "0.00"},
    {15, ""}, {15, " 0.000"}, {15, " 0.001"}, {15, "10.000"}, {15, "00.500"}, {15, "0.500"}, {15, "  .500"},
    {15, " 2,350"},
    {16, ""}, {16, "0.00"}, {16, "0.01"}, {16, "00.50"}, {16, "1.5"}, {16, " 1.50"}, {16, "10.00"},
    {16, "12345678.90"}, {16, "999999999.99"}, {16, "1234567890.1"}, {16, ".50"}, {16, "1.500"}, {16, "1.50  1"},
    {17, ""}, {17, "0.00"}, {17, "1.00"}, {17, "1"}, {17, "999999999.99"},
    {18, ""}, {18, "2"}, {18, "4"}, {18, "5"}, {18, "41"}, {18, "7"}, {18, "7+41"}, {18, "34"}, {18, "45"},
    {18, "46"}, {18, "34+45"}, {18, "45+46"}, {18, "34+46"}, {18, "70"}, {18, "7+70"}, {18, "S"}, {18, "XL"},
    {18, "S+M"}, {18, "L+XL"}, {18, "S+S"}, {18, "1A"}, {18, "1C"}, {18, "A1"}, {18, "X"}, {18, "XS"}, {18, "SL"},
    {18, "1A+1"}, {18, "1A+1A"}, {18, "7+"}, {18, "+7"}, {18, "7++8"}, {18, "7+7"}, {18, "07"}, {18, "0"},
    {18, "100"}, {18, "7 +8"}, {18, "10+11+12+13+14+15+16+17+18+19"}, {18, "10+11+12+13+14+15+16+17+18+19+"},
    {18, "10+11+12+13+14+15+16+17+18+1+2"}, {18, "10+11+12+13+14+15+16+17+1+2+XL"},
    {19, "0"}, {19, "1"}, {19, " 0"}, {19, "00"},
    {20, " F"},
    {21, ""}, {21, "0000012345"}, {21, "000001234"}, {21, " 000012345"},
    {22, ""}, {22, "BO5412345671F"}, {22, "BO5412345672F"}, {22, "EE021831216CZ"},
    {23, ""}, {23, "01"}, {23, "02"}, {23, "03"}, {23, "00"}, {23, "1"}, {23, " 1"},
    {24, ""}, {24, "01"}, {24, "02"}, {24, "99"}, {24, "00"}, {24, "9"},
    {25, "1"},
    {26, "A"}, {26, " A"},
};

typedef void mutate(uint8_t *record);

static void set_any_byte(uint8_t *record)
{
    record[below(FUGANOREZI_RECORD_LENGTH)] = (uint8_t)chance();
}

static void flip_bit(uint8_t *record)
{
    record[below(FUGANOREZI_RECORD_LENGTH)] ^= (uint8_t)(1u << below(8));
}

static void set_telling_byte(uint8_t *record)
{
    unsigned field = any_field();
    field_in(record, field)[below(width_of(field))] = ONE_OF(telling_bytes);
}

static void set_telling_value(uint8_t *record)
{
    put_value(record, ONE_OF(telling_values));
}

static void take_field_of_another(uint8_t *record)
{
    unsigned field = any_field();
    memcpy(field_in(record, field), field_in(ONE_OF(stock), field), width_of(field));
}

static void blank_field(uint8_t *record)
{
    put_value(record, (struct value){any_field(), ""});
}

static void fill_field(uint8_t *record)
{
    unsigned field = any_field();
    memset(field_in(record, field), ONE_OF(telling_bytes), width_of(field));
}

static void repeat_record(uint8_t *record)
{
    memmove(record, record_at((unsigned)below(records)), GOOD_STEP);
}

static void take_consignor(uint8_t *record)
{
    char identifier[14];
    identifier_of((enum whose)below(WHOSE), 1 + (unsigned)below(STOCK), identifier);
    put_field(record, 1, identifier);
}

/* The one that belongs to the digits: then nothing but the change itself can be wrong. */
static void put_check_digit(uint8_t *identifier)
{
    bool cz = identifier[12] == 'Z';
    char digits[9] = "0";
    memcpy(digits + cz, identifier + 2, sizeof digits - cz);
    identifier[cz ? 10 : 11] = (uint8_t)('0' + check_digit_of(digits) % 10);
    if (cz)
        identifier[11] = 'C';
}

static void change_identifier(uint8_t *record)
{
    static const char prefixes[][3] = {"BO", "OV", "DR", "NP", "OB", "B ", " B", "bO", "B0"};
    uint8_t *identifier = field_in(record, one_in(3) ? 22 : 1);
    if (one_in(2))
        identifier[2 + below(9)] = (uint8_t)('0' + below(10));
    if (one_in(4))
        identifier[12] = (uint8_t) "FEPUTCBMLZQ "[below(12)];
    if (one_in(4))
        memset(identifier + 2 + below(6), '0', 1 + below(5));
    if (one_in(4))
        memcpy(identifier, ONE_OF(prefixes), 2);
    put_check_digit(identifier);
}

static void be_main(uint8_t *record)
{
    memcpy(field_in(record, 22), field_in(record, 1), width_of(1));
}

/* What leaves most of the record to the other rules is there several times. */
static mutate *const mutations[] = {
    set_telling_value, set_telling_value,     set_telling_value, set_telling_value, set_telling_value,
    set_telling_byte,  set_telling_byte,      set_telling_byte,  set_any_byte,      flip_bit,
    blank_field,       fill_field,            be_main,           change_identifier, take_consignor,
    repeat_record,     take_field_of_another,
};

static void break_line_end(uint8_t *record)
{
    record[FUGANOREZI_RECORD_LENGTH + below(2)] = ONE_OF(telling_bytes);
}

static unsigned any_records(void)
{
    if (one_in(20000))
        return TOO_MANY_RECORDS;
    if (one_in(500))
        return (unsigned)below(SOME_RECORDS);
    return one_in(50) ? 0 : 1 + (unsigned)below(4);
}

static size_t any_length(void)
{
    size_t length = (size_t)records * GOOD_STEP, off = 1 + below(GOOD_STEP - 1);
    if (!one_in(100))
        return length;
    return one_in(2) || records == 0 ? length + off : length - off;
}

/* Writes a file, and gives its length. */
static size_t put_mutated_file(void)
{
    records = any_records();
    for (unsigned number = 0; number < records; number++)
        memcpy(record_at(number), ONE_OF(stock), GOOD_STEP);
    for (size_t times = records == 0 ? 0 : below(4); times != 0; times--)
        ONE_OF(mutations)(record_at((unsigned)below(records)));
    if (records != 0 && one_in(100))
        break_line_end(record_at((unsigned)below(records)));
    return any_length();
}

/* Tables */

enum { LONGEST_TABLE = FUGANOREZI_TABLE_MOST + 1 };

static uint32_t longest[LONGEST_TABLE];

/* As long as a table may be, or an entry less or more; now and then with an entry that is out of its place. */
static struct table any_longest_table(void)
{
    for (uint32_t i = 0; i < LONGEST_TABLE; i++)
        longest[i] = 2 + 6 * i;
    if (one_in(4))
        longest[below(LONGEST_TABLE)] = (uint32_t)below(100001);
    return (struct table){longest, LONGEST_TABLE - below(3)};
}

static struct table any_table(void)
{
    static uint32_t good[] = {10000, 11000, 60200}, without[] = {10000, 10999, 11001, 60200};
    static uint32_t equal[] = {11000, 11000}, falling[] = {10000, 11000, 10999}, highest[] = {11000, 99999};
    static uint32_t too_high[] = {11000, 100000}, negative[] = {UINT32_C(0x80000000), 11000};
    static const struct table others[] = {
        {NULL, 0},    {good + 1, 1}, {without, 4},      {equal, 2},    {falling, 3},
        {highest, 2}, {too_high, 2}, {too_high + 1, 1}, {negative, 2}, {negative, 1},
    };
    if (one_in(2000))
        return any_longest_table();
    return one_in(20) ? ONE_OF(others) : (struct table){good, 3};
}

/* Answers */

enum { MOST_CODE = 255, MOST_PLACE = FUGANOREZI_FIELDS };

static unsigned long came[MOST_CODE + 1][MOST_PLACE + 1];

static void compare_files(unsigned long number, size_t length, const struct table *table)
{
    uint64_t library[NUMBERS], reference[NUMBERS];
    uint32_t code = fuganorezi_file_check(file, length, table->entries, table->count, library);
    uint32_t reference_code = reference_file_check(file, length, table->entries, table->count, reference);
    expect("mutated file, code", number, reference_code, code);
    for (int i = 0; i < NUMBERS; i++)
        expect("mutated file", number, reference[i], library[i]);
    if (code > MOST_CODE || library[FUGANOREZI_OUT_PLACE] > MOST_PLACE)
        give_up("the library", "gave a code or a place that there is not");
    came[code][library[FUGANOREZI_OUT_PLACE]]++;
}

static void compare_first_records(unsigned long number, size_t length, const struct table *table)
{
    uint32_t place;
    size_t first = length < FUGANOREZI_RECORD_LENGTH ? length : FUGANOREZI_RECORD_LENGTH;
    fuganorezi_record library = fuganorezi_record_check(file, first, table->entries, table->count);
    uint32_t code = reference_record_check(file, first, table->entries, table->count, &place);
    expect("first record of mutated file, code", number, code, library.code);
    expect("first record of mutated file, place", number, place, library.place);
}

/* How often an answer came, which is wrong if it never did. */
static unsigned long times_of(uint32_t code, uint32_t place)
{
    if (came[code][place] == 0) {
        fprintf(stderr, "no mutated file was answered with %" PRIu32 ", place %" PRIu32 "\n", code, place);
        wrong++;
    }
    return came[code][place];
}

/* All answers but 210, which comes with each field behind the first. */
static const fuganorezi_answer answers[] = {
    {0, 0},    {238, 0},  {211, 0},  {213, 0},  {212, 0},  {1, 1},    {27, 4},   {27, 5},   {27, 7},
    {21, 5},   {24, 5},   {31, 15},  {34, 15},  {36, 16},  {11, 21},  {221, 21}, {222, 17}, {220, 18},
    {223, 12}, {223, 13}, {72, 18},  {72, 22},  {72, 23},  {72, 24},  {2, 1},    {241, 1},
};

static void expect_each_answer(unsigned long files)
{
    unsigned long times = 0;
    for (size_t i = 0; i < sizeof answers / sizeof answers[0]; i++)
        times += times_of(answers[i].code, answers[i].place);
    for (uint32_t field = 2; field <= FUGANOREZI_FIELDS; field++)
        times += times_of(FUGANOREZI_MALFORMED, field);
    expect("mutated files with an answer that there is, of", files, times, files);
}

int main(void)
{
    unsigned long number = 0;
    put_stock();
    while (number < FILES && wrong < MOST_WRONG) {
        size_t length = put_mutated_file();
        struct table table = any_table();
        number++;
        compare_files(number, length, &table);
        compare_first_records(number, length, &table);
    }
    if (wrong == 0)
        expect_each_answer(number);
    printf("%lu mutated files, of which %lu are good\n", number, came[FUGANOREZI_GOOD][0]);
    return summary("answers to these of the library and of C");
}
