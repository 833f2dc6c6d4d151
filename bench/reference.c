#include "reference.h"

#include "slots.h"

#if __BYTE_ORDER__ != __ORDER_LITTLE_ENDIAN__
#error "the first byte of a word has to be its lowest"
#endif

/* Where each field starts, counted from 0; the field's number is in the names' order. */
enum {
    IDENTIFIER = 0,
    DATE = 13,
    TIME = 21,
    NAME = 29,
    POSTCODE = 59,
    COUNTRY = 64,
    MUNICIPALITY = 66,
    DISTRICT = 106,
    STREET = 146,
    HOUSE = 186,
    ORIENTATION = 192,
    TELEPHONE = 198,
    MAIL = 218,
    CHARGES = 268,
    WEIGHT = 280,
    CASH = 286,
    PRICE = 298,
    SERVICES = 310,
    STATUS = 340,
    FRANKING = 342,
    VARIABLE_SYMBOL = 352,
    MAIN = 362,
    SERIAL = 375,
    PIECES = 377,
    CONSIGNOR = 379,
    SENDERS_SYMBOL = 389,
    RECORD = 399,
    STEP = 401
};

enum { MOST_RECORDS = 999, MOST_ENTRIES = 16000, MOST_POSTCODE = 99999 };

/* Eight bytes at once */

enum { EIGHT = 8 };

static inline uint64_t word(const uint8_t *bytes)
{
    uint64_t word;
    memcpy(&word, bytes, sizeof word);
    return word;
}

static inline uint64_t in_each_byte(uint8_t byte)
{
    return byte * UINT64_C(0x0101010101010101);
}

/* Whether each byte is at most that of `highest`, all of which are below 80h: what is above gets to its top bit. */
static inline bool none_above(uint64_t bytes, uint64_t highest)
{
    return ((bytes | (bytes + (in_each_byte(0x7f) - highest))) & in_each_byte(0x80)) == 0;
}

/* Each digit as its value; what is no digit gets above 9. */
static inline uint64_t values_of(uint64_t digits)
{
    return digits ^ in_each_byte('0');
}

static inline bool all_digits(uint64_t values)
{
    return none_above(values, in_each_byte(9));
}

static inline bool eight_digits(const uint8_t *bytes)
{
    return all_digits(values_of(word(bytes)));
}

/* Each two of eight digits as a number, in sixteen bits. */
static inline uint64_t pairs_of(uint64_t values)
{
    return (values * 10 + (values >> 8)) & UINT64_C(0x00ff00ff00ff00ff);
}

/* The last eight may take in some that were looked at before. */
static inline bool blank(const uint8_t *bytes, size_t count)
{
    if (count < EIGHT)
        return memcmp(bytes, "        ", count) == 0;
    for (size_t at = 0; at + EIGHT < count; at += EIGHT)
        if (word(bytes + at) != in_each_byte(' '))
            return false;
    return word(bytes + count - EIGHT) == in_each_byte(' ');
}

/* Whether a field is blank from this byte on, mostly one of the first eight. Those before it are shifted out. */
static inline bool blank_from(const uint8_t *field, size_t at, size_t width)
{
    if (at < EIGHT)
        return (word(field) ^ in_each_byte(' ')) >> 8 * at == 0 && blank(field + EIGHT, width - EIGHT);
    for (; at + EIGHT < width; at += EIGHT)
        if (word(field + at) != in_each_byte(' '))
            return false;
    return at == width || (word(field + width - EIGHT) ^ in_each_byte(' ')) >> 8 * (at + EIGHT - width) == 0;
}

/* Bytes one by one */

static inline unsigned digit(uint8_t byte)
{
    return (unsigned)(byte - '0');
}

static inline bool is_digit(uint8_t byte)
{
    return digit(byte) <= 9;
}

static inline unsigned two_digits(const uint8_t *bytes)
{
    return digit(bytes[0]) * 10 + digit(bytes[1]);
}

static inline bool is_capital(uint8_t byte)
{
    return byte >= 'A' && byte <= 'Z';
}

static inline bool all_text(const uint8_t *bytes, size_t count)
{
    for (size_t i = 0; i < count; i++)
        if (bytes[i] < 0x20 || bytes[i] == 0x7f)
            return false;
    return true;
}

/*
 * Likewise for rows of sixteen bytes: in each column the lowest byte, and the lowest after 7Fh has been turned to 0. So
 * the compiler takes a row at once.
 */
static inline bool rows_are_text(const uint8_t *bytes, size_t rows)
{
    enum { COLUMNS = 16 };
    uint8_t other[COLUMNS];
    for (size_t column = 0; column < COLUMNS; column++) {
        uint8_t lowest = 0xff, lowest_turned = 0xff;
        for (size_t row = 0; row < rows; row++) {
            uint8_t byte = bytes[row * COLUMNS + column], turned = byte ^ 0x7f;
            lowest = byte < lowest ? byte : lowest;
            lowest_turned = turned < lowest_turned ? turned : lowest_turned;
        }
        other[column] = lowest < 0x20 || lowest_turned == 0;
    }
    return (word(other) | word(other + EIGHT)) == 0;
}

/* Identifiers */

static const uint8_t consignor_digits[256] = {
    ['F'] = 2, ['E'] = 2, ['P'] = 2, ['U'] = 3, ['T'] = 3, ['C'] = 4, ['B'] = 4, ['M'] = 5, ['L'] = 5,
};

static const uint8_t check_digits[11] = {5, 0, 9, 8, 7, 6, 5, 4, 3, 2, 1};

/* Eight digits by the weights 8 6 4 2 3 5 9 7: the top sixteen bits of either product add up every other one. */
static inline unsigned weighted_sum(uint64_t values)
{
    const uint64_t every_other = UINT64_C(0x00ff00ff00ff00ff);
    uint64_t sums = (values & every_other) * UINT64_C(0x0008000400030009) +
                    (values >> 8 & every_other) * UINT64_C(0x0006000200050007);
    return (unsigned)(sums >> 48);
}

static inline bool check_digit_fits(unsigned sum, uint8_t check)
{
    return digit(check) == check_digits[sum % 11];
}

struct identifier {
    bool right;
    uint64_t consignor; /* its digits and the last byte as a number of our own; 0 for CZ, which is nobody's */
};

static inline struct identifier identifier_with_cz(const uint8_t *bytes)
{
    uint64_t values = values_of(word(bytes + 2));
    bool right = bytes[11] == 'C' && all_digits(values) && check_digit_fits(weighted_sum(values), bytes[10]);
    return (struct identifier){right, 0};
}

/* The first digit, of weight 1, and the eight behind it. */
static inline struct identifier identifier_with_consignor(const uint8_t *bytes)
{
    uint8_t last = bytes[12];
    unsigned first = digit(bytes[2]), digits = consignor_digits[last];
    uint64_t others = values_of(word(bytes + 3));
    if (digits == 0 || first > 9 || !all_digits(others) || !check_digit_fits(first + weighted_sum(others), bytes[11]))
        return (struct identifier){false, 0};
    unsigned bits = 8 * (digits - 1);
    uint64_t posting = others >> bits, consignor = (others ^ posting << bits) << 8 | first;
    return (struct identifier){posting != 0 && consignor != 0, (uint64_t)last << 56 | consignor};
}

static inline struct identifier read_identifier(const uint8_t *bytes)
{
    if (!is_capital(bytes[0]) || !(is_capital(bytes[1]) || bytes[1] == ' '))
        return (struct identifier){false, 0};
    return bytes[12] == 'Z' ? identifier_with_cz(bytes) : identifier_with_consignor(bytes);
}

/* Fields */

enum reading { ABSENT, VALUE, MALFORMED };

static inline bool real_date(const uint8_t *field)
{
    /* by two digits: a month that there is not has no days */
    static const uint8_t days[100] = {0, 31, 29, 31, 30, 31, 30, 31, 31, 30, 31, 30, 31};
    uint64_t values = values_of(word(field));
    if (!all_digits(values))
        return false;
    uint64_t pairs = pairs_of(values);
    unsigned century = pairs & 0xff, year = pairs >> 16 & 0xff, month = pairs >> 32 & 0xff, day = pairs >> 48 & 0xff;
    /* from 2000 to 2099 every fourth year is a leap year */
    return century == 20 && day - 1 < days[month] && !(month == 2 && day == 29 && year % 4 != 0);
}

static inline bool real_time(const uint8_t *field)
{
    static const uint8_t midnight[] = "00:00:00", highest[] = {2, 9, 0, 5, 9, 0, 5, 9};
    return none_above(word(field) ^ word(midnight), word(highest)) && (field[0] != '2' || field[1] <= '3');
}

static inline enum reading blank_or_malformed(const uint8_t *field, size_t width)
{
    return blank(field, width) ? ABSENT : MALFORMED;
}

/* It may be known already that there is nothing but text. */
static inline enum reading read_text(const uint8_t *field, size_t width, bool known)
{
    if (field[0] == ' ')
        return blank_or_malformed(field, width);
    return known || all_text(field, width) ? VALUE : MALFORMED;
}

static inline enum reading read_postcode(const uint8_t *field, uint32_t *number)
{
    if (field[0] == ' ')
        return blank_or_malformed(field, 5);
    for (size_t i = 0; i < 5; i++)
        if (!is_digit(field[i]))
            return MALFORMED;
    *number = two_digits(field) * 1000 + two_digits(field + 2) * 10 + digit(field[4]);
    return VALUE;
}

static inline enum reading read_country(const uint8_t *field)
{
    if (field[0] == ' ')
        return blank_or_malformed(field, 2);
    return is_capital(field[0]) && is_capital(field[1]) && !(field[0] == 'C' && field[1] == 'Z') ? VALUE : MALFORMED;
}

static inline enum reading read_telephone(const uint8_t *field)
{
    if (field[0] == ' ')
        return blank_or_malformed(field, 20);
    return field[0] == '+' && eight_digits(field + 1) && eight_digits(field + 5) && blank(field + 13, 7) ? VALUE
                                                                                                        : MALFORMED;
}

/* Where a look along a mail stops: its end is no byte of a mail. */
enum { AT = 1, DOT = 2, END = 4 };

#define N 0
#define E END

static const uint8_t stops[256] = {
    E, E, E, E, E, E, E, E, E, E, E, E, E, E, E, E,   /* 00h */
    E, E, E, E, E, E, E, E, E, E, E, E, E, E, E, E,   /* 10h */
    E, N, N, N, N, N, N, N, N, N, N, N, N, N, DOT, N, /* 20h */
    N, N, N, N, N, N, N, N, N, N, N, N, N, N, N, N,   /* 30h */
    AT, N, N, N, N, N, N, N, N, N, N, N, N, N, N, N,  /* 40h */
    N, N, N, N, N, N, N, N, N, N, N, N, N, N, N, N,   /* 50h */
    N, N, N, N, N, N, N, N, N, N, N, N, N, N, N, N,   /* 60h */
    N, N, N, N, N, N, N, N, N, N, N, N, N, N, N, E,   /* 70h; behind it none stops */
};

#undef N
#undef E

enum { MAIL_WIDTH = 50 };

static inline bool stops_at(const uint8_t *field, size_t place, uint8_t where)
{
    return place == MAIL_WIDTH || (stops[field[place]] & where) != 0;
}

static inline size_t next_stop(const uint8_t *field, size_t place, uint8_t where)
{
    while (!stops_at(field, place, where))
        place++;
    return place;
}

/* The first dot that may serve: if it is the last byte, none serves. */
static inline enum reading read_mail(const uint8_t *field)
{
    if (field[0] == ' ')
        return blank_or_malformed(field, MAIL_WIDTH);
    size_t at = next_stop(field, 0, AT | END);
    if (at == 0 || at == MAIL_WIDTH || field[at] != '@' || stops_at(field, at + 1, AT | END))
        return MALFORMED;
    size_t dot = next_stop(field, at + 2, AT | DOT | END);
    if (dot == MAIL_WIDTH || field[dot] != '.')
        return MALFORMED;
    size_t end = next_stop(field, dot + 1, AT | END);
    return end != dot + 1 && blank_from(field, end, MAIL_WIDTH) ? VALUE : MALFORMED;
}

/* Two bytes behind the field are read with it and shifted out. No weight at all is one that is blank or zero. */
static inline enum reading read_weight(const uint8_t *field, bool *none)
{
    static const uint8_t zero[] = "\0\0 0.000", highest[] = {0, 0, '9' ^ ' ', 9, 0, 9, 9, 9};
    uint64_t above = word(field) << 16 ^ word(zero);
    *none = true;
    if (field[0] == ' ' && field[1] == ' ')
        return blank_or_malformed(field, 6);
    *none = above == 0;
    return (field[0] == ' ' || field[0] >= '1') && none_above(above, word(highest)) ? VALUE : MALFORMED;
}

static inline enum reading read_amount(const uint8_t *field, uint64_t *hellers)
{
    enum { WIDTH = 12, MOST_WHOLE = 9, FRACTION = 3 };
    size_t whole = 0;
    uint64_t crowns = 0;
    *hellers = 0;
    if (field[0] == ' ')
        return blank_or_malformed(field, WIDTH);
    while (whole < MOST_WHOLE && is_digit(field[whole]))
        crowns = crowns * 10 + digit(field[whole++]);
    if (whole == 0 || (whole > 1 && field[0] == '0'))
        return MALFORMED;
    if (field[whole] != '.' || !is_digit(field[whole + 1]) || !is_digit(field[whole + 2]))
        return MALFORMED;
    *hellers = crowns * 100 + two_digits(field + whole + 1);
    return blank_from(field, whole + FRACTION, WIDTH) ? VALUE : MALFORMED;
}

/* Services: 1 to 99 are their own numbers, and those with letters have numbers behind them. */
enum { SERVICE_1A = 100, SERVICE_1B, SERVICE_1D, SERVICE_1K, SERVICE_1N, SIZE_S, SIZE_M, SIZE_L, SIZE_XL };

/* A bit for each service by its number: those below 64, and the others. */
struct services {
    uint64_t bits[2];
};

#define SERVICE(code) ((uint64_t)1 << (code) % 64)

static const uint64_t cash_services = SERVICE(2) | SERVICE(4) | SERVICE(5) | SERVICE(41);
static const uint64_t notices = SERVICE(34) | SERVICE(45) | SERVICE(46);
static const uint64_t multi_piece = SERVICE(70);
static const uint64_t sizes = SERVICE(SIZE_S) | SERVICE(SIZE_M) | SERVICE(SIZE_L) | SERVICE(SIZE_XL);

static const uint8_t letters_behind_1[256] = {
    ['A'] = SERVICE_1A, ['B'] = SERVICE_1B, ['D'] = SERVICE_1D, ['K'] = SERVICE_1K, ['N'] = SERVICE_1N,
};

static const uint8_t sizes_of_one_letter[256] = {['S'] = SIZE_S, ['M'] = SIZE_M, ['L'] = SIZE_L};

/* Adds a service; false if it is there already. */
static inline bool add_service(struct services *services, unsigned code)
{
    uint64_t *bits = &services->bits[code / 64], before = *bits;
    *bits |= SERVICE(code);
    return *bits != before;
}

/* A number and the bytes that it was read from; 0 where there is no service. */
struct service {
    unsigned code;
    size_t bytes;
};

static inline struct service read_size(uint8_t first, uint8_t second)
{
    if (first == 'X' && second == 'L')
        return (struct service){SIZE_XL, 2};
    return (struct service){sizes_of_one_letter[first], 1};
}

/* The service that is these two bytes, or the first of them. */
static inline struct service read_service(uint8_t first, uint8_t second)
{
    if (!is_digit(first))
        return read_size(first, second);
    if (first != '0' && is_digit(second))
        return (struct service){digit(first) * 10 + digit(second), 2};
    if (first == '1' && letters_behind_1[second] != 0)
        return (struct service){letters_behind_1[second], 2};
    return (struct service){digit(first), 1};
}

static inline enum reading read_services(const uint8_t *field, struct services *services)
{
    enum { WIDTH = 30 };
    size_t at = 0;
    *services = (struct services){{0, 0}};
    if (field[0] == ' ')
        return blank_or_malformed(field, WIDTH);
    for (;;) {
        if (at == WIDTH)
            return MALFORMED;
        struct service service = read_service(field[at], at + 1 < WIDTH ? field[at + 1] : ' ');
        if (service.code == 0 || !add_service(services, service.code))
            return MALFORMED;
        at += service.bytes;
        if (at == WIDTH || field[at] != '+')
            return blank_from(field, at, WIDTH) ? VALUE : MALFORMED;
        at++;
    }
}

static inline enum reading read_variable_symbol(const uint8_t *field)
{
    if (field[0] == ' ')
        return blank_or_malformed(field, 10);
    return eight_digits(field) && eight_digits(field + 2) ? VALUE : MALFORMED;
}

static inline enum reading read_main(const uint8_t *field)
{
    if (field[0] == ' ')
        return blank_or_malformed(field, IDENTIFIER_WIDTH);
    return read_identifier(field).right ? VALUE : MALFORMED;
}

/* 01 to 99; 0 stands for blank. */
static inline enum reading read_count(const uint8_t *field, unsigned *count)
{
    *count = 0;
    if (field[0] == ' ')
        return blank_or_malformed(field, 2);
    if (!is_digit(field[0]) || !is_digit(field[1]))
        return MALFORMED;
    *count = two_digits(field);
    return *count != 0 ? VALUE : MALFORMED;
}

static inline bool right_status(const uint8_t *field)
{
    return (field[0] == ' ' || field[0] == '0') && field[1] == ' ';
}

/* Tables of postcodes */

struct table {
    const uint32_t *entries;
    size_t count;
};

/*
 * Whether each of so many entries is below the one behind it. There is no way out halfway, and they are compared with a
 * sign, as the processor does with several at once.
 */
static inline bool rise(const uint32_t *entries, size_t count)
{
    int32_t rises = -1;
    for (size_t i = 0; i < count; i++)
        rises &= -((int32_t)entries[i] < (int32_t)entries[i + 1]);
    return rises != 0;
}

/* What rises with a sign, from 0 or more to 99999 or less, rises without. */
static bool right_table(struct table table)
{
    enum { AT_ONCE = 64 }; /* in one row of instructions, without the turns of a loop */
    if (table.count == 0)
        return true;
    const uint32_t *first = table.entries, *last = first + table.count - 1;
    if (table.count > MOST_ENTRIES || *first > MOST_POSTCODE || *last > MOST_POSTCODE)
        return false;
    for (; last - first >= AT_ONCE; first += AT_ONCE)
        if (!rise(first, AT_ONCE))
            return false;
    return rise(first, (size_t)(last - first));
}

/*
 * By quarters, and what is left by halves. Three looks do not wait for each other, and a choice needs no branch, which
 * would be guessed wrong every other time.
 */
static inline bool in_table(struct table table, uint32_t number)
{
    const uint32_t *low = table.entries;
    size_t left = table.count, quarter;
    for (; (quarter = left / 4) != 0; left -= 3 * quarter) {
        const uint32_t *start = low;
        for (size_t part = 1; part <= 3; part++)
            low = start[part * quarter] <= number ? start + part * quarter : low;
    }
    for (; left > 1; left -= left / 2)
        low += low[left / 2] <= number ? left / 2 : 0;
    return table.count != 0 && *low == number;
}

bool reference_right_table(const uint32_t *table, size_t entries)
{
    return right_table((struct table){table, entries});
}

/* Records */

/* What the rules over several fields ask. */
struct consignment {
    enum reading name, postcode, country, municipality, telephone, mail, cash_field, price_field;
    enum reading variable_symbol, main;
    uint32_t postcode_number;
    bool no_weight;
    unsigned serial, pieces;
    uint64_t consignor, cash, price;
    struct services services;
    bool cancelled;
};

/* Whether nothing but text is in fields 4 to 11. The first seven bytes are the time's, and known to be text. */
static inline bool texts_are_text(const uint8_t *record)
{
    enum { ROWS = 11, WIDTH = 16 };
    return rows_are_text(record + TELEPHONE - ROWS * WIDTH, ROWS);
}

/* Fields 2 to 11: the lowest that is malformed, or 0. */
static inline uint32_t read_address(const uint8_t *record, struct consignment *it)
{
    if (!real_date(record + DATE))
        return 2;
    if (!real_time(record + TIME))
        return 3;
    bool text = texts_are_text(record);
    if ((it->name = read_text(record + NAME, 30, text)) == MALFORMED)
        return 4;
    it->postcode_number = 0;
    it->country = read_country(record + COUNTRY);
    it->postcode = it->country == ABSENT ? read_postcode(record + POSTCODE, &it->postcode_number)
                                         : read_text(record + POSTCODE, 5, text);
    if (it->postcode == MALFORMED)
        return 5;
    if (it->country == MALFORMED)
        return 6;
    if ((it->municipality = read_text(record + MUNICIPALITY, 40, text)) == MALFORMED)
        return 7;
    if (read_text(record + DISTRICT, 40, text) == MALFORMED)
        return 8;
    if (read_text(record + STREET, 40, text) == MALFORMED)
        return 9;
    if (read_text(record + HOUSE, 6, text) == MALFORMED)
        return 10;
    return read_text(record + ORIENTATION, 6, text) == MALFORMED ? 11 : 0;
}

/* Fields 12 to 14 likewise. Mostly all are blank. */
static inline uint32_t read_contact(const uint8_t *record, struct consignment *it)
{
    it->telephone = it->mail = ABSENT;
    if (blank(record + TELEPHONE, WEIGHT - TELEPHONE))
        return 0;
    if ((it->telephone = read_telephone(record + TELEPHONE)) == MALFORMED)
        return 12;
    if ((it->mail = read_mail(record + MAIL)) == MALFORMED)
        return 13;
    return blank(record + CHARGES, 12) ? 0 : 14;
}

/* Fields 15 to 19 likewise. */
static inline uint32_t read_posting(const uint8_t *record, struct consignment *it)
{
    if (read_weight(record + WEIGHT, &it->no_weight) == MALFORMED)
        return 15;
    if ((it->cash_field = read_amount(record + CASH, &it->cash)) == MALFORMED)
        return 16;
    if ((it->price_field = read_amount(record + PRICE, &it->price)) == MALFORMED)
        return 17;
    if (read_services(record + SERVICES, &it->services) == MALFORMED)
        return 18;
    it->cancelled = record[STATUS] == '0';
    return right_status(record + STATUS) ? 0 : 19;
}

/* Fields 20 to 26 likewise. Mostly all are blank. */
static inline uint32_t read_rest(const uint8_t *record, struct consignment *it)
{
    it->variable_symbol = it->main = ABSENT;
    it->serial = it->pieces = 0;
    if (blank(record + FRANKING, RECORD - FRANKING))
        return 0;
    if (read_text(record + FRANKING, 10, false) == MALFORMED)
        return 20;
    if ((it->variable_symbol = read_variable_symbol(record + VARIABLE_SYMBOL)) == MALFORMED)
        return 21;
    if ((it->main = read_main(record + MAIN)) == MALFORMED)
        return 22;
    if (read_count(record + SERIAL, &it->serial) == MALFORMED)
        return 23;
    if (read_count(record + PIECES, &it->pieces) == MALFORMED)
        return 24;
    if (!blank(record + CONSIGNOR, 10))
        return 25;
    return read_text(record + SENDERS_SYMBOL, 10, false) == MALFORMED ? 26 : 0;
}

struct answer {
    uint32_t code, place;
};

static const struct answer accepted = {0, 0};

/* 27: the first of 4, 5, 7 that breaks it, or 0. Abroad there need be no postcode. */
static inline uint32_t wrong_address(const struct consignment *it)
{
    if (it->name == ABSENT)
        return 4;
    if (it->country == ABSENT && it->postcode == ABSENT)
        return 5;
    return it->municipality == ABSENT ? 7 : 0;
}

/* 21 and 24: abroad no postcode is looked up. */
static inline bool unknown_postcode(const struct consignment *it, struct table table)
{
    return it->country == ABSENT && !in_table(table, it->postcode_number);
}

/* Whether the service and the amount that belongs to it disagree. */
static inline bool wrong_amount(bool service, enum reading field, uint64_t amount)
{
    return service ? amount == 0 : field != ABSENT;
}

static inline bool more_than_one(uint64_t bits)
{
    return (bits & (bits - 1)) != 0;
}

/* 223: the first of 12, 13 that breaks it, or 0. */
static inline uint32_t wrong_notice(const struct consignment *it)
{
    if ((it->services.bits[0] & (SERVICE(34) | SERVICE(45))) != 0 && it->telephone == ABSENT)
        return 12;
    if ((it->services.bits[0] & (SERVICE(45) | SERVICE(46))) != 0 && it->mail == ABSENT)
        return 13;
    return 0;
}

static inline bool prefix_is(const uint8_t *record, char first, char second)
{
    return record[0] == (uint8_t)first && record[1] == (uint8_t)second;
}

static inline bool multi_piece_prefix(const uint8_t *record)
{
    return prefix_is(record, 'B', 'O') || prefix_is(record, 'O', 'V') || prefix_is(record, 'D', 'R') ||
           prefix_is(record, 'N', 'P');
}

/* The first of 22, 23, 24 that is blank, or that is filled; 0 if none is. */
static inline uint32_t first_of_pieces(const struct consignment *it, bool filled)
{
    if ((it->main == VALUE) == filled)
        return 22;
    if ((it->serial != 0) == filled)
        return 23;
    return (it->pieces != 0) == filled ? 24 : 0;
}

/* 72: the place that breaks it, or 0. */
static inline uint32_t wrong_pieces(const uint8_t *record, const struct consignment *it)
{
    if ((it->services.bits[1] & multi_piece) == 0)
        return first_of_pieces(it, true);
    if (!multi_piece_prefix(record))
        return 18;
    uint32_t missing = first_of_pieces(it, false);
    if (missing != 0)
        return missing;
    if (it->serial > it->pieces)
        return 23;
    bool is_main = memcmp(record + IDENTIFIER, record + MAIN, IDENTIFIER_WIDTH) == 0;
    return is_main == (it->serial == 1) ? 0 : 22;
}

/* The rules over several fields, in their order. */
static inline struct answer judge(const uint8_t *record, const struct consignment *it, struct table table)
{
    uint64_t services = it->services.bits[0];
    bool on_delivery = (services & cash_services) != 0;
    uint32_t place = wrong_address(it);
    if (place != 0)
        return (struct answer){27, place};
    if (unknown_postcode(it, table))
        return (struct answer){(services & SERVICE(41)) != 0 ? 21 : 24, 5};
    if (it->no_weight)
        return (struct answer){(services & SERVICE(41)) != 0 ? 31 : 34, 15};
    if (wrong_amount(on_delivery, it->cash_field, it->cash))
        return (struct answer){36, 16};
    if ((services & SERVICE(41)) != 0 && it->variable_symbol == ABSENT)
        return (struct answer){11, 21};
    if (!on_delivery && it->variable_symbol == VALUE)
        return (struct answer){221, 21};
    if (wrong_amount((services & SERVICE(7)) != 0, it->price_field, it->price))
        return (struct answer){222, 17};
    if (more_than_one(services & notices) || more_than_one(it->services.bits[1] & sizes))
        return (struct answer){220, 18};
    if ((place = wrong_notice(it)) != 0)
        return (struct answer){223, place};
    if ((place = wrong_pieces(record, it)) != 0)
        return (struct answer){72, place};
    return accepted;
}

/* The whole table for a record of 399 bytes. */
static struct answer check_record(const uint8_t *record, struct consignment *it, struct table table)
{
    uint32_t place;
    struct identifier identifier = read_identifier(record + IDENTIFIER);
    if (!identifier.right)
        return (struct answer){1, 1};
    it->consignor = identifier.consignor;
    if ((place = read_address(record, it)) != 0 || (place = read_contact(record, it)) != 0 ||
        (place = read_posting(record, it)) != 0 || (place = read_rest(record, it)) != 0)
        return (struct answer){210, place};
    return judge(record, it, table);
}

uint32_t reference_record_check(const uint8_t *bytes, size_t length, const uint32_t *table, size_t entries,
                                uint32_t *place)
{
    struct consignment it;
    struct table postcodes = {table, entries};
    *place = 0;
    if (!right_table(postcodes))
        return 238;
    if (length != RECORD)
        return 236;
    struct answer answer = check_record(bytes, &it, postcodes);
    *place = answer.place;
    return answer.code;
}

/* A record to be posted: a status that is not blank is malformed, whatever is wrong behind it. */
static inline struct answer judge_status(const uint8_t *record, struct answer answer)
{
    bool earlier = answer.code == 1 || (answer.code == 210 && answer.place < 19);
    return earlier || blank(record + STATUS, 2) ? answer : (struct answer){210, 19};
}

struct reference_posting reference_posting_check(const uint8_t record[399], const uint32_t *table, size_t entries)
{
    struct consignment it;
    struct answer answer = judge_status(record, check_record(record, &it, (struct table){table, entries}));
    if (answer.code != 0)
        return (struct reference_posting){answer.code, answer.place, 0, 0, 0};
    return (struct reference_posting){0, 0, it.cash, it.price, it.consignor};
}

/* Repeated identifiers and consignors: what is carried from record to record */

struct carried {
    struct slots seen;
    uint64_t consignor; /* the first that was named; 0 up to there */
};

/* Notes the identifier of this record, numbered from 1; true if an earlier one has it. */
static inline bool seen_before(struct slots *seen, const uint8_t *file, size_t number)
{
    struct key key = key_of(file + (number - 1) * STEP);
    for (size_t slot = first_slot(seen, key);; slot = next_slot(seen, slot)) {
        if (seen->numbers[slot] == 0) {
            seen->numbers[slot] = (uint16_t)number;
            return false;
        }
        if (same_key(key_of(file + (size_t)(seen->numbers[slot] - 1) * STEP), key))
            return true;
    }
}

/* Notes whose a record is; true if an earlier one is of another. */
static inline bool of_another(struct carried *carried, uint64_t consignor)
{
    if (carried->consignor == 0)
        carried->consignor = consignor;
    return consignor != 0 && consignor != carried->consignor;
}

/* Files */

enum { OUT_CODE, OUT_RECORD, OUT_PLACE, OUT_LIVE, OUT_CANCELLED, OUT_CASH, OUT_PRICE, OUTS };

static uint32_t refuse(uint64_t out[OUTS], struct answer answer, size_t number)
{
    memset(out, 0, OUTS * sizeof out[0]);
    out[OUT_CODE] = answer.code;
    out[OUT_RECORD] = number;
    out[OUT_PLACE] = answer.place;
    return answer.code;
}

static inline struct answer check_in_file(const uint8_t *file, size_t number, struct table table,
                                          struct carried *carried, struct consignment *it)
{
    const uint8_t *record = file + (number - 1) * STEP;
    if (record[RECORD] != 0x0d || record[RECORD + 1] != 0x0a)
        return (struct answer){212, 0};
    struct answer answer = check_record(record, it, table);
    if (answer.code != 0)
        return answer;
    if (seen_before(&carried->seen, file, number))
        return (struct answer){2, 1};
    return of_another(carried, it->consignor) ? (struct answer){241, 1} : accepted;
}

static inline void add_to_totals(uint64_t out[OUTS], const struct consignment *it)
{
    if (it->cancelled) {
        out[OUT_CANCELLED]++;
        return;
    }
    out[OUT_LIVE]++;
    out[OUT_CASH] += it->cash;
    out[OUT_PRICE] += it->price;
}

uint32_t reference_file_check(const uint8_t *bytes, size_t length, const uint32_t *table, size_t entries,
                              uint64_t out[7])
{
    struct carried carried;
    struct consignment it;
    struct table postcodes = {table, entries};
    size_t records = length / STEP;
    if (!right_table(postcodes))
        return refuse(out, (struct answer){238, 0}, 0);
    if (length % STEP != 0)
        return refuse(out, (struct answer){211, 0}, 0);
    if (records > MOST_RECORDS)
        return refuse(out, (struct answer){213, 0}, 0);
    memset(out, 0, OUTS * sizeof out[0]);
    clear_slots(&carried.seen, records);
    carried.consignor = 0;
    for (size_t number = 1; number <= records; number++) {
        struct answer answer = check_in_file(bytes, number, postcodes, &carried, &it);
        if (answer.code != 0)
            return refuse(out, answer, number);
        add_to_totals(out, &it);
    }
    return 0;
}
