/*
 * Good K files of any number of records, for tests and measurements. A record is made from its
 * number alone, so its part in the totals is known, and no two have the same identifier. All are of
 * one consignor, or of none.
 */
#ifndef GOOD_FILE_H
#define GOOD_FILE_H

#include "fuganorezi_words.h"

#include <inttypes.h>
#include <stdbool.h>
#include <stdint.h>
#include <stdio.h>
#include <string.h>

enum { GOOD_STEP = FUGANOREZI_LINE_LENGTH, GOOD_STATUS = FUGANOREZI_START_19, GOOD_KINDS = 6 };

/* The table of postcodes under which they are good: that of all which stay at home, and two others. */
#define GOOD_POSTCODE "11000"
static const uint32_t good_table[] = {10000, 11000, 60200};
enum { GOOD_ENTRIES = sizeof good_table / sizeof good_table[0] };

/* What a file of good records has to be answered with. */
struct good_totals {
    uint64_t live, cancelled, cash, price;
};

static inline void put_field(uint8_t *record, unsigned field, const char *text)
{
    memcpy(record + fuganorezi_field_at(field)->start, text, strlen(text));
}

static inline void put_amount(uint8_t *record, unsigned field, uint64_t hellers)
{
    char text[32];
    snprintf(text, sizeof text, "%" PRIu64 ".%02" PRIu64, hellers / 100, hellers % 100);
    put_field(record, field, text);
}

static inline void put_postcode(uint8_t *record, uint32_t postcode)
{
    char text[16];
    snprintf(text, sizeof text, "%05u", (unsigned)postcode % 100000);
    put_field(record, 5, text);
}

/* The check digit of nine digits; for eight, ask with a 0 before them, which adds nothing to the sum. */
static inline unsigned check_digit_of(const char nine_digits[9])
{
    static const unsigned weights[9] = {1, 8, 6, 4, 2, 3, 5, 9, 7};
    unsigned sum = 0;
    for (int i = 0; i < 9; i++)
        sum += weights[i] * (unsigned)(nine_digits[i] - '0');
    unsigned remainder = sum % 11;
    return remainder == 0 ? 5 : remainder == 1 ? 0 : 11 - remainder;
}

/* BO, nine digits that have the consignor's number in front and the posting number behind it, and the consignor's type. */
static inline void identifier_with(unsigned nine_digits, char type, char text[14])
{
    char digits[16];
    snprintf(digits, sizeof digits, "%09u", nine_digits % 1000000000);
    snprintf(text, 14, "BO%.9s%u%c", digits, check_digit_of(digits), type);
}

/* EE and CZ, which names no consignor; the posting number alone. */
static inline void identifier_with_cz(unsigned number, char text[14])
{
    char digits[16];
    snprintf(digits, sizeof digits, "0%08u", number % 100000000);
    snprintf(text, 14, "EE%.8s%uCZ", digits + 1, check_digit_of(digits));
}

/* Consignor 54, the record's number as posting number. */
static inline void good_identifier(unsigned number, char text[14])
{
    identifier_with(540000000 + number % 10000000, 'F', text);
}

enum good_kind { GOOD_PLAIN, GOOD_ON_DELIVERY, GOOD_ABROAD, GOOD_NOTICE, GOOD_CANCELLED, GOOD_PIECE };

static inline enum good_kind good_kind(unsigned number)
{
    return (enum good_kind)(number % GOOD_KINDS);
}

/* A number whose record is of this kind. */
static inline unsigned good_number(enum good_kind kind)
{
    return GOOD_KINDS + kind;
}

static inline bool good_has_cash(unsigned number)
{
    enum good_kind kind = good_kind(number);
    return kind == GOOD_ON_DELIVERY || kind == GOOD_NOTICE || kind == GOOD_CANCELLED;
}

static inline bool good_has_price(unsigned number)
{
    enum good_kind kind = good_kind(number);
    return kind == GOOD_ON_DELIVERY || kind == GOOD_PIECE || kind == GOOD_CANCELLED;
}

static inline uint64_t good_cash(unsigned number)
{
    return good_has_cash(number) ? 10050 + 137 * (uint64_t)number : 0;
}

static inline uint64_t good_price(unsigned number)
{
    return good_has_price(number) ? 99999900000 + number : 0;
}

static inline void put_good_address(uint8_t *record, bool abroad)
{
    put_field(record, 2, "20240229");
    put_field(record, 3, "23:59:59");
    put_field(record, 4, "Ku\x9f" "era Ji\xfd\xa1"); /* CP852 */
    put_field(record, 5, abroad ? "1030" : GOOD_POSTCODE);
    put_field(record, 6, abroad ? "AT" : "");
    put_field(record, 7, abroad ? "Wien" : "Praha 1");
    put_field(record, 8, abroad ? "" : "Star\x82 M\xd8sto");
    put_field(record, 9, abroad ? "Rennweg" : "Jind\xfdi\xe7sk\xa0");
    put_field(record, 10, "909");
    put_field(record, 11, "14");
    put_field(record, 15, " 2.350");
}

static inline void put_good_services(uint8_t *record, enum good_kind kind, const char *identifier)
{
    static const char *const services[GOOD_KINDS] = {"", "7+41", "42", "4+45", "2+7", "7+70"};
    put_field(record, 18, services[kind]);
    put_field(record, 19, kind == GOOD_CANCELLED ? "0" : "");
    if (kind == GOOD_ON_DELIVERY)
        put_field(record, 21, "0000012345");
    if (kind == GOOD_NOTICE) {
        put_field(record, 12, "+420601123456");
        put_field(record, 13, "jiri.kucera@priklad.cz");
    }
    if (kind == GOOD_PIECE) {
        put_field(record, 22, identifier);
        put_field(record, 23, "01");
        put_field(record, 24, "02");
    }
}

/* Writes the 401 bytes of the good record of this number. */
static inline void put_good_record(uint8_t *record, unsigned number)
{
    char identifier[14];
    enum good_kind kind = good_kind(number);
    if (kind == GOOD_ABROAD)
        identifier_with_cz(number, identifier);
    else
        good_identifier(number, identifier);
    memset(record, ' ', GOOD_STEP - 2);
    memcpy(record + GOOD_STEP - 2, "\r\n", 2);
    put_field(record, 1, identifier);
    put_good_address(record, kind == GOOD_ABROAD);
    if (good_has_cash(number))
        put_amount(record, 16, good_cash(number));
    if (good_has_price(number))
        put_amount(record, 17, good_price(number));
    put_good_services(record, kind, identifier);
}

/* Likewise, but never cancelled, as a batch takes it. */
static inline void put_good_posting(uint8_t *record, unsigned number)
{
    put_good_record(record, number);
    record[GOOD_STATUS] = ' ';
}

/* Writes records 1 to `records`. */
static inline void put_good_file(uint8_t *file, unsigned records)
{
    for (unsigned number = 1; number <= records; number++)
        put_good_record(file + (size_t)(number - 1) * GOOD_STEP, number);
}

static inline struct good_totals good_totals(unsigned records)
{
    struct good_totals totals = {0, 0, 0, 0};
    for (unsigned number = 1; number <= records; number++) {
        if (good_kind(number) == GOOD_CANCELLED) {
            totals.cancelled++;
        } else {
            totals.live++;
            totals.cash += good_cash(number);
            totals.price += good_price(number);
        }
    }
    return totals;
}

#endif
