/*
 * Words for what Fuganorezi answers: for each code at its place, and for each field of a record. Header only, for C and C++.
 *
 * kcheck --words and docs/CODES.md are made from the rows below, so each stands on one line.
 */
#ifndef FUGANOREZI_WORDS_H
#define FUGANOREZI_WORDS_H

#include "fuganorezi.h"

/* A field: its name, and what it may hold. */
typedef struct fuganorezi_field {
    uint32_t start, width;
    const char *name, *form;
} fuganorezi_field;

/* What a code says at its place. */
typedef struct fuganorezi_rule {
    uint32_t code, place;
    const char *words;
} fuganorezi_rule;

/* In the place of a rule: any field. Its words are said of each, with the form that the field has. */
#define FUGANOREZI_ANY_FIELD UINT32_MAX

/* The field of this number, 1 to 26; NULL if there is none. */
static inline const fuganorezi_field *fuganorezi_field_at(uint64_t number)
{
#define FUGANOREZI_FIELD(n, name, form) {FUGANOREZI_START_##n, FUGANOREZI_WIDTH_##n, name, form}
    static const fuganorezi_field fields[FUGANOREZI_FIELDS] = {
        FUGANOREZI_FIELD(1, "consignment identifier", "13 characters: prefix, numbers, check digit, postfix"),
        FUGANOREZI_FIELD(2, "date", "ccyymmdd, a day from 2000 to 2099 that exists"),
        FUGANOREZI_FIELD(3, "time", "hh:mm:ss, from 00:00:00 to 23:59:59"),
        FUGANOREZI_FIELD(4, "addressee's name", "text in CP852 from the first character on, or blank"),
        FUGANOREZI_FIELD(5, "postcode", "five digits (abroad text in CP852 from the first character on), or blank"),
        FUGANOREZI_FIELD(6, "country", "two capital letters other than CZ, or blank for domestic"),
        FUGANOREZI_FIELD(7, "municipality", "text in CP852 from the first character on, or blank"),
        FUGANOREZI_FIELD(8, "district", "text in CP852 from the first character on, or blank"),
        FUGANOREZI_FIELD(9, "street", "text in CP852 from the first character on, or blank"),
        FUGANOREZI_FIELD(10, "house number (č.p.)", "text in CP852 from the first character on, or blank"),
        FUGANOREZI_FIELD(11, "house number (č.o.)", "text in CP852 from the first character on, or blank"),
        FUGANOREZI_FIELD(12, "telephone", "+ and twelve digits, or blank"),
        FUGANOREZI_FIELD(13, "e-mail", "an address with one @ and a dot in what follows it, or blank"),
        FUGANOREZI_FIELD(14, "delivery charges", "blank"),
        FUGANOREZI_FIELD(15, "weight", "kilograms to the gram at the right of the field, as \" 2.350\", or blank"),
        FUGANOREZI_FIELD(16, "cash on delivery", "crowns and two digits of haléře at the left of the field, as 1234.50, or blank"),
        FUGANOREZI_FIELD(17, "price specified", "crowns and two digits of haléře at the left of the field, as 1234.50, or blank"),
        FUGANOREZI_FIELD(18, "services", "different codes (1 to 99, 1A, 1B, 1D, 1K, 1N, S, M, L, XL) joined by +, as 7+41 or 1A+XL, or blank"),
        FUGANOREZI_FIELD(19, "status", "blank, or 0 for a cancelled consignment"),
        FUGANOREZI_FIELD(20, "franking machine", "text in CP852 from the first character on, or blank"),
        FUGANOREZI_FIELD(21, "variable symbol", "ten digits, or blank"),
        FUGANOREZI_FIELD(22, "main consignment", "a right identifier, or blank"),
        FUGANOREZI_FIELD(23, "serial number of the piece", "01 to 99, or blank"),
        FUGANOREZI_FIELD(24, "number of pieces", "01 to 99, or blank"),
        FUGANOREZI_FIELD(25, "consignor's number", "blank"),
        FUGANOREZI_FIELD(26, "sender's symbol", "text in CP852 from the first character on, or blank"),
    };
#undef FUGANOREZI_FIELD
    return 1 <= number && number <= FUGANOREZI_FIELDS ? &fields[number - 1] : NULL;
}

/* The rule that gives this code at this place; NULL if none does. */
static inline const fuganorezi_rule *fuganorezi_rule_for(uint64_t code, uint64_t place)
{
    static const fuganorezi_rule rules[] = {
        /* A file, in the order in which rules are looked at */
        {FUGANOREZI_WRONG_TABLE, 0, "no right table of postcodes: at most 16,000 numbers, each above the one before it and none above 99999; as text, five digits and a line feed for each"},
        {FUGANOREZI_FILE_LENGTH, 0, "its length is not a multiple of 401 bytes (399 of the record, carriage return, line feed)"},
        {FUGANOREZI_TOO_MANY_RECORDS, 0, "it has more than 999 records"},
        /* Each record of a file in its turn */
        {FUGANOREZI_LINE_END, 0, "does not end in carriage return and line feed"},
        {FUGANOREZI_WRONG_IDENTIFIER, 1, "not a right identifier: prefix, numbers, check digit or postfix"},
        {FUGANOREZI_MALFORMED, FUGANOREZI_ANY_FIELD, "malformed"},
        {FUGANOREZI_ADDRESS_INCOMPLETE, 4, "blank, and each consignment needs it"},
        {FUGANOREZI_ADDRESS_INCOMPLETE, 5, "blank, and a domestic consignment needs it"},
        {FUGANOREZI_ADDRESS_INCOMPLETE, 7, "blank, and each consignment needs it"},
        {FUGANOREZI_POSTCODE_UNKNOWN_41, 5, "not in the table of postcodes, and a domestic consignment under service 41 needs one that is"},
        {FUGANOREZI_POSTCODE_UNKNOWN, 5, "not in the table of postcodes, and a domestic consignment needs one that is"},
        {FUGANOREZI_WEIGHT_MISSING_41, 15, "blank or zero under service 41, and each consignment needs a weight"},
        {FUGANOREZI_WEIGHT_MISSING, 15, "blank or zero, and each consignment needs a weight"},
        {FUGANOREZI_CASH_DISAGREES, 16, "services 2, 4, 5 and 41 need an amount above zero, and without them it must be blank"},
        {FUGANOREZI_SYMBOL_MISSING, 21, "service 41 needs it"},
        {FUGANOREZI_SYMBOL_FILLED, 21, "filled without service 2, 4, 5 or 41"},
        {FUGANOREZI_PRICE_DISAGREES, 17, "service 7 needs a price above zero, and without it the field must be blank"},
        {FUGANOREZI_SERVICES_EXCLUDE, 18, "services that exclude each other: more than one of 34, 45 and 46, or more than one of the sizes S, M, L and XL"},
        {FUGANOREZI_CONTACT_MISSING, 12, "services 34 and 45 need it"},
        {FUGANOREZI_CONTACT_MISSING, 13, "services 45 and 46 need it"},
        {FUGANOREZI_PIECES_DISAGREE, 18, "service 70 goes only with prefix BO, OV, DR or NP"},
        {FUGANOREZI_PIECES_DISAGREE, 22, "must be filled with service 70 and blank without it; it is the consignment itself for piece 01, and another one for all other pieces"},
        {FUGANOREZI_PIECES_DISAGREE, 23, "must be filled with service 70 and blank without it, and not be above the number of pieces"},
        {FUGANOREZI_PIECES_DISAGREE, 24, "must be filled with service 70 and blank without it"},
        {FUGANOREZI_IDENTIFIER_TWICE, 1, "an earlier record has the same identifier, and each needs its own"},
        {FUGANOREZI_OTHER_CONSIGNOR, 1, "an earlier record names another consignor, and all that name one must name the same"},
        /* The closing check, where none of these is met */
        {FUGANOREZI_SET_NOT_WHOLE, 24, "the pieces of its set give different numbers of pieces, and must all give the same"},
        {FUGANOREZI_SET_NOT_WHOLE, 23, "a serial of its set is there twice, and each must be there once"},
        {FUGANOREZI_SET_NOT_WHOLE, 22, "a piece of its set is missing: the serials must run from 01 to the number of pieces"},
        /* The batch, besides the rules of a record */
        {FUGANOREZI_BUFFER_LENGTH, 0, "the file buffer or the journal has none of the lengths that a batch takes"},
        {FUGANOREZI_BATCH_DISAGREES, 0, "file, journal and counts are not what the journal's entries make"},
        {FUGANOREZI_WRONG_LENGTH, 0, "a record has 399 bytes, an identifier 13, a field its width, and this has not"},
        {FUGANOREZI_NOT_THERE, 0, "no record has this identifier"},
        {FUGANOREZI_IS_CANCELLED, 0, "the consignment is cancelled"},
        {FUGANOREZI_FILE_FULL, 0, "the file buffer has no place for one record more"},
        {FUGANOREZI_JOURNAL_FULL, 0, "the journal has not the room for the entry"},
        {FUGANOREZI_NOTHING_TO_UNDO, 0, "there is nothing to undo"},
        /* The writers */
        {FUGANOREZI_MALFORMED, 0, "the number has no writing in the field"},
    };
    const size_t count = sizeof rules / sizeof rules[0];
    for (size_t i = 0; i < count; i++) {
        const fuganorezi_rule *rule = &rules[i];
        const int here = rule->place == FUGANOREZI_ANY_FIELD ? fuganorezi_field_at(place) != NULL : rule->place == place;
        if (rule->code == code && here)
            return rule;
    }
    return NULL;
}

/* The words for this code at this place; for a code without words, that there are none. */
static inline const char *fuganorezi_words(uint64_t code, uint64_t place)
{
    const fuganorezi_rule *rule = fuganorezi_rule_for(code, place);
    return rule != NULL ? rule->words : "there are no words for this code at this place";
}

#endif
