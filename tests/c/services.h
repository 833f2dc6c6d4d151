/*
 * Services as the papers list them, for tests: all codes one by one, and what a field 18 is that holds any bytes. It
 * shares nothing with the library, and is written to be read, not to be quick.
 */
#ifndef SERVICES_H
#define SERVICES_H

#include "fuganorezi.h"

#include <stdbool.h>
#include <string.h>

enum { SERVICES_WIDTH = FUGANOREZI_WIDTH_18 };

/* A number stands at its own place, the sizes stand last, and place 0 is for what is no code. */
enum { NO_CODE = 0, FIRST_SIZE = 105, LAST_CODE = 108 };

static const char *const service_codes[LAST_CODE + 1] = {
    "",
    "1", "2", "3", "4", "5", "6", "7", "8", "9",
    "10", "11", "12", "13", "14", "15", "16", "17", "18", "19",
    "20", "21", "22", "23", "24", "25", "26", "27", "28", "29",
    "30", "31", "32", "33", "34", "35", "36", "37", "38", "39",
    "40", "41", "42", "43", "44", "45", "46", "47", "48", "49",
    "50", "51", "52", "53", "54", "55", "56", "57", "58", "59",
    "60", "61", "62", "63", "64", "65", "66", "67", "68", "69",
    "70", "71", "72", "73", "74", "75", "76", "77", "78", "79",
    "80", "81", "82", "83", "84", "85", "86", "87", "88", "89",
    "90", "91", "92", "93", "94", "95", "96", "97", "98", "99",
    "1A", "1B", "1D", "1K", "1N",
    "S", "M", "L", "XL",
};

/* Which code these bytes are. */
static inline unsigned service_code(const uint8_t *bytes, size_t length)
{
    for (unsigned code = 1; code <= LAST_CODE; code++)
        if (strlen(service_codes[code]) == length && memcmp(service_codes[code], bytes, length) == 0)
            return code;
    return NO_CODE;
}

/* How many times each code stands in a field. */
struct services {
    unsigned times[LAST_CODE + 1];
};

/* What stands before, between and behind each "+", up to the spaces at the end. */
static inline struct services services_in(const uint8_t field[SERVICES_WIDTH])
{
    struct services found = {{0}};
    size_t start = 0, end = SERVICES_WIDTH;
    while (end > 0 && field[end - 1] == ' ')
        end--;
    if (end == 0)
        return found;
    for (size_t at = 0; at <= end; at++)
        if (at == end || field[at] == '+') {
            found.times[service_code(field + start, at - start)]++;
            start = at + 1;
        }
    return found;
}

static inline bool malformed_services(const struct services *found)
{
    bool malformed = found->times[NO_CODE] != 0;
    for (unsigned code = 1; code <= LAST_CODE; code++)
        malformed |= found->times[code] > 1;
    return malformed;
}

static inline unsigned sizes_among(const struct services *found)
{
    unsigned sizes = 0;
    for (unsigned code = FIRST_SIZE; code <= LAST_CODE; code++)
        sizes += found->times[code];
    return sizes;
}

/* The answer where all else that the services ask for is there. */
static inline fuganorezi_answer services_answer(const struct services *found)
{
    unsigned notices = found->times[34] + found->times[45] + found->times[46];
    if (malformed_services(found))
        return (fuganorezi_answer){FUGANOREZI_MALFORMED, 18};
    if (notices > 1 || sizes_among(found) > 1)
        return (fuganorezi_answer){FUGANOREZI_SERVICES_EXCLUDE, 18};
    return (fuganorezi_answer){FUGANOREZI_GOOD, 0};
}

#endif
