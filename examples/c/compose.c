/*
 * Composes consignments field by field, adds them to an open batch, cancels two of them, undoes the second cancellation,
 * and writes the K file of the batch to standard output. What was refused, and why, goes to standard error.
 *
 * Build, at the repository's root, after `rt lib` in crates/fuganorezi:
 *
 *     cc -std=c11 -O2 -Iinclude -o compose examples/c/compose.c crates/fuganorezi/out/libfuganorezi.a
 *
 * Use: compose >FILE
 * Status 0: every consignment was added. 1: some were not. 2: a text is too long for its field, or FILE cannot be written.
 */
#include "fuganorezi_words.h"

#include <inttypes.h>
#include <stdio.h>
#include <stdlib.h>
#include <string.h>

enum { ALL_ADDED = 0, SOME_REFUSED = 1, CANNOT_GO_ON = 2 };

/* What the warehouse knows of a consignment. Texts are CP852; amounts are in haléře, and 0 for none. */
struct consignment {
    uint64_t posting;
    const char *name, *postcode, *municipality, *street, *house;
    const char *services, *symbol;
    uint64_t grams, cash, price;
};

static const struct consignment consignments[] = {
    {1, "Nov\xa0k Jan", "11000", "Praha 1", "Dlouh\xa0", "12", "", "", 2350, 0, 0},
    {2, "Tape Servis s.r.o.", "60200", "Brno", "Kobli\xa7n\xa0", "4", "7+41", "0000012345", 11800, 123450, 500000},
    {3, "Kr\xa0lov\xa0 Eva", "30100", "Plze\xe5", "Pra\xa7sk\xa0", "30", "", "", 0, 0, 0},
};

/* The postcodes that exist, as far as these consignments need them. Every call on the batch is given the same. */
static const uint32_t postcodes[] = {11000, 30100, 60200};
enum { POSTCODES = sizeof postcodes / sizeof postcodes[0] };

/* A batch of up to ten records, with room in the journal for as many actions. */
static uint8_t file[10 * FUGANOREZI_LINE_LENGTH], journal[10 * FUGANOREZI_RECORD_ENTRY];

/* At the left of the field; behind it the field stays blank. */
static void put_text(uint8_t *record, unsigned number, const char *text)
{
    const fuganorezi_field *field = fuganorezi_field_at(number);
    if (strlen(text) > field->width) {
        fprintf(stderr, "field %u (%s) has %" PRIu32 " characters, and this has more: %s\n", number, field->name, field->width, text);
        exit(CANNOT_GO_ON);
    }
    memcpy(record + field->start, text, strlen(text));
}

/* Prefix BO, consignor 54. */
static void put_identifier(uint8_t identifier[FUGANOREZI_IDENTIFIER_LENGTH], uint64_t posting)
{
    const fuganorezi_parts parts = {'B', 'O', 'F', 54, posting};
    fuganorezi_identifier_write(identifier, FUGANOREZI_IDENTIFIER_LENGTH, parts);
}

/* A number that has no writing leaves its field blank, and the record's rules then say that it is missing. */
static void put_numbers(uint8_t *record, const struct consignment *c)
{
    put_identifier(record + FUGANOREZI_START_1, c->posting);
    if (c->grams != 0)
        fuganorezi_weight_write(record + FUGANOREZI_START_15, FUGANOREZI_WIDTH_15, c->grams);
    if (c->cash != 0)
        fuganorezi_amount_write(record + FUGANOREZI_START_16, FUGANOREZI_WIDTH_16, c->cash);
    if (c->price != 0)
        fuganorezi_amount_write(record + FUGANOREZI_START_17, FUGANOREZI_WIDTH_17, c->price);
}

static void compose(uint8_t record[FUGANOREZI_RECORD_LENGTH], const struct consignment *c)
{
    memset(record, ' ', FUGANOREZI_RECORD_LENGTH);
    put_numbers(record, c);
    put_text(record, 2, "20241130");
    put_text(record, 3, "08:30:00");
    put_text(record, 4, c->name);
    put_text(record, 5, c->postcode);
    put_text(record, 7, c->municipality);
    put_text(record, 9, c->street);
    put_text(record, 10, c->house);
    put_text(record, 18, c->services);
    put_text(record, 21, c->symbol);
}

static void print_refusal(const char *what, uint64_t posting, fuganorezi_outcome outcome)
{
    const fuganorezi_field *field = fuganorezi_field_at(outcome.place);
    fprintf(stderr, "consignment %" PRIu64 " was not %s", posting, what);
    if (field != NULL)
        fprintf(stderr, ": field %" PRIu32 " (%s)", outcome.place, field->name);
    fprintf(stderr, ": %s [code %" PRIu32 "]\n", fuganorezi_words(outcome.code, outcome.place), outcome.code);
}

/* The counts that come out of one call go in to the next, whatever it answered. */

static fuganorezi_outcome add(fuganorezi_counts counts, const struct consignment *c)
{
    uint8_t record[FUGANOREZI_RECORD_LENGTH];
    compose(record, c);
    fuganorezi_outcome outcome = fuganorezi_batch_add(file, sizeof file, journal, sizeof journal, counts, record,
                                                      sizeof record, postcodes, POSTCODES);
    if (outcome.code != FUGANOREZI_GOOD)
        print_refusal("added", c->posting, outcome);
    return outcome;
}

static fuganorezi_outcome cancel(fuganorezi_counts counts, uint64_t posting)
{
    uint8_t identifier[FUGANOREZI_IDENTIFIER_LENGTH] = {0};
    put_identifier(identifier, posting);
    fuganorezi_outcome outcome = fuganorezi_batch_cancel(file, sizeof file, journal, sizeof journal, counts, identifier,
                                                         sizeof identifier, postcodes, POSTCODES);
    if (outcome.code != FUGANOREZI_GOOD)
        print_refusal("cancelled", posting, outcome);
    return outcome;
}

int main(void)
{
    int status = ALL_ADDED;
    fuganorezi_outcome now = fuganorezi_batch_open(file, sizeof file, journal, sizeof journal);
    for (size_t i = 0; i < sizeof consignments / sizeof consignments[0]; i++) {
        now = add(now.counts, &consignments[i]);
        if (now.code != FUGANOREZI_GOOD)
            status = SOME_REFUSED;
    }
    now = cancel(now.counts, 1);
    now = cancel(now.counts, 2);
    now = fuganorezi_batch_undo(file, sizeof file, journal, sizeof journal, now.counts, postcodes, POSTCODES);
    size_t written = fwrite(file, FUGANOREZI_LINE_LENGTH, now.counts.held, stdout);
    return written == now.counts.held && fflush(stdout) == 0 ? status : CANNOT_GO_ON;
}
