/*
 * Whether the replay in C answers as the library: on the state before each call of the judged histories, and for their
 * additions, with all that these leave behind. Then on journals that no calls make, on those of several consignors, and
 * on a batch with each byte spoiled.
 */
#include "consignors.h"
#include "good_file.h"
#include "histories.h"
#include "replay.h"

#include <string.h>

/* Longer than any history has them, so that no call can go past. */
enum { LONGEST_FILE = FUGANOREZI_FILE_MOST + FUGANOREZI_LINE_LENGTH, LONGEST_JOURNAL = FUGANOREZI_JOURNAL_MOST + 1 };

/* The one batch that there is at a time, set as the judge of the histories sets it. */
static struct batch new_batch(size_t file_length, size_t journal_length)
{
    static uint8_t file[LONGEST_FILE], journal[LONGEST_JOURNAL];
    struct batch b = {.file = file, .journal = journal, .file_length = file_length, .journal_length = journal_length,
                      .table = good_table, .entries = GOOD_ENTRIES};
    if (file_length > LONGEST_FILE || journal_length > LONGEST_JOURNAL)
        give_up("a history", "has longer buffers than are at hand");
    memset(file, 7, file_length);
    memset(journal, 0, journal_length);
    return b;
}

static struct batch copy_of(const struct batch *b)
{
    static uint8_t file[LONGEST_FILE], journal[LONGEST_JOURNAL];
    struct batch copy = *b;
    copy.file = memcpy(file, b->file, b->file_length);
    copy.journal = memcpy(journal, b->journal, b->journal_length);
    return copy;
}

static void take(struct batch *b, fuganorezi_outcome outcome)
{
    b->code = outcome.code;
    b->place = outcome.place;
    b->counts = outcome.counts;
}

/* What the library's answer says of the state. */
static uint32_t state_code(uint32_t code)
{
    bool of_state = code == FUGANOREZI_BUFFER_LENGTH || code == FUGANOREZI_WRONG_TABLE || code == FUGANOREZI_BATCH_DISAGREES;
    return of_state ? code : 0;
}

static uint32_t ask_state(const struct batch *b)
{
    return replay_state_check(b->file, b->file_length, b->journal, b->journal_length, b->counts, b->table, b->entries);
}

static void expect_same(const char *what, unsigned long number, const struct batch *got, const struct batch *expected)
{
    expect(what, number, got->code, expected->code);
    expect(what, number, got->place, expected->place);
    for (unsigned i = 0; i < COUNTS; i++)
        expect(what, number, count_in(got->counts, i), count_in(expected->counts, i));
    expect(what, number, memcmp(got->file, expected->file, got->file_length) == 0, 1);
    expect(what, number, memcmp(got->journal, expected->journal, got->journal_length) == 0, 1);
}

/* Opening does not look at the state. */
static void compare_call(const char *path, unsigned long number, struct batch *b, const struct step *step)
{
    struct batch copy = copy_of(b);
    uint32_t state = ask_state(b);
    take(b, call(b, step->op, step->bytes, step->length));
    if (step->op != OPEN)
        expect(path, number, state, state_code(b->code));
    if (step->op != ADD)
        return;
    take(&copy, replay_batch_add(copy.file, copy.file_length, copy.journal, copy.journal_length, copy.counts,
                                 step->bytes, step->length, copy.table, copy.entries));
    expect_same(path, number, &copy, b);
}

/* In the place of the table before. */
static void set_table(struct batch *b, struct table *held, struct table table)
{
    free(held->entries);
    *held = table;
    b->table = table.entries;
    b->entries = table.count;
}

static void compare_history(const char *path, unsigned long *number, const struct item *item)
{
    struct batch b = new_batch(history_file_length(item), history_journal_length(item));
    struct table held = {NULL, 0};
    struct step step;
    set_table(&b, &held, history_table(item));
    for (size_t at = 0; next_step(item, &at, &step);) {
        ++*number;
        if (step.op == SET_TABLE)
            set_table(&b, &held, table_in(step.bytes, step.length));
        else if (step.op >= SPOIL_FILE)
            spoil(&b, step.op, step.bytes);
        else
            compare_call(path, *number, &b, &step);
    }
    free(held.entries);
}

static void compare_histories(const char *path)
{
    FILE *items = open_or_give_up(path);
    struct item item;
    unsigned long number = 0;
    while (next_item(items, path, &item)) {
        compare_history(path, &number, &item);
        free(item.bytes);
    }
    fclose(items);
}

/* Batches of our own */

enum { PLACES = 5, ENTRIES = 4, PLAIN = GOOD_KINDS, ANOTHER = 2 * GOOD_KINDS /* records without amounts */ };

static struct batch open_batch(void)
{
    struct batch b = new_batch(PLACES * GOOD_STEP, PLACES * FUGANOREZI_RECORD_ENTRY);
    take(&b, call(&b, OPEN, NULL, 0));
    return b;
}

static void compare_addition_of(const char *what, unsigned long number, struct batch *b, const uint8_t *line)
{
    compare_call(what, number, b, &(struct step){ADD, line, FUGANOREZI_RECORD_LENGTH});
}

static void compare_addition(const char *what, unsigned long number, struct batch *b)
{
    uint8_t line[GOOD_STEP];
    put_good_posting(line, ANOTHER);
    compare_addition_of(what, number, b, line);
}

static void put_entry(struct batch *b, enum op op, const uint8_t *bytes)
{
    size_t length = op == CANCEL ? FUGANOREZI_IDENTIFIER_ENTRY : FUGANOREZI_RECORD_ENTRY;
    uint8_t *entry = b->journal + b->counts.used;
    entry[0] = (uint8_t)(length % 256);
    entry[1] = (uint8_t)(length / 256);
    entry[2] = (uint8_t)op; /* additions, cancellations and amendments have the same numbers there */
    memcpy(entry + 4, bytes, length - 4);
    b->counts.used += length;
}

static void forge_addition(struct batch *b, const uint8_t *line)
{
    put_entry(b, ADD, line);
    memcpy(b->file + b->counts.held++ * GOOD_STEP, line, GOOD_STEP);
}

/* Does it whatever stands there: a change is one of the first place. */
static void forge(struct batch *b, enum op op)
{
    uint8_t line[GOOD_STEP];
    put_good_posting(line, PLAIN);
    if (op == ADD) {
        forge_addition(b, line);
        return;
    }
    put_entry(b, op, line);
    if (b->counts.held != 0)
        b->file[GOOD_STATUS] = op == CANCEL ? '0' : ' ';
}

static void count_forged(struct batch *b)
{
    b->counts.cancelled = b->counts.held != 0 && b->file[GOOD_STATUS] == '0';
    b->counts.live = b->counts.held - b->counts.cancelled;
}

/* Each journal of four entries about one consignment, and what it has after each. */
static void compare_forged(void)
{
    static const enum op ops[] = {ADD, CANCEL, AMEND};
    for (unsigned journal = 0; journal < 3 * 3 * 3 * 3; journal++)
        for (unsigned entries = 1; entries <= ENTRIES; entries++) {
            struct batch b = open_batch();
            for (unsigned i = 0, rest = journal; i < entries; i++, rest /= 3)
                forge(&b, ops[rest % 3]);
            count_forged(&b);
            compare_addition("forged journal", journal, &b);
        }
}

/* Each row of three additions, the first of them cancelled or not, and then one of each consignor. */
static void compare_rows(bool cancelled)
{
    enum { RECORDS = 3 };
    enum whose row[RECORDS + 1];
    uint8_t lines[(RECORDS + 1) * GOOD_STEP];
    for (unsigned number = 0; number < rows_of(RECORDS + 1); number++) {
        struct batch b = open_batch();
        put_row(row, RECORDS + 1, number);
        put_file_of(lines, row, RECORDS + 1);
        for (unsigned i = 0; i < RECORDS; i++)
            forge_addition(&b, lines + i * GOOD_STEP);
        if (cancelled) {
            put_entry(&b, CANCEL, lines);
            b.file[GOOD_STATUS] = '0';
        }
        count_forged(&b);
        compare_addition_of("row of consignors", number, &b, lines + RECORDS * GOOD_STEP);
    }
}

/* Two records, the first of them amended and the second cancelled: so one version stands in the journal alone. */
static struct batch batch_to_spoil(void)
{
    struct batch b = open_batch();
    uint8_t line[GOOD_STEP];
    put_good_posting(line, 1);
    take(&b, call(&b, ADD, line, FUGANOREZI_RECORD_LENGTH));
    put_field(line, 15, " 9.999");
    take(&b, call(&b, AMEND, line, FUGANOREZI_RECORD_LENGTH));
    put_good_posting(line, 3);
    take(&b, call(&b, ADD, line, FUGANOREZI_RECORD_LENGTH));
    take(&b, call(&b, CANCEL, line, FUGANOREZI_IDENTIFIER_LENGTH));
    return b;
}

/* One bit of a byte, counted through the file, the journal and the counts. */
static void spoil_byte(struct batch *b, size_t at)
{
    uint8_t bit = (uint8_t)(1 << at % 8);
    if (at < b->file_length)
        b->file[at] ^= bit;
    else if (at < b->file_length + b->journal_length)
        b->journal[at - b->file_length] ^= bit;
    else
        ((uint8_t *)&b->counts)[at - b->file_length - b->journal_length] ^= bit;
}

static void compare_spoiled(void)
{
    uint8_t file[PLACES * GOOD_STEP], journal[PLACES * FUGANOREZI_RECORD_ENTRY];
    const struct batch whole = batch_to_spoil();
    memcpy(file, whole.file, sizeof file);
    memcpy(journal, whole.journal, sizeof journal);
    for (size_t at = 0; at < sizeof file + sizeof journal + sizeof whole.counts; at++) {
        struct batch b = whole;
        memcpy(b.file, file, sizeof file);
        memcpy(b.journal, journal, sizeof journal);
        spoil_byte(&b, at);
        compare_addition("spoiled byte", at, &b);
    }
}

int main(int count, char **words)
{
    if (count != 2)
        give_up(words[0], "wants a file of histories");
    compare_histories(words[1]);
    summary("judged histories, library and C");
    compare_forged();
    compare_rows(false);
    compare_rows(true);
    compare_spoiled();
    return summary("these, forged journals, consignors and spoiled bytes");
}
