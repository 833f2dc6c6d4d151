/*
 * The open batch from C: the paper's example 15, the judged histories, each refusal, consignors, sizes, tables of postcodes,
 * and batches of full size. Buffers, bytes and tables end where memory that cannot be read begins, and each call has the
 * stack that the header says.
 */
#define _DEFAULT_SOURCE /* for fenced.h */
#include "consignors.h"
#include "fenced.h"
#include "fuganorezi.h"
#include "good_file.h"
#include "histories.h"
#include "tables.h"

#include <ucontext.h>

enum {
    RECORD = FUGANOREZI_RECORD_LENGTH,
    IDENTIFIER = FUGANOREZI_IDENTIFIER_LENGTH,
    ADDITION = FUGANOREZI_RECORD_ENTRY,
    CANCELLATION = FUGANOREZI_IDENTIFIER_ENTRY,
    MOST_RECORDS = FUGANOREZI_MOST_RECORDS,
    LONGEST_FILE = FUGANOREZI_FILE_MOST,
    LONGEST_JOURNAL = FUGANOREZI_JOURNAL_MOST,
    LONGEST_BYTES = 65536, /* of a record or identifier: far more than either has */
    STACK = 64 * 1024,
    LINE = 2 + COUNTS + 2
};

/* What goes by value has to lie as in the archive. */
_Static_assert(sizeof(fuganorezi_counts) == COUNTS * sizeof(uint64_t), "six numbers in a row");
_Static_assert(offsetof(fuganorezi_outcome, place) == 4, "behind the code");
_Static_assert(offsetof(fuganorezi_outcome, counts) == 8, "behind the place");
_Static_assert(sizeof(fuganorezi_outcome) == 8 + sizeof(fuganorezi_counts), "and nothing more");

static struct fenced file_memory, journal_memory, bytes_memory, stack_memory;

static void make_memory(void)
{
    file_memory = fenced_memory(LONGEST_FILE + GOOD_STEP);
    journal_memory = fenced_memory(LONGEST_JOURNAL + 1);
    bytes_memory = fenced_memory(LONGEST_BYTES);
    stack_memory = fenced_memory(STACK);
    lend_table(good_table, GOOD_ENTRIES);
}

/* From here on the batch's calls are given this table. */
static void give_table(struct batch *b, const uint32_t *entries, size_t count)
{
    lend_table(entries, count);
    b->table = lent.entries;
    b->entries = lent.count;
}

/* The one batch that there is at a time. Its calls are given the table that is lent. */
static struct batch new_batch(size_t file_length, size_t journal_length)
{
    struct batch b = {.file = before_fence(file_memory, file_length),
                      .journal = before_fence(journal_memory, journal_length),
                      .file_length = file_length,
                      .journal_length = journal_length,
                      .table = lent.entries,
                      .entries = lent.count};
    memset(b.file, 7, file_length);
    memset(b.journal, 0, journal_length);
    return b;
}

/* Calls, on a stack of exactly the length that the header asks for. */

static struct {
    const struct batch *b;
    enum op op;
    const uint8_t *bytes;
    size_t length;
    fuganorezi_outcome outcome;
} pending;

static ucontext_t caller, callee;

static void perform_pending(void)
{
    pending.outcome = call(pending.b, pending.op, pending.bytes, pending.length);
}

/* The bytes stand before a fence and cannot be written during the call. */
static void perform(struct batch *b, enum op op, const uint8_t *bytes, size_t length)
{
    pending.b = b;
    pending.op = op;
    pending.bytes = bytes == NULL ? NULL : put_before_fence(bytes_memory, bytes, length);
    pending.length = length;
    memset(&pending.outcome, 0xff, sizeof pending.outcome); /* so that what a call leaves out is seen */
    if (getcontext(&callee) != 0)
        give_up("getcontext", "no context");
    callee.uc_stack.ss_sp = stack_memory.start;
    callee.uc_stack.ss_size = (size_t)(stack_memory.fence - stack_memory.start);
    callee.uc_link = &caller;
    makecontext(&callee, perform_pending, 0);
    protect(bytes_memory, PROT_READ);
    if (swapcontext(&caller, &callee) != 0)
        give_up("swapcontext", "no context");
    protect(bytes_memory, PROT_READ | PROT_WRITE);
    b->code = pending.outcome.code;
    b->place = pending.outcome.place;
    b->counts = pending.outcome.counts;
}

static void expect_answer(const char *what, unsigned long number, const struct batch *b, uint64_t code, uint64_t place)
{
    expect(what, number, b->code, code);
    expect(what, number, b->place, place);
}

static void ask_accepted(const char *what, unsigned long number, struct batch *b, enum op op, const uint8_t *bytes,
                         size_t length)
{
    perform(b, op, bytes, length);
    expect_answer(what, number, b, 0, 0);
}

/* A call that may refuse: if so, no byte changes and the counts come back; those of a refused opening are zero. */
static void ask(const char *what, unsigned long number, struct batch *b, enum op op, const uint8_t *bytes, size_t length)
{
    static uint8_t file[LONGEST_FILE + GOOD_STEP], journal[LONGEST_JOURNAL + 1];
    fuganorezi_counts counts = b->counts;
    memcpy(file, b->file, b->file_length);
    memcpy(journal, b->journal, b->journal_length);
    perform(b, op, bytes, length);
    if (b->code == 0)
        return;
    if (op == OPEN)
        memset(&counts, 0, sizeof counts);
    expect(what, number, memcmp(file, b->file, b->file_length) == 0, 1);
    expect(what, number, memcmp(journal, b->journal, b->journal_length) == 0, 1);
    expect(what, number, memcmp(&counts, &b->counts, sizeof counts) == 0, 1);
}

static void ask_refused(const char *what, unsigned long number, struct batch *b, enum op op, const uint8_t *bytes,
                        size_t length, uint64_t code, uint64_t place)
{
    ask(what, number, b, op, bytes, length);
    expect_answer(what, number, b, code, place);
}

/* States */

static int all_zero(const uint8_t *bytes, size_t length)
{
    return length == 0 || (bytes[0] == 0 && memcmp(bytes, bytes + 1, length - 1) == 0);
}

static void expect_empty(const char *what, const struct batch *b)
{
    static const fuganorezi_counts none;
    expect(what, 0, (uint64_t)all_zero(b->file, b->file_length), 1);
    expect(what, 1, (uint64_t)all_zero(b->journal, b->journal_length), 1);
    expect(what, 2, memcmp(&b->counts, &none, sizeof none) == 0, 1);
}

/* The records held are a good file with the same totals, and behind them and behind the entries are zeros. */
static void expect_good_file(const char *what, const struct batch *b)
{
    size_t filled = (size_t)b->counts.held * GOOD_STEP;
    uint64_t out[7];
    expect(what, 0, fuganorezi_file_check(b->file, filled, b->table, b->entries, out), 0);
    for (unsigned i = 0; i < 4; i++)
        expect(what, i + 1, out[i + 3], count_in(b->counts, i));
    expect(what, 5, (uint64_t)all_zero(b->file + filled, b->file_length - filled), 1);
    expect(what, 6, (uint64_t)all_zero(b->journal + b->counts.used, b->journal_length - b->counts.used), 1);
}

static struct batch open_batch(size_t file_length, size_t journal_length)
{
    struct batch b = new_batch(file_length, journal_length);
    ask_accepted("open", file_length, &b, OPEN, NULL, 0);
    expect_empty("opened", &b);
    return b;
}

/* Records of our own */

/* The same consignment with another weight, so that each version differs. */
static void posting_version(uint8_t record[GOOD_STEP], unsigned number, unsigned version)
{
    char weight[16];
    put_good_posting(record, number);
    snprintf(weight, sizeof weight, "%2u.%03u", 1 + version / 1000 % 99, version % 1000);
    put_field(record, 15, weight);
}

static void add_posting(struct batch *b, unsigned number)
{
    uint8_t record[GOOD_STEP];
    put_good_posting(record, number);
    ask_accepted("add", number, b, ADD, record, RECORD);
}

/* Example 15 */

static void ask_example_15(void)
{
    static const char entry[] = "\x11\x00\x02\x00" "BO5412345671F";
    struct batch b = open_batch(2 * GOOD_STEP, 2 * ADDITION);
    uint8_t record[GOOD_STEP];
    put_good_posting(record, 1);
    put_field(record, 1, "BO5412345671F");
    ask_accepted("example 15, add", 0, &b, ADD, record, RECORD);
    ask_accepted("example 15, cancel", 0, &b, CANCEL, (const uint8_t *)"BO5412345671F", IDENTIFIER);
    expect("example 15, used", 0, b.counts.used, ADDITION + CANCELLATION);
    expect("example 15, entry", 0, memcmp(b.journal + ADDITION, entry, CANCELLATION) == 0, 1);
    record[GOOD_STATUS] = '0';
    expect("example 15, file", 0, memcmp(b.file, record, GOOD_STEP) == 0, 1);
    expect("example 15, live", 0, b.counts.live, 0);
    expect("example 15, cancelled", 0, b.counts.cancelled, 1);
    expect("example 15, cash", 0, b.counts.cash, 0);
    expect_good_file("example 15", &b);
}

/* Refusals */

/* 235, whatever the table is. */
static void ask_wrong_lengths(void)
{
    static const size_t lengths[][2] = {
        {0, 0},           {0, ADDITION},        {GOOD_STEP - 1, ADDITION},
        {GOOD_STEP, 0},   {GOOD_STEP, 402},     {GOOD_STEP + 1, ADDITION},
        {LONGEST_FILE + GOOD_STEP, ADDITION},   {GOOD_STEP, LONGEST_JOURNAL + 1},
    };
    for (size_t i = 0; i < sizeof lengths / sizeof lengths[0]; i++) {
        struct batch b = new_batch(lengths[i][0], lengths[i][1]);
        if (b.file_length == 0)
            b.file = NULL;
        if (b.journal_length == 0)
            b.journal = NULL;
        for (enum op op = OPEN; op <= UNDO; op++) {
            b.counts.live = 3;
            perform(&b, op, NULL, 0);
            expect_answer("wrong lengths", i, &b, 235, 0);
            expect("wrong lengths, counts", i, b.counts.live, op == OPEN ? 0 : 3);
        }
    }
}

/* Whatever is spoiled, no call but opening takes it, and when it is put right all do. */
static void ask_spoiled(struct batch *b, const char *what, uint8_t *byte)
{
    *byte ^= 1;
    for (enum op op = ADD; op <= UNDO; op++)
        ask_refused(what, op, b, op, NULL, 0, 237, 0);
    *byte ^= 1;
}

static void ask_all_spoiled(struct batch *b)
{
    size_t filled = (size_t)b->counts.held * GOOD_STEP;
    ask_spoiled(b, "first byte of the file", b->file);
    ask_spoiled(b, "last byte of a record", b->file + filled - 1);
    ask_spoiled(b, "byte behind the records", b->file + filled);
    ask_spoiled(b, "last byte of the file", b->file + b->file_length - 1);
    ask_spoiled(b, "first byte of the journal", b->journal);
    ask_spoiled(b, "byte in an entry", b->journal + b->counts.used - 1);
    ask_spoiled(b, "byte behind the entries", b->journal + b->counts.used);
    ask_spoiled(b, "last byte of the journal", b->journal + b->journal_length - 1);
    for (unsigned i = 0; i < COUNTS; i++) {
        ask_spoiled(b, "a count, lowest byte", (uint8_t *)count_of(&b->counts, i));
        ask_spoiled(b, "a count, highest byte", (uint8_t *)count_of(&b->counts, i) + 7);
    }
}

static void ask_refused_record(struct batch *b, unsigned number, unsigned field, const char *text, uint64_t code)
{
    uint8_t record[GOOD_STEP];
    put_good_posting(record, number);
    put_field(record, field, text);
    ask_refused("record, add", field, b, ADD, record, RECORD, code, field);
    ask_refused("record, amend", field, b, AMEND, record, RECORD, code, field);
}

/* Three places, two held, the second of them cancelled; the journal has room for one cancellation more. */
static void ask_refusals(void)
{
    struct batch b = open_batch(3 * GOOD_STEP, 2 * ADDITION + 3 * CANCELLATION);
    uint8_t record[GOOD_STEP + 1];
    ask_refused("nothing to undo", 0, &b, UNDO, NULL, 0, 234, 0);
    add_posting(&b, 1);
    add_posting(&b, 3);
    put_good_posting(record, 3);
    ask_accepted("cancel", 3, &b, CANCEL, record, IDENTIFIER);
    ask_all_spoiled(&b);
    ask_refused("no record", 0, &b, ADD, NULL, 0, 236, 0);
    ask_refused("no record", 0, &b, AMEND, NULL, 0, 236, 0);
    ask_refused("no identifier", 0, &b, CANCEL, NULL, 0, 236, 0);
    ask_refused("short", 0, &b, ADD, record, RECORD - 1, 236, 0);
    ask_refused("long", 0, &b, AMEND, record, RECORD + 1, 236, 0);
    ask_refused("record for identifier", 0, &b, CANCEL, record, RECORD, 236, 0);
    ask_refused("wrong identifier", 0, &b, CANCEL, (const uint8_t *)"BO0800000026F", IDENTIFIER, 1, 1);
    ask_refused_record(&b, 1, 1, "BO0800000026F", 1);
    ask_refused_record(&b, 1, 2, "20230229", 210);
    ask_refused_record(&b, 1, 5, "11001", 21);
    ask_refused_record(&b, 3, 5, "11001", 24);
    ask_refused_record(&b, 1, 15, " 0.000", 31);
    ask_refused_record(&b, 3, 15, " 0.000", 34);
    ask_refused_record(&b, good_number(GOOD_PLAIN), 18, "1a", 210);
    ask_refused_record(&b, good_number(GOOD_PLAIN), 18, "S+M", 220);
    ask_refused_record(&b, 1, 19, "0", 210);
    ask_refused("there already", 0, &b, ADD, record, RECORD, 2, 1);
    ask_refused("cancelled", 0, &b, AMEND, record, RECORD, 233, 0);
    ask_refused("cancelled", 1, &b, CANCEL, record, IDENTIFIER, 233, 0);
    put_good_posting(record, 5);
    ask_refused("not there", 0, &b, AMEND, record, RECORD, 232, 0);
    ask_refused("not there", 1, &b, CANCEL, record, IDENTIFIER, 232, 0);
    ask_refused("no room for an entry", 0, &b, ADD, record, RECORD, 231, 0);
    put_good_posting(record, 1);
    ask_refused("no room for an entry", 1, &b, AMEND, record, RECORD, 231, 0);
    ask_accepted("room for a cancellation", 0, &b, CANCEL, record, IDENTIFIER);
    expect_good_file("refusals", &b);
    while (b.counts.used != 0)
        ask_accepted("undo", b.counts.used, &b, UNDO, NULL, 0);
    expect_empty("refusals undone", &b);
}

/* Each call but opening. Bytes that are none at all would be 236. */
static void ask_refused_all(const char *what, struct batch *b, uint64_t code)
{
    for (enum op op = ADD; op <= UNDO; op++)
        ask_refused(what, op, b, op, NULL, 0, code, 0);
}

/* Consignors */

static void add_of(struct batch *b, enum whose whose, unsigned number, uint64_t code)
{
    uint8_t record[GOOD_STEP];
    put_record_of(record, whose, number);
    ask("add of a consignor", whose, b, ADD, record, RECORD);
    expect_answer("add of a consignor", whose, b, code, code == 0 ? 0 : 1);
}

static void cancel_of(struct batch *b, enum whose whose, unsigned number)
{
    char identifier[14];
    identifier_of(whose, number, identifier);
    ask_accepted("cancel of a consignor", whose, b, CANCEL, (const uint8_t *)identifier, IDENTIFIER);
}

/* A row of additions; where they are cancelled at once they count all the same. What is refused does not. */
static void ask_row(const enum whose *row, unsigned records, bool cancelled)
{
    struct batch b = open_batch(records * GOOD_STEP, records * (ADDITION + CANCELLATION));
    enum whose chosen = NOBODYS;
    for (unsigned i = 0; i < records; i++) {
        bool other = different(row[i], chosen);
        add_of(&b, row[i], i + 1, other ? FUGANOREZI_OTHER_CONSIGNOR : FUGANOREZI_GOOD);
        if (cancelled && !other)
            cancel_of(&b, row[i], i + 1);
        if (chosen == NOBODYS)
            chosen = row[i];
    }
    expect_good_file("row of consignors", &b);
}

static void ask_rows(void)
{
    enum { RECORDS = 3 };
    enum whose row[RECORDS];
    for (unsigned number = 0; number < rows_of(RECORDS); number++) {
        put_row(row, RECORDS, number);
        ask_row(row, RECORDS, false);
        ask_row(row, RECORDS, true);
    }
}

/* The choice holds as long as an addition stands that names a consignor, amended and cancelled or not; then it is free. */
static void ask_choice(void)
{
    struct batch b = open_batch(4 * GOOD_STEP, 6 * ADDITION);
    uint8_t record[GOOD_STEP];
    put_record_of(record, OURS, 1);
    put_field(record, 15, " 9.999");
    add_of(&b, NOBODYS, 9, FUGANOREZI_GOOD);
    add_of(&b, OURS, 1, FUGANOREZI_GOOD);
    ask_accepted("amend of a consignor", 0, &b, AMEND, record, RECORD);
    cancel_of(&b, OURS, 1);
    add_of(&b, NOBODYS, 2, FUGANOREZI_GOOD);
    for (unsigned actions = 4; actions > 0; actions--) {
        add_of(&b, OTHER_TYPE, 3, FUGANOREZI_OTHER_CONSIGNOR);
        ask_accepted("undo of a consignor", actions, &b, UNDO, NULL, 0);
    }
    expect("undo of a consignor", 0, b.counts.used, ADDITION);
    add_of(&b, OTHER_TYPE, 3, FUGANOREZI_GOOD);
    add_of(&b, OURS, 1, FUGANOREZI_OTHER_CONSIGNOR);
    expect_good_file("another choice", &b);
}

/* Behind the record's rules and before what asks for a place and for room. */
static void ask_turn(void)
{
    struct batch b = open_batch(GOOD_STEP, 2 * ADDITION - 1);
    uint8_t record[GOOD_STEP];
    add_of(&b, OURS, 1, FUGANOREZI_GOOD);
    add_of(&b, OURS, 1, FUGANOREZI_IDENTIFIER_TWICE);
    add_of(&b, OTHER_TYPE, 1, FUGANOREZI_OTHER_CONSIGNOR);
    put_record_of(record, OTHER_TYPE, 1);
    ask_refused("amend of another consignor", 0, &b, AMEND, record, RECORD, FUGANOREZI_NOT_THERE, 0);
    ask_refused("cancel of another consignor", 0, &b, CANCEL, record, IDENTIFIER, FUGANOREZI_NOT_THERE, 0);
    put_field(record, 24, "02");
    ask_refused("another consignor, and pieces", 0, &b, ADD, record, RECORD, FUGANOREZI_PIECES_DISAGREE, 24);
    put_record_of(record, OURS, 2);
    ask_refused("no place", 0, &b, ADD, record, RECORD, FUGANOREZI_FILE_FULL, 0);
    b = open_batch(2 * GOOD_STEP, 2 * ADDITION - 1);
    add_of(&b, OURS, 1, FUGANOREZI_GOOD);
    add_of(&b, OTHER_TYPE, 1, FUGANOREZI_OTHER_CONSIGNOR);
    ask_refused("no room", 0, &b, ADD, record, RECORD, FUGANOREZI_JOURNAL_FULL, 0);
}

/* Adds by hand what no call would add, with all that belongs to it. The record has no amounts. */
static void force_addition(struct batch *b, const uint8_t *line)
{
    static const uint8_t head[] = {ADDITION % 256, ADDITION / 256, 1, 0};
    uint8_t *entry = b->journal + b->counts.used;
    memcpy(b->file + b->counts.held * GOOD_STEP, line, GOOD_STEP);
    memcpy(entry, head, sizeof head);
    memcpy(entry + sizeof head, line, RECORD);
    b->counts.live++;
    b->counts.held++;
    b->counts.used += ADDITION;
}

/* A journal with two consignors, as it could be kept before there was this rule. */
static void ask_forced(void)
{
    for (enum whose whose = OURS; whose < WHOSE; whose++) {
        struct batch b = open_batch(3 * GOOD_STEP, 3 * ADDITION);
        uint8_t line[GOOD_STEP];
        add_of(&b, OURS, 1, FUGANOREZI_GOOD);
        add_of(&b, NOBODYS, 2, FUGANOREZI_GOOD);
        put_record_of(line, whose, 3);
        force_addition(&b, line);
        if (different(OURS, whose))
            ask_refused_all("two consignors", &b, FUGANOREZI_BATCH_DISAGREES);
        else
            ask_accepted("one consignor", whose, &b, UNDO, NULL, 0);
    }
}

static void ask_consignors(void)
{
    ask_rows();
    ask_choice();
    ask_turn();
    ask_forced();
}

/* Sizes */

static void put_posting_with(uint8_t record[GOOD_STEP], unsigned number, const char *services)
{
    put_record_of(record, OURS, number);
    put_field(record, 18, services);
}

/* A journal may have one size in a record, and not two. */
static void ask_forced_sizes(void)
{
    struct batch b = open_batch(GOOD_STEP, ADDITION);
    uint8_t line[GOOD_STEP];
    put_posting_with(line, 1, "XL");
    force_addition(&b, line);
    ask_accepted("one size in the journal", 0, &b, UNDO, NULL, 0);
    put_posting_with(line, 1, "S+XL");
    force_addition(&b, line);
    ask_refused_all("two sizes in the journal", &b, FUGANOREZI_BATCH_DISAGREES);
}

/* One size can be amended to another, and no second comes to it. */
static void ask_sizes(void)
{
    struct batch b = open_batch(2 * GOOD_STEP, 3 * ADDITION);
    uint8_t record[GOOD_STEP];
    put_posting_with(record, 1, "1+1A+S");
    ask_accepted("a size", 0, &b, ADD, record, RECORD);
    put_posting_with(record, 1, "1+1A+XL");
    ask_accepted("another size", 0, &b, AMEND, record, RECORD);
    put_posting_with(record, 1, "1+S+XL");
    ask_refused("both sizes", 0, &b, AMEND, record, RECORD, FUGANOREZI_SERVICES_EXCLUDE, 18);
    ask_refused("both sizes, and there already", 0, &b, ADD, record, RECORD, FUGANOREZI_SERVICES_EXCLUDE, 18);
    expect_good_file("sizes", &b);
    ask_forced_sizes();
}

/* Tables of postcodes */

/* Before 237 and 236, behind 235; and opening takes no table. */
static void ask_under_wrong_table(const char *what)
{
    struct batch b = open_batch(2 * GOOD_STEP, 2 * ADDITION);
    uint8_t record[GOOD_STEP];
    put_good_posting(record, 1);
    ask_refused_all(what, &b, FUGANOREZI_WRONG_TABLE);
    ask_refused(what, 0, &b, ADD, record, RECORD, FUGANOREZI_WRONG_TABLE, 0);
    b.counts.live = 1;
    ask_refused_all(what, &b, FUGANOREZI_WRONG_TABLE);
    ask_wrong_lengths();
}

static void ask_postcode(const char *what, uint32_t postcode, bool there)
{
    struct batch b = open_batch(2 * GOOD_STEP, 2 * ADDITION);
    uint8_t record[GOOD_STEP];
    put_good_posting(record, good_number(GOOD_PLAIN));
    put_postcode(record, postcode);
    ask(what, postcode, &b, ADD, record, RECORD);
    expect_answer(what, postcode, &b, there ? FUGANOREZI_GOOD : FUGANOREZI_POSTCODE_UNKNOWN, there ? 0 : 5);
    put_good_posting(record, good_number(GOOD_ON_DELIVERY));
    put_postcode(record, postcode);
    ask(what, postcode, &b, ADD, record, RECORD);
    expect_answer(what, postcode, &b, there ? FUGANOREZI_GOOD : FUGANOREZI_POSTCODE_UNKNOWN_41, there ? 0 : 5);
    expect_good_file(what, &b);
}

/* A record that stands with postcode 60200, and had 11000 before: the journal has both. */
static struct batch amended_batch(void)
{
    struct batch b = open_batch(2 * GOOD_STEP, 3 * ADDITION);
    uint8_t record[GOOD_STEP];
    add_posting(&b, 1);
    put_good_posting(record, 1);
    put_postcode(record, 60200);
    ask_accepted("another postcode", 0, &b, AMEND, record, RECORD);
    return b;
}

/* With another table than before a batch may be refused, and with the same one it is good again. */
static void ask_other_tables(void)
{
    static const uint32_t without_latest[] = {11000, 60199, 60201}, without_first[] = {10999, 11001, 60200};
    static const uint32_t more[] = {0, 11000, 11001, 60200, 99999}, fewer[] = {11000, 60200};
    struct batch b = amended_batch();
    give_table(&b, without_latest, 3);
    ask_refused_all("without the latest postcode", &b, FUGANOREZI_BATCH_DISAGREES);
    give_table(&b, without_first, 3);
    ask_refused_all("without the first postcode", &b, FUGANOREZI_BATCH_DISAGREES);
    give_table(&b, NULL, 0);
    ask_refused_all("without any postcode", &b, FUGANOREZI_BATCH_DISAGREES);
    b.table = NULL;
    ask_refused_all("NULL", &b, FUGANOREZI_BATCH_DISAGREES);
    give_table(&b, more, 5);
    ask_accepted("with more postcodes", 0, &b, UNDO, NULL, 0);
    give_table(&b, fewer, 2);
    ask_accepted("with fewer postcodes", 0, &b, UNDO, NULL, 0);
    expect_empty("another table", &b);
}

/* What goes abroad needs no table. */
static void ask_no_table(void)
{
    struct batch b = open_batch(2 * GOOD_STEP, 2 * ADDITION);
    uint8_t record[GOOD_STEP];
    b.table = NULL;
    b.entries = 0;
    put_good_posting(record, good_number(GOOD_PLAIN));
    ask_refused("NULL, one at home", 0, &b, ADD, record, RECORD, FUGANOREZI_POSTCODE_UNKNOWN, 5);
    put_good_posting(record, good_number(GOOD_ABROAD));
    ask_accepted("NULL, one abroad", 0, &b, ADD, record, RECORD);
    ask_accepted("NULL, amended", 0, &b, AMEND, record, RECORD);
    ask_accepted("NULL, undone", 0, &b, UNDO, NULL, 0);
    ask_accepted("NULL, cancelled", 0, &b, CANCEL, record, IDENTIFIER);
    expect_good_file("NULL", &b);
}

static void ask_tables(void)
{
    try_each_wrong_table(ask_under_wrong_table);
    try_lookups(ask_postcode);
    lend_table(good_table, GOOD_ENTRIES);
    ask_other_tables();
    ask_no_table();
    lend_table(good_table, GOOD_ENTRIES);
}

/* Judged histories */

static void take_table(struct batch *b, struct table table)
{
    give_table(b, table.entries, table.count);
    free(table.entries);
    b->code = b->place = 0;
}

static void expect_line(const char *what, unsigned long number, const struct batch *b, const uint64_t expected[LINE])
{
    expect_answer(what, number, b, expected[0], expected[1]);
    for (unsigned i = 0; i < COUNTS; i++)
        expect(what, number, count_in(b->counts, i), expected[2 + i]);
    expect(what, number, adler_32(b->file, b->file_length), expected[LINE - 2]);
    expect(what, number, adler_32(b->journal, b->journal_length), expected[LINE - 1]);
}

static void ask_history(const char *what, unsigned long *number, const struct item *item, FILE *lines,
                        const char *lines_path)
{
    struct batch b = new_batch(history_file_length(item), history_journal_length(item));
    uint64_t expected[LINE];
    struct step step;
    take_table(&b, history_table(item));
    for (size_t at = 0; next_step(item, &at, &step);) {
        ++*number;
        if (step.op == SET_TABLE)
            take_table(&b, table_in(step.bytes, step.length));
        else if (step.op >= SPOIL_FILE)
            spoil(&b, step.op, step.bytes);
        else
            ask(what, *number, &b, step.op, step.bytes, step.length < LONGEST_BYTES ? step.length : LONGEST_BYTES);
        read_line(lines, lines_path, expected, LINE);
        expect_line(what, *number, &b, expected);
    }
}

static void ask_vectors(const char *items_path, const char *lines_path)
{
    FILE *items = open_or_give_up(items_path);
    FILE *lines = open_or_give_up(lines_path);
    struct item item;
    unsigned long number = 0;
    while (next_item(items, items_path, &item)) {
        ask_history(items_path, &number, &item, lines, lines_path);
        free(item.bytes);
    }
    expect_no_line(lines, lines_path);
    fclose(items);
    fclose(lines);
    lend_table(good_table, GOOD_ENTRIES);
}

/* Full size */

/* Undoes all that stands; each step takes off the length of one entry. */
static void undo_all(const char *what, struct batch *b)
{
    while (b->counts.used != 0) {
        uint64_t used = b->counts.used;
        ask_accepted(what, used, b, UNDO, NULL, 0);
        uint64_t freed = used - b->counts.used;
        expect(what, used, freed == ADDITION || freed == CANCELLATION, 1);
        if (b->code != 0)
            return;
    }
    expect_empty(what, b);
    ask_refused(what, 0, b, UNDO, NULL, 0, 234, 0);
}

/* As many records as a file can have, then no place for one more. */
static void ask_full_file(void)
{
    struct batch b = open_batch(LONGEST_FILE, LONGEST_JOURNAL);
    uint8_t record[GOOD_STEP];
    uint64_t cash = 0, price = 0;
    for (unsigned number = 1; number <= MOST_RECORDS; number++) {
        add_posting(&b, number);
        cash += good_cash(number);
        price += good_price(number);
        expect("full file, held", number, b.counts.held, number);
        expect("full file, live", number, b.counts.live, number);
        expect("full file, cash", number, b.counts.cash, cash);
        expect("full file, price", number, b.counts.price, price);
    }
    expect_good_file("full file", &b);
    put_good_posting(record, MOST_RECORDS + 1);
    ask_refused("full file", MOST_RECORDS, &b, ADD, record, RECORD, 230, 0);
    put_good_posting(record, MOST_RECORDS);
    ask_refused("full file, there already", MOST_RECORDS, &b, ADD, record, RECORD, 2, 1);
    undo_all("full file undone", &b);
}

/* Few records amended until the journal has no room for one amendment more: then it may have for a cancellation. */
static void ask_full_journal(void)
{
    struct batch b = open_batch(LONGEST_FILE, LONGEST_JOURNAL);
    uint8_t record[GOOD_STEP];
    unsigned version = 0;
    add_posting(&b, 1);
    add_posting(&b, 2);
    while (LONGEST_JOURNAL - b.counts.used >= ADDITION && b.code == 0) {
        version++;
        posting_version(record, 1 + version % 2, version);
        ask_accepted("full journal, amend", version, &b, AMEND, record, RECORD);
    }
    expect("full journal, version", version, memcmp(b.file + version % 2 * GOOD_STEP, record, RECORD) == 0, 1);
    expect_good_file("full journal", &b);
    ask_refused("full journal", 0, &b, AMEND, record, RECORD, 231, 0);
    put_good_posting(record, 3);
    ask_refused("full journal", 1, &b, ADD, record, RECORD, 231, 0);
    put_good_posting(record, 1);
    ask_accepted("full journal", 2, &b, CANCEL, record, IDENTIFIER);
    ask_refused("full journal", 3, &b, CANCEL, record, IDENTIFIER, 233, 0);
    undo_all("full journal undone", &b);
}

int main(int count, char **words)
{
    if (count != 3)
        give_up(words[0], "wants a file of histories and one of their lines");
    make_memory();
    ask_example_15();
    ask_wrong_lengths();
    ask_refusals();
    ask_consignors();
    ask_sizes();
    ask_tables();
    ask_vectors(words[1], words[2]);
    ask_full_file();
    ask_full_journal();
    return summary("batch");
}
