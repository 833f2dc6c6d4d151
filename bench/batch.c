/*
 * The open batch beside checks of the library that look at the same records, and beside the replay in C: an addition
 * and an undo while some records are held, in buffers that just fit and in the longest; and then the longest journal,
 * full of amendments.
 */
#define _POSIX_C_SOURCE 199309L /* for times.h */
#include "fuganorezi.h"
#include "good_file.h"
#include "replay.h"
#include "times.h"

enum {
    RECORD = FUGANOREZI_RECORD_LENGTH,
    ENTRY = FUGANOREZI_RECORD_ENTRY,
    HEAD = ENTRY - RECORD,
    MOST_RECORDS = FUGANOREZI_MOST_RECORDS,
    LONGEST_FILE = FUGANOREZI_FILE_MOST,
    LONGEST_JOURNAL = FUGANOREZI_JOURNAL_MOST,
    MOST_ENTRIES = LONGEST_JOURNAL / ENTRY,
    RUNS = 51,
    RUNS_OF_FULL = 21 /* with a full journal, where a call takes long */
};

enum kind { ADDITION = 1, AMENDMENT = 3 };

/* States, made by hand: by calls it would take too long. */

/* The latest action that stands: with what is kept here it is taken back and put again without a call. */
struct latest {
    size_t place;
    uint8_t before[GOOD_STEP], line[GOOD_STEP], entry[ENTRY];
    fuganorezi_counts counts_before;
};

struct batch {
    uint8_t *file, *journal;
    size_t file_length, journal_length;
    fuganorezi_counts counts;
    struct latest latest;
    uint8_t more[GOOD_STEP]; /* a record that is not there */
};

static struct batch new_batch(size_t file_length, size_t journal_length)
{
    static uint8_t file[LONGEST_FILE], journal[LONGEST_JOURNAL];
    struct batch b = {.file = file, .journal = journal, .file_length = file_length, .journal_length = journal_length};
    memset(file, 0, file_length);
    memset(journal, 0, journal_length);
    return b;
}

static void put_latest(struct batch *b)
{
    const struct latest *latest = &b->latest;
    memcpy(b->file + latest->place * GOOD_STEP, latest->line, GOOD_STEP);
    memcpy(b->journal + latest->counts_before.used, latest->entry, ENTRY);
}

static void take_back_latest(struct batch *b)
{
    const struct latest *latest = &b->latest;
    memcpy(b->file + latest->place * GOOD_STEP, latest->before, GOOD_STEP);
    memset(b->journal + latest->counts_before.used, 0, ENTRY);
}

/* Its totals are left for `count`. */
static void act(struct batch *b, enum kind kind, size_t place, const uint8_t line[GOOD_STEP])
{
    const uint8_t head[HEAD] = {ENTRY % 256, ENTRY / 256, (uint8_t)kind, 0};
    struct latest *latest = &b->latest;
    latest->place = place;
    latest->counts_before = b->counts;
    memcpy(latest->before, b->file + place * GOOD_STEP, GOOD_STEP);
    memcpy(latest->line, line, GOOD_STEP);
    memcpy(latest->entry, head, HEAD);
    memcpy(latest->entry + HEAD, line, RECORD);
    put_latest(b);
    b->counts.held += kind == ADDITION;
    b->counts.used += ENTRY;
}

static void set_totals(const struct batch *b, fuganorezi_counts *counts)
{
    uint64_t out[FUGANOREZI_OUT_NUMBERS];
    if (fuganorezi_file_check(b->file, (size_t)counts->held * GOOD_STEP, good_table, GOOD_ENTRIES, out) != 0)
        give_up("a good file", "was refused");
    counts->live = out[FUGANOREZI_OUT_LIVE];
    counts->cancelled = out[FUGANOREZI_OUT_CANCELLED];
    counts->cash = out[FUGANOREZI_OUT_CASH];
    counts->price = out[FUGANOREZI_OUT_PRICE];
}

/* The totals of the file as it is, and as it was before the latest action. */
static void count(struct batch *b)
{
    take_back_latest(b);
    set_totals(b, &b->latest.counts_before);
    put_latest(b);
    set_totals(b, &b->counts);
}

/* So many records held, and one addition more. */
static struct batch batch_of_additions(unsigned held, size_t file_length, size_t journal_length)
{
    struct batch b = new_batch(file_length, journal_length);
    uint8_t line[GOOD_STEP];
    for (unsigned number = 1; number <= held + 1; number++) {
        put_good_posting(line, number);
        act(&b, ADDITION, number - 1, line);
    }
    count(&b);
    return b;
}

/* Full journals */

/* The records of a batch with a full journal, by their numbers, and which of them are amended. */
struct full {
    const char *what;
    unsigned records, first, amended; /* `amended` records from place `first` on, in turn */
    unsigned numbers[MOST_RECORDS];   /* one more than are held, which is less than the most */
};

/* The same consignment with another weight, so that each version differs. */
static void put_version(uint8_t line[GOOD_STEP], unsigned number, unsigned version)
{
    char weight[16];
    put_good_posting(line, number);
    snprintf(weight, sizeof weight, "%2u.%03u", 1 + version / 1000 % 99, version % 1000);
    put_field(line, 15, weight);
}

/* The latest amendment is always that of the first record: an undo that looks for the version before goes far. */
static void amend_until_full(struct batch *b, const struct full *full)
{
    uint8_t line[GOOD_STEP];
    for (unsigned entry = full->records + 1; entry <= MOST_ENTRIES; entry++) {
        unsigned place = entry == MOST_ENTRIES ? 0 : full->first + entry % full->amended;
        put_version(line, full->numbers[place], entry);
        act(b, AMENDMENT, place, line);
    }
}

static struct batch full_batch(const struct full *full)
{
    struct batch b = new_batch(LONGEST_FILE, LONGEST_JOURNAL);
    uint8_t line[GOOD_STEP];
    for (unsigned place = 0; place < full->records; place++) {
        put_good_posting(line, full->numbers[place]);
        act(&b, ADDITION, place, line);
    }
    amend_until_full(&b, full);
    put_good_posting(b.more, full->numbers[full->records]);
    count(&b);
    return b;
}

static void number_in_order(struct full *full)
{
    for (unsigned i = 0; i <= full->records; i++)
        full->numbers[i] = i + 1;
}

static uint64_t lowest_first(const uint8_t *bytes, size_t count)
{
    uint64_t number = 0;
    while (count-- > 0)
        number = number << 8 | bytes[count];
    return number;
}

/* The slot of 2,048 where the walk for an identifier begins in the library's index: as `hash` in crates/index. */
static unsigned slot_in_index(const uint8_t identifier[13])
{
    uint64_t mixed = lowest_first(identifier + 1, 4) * 0x5bd1e995 + lowest_first(identifier + 5, 4) * 0x61c88647 +
                     lowest_first(identifier + 9, 4) * 0x41c64e6d;
    return (unsigned)(mixed >> 28) % 2048;
}

static unsigned slot_of_number(unsigned number)
{
    uint8_t identifier[13];
    const fuganorezi_parts parts = {'B', 'O', 'F', 54, number};
    if (fuganorezi_identifier_write(identifier, sizeof identifier, parts).code != 0)
        give_up("an identifier", "was refused");
    return slot_in_index(identifier);
}

/* Numbers whose identifiers all have one slot, of the kinds that have no price, which would grow too long. */
static void number_for_one_slot(struct full *full)
{
    unsigned number = 0;
    for (unsigned i = 0; i <= full->records; i++) {
        do
            number += 3;
        while (slot_of_number(number) != 0);
        full->numbers[i] = number;
    }
}

/* What is timed: each leaves the batch as it found it, and ends the program where the answer is not the expected. */

typedef void work(struct batch *b);
typedef fuganorezi_outcome batch_add(uint8_t *file, size_t file_length, uint8_t *journal, size_t journal_length,
                                     fuganorezi_counts counts, const uint8_t *record, size_t length,
                                     const uint32_t *table, size_t entries);

static void expect_code(const char *what, uint32_t code, uint32_t expected)
{
    if (code != expected)
        give_up(what, "was answered with another code");
}

/* The latest addition once more: to take it back by hand is next to nothing beside it. */
static void add_again(struct batch *b, batch_add *add)
{
    take_back_latest(b);
    fuganorezi_outcome added = add(b->file, b->file_length, b->journal, b->journal_length, b->latest.counts_before,
                                   b->latest.line, RECORD, good_table, GOOD_ENTRIES);
    expect_code("an addition", added.code, FUGANOREZI_GOOD);
}

static void add_by_library(struct batch *b)
{
    add_again(b, fuganorezi_batch_add);
}

static void add_by_replay(struct batch *b)
{
    add_again(b, replay_batch_add);
}

static void add_without_room(struct batch *b, batch_add *add)
{
    fuganorezi_outcome refused = add(b->file, b->file_length, b->journal, b->journal_length, b->counts, b->more, RECORD,
                                     good_table, GOOD_ENTRIES);
    expect_code("an addition without room", refused.code, FUGANOREZI_JOURNAL_FULL);
}

static void refuse_by_library(struct batch *b)
{
    add_without_room(b, fuganorezi_batch_add);
}

static void refuse_by_replay(struct batch *b)
{
    add_without_room(b, replay_batch_add);
}

static void undo_by_library(struct batch *b)
{
    fuganorezi_outcome undone = fuganorezi_batch_undo(b->file, b->file_length, b->journal, b->journal_length, b->counts,
                                                      good_table, GOOD_ENTRIES);
    expect_code("an undo", undone.code, FUGANOREZI_GOOD);
    put_latest(b);
}

/* Of the records held before the latest action. */
static void check_file(struct batch *b)
{
    uint64_t out[FUGANOREZI_OUT_NUMBERS];
    size_t length = (size_t)b->latest.counts_before.held * GOOD_STEP;
    uint32_t code = fuganorezi_file_check(b->file, length, good_table, GOOD_ENTRIES, out);
    expect_code("a file check", code, FUGANOREZI_GOOD);
}

static void check_records(struct batch *b)
{
    for (size_t at = 0; at < b->counts.used; at += ENTRY) {
        const uint8_t *record = b->journal + at + HEAD;
        fuganorezi_record answer = fuganorezi_record_check(record, RECORD, good_table, GOOD_ENTRIES);
        expect_code("a record check", answer.code, FUGANOREZI_GOOD);
    }
}

/* Times */

struct job {
    work *work;
    unsigned long calls; /* in one run */
    uint64_t times[RUNS];
    double microseconds; /* for one call, the median */
};

static uint64_t time_of_calls(const struct job *job, struct batch *b)
{
    uint64_t start = now_in_nanoseconds();
    for (unsigned long i = 0; i < job->calls; i++)
        job->work(b);
    return now_in_nanoseconds() - start;
}

/* So many calls that one run is long beside the clock's own step. */
static void choose_calls(struct job *job, struct batch *b)
{
    const uint64_t long_enough = 1000000;
    for (job->calls = 1; time_of_calls(job, b) < long_enough;)
        job->calls *= 2;
}

/* The runs take turns, so that what else the machine does falls on all. */
static void measure(struct job *jobs, size_t count, struct batch *b, int runs)
{
    for (size_t i = 0; i < count; i++)
        choose_calls(&jobs[i], b);
    for (int run = 0; run < runs; run++)
        for (size_t i = 0; i < count; i++)
            jobs[i].times[run] = time_of_calls(&jobs[i], b);
    for (size_t i = 0; i < count; i++)
        jobs[i].microseconds = median(jobs[i].times, (size_t)runs) / 1000 / (double)jobs[i].calls;
}

/* Tables */

/* With the aims beside what they are of; "in C" is the addition there. */
static void print_heads(const char *what, const char *checks)
{
    printf("%-18s %10s %10s %10s %10s %10s %5s %10s %10s %5s\n", what, checks, "addition", "undo", "in C", "add/check",
           "aim", "C/check", "undo/add", "aim");
}

static void print_row(const struct job *checks, const struct job *addition, const struct job *undo,
                      const struct job *in_c, double aim)
{
    double of_checks = checks->microseconds, of_addition = addition->microseconds;
    printf(" %10.2f %10.2f %10.2f %10.2f %10.2f %5.1f %10.2f %10.2f %5.1f\n", of_checks, of_addition,
           undo->microseconds, in_c->microseconds, of_addition / of_checks, aim, in_c->microseconds / of_checks,
           undo->microseconds / of_addition, 1.0);
}

static void print_addition(const char *buffers, struct batch *b, double aim)
{
    enum { CHECK, ADD, UNDO, REPLAY, JOBS };
    struct job jobs[JOBS] = {
        [CHECK] = {.work = check_file},
        [ADD] = {.work = add_by_library},
        [UNDO] = {.work = undo_by_library},
        [REPLAY] = {.work = add_by_replay},
    };
    measure(jobs, JOBS, b, RUNS);
    printf("%4u, %-12s", (unsigned)b->latest.counts_before.held, buffers);
    print_row(&jobs[CHECK], &jobs[ADD], &jobs[UNDO], &jobs[REPLAY], aim);
}

static void print_additions(void)
{
    static const struct {
        unsigned held;
        double aim;
    } sizes[] = {{1, 10}, {100, 2}, {900, 1.5}};
    printf("An addition, beside the file check of the records held. Microseconds for one call, medians of %d runs\n"
           "that take turns:\n", RUNS);
    print_heads("held, buffers", "file check");
    for (size_t i = 0; i < sizeof sizes / sizeof sizes[0]; i++) {
        size_t records = sizes[i].held + 1;
        struct batch b = batch_of_additions(sizes[i].held, records * GOOD_STEP, records * ENTRY);
        print_addition("just fitting", &b, sizes[i].aim);
        b = batch_of_additions(sizes[i].held, LONGEST_FILE, LONGEST_JOURNAL);
        print_addition("longest", &b, sizes[i].aim);
    }
}

static void print_full(const struct full *full)
{
    enum { CHECKS, REFUSED, UNDO, REPLAY, JOBS };
    struct batch b = full_batch(full);
    struct job jobs[JOBS] = {
        [CHECKS] = {.work = check_records},
        [REFUSED] = {.work = refuse_by_library},
        [UNDO] = {.work = undo_by_library},
        [REPLAY] = {.work = refuse_by_replay},
    };
    measure(jobs, JOBS, &b, RUNS_OF_FULL);
    printf("%-18s", full->what);
    print_row(&jobs[CHECKS], &jobs[REFUSED], &jobs[UNDO], &jobs[REPLAY], 2);
}

/*
 * Many records and few: each amended in turn, the first alone, which a search from the back finds last, and the last
 * alone of those that the index of the library has in one slot.
 */
static void print_full_journals(void)
{
    enum { MANY = MOST_RECORDS - 1 }; /* with a place left in the file, so that it is the journal that refuses */
    static struct full one = {.what = "1, over and over", .records = 1, .first = 0, .amended = 1};
    static struct full all = {.what = "998, in turn", .records = MANY, .first = 0, .amended = MANY};
    static struct full first = {.what = "998, the first", .records = MANY, .first = 0, .amended = 1};
    static struct full slot = {.what = "998 of one slot", .records = MANY, .first = MANY - 1, .amended = 1};
    number_in_order(&one);
    number_in_order(&all);
    number_in_order(&first);
    number_for_one_slot(&slot);
    printf("An addition that is refused (231) by the longest journal, full with %d entries, beside as many record\n"
           "checks. Microseconds for one call, medians of %d runs that take turns:\n", MOST_ENTRIES, RUNS_OF_FULL);
    print_heads("records, amended", "checks");
    print_full(&one);
    print_full(&all);
    print_full(&first);
    print_full(&slot);
}

int main(void)
{
    print_additions();
    print_full_journals();
    return 0;
}
