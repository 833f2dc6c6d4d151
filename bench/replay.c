#include "replay.h"

#include "reference.h"
#include "slots.h"

enum {
    RECORD = FUGANOREZI_RECORD_LENGTH,
    STEP = FUGANOREZI_LINE_LENGTH,
    STATUS = FUGANOREZI_START_19,
    RECORD_ENTRY = FUGANOREZI_RECORD_ENTRY,
    IDENTIFIER_ENTRY = FUGANOREZI_IDENTIFIER_ENTRY,
    HEAD = 4 /* bytes of an entry before what it carries */
};

static const uint8_t addition[HEAD] = {0x93, 0x01, 1, 0};
static const uint8_t cancellation[HEAD] = {0x11, 0x00, 2, 0};
static const uint8_t amendment[HEAD] = {0x93, 0x01, 3, 0};

/* Places */

/* A consignment: its latest record, which stays in the journal, and the amounts of that. */
struct place {
    const uint8_t *record;
    uint64_t cash, price;
    bool cancelled;
};

/*
 * All of them, in the file's order, and their numbers by identifier; the consignor of those that name one, or 0; and the
 * postcodes that records may have.
 */
struct places {
    size_t held, most;
    uint64_t consignor;
    const uint32_t *table;
    size_t entries;
    struct slots slots;
    struct place all[FUGANOREZI_MOST_RECORDS];
};

static void clear_places(struct places *places, size_t most, const uint32_t *table, size_t entries)
{
    places->held = 0;
    places->most = most;
    places->consignor = 0;
    places->table = table;
    places->entries = entries;
    clear_slots(&places->slots, most);
}

/* The slot of the place with this identifier, or the empty one where it would be noted. */
static inline uint16_t *slot_of(struct places *places, const uint8_t *identifier)
{
    struct slots *slots = &places->slots;
    struct key key = key_of(identifier);
    size_t slot = first_slot(slots, key);
    while (slots->numbers[slot] != 0 && !same_key(key_of(places->all[slots->numbers[slot] - 1].record), key))
        slot = next_slot(slots, slot);
    return &slots->numbers[slot];
}

/* The live place with this identifier, or NULL. */
static inline struct place *live_place(struct places *places, const uint8_t *identifier)
{
    uint16_t number = *slot_of(places, identifier);
    if (number == 0 || places->all[number - 1].cancelled)
        return NULL;
    return &places->all[number - 1];
}

/* Whether this consignor, or nobody, may stand among them. */
static inline bool may_stand(const struct places *places, uint64_t consignor)
{
    return consignor == 0 || places->consignor == 0 || consignor == places->consignor;
}

/* Entries: each gives whether it is acceptable in its turn. */

/* An amendment names whom the addition named. */
static inline bool put_record(struct places *places, struct place *place, const uint8_t *record)
{
    struct reference_posting posting = reference_posting_check(record, places->table, places->entries);
    *place = (struct place){record, posting.cash, posting.price, false};
    if (posting.code != 0 || !may_stand(places, posting.consignor))
        return false;
    if (posting.consignor != 0)
        places->consignor = posting.consignor;
    return true;
}

static inline bool replay_addition(struct places *places, const uint8_t *record)
{
    uint16_t *slot = slot_of(places, record);
    if (*slot != 0 || places->held == places->most)
        return false;
    *slot = (uint16_t)++places->held;
    return put_record(places, &places->all[*slot - 1], record);
}

static inline bool replay_amendment(struct places *places, const uint8_t *record)
{
    struct place *place = live_place(places, record);
    return place != NULL && put_record(places, place, record);
}

static inline bool replay_cancellation(struct places *places, const uint8_t *identifier)
{
    struct place *place = live_place(places, identifier);
    if (place == NULL)
        return false;
    place->cancelled = true;
    return true;
}

static inline bool is_entry(const uint8_t *entry, size_t left, const uint8_t head[HEAD], size_t length)
{
    return left >= length && memcmp(entry, head, HEAD) == 0;
}

/* The length of the entry, or 0 where it is none or not acceptable. */
static inline size_t replay_entry(struct places *places, const uint8_t *entry, size_t left)
{
    const uint8_t *carried = entry + HEAD;
    if (is_entry(entry, left, addition, RECORD_ENTRY))
        return replay_addition(places, carried) ? RECORD_ENTRY : 0;
    if (is_entry(entry, left, amendment, RECORD_ENTRY))
        return replay_amendment(places, carried) ? RECORD_ENTRY : 0;
    if (is_entry(entry, left, cancellation, IDENTIFIER_ENTRY))
        return replay_cancellation(places, carried) ? IDENTIFIER_ENTRY : 0;
    return 0;
}

static bool replay_journal(struct places *places, const uint8_t *journal, size_t used)
{
    for (size_t at = 0; at < used;) {
        size_t length = replay_entry(places, journal + at, used - at);
        if (length == 0)
            return false;
        at += length;
    }
    return true;
}

/* Comparisons */

/* No way out halfway: then the compiler takes many bytes at once, and mostly they are zeros. */
static bool all_zeros(const uint8_t *bytes, size_t count)
{
    uint8_t any = 0;
    for (size_t i = 0; i < count; i++)
        any |= bytes[i];
    return any == 0;
}

/* The status of a record in the journal is blank, so that of a cancelled one differs in its first byte. */
static inline bool right_line(const uint8_t *line, const struct place *place)
{
    const uint8_t *record = place->record;
    return line[STATUS] == (place->cancelled ? '0' : ' ') && memcmp(line, record, STATUS) == 0 &&
           memcmp(line + STATUS + 1, record + STATUS + 1, RECORD - STATUS - 1) == 0 && line[RECORD] == 0x0d &&
           line[RECORD + 1] == 0x0a;
}

static inline void add_to_totals(fuganorezi_counts *totals, const struct place *place)
{
    if (place->cancelled) {
        totals->cancelled++;
        return;
    }
    totals->live++;
    totals->cash += place->cash;
    totals->price += place->price;
}

static bool right_totals(const struct places *places, const fuganorezi_counts *counts)
{
    fuganorezi_counts totals = {0, 0, 0, 0, 0, 0};
    for (size_t i = 0; i < places->held; i++)
        add_to_totals(&totals, &places->all[i]);
    return totals.live == counts->live && totals.cancelled == counts->cancelled && totals.cash == counts->cash &&
           totals.price == counts->price;
}

static bool right_lines(const struct places *places, const uint8_t *file)
{
    for (size_t i = 0; i < places->held; i++)
        if (!right_line(file + i * STEP, &places->all[i]))
            return false;
    return true;
}

/* The test of the state */

static bool right_lengths(size_t file_length, size_t journal_length)
{
    return file_length % STEP == 0 && file_length >= FUGANOREZI_FILE_LEAST && file_length <= FUGANOREZI_FILE_MOST &&
           journal_length >= FUGANOREZI_JOURNAL_LEAST && journal_length <= FUGANOREZI_JOURNAL_MOST;
}

static uint32_t check_state(struct places *places, const uint8_t *file, size_t file_length, const uint8_t *journal,
                            size_t journal_length, const fuganorezi_counts *counts, const uint32_t *table,
                            size_t entries)
{
    if (!right_lengths(file_length, journal_length))
        return FUGANOREZI_BUFFER_LENGTH;
    if (!reference_right_table(table, entries))
        return FUGANOREZI_WRONG_TABLE;
    if (counts->held > file_length / STEP || counts->used > journal_length)
        return FUGANOREZI_BATCH_DISAGREES;
    size_t held = counts->held, used = counts->used;
    clear_places(places, held, table, entries);
    bool right = replay_journal(places, journal, used) && places->held == held && right_lines(places, file) &&
                 right_totals(places, counts) && all_zeros(file + held * STEP, file_length - held * STEP) &&
                 all_zeros(journal + used, journal_length - used);
    return right ? 0 : FUGANOREZI_BATCH_DISAGREES;
}

uint32_t replay_state_check(const uint8_t *file, size_t file_length, const uint8_t *journal, size_t journal_length,
                            fuganorezi_counts counts, const uint32_t *table, size_t entries)
{
    struct places places;
    return check_state(&places, file, file_length, journal, journal_length, &counts, table, entries);
}

/* An addition */

static void put_line(uint8_t *line, const uint8_t *record)
{
    memcpy(line, record, RECORD);
    line[RECORD] = 0x0d;
    line[RECORD + 1] = 0x0a;
}

static void put_addition(uint8_t *entry, const uint8_t *record)
{
    memcpy(entry, addition, HEAD);
    memcpy(entry + HEAD, record, RECORD);
}

static void count_addition(fuganorezi_counts *counts, const struct reference_posting *posting)
{
    counts->live++;
    counts->cash += posting->cash;
    counts->price += posting->price;
    counts->held++;
    counts->used += RECORD_ENTRY;
}

static fuganorezi_outcome refused(uint32_t code, uint32_t place, fuganorezi_counts counts)
{
    return (fuganorezi_outcome){code, place, counts};
}

fuganorezi_outcome replay_batch_add(uint8_t *file, size_t file_length, uint8_t *journal, size_t journal_length,
                                    fuganorezi_counts counts, const uint8_t *record, size_t length,
                                    const uint32_t *table, size_t entries)
{
    struct places places;
    uint32_t code = check_state(&places, file, file_length, journal, journal_length, &counts, table, entries);
    if (code != 0)
        return refused(code, 0, counts);
    if (length != RECORD)
        return refused(FUGANOREZI_WRONG_LENGTH, 0, counts);
    struct reference_posting posting = reference_posting_check(record, table, entries);
    if (posting.code != 0)
        return refused(posting.code, posting.place, counts);
    if (*slot_of(&places, record) != 0)
        return refused(FUGANOREZI_IDENTIFIER_TWICE, 1, counts);
    if (!may_stand(&places, posting.consignor))
        return refused(FUGANOREZI_OTHER_CONSIGNOR, 1, counts);
    if (counts.held == file_length / STEP)
        return refused(FUGANOREZI_FILE_FULL, 0, counts);
    if (journal_length - counts.used < RECORD_ENTRY)
        return refused(FUGANOREZI_JOURNAL_FULL, 0, counts);
    put_line(file + counts.held * STEP, record);
    put_addition(journal + counts.used, record);
    count_addition(&counts, &posting);
    return (fuganorezi_outcome){0, 0, counts};
}
