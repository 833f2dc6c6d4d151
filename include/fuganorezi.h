/*
 * Fuganorezi for C: checks of postal consignments, writers for what has one right writing, and an
 * open batch of consignments, in the archive libfuganorezi.a (x86-64).
 *
 * Bytes and tables are lent for the call: nothing is kept or freed, nothing is changed but what is
 * said to be, and no byte or entry at or past its length is touched. They may be NULL only where
 * their length is 0. No call fails, waits or uses memory of its own beyond the stack.
 *
 * Threads: every call is reentrant. There is no state behind the calls, and no lock: any threads
 * may call at the same time, as long as nobody changes what is lent to a call until it returns.
 *
 * Words for the codes, and the names and forms of the fields, are in fuganorezi_words.h.
 */
#ifndef FUGANOREZI_H
#define FUGANOREZI_H

#include <stddef.h>
#include <stdint.h>

#ifdef __cplusplus
extern "C" {
#endif

/* The version of this header, which CHANGELOG.md follows. The first number changes where a program has to be changed. */
#define FUGANOREZI_VERSION_MAJOR 3
#define FUGANOREZI_VERSION_MINOR 1
#define FUGANOREZI_VERSION_PATCH 0
#define FUGANOREZI_VERSION "3.1.0"

/* Lengths in bytes, unless another unit is said. */
enum fuganorezi_lengths {
    FUGANOREZI_IDENTIFIER_LENGTH = 13,
    FUGANOREZI_RECORD_LENGTH = 399,
    FUGANOREZI_LINE_LENGTH = 401, /* a record and its line end, 0Dh 0Ah */
    FUGANOREZI_FIELDS = 26,       /* fields of a record, counted from 1 */
    FUGANOREZI_MOST_RECORDS = 999,

    /* the buffers of a batch: the file's length is a multiple of FUGANOREZI_LINE_LENGTH */
    FUGANOREZI_FILE_LEAST = 401,
    FUGANOREZI_FILE_MOST = 400599,
    FUGANOREZI_JOURNAL_LEAST = 403,
    FUGANOREZI_JOURNAL_MOST = 1048576,
    FUGANOREZI_RECORD_ENTRY = 403,     /* what an addition or an amendment takes in the journal */
    FUGANOREZI_IDENTIFIER_ENTRY = 17,  /* and what a cancellation does */

    /* the table of postcodes */
    FUGANOREZI_TABLE_MOST = 16000,     /* entries */
    FUGANOREZI_TABLE_TEXT_MOST = 96000 /* of its text */
};

/* The highest amount that fields 16 and 17 can hold, in haléře, and the highest weight of field 15, in grams. */
#define FUGANOREZI_AMOUNT_MOST UINT64_C(99999999999)
#define FUGANOREZI_WEIGHT_MOST UINT64_C(99999)

/* The highest postcode that a table may have. */
#define FUGANOREZI_POSTCODE_MOST UINT32_C(99999)

/* A field by its number: where it starts in the record, counted from 0, and its width. */
enum fuganorezi_layout {
    FUGANOREZI_START_1 = 0,        FUGANOREZI_WIDTH_1 = 13,  /* consignment identifier */
    FUGANOREZI_START_2 = 13,       FUGANOREZI_WIDTH_2 = 8,   /* date */
    FUGANOREZI_START_3 = 21,       FUGANOREZI_WIDTH_3 = 8,   /* time */
    FUGANOREZI_START_4 = 29,       FUGANOREZI_WIDTH_4 = 30,  /* addressee's name */
    FUGANOREZI_START_5 = 59,       FUGANOREZI_WIDTH_5 = 5,   /* postcode */
    FUGANOREZI_START_6 = 64,       FUGANOREZI_WIDTH_6 = 2,   /* country */
    FUGANOREZI_START_7 = 66,       FUGANOREZI_WIDTH_7 = 40,  /* municipality */
    FUGANOREZI_START_8 = 106,      FUGANOREZI_WIDTH_8 = 40,  /* district */
    FUGANOREZI_START_9 = 146,      FUGANOREZI_WIDTH_9 = 40,  /* street */
    FUGANOREZI_START_10 = 186,     FUGANOREZI_WIDTH_10 = 6,  /* house number (č.p.) */
    FUGANOREZI_START_11 = 192,     FUGANOREZI_WIDTH_11 = 6,  /* house number (č.o.) */
    FUGANOREZI_START_12 = 198,     FUGANOREZI_WIDTH_12 = 20, /* telephone */
    FUGANOREZI_START_13 = 218,     FUGANOREZI_WIDTH_13 = 50, /* e-mail */
    FUGANOREZI_START_14 = 268,     FUGANOREZI_WIDTH_14 = 12, /* delivery charges */
    FUGANOREZI_START_15 = 280,     FUGANOREZI_WIDTH_15 = 6,  /* weight */
    FUGANOREZI_START_16 = 286,     FUGANOREZI_WIDTH_16 = 12, /* cash on delivery */
    FUGANOREZI_START_17 = 298,     FUGANOREZI_WIDTH_17 = 12, /* price specified */
    FUGANOREZI_START_18 = 310,     FUGANOREZI_WIDTH_18 = 30, /* services */
    FUGANOREZI_START_19 = 340,     FUGANOREZI_WIDTH_19 = 2,  /* status */
    FUGANOREZI_START_20 = 342,     FUGANOREZI_WIDTH_20 = 10, /* franking machine */
    FUGANOREZI_START_21 = 352,     FUGANOREZI_WIDTH_21 = 10, /* variable symbol */
    FUGANOREZI_START_22 = 362,     FUGANOREZI_WIDTH_22 = 13, /* main consignment */
    FUGANOREZI_START_23 = 375,     FUGANOREZI_WIDTH_23 = 2,  /* serial number of the piece */
    FUGANOREZI_START_24 = 377,     FUGANOREZI_WIDTH_24 = 2,  /* number of pieces */
    FUGANOREZI_START_25 = 379,     FUGANOREZI_WIDTH_25 = 10, /* consignor's number */
    FUGANOREZI_START_26 = 389,     FUGANOREZI_WIDTH_26 = 10  /* sender's symbol */
};

/* Each code that a call gives. When is said at the calls. */
enum fuganorezi_code {
    FUGANOREZI_GOOD = 0,
    FUGANOREZI_WRONG_IDENTIFIER = 1,
    FUGANOREZI_IDENTIFIER_TWICE = 2,
    FUGANOREZI_SYMBOL_MISSING = 11,
    FUGANOREZI_POSTCODE_UNKNOWN_41 = 21,
    FUGANOREZI_POSTCODE_UNKNOWN = 24,
    FUGANOREZI_ADDRESS_INCOMPLETE = 27,
    FUGANOREZI_WEIGHT_MISSING_41 = 31,
    FUGANOREZI_WEIGHT_MISSING = 34,
    FUGANOREZI_CASH_DISAGREES = 36,
    FUGANOREZI_PIECES_DISAGREE = 72,
    FUGANOREZI_MALFORMED = 210,
    FUGANOREZI_FILE_LENGTH = 211,
    FUGANOREZI_LINE_END = 212,
    FUGANOREZI_TOO_MANY_RECORDS = 213,
    FUGANOREZI_SERVICES_EXCLUDE = 220,
    FUGANOREZI_SYMBOL_FILLED = 221,
    FUGANOREZI_PRICE_DISAGREES = 222,
    FUGANOREZI_CONTACT_MISSING = 223,
    FUGANOREZI_FILE_FULL = 230,
    FUGANOREZI_JOURNAL_FULL = 231,
    FUGANOREZI_NOT_THERE = 232,
    FUGANOREZI_IS_CANCELLED = 233,
    FUGANOREZI_NOTHING_TO_UNDO = 234,
    FUGANOREZI_BUFFER_LENGTH = 235,
    FUGANOREZI_WRONG_LENGTH = 236,
    FUGANOREZI_BATCH_DISAGREES = 237,
    FUGANOREZI_WRONG_TABLE = 238,
    FUGANOREZI_SET_NOT_WHOLE = 240,
    FUGANOREZI_OTHER_CONSIGNOR = 241
};

/* The seven numbers of the file check and of the closing check, as places of `out`. */
enum fuganorezi_out {
    FUGANOREZI_OUT_CODE,
    FUGANOREZI_OUT_RECORD,
    FUGANOREZI_OUT_PLACE,
    FUGANOREZI_OUT_LIVE,
    FUGANOREZI_OUT_CANCELLED,
    FUGANOREZI_OUT_CASH,
    FUGANOREZI_OUT_PRICE,
    FUGANOREZI_OUT_NUMBERS /* how many they are */
};

/*
 * Whether these bytes are a right identifier of a consignment: 13 bytes, with the prefix, the
 * numbers, the check digit and the postfix as they should be.
 *
 * 0: they are.
 * 1: they are not (the code's place, the field that it speaks of, is 1); this is also the
 *    answer for any length other than 13.
 */
uint32_t fuganorezi_identifier_check(const uint8_t *bytes, size_t length);

/*
 * What the writers answer, by value, and what each longer answer begins with: the code, and its
 * place, the number of the field that it speaks of; 0 if it speaks of none. Code 0 has place 0.
 */
typedef struct fuganorezi_answer {
    uint32_t code;
    uint32_t place;
} fuganorezi_answer;

/*
 * What an identifier says.
 */
typedef struct fuganorezi_parts {
    uint8_t first, second; /* the prefix: a capital letter, and another or a space */
    uint8_t last;          /* the last byte: F E P (consignor of 2 digits), U T (3), C B (4), M L (5), or Z for the postfix CZ */
    uint64_t consignor;    /* at least 1; 0 with Z */
    uint64_t posting;      /* the posting number, at least 1 and with as many digits as make 9 with the consignor's; with Z 0 to 99999999 */
} fuganorezi_parts;

/*
 * Whose an identifier is: type and number of its consignor, both 0 if it is nobody's. It is
 * nobody's with the postfix CZ, which names no consignor, and if it is no right identifier.
 */
typedef struct fuganorezi_consignor {
    uint32_t type;   /* the identifier's last byte */
    uint64_t number; /* at least 1 */
} fuganorezi_consignor;

/* What reading an identifier answers, by value. */
typedef struct fuganorezi_identifier {
    uint32_t code;
    uint32_t place;
    fuganorezi_consignor consignor;
    fuganorezi_parts parts;
} fuganorezi_identifier;

/*
 * Reads an identifier: whose it is, and its parts, as fuganorezi_identifier_write takes them.
 * Accepted: code 0. Refused: all but code and place is 0.
 *
 *   1 (1)  the bytes are no right identifier, as above.
 */
fuganorezi_identifier fuganorezi_identifier_read(const uint8_t *bytes, size_t length);

/*
 * The table of postcodes that exist: each call that sees a whole record takes it, and a domestic
 * postcode has to be in it. Its entries are numbers, so 00100 is 100. Each is above the one before
 * it, none is above 99999, and there are at most 16,000. Of any other table the calls say 238. None
 * at all, for which the pointer may be NULL, is a right table, in which no postcode is.
 *
 * Each call looks once through the whole table before it looks up postcodes in it.
 */

/* What reading the text of a table answers, by value. */
typedef struct fuganorezi_table {
    uint32_t code;
    uint32_t place;   /* 0 */
    uint64_t entries; /* how many were read; 0 if refused */
} fuganorezi_table;

/*
 * Reads the text of a table, five digits and a line feed for each entry, to the front of the lent
 * table. No text is the table without entries. Accepted: code 0. The lines are now the first
 * entries, and those behind them are as they were. Refused: all entries are as they were.
 *
 * 238 (0)  the text is otherwise written, does not rise or has more than 16,000 lines.
 * 236 (0)  the lent table has fewer entries than the text has lines.
 *
 * Text and table share no memory.
 */
fuganorezi_table fuganorezi_table_read(const uint8_t *text, size_t length, uint32_t *table, size_t entries);

/* What the check of a record answers, by value. */
typedef struct fuganorezi_record {
    uint32_t code;
    uint32_t place;
    fuganorezi_consignor consignor; /* of field 1, whatever the code; nobody's if there are not 399 bytes */
} fuganorezi_record;

/*
 * Whether these bytes are a good record, 399 of them without line end.
 *
 * 238 (0)  the table of postcodes is wrong.
 * 236 (0)  there are not 399 bytes.
 *   1 to 72  as in the list of the file check, from 1 down to 72 and with the same places.
 *
 * As it may stand in a file, live or cancelled; or, as a batch takes it, to be posted: there a
 * status that is not blank is malformed, 210 (19).
 */
fuganorezi_record fuganorezi_record_check(const uint8_t *bytes, size_t length, const uint32_t *table, size_t entries);
fuganorezi_record fuganorezi_record_check_posting(const uint8_t *bytes, size_t length, const uint32_t *table, size_t entries);

/*
 * The writers: each sets the bytes lent to it to the one right writing, and answers 0. What it
 * refuses leaves them as they were.
 *
 * An identifier with these parts and the check digit that belongs to them, into 13 bytes:
 *
 * 236 (0)  there are not 13 bytes.
 *   1 (1)  no right identifier has these parts.
 */
fuganorezi_answer fuganorezi_identifier_write(uint8_t *bytes, size_t length, fuganorezi_parts parts);

/*
 * An amount in haléře, as fields 16 and 17 hold it, into 12 bytes; and a weight in grams, as
 * field 15 does, into 6. No amount and no weight are blanks, which are not written here.
 *
 * 236 (0)  there are not 12 bytes, or not 6.
 * 210 (0)  the field cannot hold as much.
 */
fuganorezi_answer fuganorezi_amount_write(uint8_t *bytes, size_t length, uint64_t hellers);
fuganorezi_answer fuganorezi_weight_write(uint8_t *bytes, size_t length, uint64_t grams);

/*
 * Whether these bytes are a good K file: up to 999 records of 401 bytes, each 399 bytes and a
 * line end (0Dh 0Ah). No bytes are a good file of no records.
 *
 * The result is the code. Each call sets all seven numbers of `out`, which is not NULL and
 * shares no memory with `bytes` and `table`:
 *
 * out[0]: the code: 0 if the file is good, else that of the first rule that is broken.
 * out[1]: the record that breaks it, counted from 1; 0 if it is the table (238) or the file as a
 *         whole (211, 213).
 * out[2]: the place: the number, 1 to 26, of the field that the code speaks of; 0 if it speaks of
 *         no field.
 *
 * For a good file these three are 0, and the others are its totals. Else the others are 0.
 *
 * out[3]: the live consignments.
 * out[4]: the cancelled ones.
 * out[5]: the cash on delivery of the live ones together (field 16), in haléře.
 * out[6]: the price specified of the live ones together (field 17), in haléře.
 *
 * The codes, in the order in which they are looked for; from 212 on this is done for each record
 * in its turn. Places are in parentheses.
 *
 * 238 (0)  the table of postcodes is wrong.
 * 211 (0)  the length is not a multiple of 401.
 * 213 (0)  the file has more than 999 records.
 * 212 (0)  the record's line end is wrong.
 *   1 (1)  field 1 is no right identifier.
 * 210      a field is malformed (the first such, 2 to 26). The postcode is five digits where the
 *          country is blank, and else text, or blank. Services are different codes joined by "+",
 *          or blank: the numbers 1 to 99; 1A, 1B, 1D, 1K and 1N; the sizes S, M, L and XL. 1A is
 *          not service 1, and no rule but 210 and 220 asks for a code with letters.
 *  27      the name is blank (4); the postcode is blank and the address domestic (5); the
 *          municipality is blank (7).
 *  21 (5)  the address is domestic and its postcode not in the table, with service 41.
 *  24 (5)  likewise, without service 41.
 *  31 (15) the weight is blank or zero, with service 41.
 *  34 (15) the weight is blank or zero, without service 41.
 *  36 (16) with service 2, 4, 5 or 41 the cash on delivery is blank or zero; or without them it is
 *          not blank.
 *  11 (21) service 41 without a variable symbol.
 * 221 (21) a variable symbol without service 2, 4, 5 or 41.
 * 222 (17) with service 7 the price specified is blank or zero; or without it it is not blank.
 * 220 (18) more than one of the services 34, 45 and 46, or more than one of the sizes.
 * 223      service 34 or 45 without a telephone (12); 45 or 46 without an e-mail (13).
 *  72      service 70, pieces of one consignment: under a prefix other than BO, OV, DR and NP
 *          (18); with the main consignment (22), the serial (23) or the pieces (24) blank; with
 *          the serial above the pieces (23); with serial 01 and another main consignment than
 *          field 1, or the same and another serial (22). Without service 70: one of these three
 *          is filled (22, 23, 24).
 *   2 (1)  an earlier record, cancelled or not, has the same identifier.
 * 241 (1)  field 1 names a consignor, and that of an earlier record, cancelled or not, names
 *          another: type or number differs. CZ may stand among them, and field 22 is not asked.
 */
uint32_t fuganorezi_file_check(const uint8_t *bytes, size_t length, const uint32_t *table, size_t entries, uint64_t out[7]);

/*
 * Whether these bytes are a K file that may be closed: a good one, as above, in which every set
 * that travels together is whole. A set is all live consignments with the same main consignment
 * (field 22); one that is cancelled, or has field 22 blank, is in no set. It is whole if all give
 * the same number of pieces (field 24), and their serials (field 23) run from 01 to that number,
 * each once.
 *
 * Result and `out` are as those of the file check. If the file is no good they are the same as
 * its; else there is one code more:
 *
 * 240      some set is not whole. The record is the earliest live one whose set is not, and the
 *          place is found over that whole set: its pieces give different numbers of pieces (24),
 *          else a serial is there twice (23), else one is missing (22).
 */
uint32_t fuganorezi_closing_check(const uint8_t *bytes, size_t length, const uint32_t *table, size_t entries, uint64_t out[7]);

/*
 * The open batch: consignments are added, amended and cancelled, and each of these actions can
 * be undone, the latest first.
 *
 * The caller lends two buffers to each call and keeps them, unchanged, from one call to the next:
 *
 * file:    the records with their line ends, one behind the other, then zeros. Its length is a
 *          multiple of 401 from 401 to 400,599 (1 to 999 records). The first 401 * held bytes are
 *          a K file that fuganorezi_file_check accepts.
 * journal: an entry for each action that stands, then zeros. Its length is from 403 to 1,048,576.
 *          An entry is its whole length and its kind, two bytes each, little-endian, and what it
 *          carries: an addition (403, kind 1) and an amendment (403, kind 3) the 399 bytes of the
 *          record, a cancellation (17, kind 2) the 13 of the identifier.
 *
 * The counts go in to each call but opening, and the next ones come out with its answer. They too
 * are kept as they are.
 *
 * The table of postcodes goes in to each call but opening, and is the same in all of them. Each call
 * judges the journal's entries anew by the table that it is given, so with another one a batch may
 * be refused: 237, where a domestic postcode of some entry is not in it.
 *
 * A batch names one consignor at most, as a good file does. The first addition that names one
 * chooses, and one that names another is refused: 241. A cancelled consignment still counts; undo
 * takes an addition back, and so frees the choice if no other names a consignor. A journal in which
 * two are named, as one from before version 3 may be, is refused: 237.
 */
typedef struct fuganorezi_counts {
    uint64_t live;      /* live consignments */
    uint64_t cancelled; /* cancelled ones */
    uint64_t cash;      /* cash on delivery of the live ones together (field 16), in haléře */
    uint64_t price;     /* price specified of the live ones together (field 17), in haléře */
    uint64_t held;      /* records held in `file` */
    uint64_t used;      /* bytes used in `journal` */
} fuganorezi_counts;

/*
 * What each call answers, by value.
 *
 * accepted: code 0 and place 0. The counts are those after the call.
 * refused:  the code and the place below. Neither buffer is changed, and the counts are those that
 *           went in; a refused opening gives zero counts.
 *
 * So the counts that come out are always those for the next call.
 */
typedef struct fuganorezi_outcome {
    uint32_t code;
    uint32_t place;
    fuganorezi_counts counts;
} fuganorezi_outcome;

/*
 * The two buffers share no memory with each other, nor with the record, the identifier or the table.
 *
 * Each call but opening first goes once through the whole journal, checks each entry and compares
 * with the file, so it takes the longer the more the journal has. It needs less than 64 KiB of stack
 * as compiled so far, whatever the length of the buffers; this is tested, not proved.
 *
 * The codes, in the order in which they are looked for. The place is 0 where none is given.
 *
 * 235      a buffer has none of the lengths above (all calls).
 * 238      the table of postcodes is wrong (all calls but opening).
 * 237      file, journal and counts are not what the journal's entries make from an opening, each
 *          acceptable in its turn (all calls but opening).
 * 236      the record has not 399 bytes (add, amend), the identifier not 13 (cancel).
 *   1 (1)  the identifier is not right (cancel).
 *   1 to 72  of the record (add, amend): as in the list of the file check, from 1 down to 72 and
 *          with the same places; but a status that is not blank is malformed here: 210 (19).
 *   2 (1)  the identifier is there already, cancelled or not (add).
 * 241 (1)  the identifier names a consignor, and one that is there, cancelled or not, names another
 *          (add).
 * 232      the identifier is not there (amend, cancel).
 * 233      the consignment is cancelled (amend, cancel).
 * 230      the file buffer has no place for one record more (add).
 * 231      the journal has not the room for the entry (add, amend, cancel).
 * 234      there is nothing to undo (undo).
 */

/* Sets both buffers to zero, whatever they held, and gives zero counts. */
fuganorezi_outcome fuganorezi_batch_open(uint8_t *file, size_t file_length, uint8_t *journal, size_t journal_length);

/* Puts a record, 399 bytes without line end, behind the last. */
fuganorezi_outcome fuganorezi_batch_add(uint8_t *file, size_t file_length, uint8_t *journal, size_t journal_length,
                                        fuganorezi_counts counts, const uint8_t *record, size_t length,
                                        const uint32_t *table, size_t entries);

/* Puts a record in the place of the one with the same identifier. */
fuganorezi_outcome fuganorezi_batch_amend(uint8_t *file, size_t file_length, uint8_t *journal, size_t journal_length,
                                          fuganorezi_counts counts, const uint8_t *record, size_t length,
                                          const uint32_t *table, size_t entries);

/* Sets the status of the record with this identifier to cancelled. */
fuganorezi_outcome fuganorezi_batch_cancel(uint8_t *file, size_t file_length, uint8_t *journal, size_t journal_length,
                                           fuganorezi_counts counts, const uint8_t *identifier, size_t length,
                                           const uint32_t *table, size_t entries);

/* Takes back the latest action that stands, with its entry; what it freed serves the next. */
fuganorezi_outcome fuganorezi_batch_undo(uint8_t *file, size_t file_length, uint8_t *journal, size_t journal_length,
                                         fuganorezi_counts counts, const uint32_t *table, size_t entries);

#ifdef __cplusplus
}
#endif

#endif
