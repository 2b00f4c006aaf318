/* Skurzelt: QUO DROP lines, the table of a day's orders and quote rows, and the family sheet.

   Lending. The library keeps nothing and allocates nothing. A caller lends bytes or answers (a pointer and how many) and numbers (a pointer to one)
   for the time of one call. What is lent as const is only read. Two buffers lent to one call as const may overlap (a key may stand inside its own table); a
   buffer or number that is not const must not overlap anything else lent to that call. A pointer must not be null, even where the length is 0. Calls
   on different tables may run at the same time.

   Answers. Every function answers one number: 0, or a refusal. A refusal is its number, and for SKURZELT_FIELD also 256 times the field:
   use skurzelt_refusal() and skurzelt_field(). A refused call has changed no lent byte and no lent number. Any bytes may be lent, of any length:
   a call always answers.

   The layouts of a table, of an order or a quote row in it and of a record are in docs/LAYOUT.md. */

#ifndef SKURZELT_H
#define SKURZELT_H

#include <stddef.h>
#include <stdint.h>

#ifdef __cplusplus
extern "C" {
#endif

enum {
    SKURZELT_NO_LINE = 1,       /* neither CR LF alone nor 140 bytes ending in CR LF */
    SKURZELT_BAD_BYTE = 2,      /* one of the 138 bytes is outside 20 to 7E hex */
    SKURZELT_FIELD = 3,         /* a field breaks its rule, or a byte of it has no meaning; the first one is named */
    SKURZELT_NO_ROOM = 4,       /* the lent buffer is too short */
    SKURZELT_DAMAGED = 5,       /* the table is damaged */
    SKURZELT_DAY_OVER = 6,      /* end of day was booked before */
    SKURZELT_KNOWN_KEY = 7,     /* A or U: the key is in the table */
    SKURZELT_UNKNOWN_KEY = 8,   /* the key, or the elder's, is not in the table; no order or quote row is at the place */
    SKURZELT_OTHER_SERIES = 9,  /* side or series differs */
    SKURZELT_NOT_OPEN = 10,     /* more than is open, or nothing is open */
    SKURZELT_NOT_EXECUTED = 11, /* more than executed less broken */
    SKURZELT_FULL = 12,         /* the table is full */
    SKURZELT_ROWS_FULL = 13     /* no quote row is left, or a row's executed would be above 4,294,967,295 */
};

enum {
    SKURZELT_LINE = 140,       /* bytes of a line, CR LF included */
    SKURZELT_RECORD = 138,     /* bytes of a record */
    SKURZELT_KEY = 26,         /* bytes of a key: six of Source, twenty of Token */
    SKURZELT_ORDER = 80,       /* bytes of an order in its table */
    SKURZELT_QUOTE_ROW = 49,   /* bytes of a quote row in its table */
    SKURZELT_TABLE = 47240,    /* bytes of a table: 512 orders, 128 quote rows */
    SKURZELT_SHEET = 46616     /* a buffer of so many bytes is never too short for a sheet */
};

/* The refusal in an answer (0: none), and the field that comes with a 3. */
static inline unsigned skurzelt_refusal(uint32_t answer) { return answer % 256; }
static inline unsigned skurzelt_field(uint32_t answer) { return answer / 256; }

/* When the refusal in an answer is given, in the words of the build paper; an empty text for an answer that is none. The 512 of a 12 is the limit of
   the table. An E of an SQF id in no order is no 8, nor is a C of one that has a quote row. */
static inline const char *skurzelt_refusal_text(uint32_t answer)
{
    static const char *const words[] = {
        "",
        "the piece is neither CR LF alone nor 140 bytes ending in CR LF",
        "one of the 138 bytes is outside 20 to 7E hex",
        "a field breaks its rule; the number of the first comes with it",
        "the caller's buffer is too short for the output",
        "the table is damaged",
        "end of day was booked before",
        "A or U: the key is in the table",
        "E C X R: the key isn't in the table; U: the elder's key isn't",
        "E C X R U: side or series differs from that order's (for U, the elder's)",
        "E X: n is more than open; U R: open is 0",
        "C: n is more than executed less broken",
        "A or U: the table holds 512",
        "no quote row left, or a row's executed above 4,294,967,295"
    };
    unsigned number = skurzelt_refusal(answer);
    return number < sizeof words / sizeof words[0] ? words[number] : "";
}

/* ---- lines and records */

/* Reads a piece. A line sets *kind to 1 and writes the first 138 bytes of record; the end of the day (CR LF alone) sets *kind to 0 and writes
   nothing. Refuses 4 (record under 138 bytes), 1, 2, 3. */
uint32_t skurzelt_read(const uint8_t *piece, size_t piece_length, uint8_t *record, size_t record_length, uint64_t *kind);

/* Writes the line of a record into the first 140 bytes of line. Refuses 4 (line under 140 bytes); 3, field 24, for a record that is not 138 bytes
   long; then 3 for the first field that has a byte without meaning or breaks its rule. */
uint32_t skurzelt_write(const uint8_t *record, size_t record_length, uint8_t *line, size_t line_length);

/* A strike's value in hundred-thousandths of a dollar, from its denominator code and its six digits as a number. Refuses 3, field 20 (the code) or
   21 (the digits). */
uint32_t skurzelt_strike_value(uint8_t denominator, uint64_t strike, uint64_t *value);

/* The one form of a value: denominator code and digits. Refuses 3, field 21, exactly when there is none. */
uint32_t skurzelt_strike_form(uint64_t value, uint64_t *denominator, uint64_t *strike);

/* The time of day of a timestamp in milliseconds. Refuses 3, field 1. */
uint32_t skurzelt_clock(uint64_t timestamp, uint64_t *hours, uint64_t *minutes, uint64_t *seconds, uint64_t *milliseconds);

/* ---- the table */

/* Makes the empty table. Refuses 4 (under 47,240 bytes) and 5 (any more). */
uint32_t skurzelt_empty_table(uint8_t *table, size_t table_length);

/* Whether a table is damaged: 0, or 5. */
uint32_t skurzelt_check_table(const uint8_t *table, size_t table_length);

/* The place, from 0, of the earliest order with a key (Source, then Token). Refuses 5, then 8: no order has the key. A key of another
   length than 26 is one that no order has. */
uint32_t skurzelt_find_order(const uint8_t *table, size_t table_length, const uint8_t *key, size_t key_length, uint64_t *place);

/* Copies the order at a place into the first 80 bytes of order. Refuses 5, 4 (order under 80 bytes), then 8: no order is there. */
uint32_t skurzelt_order_at(const uint8_t *table, size_t table_length, uint64_t place, uint8_t *order, size_t order_length);

/* Copies the quote row at a place, from 0, into the first 49 bytes of row. Refuses 5, 4 (row under 49 bytes), then 8: no quote row is there. */
uint32_t skurzelt_quote_at(const uint8_t *table, size_t table_length, uint64_t place, uint8_t *row, size_t row_length);

/* Books a piece. Refuses 5, 1, 2, 3, then 6 to 13. */
uint32_t skurzelt_book(uint8_t *table, size_t table_length, const uint8_t *piece, size_t piece_length);

/* Books the pieces of a text one after another, with one damage check for all of them: answers[i] becomes 0 or the refusal of piece i, counted from
   0. Ends with the text, or when answers is full. *used is then how many bytes of the text were used, and *booked how many pieces, the refused ones
   among them; the answers behind these stay as they were. The answers and the table are exactly those of a call of skurzelt_book for each piece in
   turn. A next call may go on at text + *used. Refuses 5, before anything. */
uint32_t skurzelt_book_all(uint8_t *table, size_t table_length, const uint8_t *text, size_t text_length, uint32_t *answers, size_t answers_length, uint64_t *used, uint64_t *booked);

/* Writes the family sheet, the quote rows below the families, into the first *written bytes of out. Refuses 5, then 4 (out too short). */
uint32_t skurzelt_sheet(const uint8_t *table, size_t table_length, uint8_t *out, size_t out_length, uint64_t *written);

/* ---- texts */

/* The next piece of a text from a place on: its bytes are those from `at` up to but not including *end. A piece runs up to and including the next
   LF, or to the end of the text. Where nothing is left, *end is `at`. Never refuses. */
uint32_t skurzelt_next_piece(const uint8_t *text, size_t text_length, uint64_t at, uint64_t *end);

#ifdef __cplusplus
}
#endif

#endif
