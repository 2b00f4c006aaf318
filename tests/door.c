/* Calls every function of include/skurzelt.h with known values, so that the header is held to the archive. Prints what differs. */

#include <stdio.h>
#include <string.h>

#include "skurzelt.h"

static int failed;

static void expect(const char *what, uint64_t got, uint64_t wanted)
{
    if (got != wanted) {
        printf("door: %s is %llu, not %llu\n", what, (unsigned long long)got, (unsigned long long)wanted);
        failed = 1;
    }
}

static void words(void)
{
    expect("the words of no refusal", strlen(skurzelt_refusal_text(0)), 0);
    expect("the words of a 1", strcmp(skurzelt_refusal_text(SKURZELT_NO_LINE), "the piece is neither CR LF alone nor 140 bytes ending in CR LF"), 0);
    expect("the words of a 3, field 24", strcmp(skurzelt_refusal_text(SKURZELT_FIELD + 256 * 24), "a field breaks its rule; the number of the first comes with it"), 0);
    expect("the words of a 12", strcmp(skurzelt_refusal_text(SKURZELT_FULL), "A or U: the table holds 512"), 0);
    expect("the words of a 13", strcmp(skurzelt_refusal_text(SKURZELT_ROWS_FULL), "no quote row left, or a row's executed above 4,294,967,295"), 0);
    expect("the words of a 14", strlen(skurzelt_refusal_text(14)), 0);
    expect("the words of a 255", strlen(skurzelt_refusal_text(255)), 0);
}

/* The first piece of a text: its length. */
static size_t first_piece(const uint8_t *text, size_t length)
{
    uint64_t end = 0;
    expect("next_piece", skurzelt_next_piece(text, length, 0, &end), 0);
    return end;
}

static void lines(const uint8_t *line)
{
    uint8_t record[SKURZELT_RECORD], back[SKURZELT_LINE];
    uint64_t kind = 7;
    expect("read into a short record", skurzelt_read(line, SKURZELT_LINE, record, sizeof record - 1, &kind), SKURZELT_NO_ROOM);
    expect("kind after a refusal", kind, 7);
    expect("read", skurzelt_read(line, SKURZELT_LINE, record, sizeof record, &kind), 0);
    expect("kind", kind, 1);
    expect("type in the record", record[8], 'A');
    expect("contracts in the record", record[86], 100);
    expect("write into a short line", skurzelt_write(record, sizeof record, back, sizeof back - 1), SKURZELT_NO_ROOM);
    expect("write", skurzelt_write(record, sizeof record, back, sizeof back), 0);
    expect("the line back", memcmp(line, back, sizeof back), 0);
    record[85] = 'Q';
    uint32_t answer = skurzelt_write(record, sizeof record, back, sizeof back);
    expect("refusal of a bad side", skurzelt_refusal(answer), SKURZELT_FIELD);
    expect("field of a bad side", skurzelt_field(answer), 14);
    record[137] = 1;
    expect("a bad side, and a byte behind it without meaning", skurzelt_write(record, sizeof record, back, sizeof back), SKURZELT_FIELD + 256 * 14);
    record[8] = 'B';
    expect("a type without meaning, and a bad side behind it", skurzelt_write(record, sizeof record, back, sizeof back), SKURZELT_FIELD + 256 * 2);
    expect("a record of 137 bytes", skurzelt_write(record, sizeof record - 1, back, sizeof back), SKURZELT_FIELD + 256 * 24);
    expect("the line after the refusals", memcmp(line, back, sizeof back), 0);
}

static void numbers(void)
{
    uint64_t value = 7, denominator = 7, strike = 7, hours, minutes, seconds, milliseconds;
    expect("strike_value", skurzelt_strike_value('C', 205750, &value), 0);
    expect("value of C 205750", value, 20575000);
    expect("strike_form", skurzelt_strike_form(1000000, &denominator, &strike), 0);
    expect("denominator of 1,000,000", denominator, 'D');
    expect("strike of 1,000,000", strike, 100000);
    expect("strike_form of 1,000,005", skurzelt_strike_form(1000005, &denominator, &strike), SKURZELT_FIELD + 256 * 21);
    expect("clock", skurzelt_clock(34293104, &hours, &minutes, &seconds, &milliseconds), 0);
    expect("hours", hours, 9);
    expect("minutes", minutes, 31);
    expect("seconds", seconds, 33);
    expect("milliseconds", milliseconds, 104);
}

static void tables(const uint8_t *line)
{
    static uint8_t table[SKURZELT_TABLE], longer[SKURZELT_TABLE + 1];
    uint8_t order[SKURZELT_ORDER], sheet[128];
    uint64_t place = 7, written = 7;
    const char *wanted = "orders 1 families 1\n1.1 100 0 0 0 0 100 ABCD01 T1\n";
    memset(table, 0xAA, sizeof table);
    expect("check_table of any bytes", skurzelt_check_table(table, sizeof table), SKURZELT_DAMAGED);
    expect("empty_table of a byte less", skurzelt_empty_table(table, sizeof table - 1), SKURZELT_NO_ROOM);
    expect("empty_table of a byte more", skurzelt_empty_table(longer, sizeof longer), SKURZELT_DAMAGED);
    expect("empty_table", skurzelt_empty_table(table, sizeof table), 0);
    expect("check_table", skurzelt_check_table(table, sizeof table), 0);
    expect("book", skurzelt_book(table, sizeof table, line, SKURZELT_LINE), 0);
    expect("book again", skurzelt_book(table, sizeof table, line, SKURZELT_LINE), SKURZELT_KNOWN_KEY);
    expect("find_order", skurzelt_find_order(table, sizeof table, line + 30, SKURZELT_KEY, &place), 0);
    expect("place", place, 0);
    place = 7;
    expect("find_order, the key inside its own table", skurzelt_find_order(table, sizeof table, table + 8, SKURZELT_KEY, &place), 0);
    expect("its place", place, 0);
    expect("order_at", skurzelt_order_at(table, sizeof table, place, order, sizeof order), 0);
    expect("the order's key", memcmp(order, line + 30, SKURZELT_KEY), 0);
    expect("order_at the next place", skurzelt_order_at(table, sizeof table, 1, order, sizeof order), SKURZELT_UNKNOWN_KEY);
    expect("sheet", skurzelt_sheet(table, sizeof table, sheet, sizeof sheet, &written), 0);
    expect("bytes of the sheet", written, strlen(wanted));
    expect("the sheet", memcmp(sheet, wanted, strlen(wanted)), 0);
}

/* An E or a C of a quote: the line with another type, and the id of a number as its token. */
static uint32_t book_quote(uint8_t *table, const uint8_t *executed, char type, unsigned id)
{
    uint8_t line[SKURZELT_LINE];
    char token[21];
    memcpy(line, executed, sizeof line);
    line[8] = type;
    snprintf(token, sizeof token, "%016X    ", id);
    memcpy(line + 36, token, 20);
    return skurzelt_book(table, SKURZELT_TABLE, line, sizeof line);
}

/* Quote rows from the first to the 129th, which is none. */
static void quotes(const uint8_t *accepted, const uint8_t *executed)
{
    static uint8_t table[SKURZELT_TABLE], before[SKURZELT_TABLE], sheet[SKURZELT_SHEET];
    uint8_t row[SKURZELT_QUOTE_ROW + 1];
    const uint8_t figures[8] = {60, 0, 0, 0, 30, 0, 0, 0}, untouched[sizeof row] = {0};
    uint64_t written = 7;
    const char *wanted = "orders 1 families 1\n1.1 100 0 0 0 0 100 ABCD01 T1\nquote 00000000000000A1 60 30 ABCD01\nquote 00000000000000A2 30 0 ABCD01\n";
    memset(table, 0xAA, sizeof table);
    memset(row, 0, sizeof row);
    expect("empty_table for quotes", skurzelt_empty_table(table, sizeof table), 0);
    expect("a C without a row", book_quote(table, executed, 'C', 0xA1), SKURZELT_UNKNOWN_KEY);
    expect("quote_at without a row", skurzelt_quote_at(table, sizeof table, 0, row, sizeof row), SKURZELT_UNKNOWN_KEY);
    expect("the first E of a quote", book_quote(table, executed, 'E', 0xA1), 0);
    expect("an order", skurzelt_book(table, sizeof table, accepted, SKURZELT_LINE), 0);
    expect("an E of another quote", book_quote(table, executed, 'E', 0xA2), 0);
    expect("the second E of a quote", book_quote(table, executed, 'E', 0xA1), 0);
    expect("a C of a quote", book_quote(table, executed, 'C', 0xA1), 0);
    expect("check_table with quote rows", skurzelt_check_table(table, sizeof table), 0);
    expect("quote_at into 48 bytes", skurzelt_quote_at(table, sizeof table, 2, row, SKURZELT_QUOTE_ROW - 1), SKURZELT_NO_ROOM);
    expect("quote_at the next place", skurzelt_quote_at(table, sizeof table, 2, row, sizeof row), SKURZELT_UNKNOWN_KEY);
    expect("the row after the refusals", memcmp(row, untouched, sizeof row), 0);
    expect("quote_at", skurzelt_quote_at(table, sizeof table, 0, row, sizeof row), 0);
    expect("the row in its place", memcmp(row, table + 8 + 512 * SKURZELT_ORDER, SKURZELT_QUOTE_ROW), 0);
    expect("the row's key", memcmp(row, "ABCD0100000000000000A1    B", 27), 0);
    expect("the row's figures", memcmp(row + 41, figures, sizeof figures), 0);
    expect("the byte behind the row", row[SKURZELT_QUOTE_ROW], 0);
    expect("sheet with quote rows", skurzelt_sheet(table, sizeof table, sheet, strlen(wanted), &written), 0);
    expect("bytes of the sheet with quote rows", written, strlen(wanted));
    expect("the sheet with quote rows", memcmp(sheet, wanted, strlen(wanted)), 0);
    expect("sheet with a byte less", skurzelt_sheet(table, sizeof table, sheet, strlen(wanted) - 1, &written), SKURZELT_NO_ROOM);
    for (unsigned id = 1; id <= 126; id++)
        expect("a row up to the 128th", book_quote(table, executed, 'E', id), 0);
    memcpy(before, table, sizeof table);
    expect("row 129", book_quote(table, executed, 'E', 0xA3), SKURZELT_ROWS_FULL);
    expect("the table after a 13", memcmp(table, before, sizeof table), 0);
    expect("quote_at the last row", skurzelt_quote_at(table, sizeof table, 127, row, sizeof row), 0);
    expect("the last row's key", memcmp(row, "ABCD01000000000000007E    B", 27), 0);
    expect("the last row's end", memcmp(row, table + sizeof table - SKURZELT_QUOTE_ROW, SKURZELT_QUOTE_ROW), 0);
    expect("sheet of 128 rows", skurzelt_sheet(table, sizeof table, sheet, sizeof sheet, &written), 0);
    table[5] = 129;
    expect("quote_at, damaged", skurzelt_quote_at(table, sizeof table, 200, row, 1), SKURZELT_DAMAGED);
}

/* The whole of a text, then its first piece again with no room for more, then a damaged table. */
static void texts(const uint8_t *text, size_t length)
{
    static uint8_t table[SKURZELT_TABLE], alone[SKURZELT_TABLE];
    uint32_t answers[16];
    uint64_t used = 7, booked = 7, at = 0, end;
    memset(answers, 0xAA, sizeof answers);
    expect("empty_table", skurzelt_empty_table(table, sizeof table), 0);
    expect("empty_table of another", skurzelt_empty_table(alone, sizeof alone), 0);
    expect("book_all", skurzelt_book_all(table, sizeof table, text, length, answers, 16, &used, &booked), 0);
    expect("bytes used", used, length);
    expect("pieces used", booked, 8);
    for (unsigned i = 0; i < 8; i++) {
        skurzelt_next_piece(text, length, at, &end);
        expect("an answer", answers[i], skurzelt_book(alone, sizeof alone, text + at, end - at));
        at = end;
    }
    expect("the answer behind the last", answers[8], 0xAAAAAAAA);
    expect("the table", memcmp(table, alone, sizeof table), 0);
    expect("book_all with room for one answer", skurzelt_book_all(table, sizeof table, text, length, answers, 1, &used, &booked), 0);
    expect("bytes of one piece", used, SKURZELT_LINE);
    expect("one piece", booked, 1);
    expect("its answer", answers[0], SKURZELT_DAY_OVER);
    expect("book_all with no room", skurzelt_book_all(table, sizeof table, text, length, answers, 0, &used, &booked), 0);
    expect("no bytes", used, 0);
    expect("no pieces", booked, 0);
    used = booked = 7;
    table[4] = 2;
    expect("book_all, damaged", skurzelt_book_all(table, sizeof table, text, length, answers, 16, &used, &booked), SKURZELT_DAMAGED);
    expect("bytes used, damaged", used, 7);
    expect("pieces used, damaged", booked, 7);
}

/* Standard input is a capture of eight pieces whose first lines are A T1 for 100 and E T1 for 30 of ABCD01. */
int main(void)
{
    static uint8_t text[4096];
    size_t length = fread(text, 1, sizeof text, stdin);
    if (first_piece(text, length) != SKURZELT_LINE) {
        puts("door: no line to begin with");
        return 1;
    }
    words();
    lines(text);
    numbers();
    tables(text);
    quotes(text, text + SKURZELT_LINE);
    texts(text, length);
    return failed;
}
