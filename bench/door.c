/* Times the functions of include/skurzelt.h, and measures the stack that they take. A figure of refusals would be no figure: every answer is checked, and a wrong
   one ends the run. Each line of output has a name, two spaces or more, a number and its unit.

   door time DAY SHEET    DAY is a capture of which every line is accepted, SHEET its sheet
   door stack */

#define _XOPEN_SOURCE 700

#include <stdio.h>
#include <stdlib.h>
#include <string.h>
#include <time.h>
#include <ucontext.h>

#include "skurzelt.h"

enum {
    MOST = 512,              /* orders of a full table */
    HALF = 256,
    ROWS = 128,              /* quote rows of a full table */
    PIECES = 4096,           /* pieces of one call of book_all */
    ROUNDS = 3,              /* the best of so many counts */
    BATCH = 4096,            /* lines between two looks at the clock */
    LEAST_TIME = 200000000,  /* nanoseconds of a round, at least */
    STACK = 1 << 18,
    PAINT = 0xA5             /* what fills a stack before it is used */
};

static void must(int holds, const char *what)
{
    if (!holds) {
        fprintf(stderr, "bench: %s\n", what);
        exit(EXIT_FAILURE);
    }
}

/* ---- lines and tables */

/* The line of order T(number): an A, a U for the order before, or an E of one contract. Another type leaves the ids and Liquidity blank. A Q is an E of one
   contract of the quote whose SQF id is the number. */
static void write_line(uint8_t *line, char type, unsigned number)
{
    char text[SKURZELT_LINE + 1], token[24], elder[24] = "";
    int of_quote = type == 'Q', trades = of_quote || type == 'E';
    snprintf(token, sizeof token, of_quote ? "%016X" : "T%u", number);
    if (type == 'U')
        snprintf(elder, sizeof elder, "T%u", number - 1);
    int length = snprintf(text, sizeof text, "%8u%c175CFO%cBSI 0000900003ABCD01%-20s%-20s000836AFFB%6uMSFT  G2709C205750  12875000%9s%9s\r\n", 34293104 + number,
                          of_quote ? 'E' : type, trades ? 'A' : ' ', token, elder, trades ? 1 : 999999, trades ? "122853" : "", trades ? "122001" : "");
    must(length == SKURZELT_LINE, "a line is not 140 bytes long");
    memcpy(line, text, SKURZELT_LINE);
}

/* The tables that a call begins with, and the one that it books into. */
static uint8_t empty[SKURZELT_TABLE], half[SKURZELT_TABLE], families[SKURZELT_TABLE], family[SKURZELT_TABLE], quotes[SKURZELT_TABLE], table[SKURZELT_TABLE];
static uint8_t accepted[SKURZELT_LINE], executed[PIECES][SKURZELT_LINE], quoted[PIECES][SKURZELT_LINE];
static uint8_t sheet[SKURZELT_SHEET];

static void check_sheet(const uint8_t *of, const char *heading)
{
    uint64_t written = 0;
    must(skurzelt_sheet(of, SKURZELT_TABLE, sheet, sizeof sheet, &written) == 0, "a sheet was refused");
    must(written >= strlen(heading) && memcmp(sheet, heading, strlen(heading)) == 0, "a table does not hold the orders it should");
}

/* So many orders from T1 on; from the second on each is of a type. */
static void fill(uint8_t *into, unsigned orders, char type, const char *heading)
{
    uint8_t line[SKURZELT_LINE];
    must(skurzelt_empty_table(into, SKURZELT_TABLE) == 0, "no empty table");
    for (unsigned number = 1; number <= orders; number++) {
        write_line(line, number == 1 ? 'A' : type, number);
        must(skurzelt_book(into, SKURZELT_TABLE, line, sizeof line) == 0, "a new order was refused");
    }
    check_sheet(into, heading);
}

static void prepare(void)
{
    fill(empty, 0, 'A', "orders 0 families 0\n");
    fill(half, HALF, 'A', "orders 256 families 256\n");
    fill(families, MOST, 'A', "orders 512 families 512\n");
    fill(family, MOST, 'U', "orders 512 families 1\n");
    write_line(accepted, 'A', 1);
    for (unsigned i = 0; i < PIECES; i++) {
        write_line(executed[i], 'E', i % MOST + 1);
        write_line(quoted[i], 'Q', i % ROWS + 1);
    }
    memcpy(quotes, families, sizeof quotes);
    for (unsigned i = 0; i < ROWS; i++)
        must(skurzelt_book(quotes, sizeof quotes, quoted[i], SKURZELT_LINE) == 0, "a quote row was refused");
    check_sheet(quotes, "orders 512 families 512\n");
}

/* ---- what is measured: each is given the number of calls before it in its round */

typedef void call(uint64_t before);

static void make_empty(uint64_t before)
{
    (void)before;
    must(skurzelt_empty_table(table, sizeof table) == 0, "empty_table refused");
}

static void book(const uint8_t *line) { must(skurzelt_book(table, sizeof table, line, SKURZELT_LINE) == 0, "book refused"); }

static void book_first(uint64_t before)
{
    make_empty(before);
    book(accepted);
}

static void book_of_half(uint64_t before) { book(executed[before % HALF]); }

static void book_of_most(uint64_t before) { book(executed[before % MOST]); }

static void book_of_quotes(uint64_t before) { book(quoted[before % ROWS]); }

static void check(uint64_t before)
{
    (void)before;
    must(skurzelt_check_table(table, sizeof table) == 0, "check_table refused");
}

static void find(uint64_t before)
{
    uint64_t place = MOST;
    must(skurzelt_find_order(table, sizeof table, executed[before % MOST] + 30, SKURZELT_KEY, &place) == 0, "find_order refused");
    must(place == before % MOST, "find_order found another order");
}

static void write_sheet(uint64_t before)
{
    uint64_t written = 0;
    (void)before;
    must(skurzelt_sheet(table, sizeof table, sheet, sizeof sheet, &written) == 0, "sheet refused");
    must(written > MOST && memcmp(sheet, "orders 512 ", 11) == 0, "a sheet is not of 512 orders");
}

/* Books the pieces from a place on, at most 4,096 of them, and gives the place behind them. */
static size_t book_pieces(const uint8_t *text, size_t length, size_t at, uint64_t *pieces)
{
    static uint32_t answers[PIECES];
    uint64_t used = 0, booked = 0;
    uint32_t refused = 0;
    must(skurzelt_book_all(table, sizeof table, text + at, length - at, answers, PIECES, &used, &booked) == 0, "book_all refused");
    must(used > 0 && (booked == PIECES || at + used == length), "book_all stopped before its end");
    for (uint64_t i = 0; i < booked; i++)
        refused |= answers[i];
    must(refused == 0, "book_all refused a piece");
    *pieces += booked;
    return at + used;
}

static void book_all_of(const uint8_t *text)
{
    uint64_t pieces = 0;
    must(book_pieces(text, sizeof executed, 0, &pieces) == sizeof executed && pieces == PIECES, "book_all left pieces out");
}

static void book_all(uint64_t before)
{
    (void)before;
    book_all_of(executed[0]);
}

static void book_all_quotes(uint64_t before)
{
    (void)before;
    book_all_of(quoted[0]);
}

/* The calls by name, each with the table that a round begins with and the lines that one call is about. An E takes one contract of each order in turn, or of each
   quote row, so that a round runs out of none. */
static const struct measure {
    const char *name;
    const uint8_t *begin;
    call *call;
    unsigned lines;
} MEASURES[] = {
    {"empty_table", empty, make_empty, 1},
    {"book, 0 orders: empty_table, then an A", empty, book_first, 1},
    {"book, 256 orders: an E", half, book_of_half, 1},
    {"book, 512 orders: an E", families, book_of_most, 1},
    {"book_all, 512 orders: 4,096 E's, each", families, book_all, PIECES},
    {"book, 512 orders, 128 rows: a quote's E", quotes, book_of_quotes, 1},
    {"book_all, 128 rows: 4,096 quotes' E's, each", quotes, book_all_quotes, PIECES},
    {"check_table, one family of 512 orders", family, check, 1},
    {"check_table, 512 families", families, check, 1},
    {"check_table, 512 families, 128 quote rows", quotes, check, 1},
    {"find_order, 512 orders: each in turn", families, find, 1},
    {"sheet, one family of 512 orders", family, write_sheet, 1},
    {"sheet, 512 families", families, write_sheet, 1},
    {"sheet, 512 families, 128 quote rows", quotes, write_sheet, 1},
};
enum { COUNT = sizeof MEASURES / sizeof MEASURES[0] };

/* ---- time: the processor's, so that other work on the machine counts little */

static double now(void)
{
    struct timespec spent;
    clock_gettime(CLOCK_PROCESS_CPUTIME_ID, &spent);
    return spent.tv_sec * 1e9 + spent.tv_nsec;
}

/* The nanoseconds that a line takes, or a call that is about one. */
static double round_of(const struct measure *of)
{
    uint64_t calls = 0;
    double start = now(), spent;
    do {
        for (unsigned lines = 0; lines < BATCH; lines += of->lines)
            of->call(calls++);
        spent = now() - start;
    } while (spent < LEAST_TIME);
    return spent / calls / of->lines;
}

static void print_ns(const char *name, double ns) { printf("%-44s  %8.1f ns\n", name, ns); }

static double lower(double best, double other) { return best == 0 || other < best ? other : best; }

static void print_time(const struct measure *of)
{
    double best = 0;
    for (int round = 0; round < ROUNDS; round++) {
        memcpy(table, of->begin, sizeof table);
        best = lower(best, round_of(of));
    }
    print_ns(of->name, best);
}

static uint8_t *contents(const char *name, size_t *length)
{
    FILE *file = fopen(name, "rb");
    must(file != NULL && fseek(file, 0, SEEK_END) == 0, "a file cannot be read");
    *length = ftell(file);
    rewind(file);
    uint8_t *text = malloc(*length + 1);
    must(text != NULL && fread(text, 1, *length, file) == *length, "a file cannot be read");
    fclose(file);
    return text;
}

/* All of a day, from the empty table on: the nanoseconds a line. */
static double round_of_day(const uint8_t *day, size_t length)
{
    uint64_t pieces = 0;
    make_empty(0);
    double start = now();
    for (size_t at = 0; at < length;)
        at = book_pieces(day, length, at, &pieces);
    return (now() - start) / pieces;
}

static void print_day(const char *day_name, const char *sheet_name)
{
    size_t length, wanted_length;
    uint8_t *day = contents(day_name, &length), *wanted = contents(sheet_name, &wanted_length);
    uint64_t written = 0;
    double best = 0;
    for (int round = 0; round < ROUNDS; round++)
        best = lower(best, round_of_day(day, length));
    must(skurzelt_sheet(table, sizeof table, sheet, sizeof sheet, &written) == 0, "sheet refused");
    must(written == wanted_length && memcmp(sheet, wanted, written) == 0, "the sheet of the day differs");
    print_ns("book_all, the day: 4,096 pieces a call, each", best);
    free(day);
    free(wanted);
}

/* ---- stack: a call runs on one that is painted, and where the paint is gone it was */

static uint8_t stack[STACK];
static ucontext_t outside, inside;
static call *measured;

static void enter(void) { measured(0); }

static void run_on_stack(call *call)
{
    memset(stack, PAINT, sizeof stack);
    must(getcontext(&inside) == 0, "no context");
    inside.uc_stack.ss_sp = stack;
    inside.uc_stack.ss_size = sizeof stack;
    inside.uc_link = &outside;
    measured = call;
    makecontext(&inside, enter, 0);
    must(swapcontext(&outside, &inside) == 0, "no context");
}

static void print_stack(const struct measure *of)
{
    size_t left = 0;
    memcpy(table, of->begin, sizeof table);
    run_on_stack(of->call);
    while (left < sizeof stack && stack[left] == PAINT)
        left++;
    must(left > 0, "a call took all of its stack");
    printf("%-44s  %8zu bytes\n", of->name, sizeof stack - left);
}

int main(int count, char **words)
{
    int times = count == 4 && strcmp(words[1], "time") == 0;
    must(times || (count == 2 && strcmp(words[1], "stack") == 0), "usage: door time DAY SHEET | door stack");
    prepare();
    for (int i = 0; i < COUNT; i++)
        (times ? print_time : print_stack)(&MEASURES[i]);
    if (times)
        print_day(words[2], words[3]);
    return EXIT_SUCCESS;
}
