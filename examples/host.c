/* A small host: books the pieces of a capture from standard input and prints its sheet, as the sheet program does. Called as `host words` it says beside
   each refused line why it was refused. */

#include <inttypes.h>
#include <stdio.h>
#include <stdlib.h>
#include <string.h>

#include "skurzelt.h"

#define ANSWERS 4096

static int failed(const char *what)
{
    fprintf(stderr, "host: %s\n", what);
    return EXIT_FAILURE;
}

/* All of standard input, up to its end or a failed read: ferror(stdin) tells which. NULL if there is no memory for it. */
static uint8_t *read_all(size_t *length)
{
    size_t room = 1 << 16;
    uint8_t *text = malloc(room);
    *length = 0;
    while (text != NULL) {
        size_t got = fread(text + *length, 1, room - *length, stdin);
        if (got == 0)
            return text;
        *length += got;
        if (*length == room) {
            uint8_t *more = realloc(text, room *= 2);
            if (more == NULL)
                free(text);
            text = more;
        }
    }
    return NULL;
}

static void report(uint64_t line, uint32_t answer, int in_words)
{
    printf("line %" PRIu64 " refused %u", line, skurzelt_refusal(answer));
    if (skurzelt_field(answer) != 0)
        printf(" field %u", skurzelt_field(answer));
    if (in_words)
        printf(": %s", skurzelt_refusal_text(answer));
    putchar('\n');
}

int main(int argc, char **argv)
{
    int in_words = argc > 1 && strcmp(argv[1], "words") == 0;
    static uint8_t table[SKURZELT_TABLE];
    static uint8_t sheet[SKURZELT_SHEET];
    static uint32_t answers[ANSWERS];
    size_t length;
    uint8_t *text = read_all(&length);
    if (text == NULL)
        return failed("no memory for the input");
    /* What could not be read must not pass for the end of the capture. */
    if (ferror(stdin))
        return failed("the input could not be read");
    uint32_t answer = skurzelt_empty_table(table, sizeof table);
    if (answer != 0)
        return failed(skurzelt_refusal_text(answer));

    /* As many pieces a call as there is room for answers. */
    uint64_t line = 0, used, booked;
    for (size_t at = 0; at < length; at += used) {
        answer = skurzelt_book_all(table, sizeof table, text + at, length - at, answers, ANSWERS, &used, &booked);
        if (answer != 0)
            return failed(skurzelt_refusal_text(answer));
        for (uint64_t i = 0; i < booked; i++) {
            line++;
            if (answers[i] != 0)
                report(line, answers[i], in_words);
        }
    }

    uint64_t written;
    answer = skurzelt_sheet(table, sizeof table, sheet, sizeof sheet, &written);
    if (answer != 0)
        return failed(skurzelt_refusal_text(answer));
    fwrite(sheet, 1, written, stdout);
    free(text);
    /* What could not be written must not pass for a sheet. */
    if (fflush(stdout) != 0 || ferror(stdout))
        return failed("the output could not be written");
    return EXIT_SUCCESS;
}
