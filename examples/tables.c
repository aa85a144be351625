/* A table on its way: typed in, kept in a journal that is cut, read again, converted an entry at a time, and checked as a supplier's
 * would be. */
#include <stdio.h>
#include <string.h>

#include "jogipahn.h"

enum { ENTRIES = 3, CELLS = 64 };

static const char text[] = "0 0 0 0 0 0\n1 0 0 7 0 0\n6 0 1 1 5 0\n";

/* The same table in numbers: kind, first, second, x, y, z of each entry. */
static const int32_t table[JOGIPAHN_ENTRY_NUMBERS * ENTRIES] = {
    JOGIPAHN_BOTTOM,      0, 0, 0, 0, 0, /* 0: days */
    JOGIPAHN_GROUP,       0, 0, 7, 0, 0, /* 1: weeks */
    JOGIPAHN_SELECT_DOWN, 0, 1, 1, 5, 0, /* 2: open days, Monday to Friday */
};

static uint8_t book[2 * JOGIPAHN_RECORD_MAX], sheet[JOGIPAHN_SHEET_MAX];
static int32_t pool[CELLS];
static uint32_t headings[JOGIPAHN_HEADING_NUMBERS * ENTRIES];

/* What the lists of a conversion are handed on as. */
#define LISTS table, JOGIPAHN_ENTRY_NUMBERS * ENTRIES, headings, JOGIPAHN_HEADING_NUMBERS * ENTRIES, pool, CELLS

int main(void)
{
    /* An append that is cut in the middle leaves the table before it. */
    const uint8_t *typed = (const uint8_t *)text;
    int64_t length = jogipahn_journal_record(typed, strlen(text), book, JOGIPAHN_RECORD_MAX);
    if (length < 0)
        return 1;
    memcpy(book + length, typed, 20);
    size_t start;
    int64_t found = jogipahn_journal_last(book, (size_t)length + 20, &start);
    printf("a journal of %d bytes, the last 20 of them torn: a text of %d bytes at %d\n", (int)length + 20, (int)found,
           (int)start);

    int64_t bytes = jogipahn_sheet(book + start, (size_t)found, sheet, JOGIPAHN_SHEET_MAX);
    printf("%.*s", (int)bytes, (const char *)sheet);

    int64_t state[JOGIPAHN_WALK_NUMBERS];
    int64_t told = jogipahn_walk_start(LISTS, state, JOGIPAHN_WALK_NUMBERS);
    for (int k = 0; told == 0; k++) {
        told = jogipahn_walk_step(LISTS, state, JOGIPAHN_WALK_NUMBERS);
        printf("entry %d: period %d%s\n", k, (int)headings[JOGIPAHN_HEADING_NUMBERS * k + 1], told == 1 ? ", done" : "");
    }

    printf("the check of these rows: %d\n", (int)jogipahn_check(LISTS));
    pool[headings[JOGIPAHN_HEADING_NUMBERS * 2] + 5] = 6;
    told = jogipahn_check(LISTS);
    printf("with another label on a Friday: wrong at entry %d\n", (int)(-1 - told));
    return 0;
}
