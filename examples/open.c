/* A customer is open on Monday, Tuesday, Thursday and Friday; a delivery week is those four days. How late a delivery may be, which days
 * are open, and how many there are between two: the questions that first.c and dates.c do not put. */
#include <stdio.h>

#include "jogipahn.h"

enum { ENTRIES = 5, CELLS = 64, DAYS = 7, WORDS = (DAYS + 63) / 64 };

/* What a heading says of its entry's row. */
enum { START, PERIOD, DISTANCE, SLOTS };

/* Kind, first, second, x, y, z of each entry. Day 1 is a Monday. */
static const int32_t table[JOGIPAHN_ENTRY_NUMBERS * ENTRIES] = {
    JOGIPAHN_BOTTOM,      0, 0, 0, 0, 0, /* 0: days */
    JOGIPAHN_GROUP,       0, 0, 7, 0, 0, /* 1: weeks */
    JOGIPAHN_SELECT_DOWN, 0, 1, 3, 1, 0, /* 2: Wednesdays, the third day of each week */
    JOGIPAHN_SELECT_DOWN, 0, 1, 1, 5, 0, /* 3: Monday to Friday */
    JOGIPAHN_DIFFERENCE,  3, 2, 0, 0, 0, /* 4: open days, Wednesdays taken out */
};

static int32_t pool[CELLS];
static uint32_t headings[JOGIPAHN_HEADING_NUMBERS * ENTRIES];

/* A number of an entry's heading. */
#define OF(entry, number) headings[JOGIPAHN_HEADING_NUMBERS * (entry) + (number)]

/* What a question is handed: an entry's cells, their number, its period and its distance. */
#define ROW(entry) pool + OF(entry, START), OF(entry, PERIOD), OF(entry, PERIOD), OF(entry, DISTANCE)

/* A week's open days as one slot: the row is handed in as it stands here, and need not come from a conversion. */
static const int32_t week[DAYS] = {JOGIPAHN_EMPTY, 1, 1, JOGIPAHN_EMPTY, 1, 1, JOGIPAHN_EMPTY};

static const char *yes(int64_t answer)
{
    return answer == 1 ? "yes" : answer == 0 ? "no" : "refused";
}

int main(void)
{
    int64_t answer = jogipahn_convert(table, JOGIPAHN_ENTRY_NUMBERS * ENTRIES, headings,
                                      JOGIPAHN_HEADING_NUMBERS * ENTRIES, pool, CELLS);
    if (answer != 0) {
        printf("refused with %d at entry %d\n", (int)(answer / 100), (int)(answer % 100));
        return 1;
    }

    /* A delivery week has four open days: a share of 1/2 allows two days, a share of 1 four, though it lasts from Monday to Friday. */
    printf("half a delivery week late by 2 days: %s\n", yes(jogipahn_may_be_late(week, DAYS, DAYS, 1, 1, 2, 1, 0.5)));
    printf("a whole one late by 4 days: %s, by 5: %s\n", yes(jogipahn_may_be_late(week, DAYS, DAYS, 1, 1, 4, 1, 1.0)),
           yes(jogipahn_may_be_late(week, DAYS, DAYS, 1, 1, 5, 1, 1.0)));
    printf("late by 3 days, where 2.5 are allowed: %s\n", yes(jogipahn_may_be_late(week, DAYS, DAYS, 1, 1, 3, 0, 2.5)));
    answer = jogipahn_may_be_late(week, DAYS, DAYS, 1, 1, 1, 1, 0.0);
    printf("a share that was left blank: refused with %d\n", (int)-answer);

    uint64_t words[WORDS];
    if (jogipahn_open_map(ROW(4), words, WORDS) != 0)
        return 1;
    int64_t found, number;
    printf("open days from day 1 to day 365: %d\n", (int)jogipahn_count_open(words, WORDS, DAYS, 1, 366));
    if (jogipahn_next_open(words, WORDS, DAYS, 2, &found) == 0)
        printf("the next open day after day 2 is day %d\n", (int)found);
    if (jogipahn_last_open(words, WORDS, DAYS, 8, &found) == 0)
        printf("the last open day before day 8 is day %d\n", (int)found);
    if (jogipahn_nth_open(words, WORDS, DAYS, 5, 10, &found) == 1)
        printf("ten open days after day 5 is day %d", (int)found);
    if (jogipahn_nth_open(words, WORDS, DAYS, found, -10, &found) == 1)
        printf(", and ten before that day %d\n", (int)found);
    if (jogipahn_between(words, WORDS, DAYS, 5, 19, &number) == 0)
        printf("open days after day 5 up to day 19: %d\n", (int)number);

    int64_t tried;
    printf("the least period of the open days is %d, ", (int)jogipahn_least_period(ROW(4), &tried));
    printf("found by %d try\n", (int)tried);
    return 0;
}
