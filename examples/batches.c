/* Many questions in one call, which tests the row by rule 13 once: the delivery slots of two weeks, the working weeks that hold some
 * slots, and which working weeks may be two days late. */
#include <stdio.h>

#include "jogipahn.h"

enum { ENTRIES = 5, CELLS = 64, DAYS = 14, SLOTS = 3, WEEKS = 3 };

/* What a heading says of its entry's row. */
enum { START, PERIOD, DISTANCE };

/* Kind, first, second, x, y, z of each entry. Day 1 is a Monday. */
static const int32_t table[JOGIPAHN_ENTRY_NUMBERS * ENTRIES] = {
    JOGIPAHN_BOTTOM,      0, 0, 0, 0, 0, /* 0: days */
    JOGIPAHN_GROUP,       0, 0, 7, 0, 0, /* 1: weeks */
    JOGIPAHN_SELECT_DOWN, 0, 1, 1, 5, 0, /* 2: open days, Monday to Friday */
    JOGIPAHN_RENUMBER,    2, 0, 1, 0, 0, /* 3: slots, from the label 1 on */
    JOGIPAHN_GROUP,       3, 0, 5, 0, 0, /* 4: working weeks */
};

static int32_t pool[CELLS];
static uint32_t headings[JOGIPAHN_HEADING_NUMBERS * ENTRIES];

/* A number of an entry's heading. */
#define OF(entry, number) headings[JOGIPAHN_HEADING_NUMBERS * (entry) + (number)]

/* What a question is handed: an entry's cells, their number, its period and its distance. */
#define ROW(entry) pool + OF(entry, START), OF(entry, PERIOD), OF(entry, PERIOD), OF(entry, DISTANCE)

int main(void)
{
    if (jogipahn_convert(table, JOGIPAHN_ENTRY_NUMBERS * ENTRIES, headings, JOGIPAHN_HEADING_NUMBERS * ENTRIES, pool,
                         CELLS) != 0)
        return 1;

    int64_t days[DAYS], codes[DAYS], labels[DAYS], places[DAYS];
    for (int i = 0; i < DAYS; i++)
        days[i] = i + 1;
    if (jogipahn_up_instants(ROW(3), days, DAYS, codes, DAYS, labels, DAYS, places, DAYS) != DAYS)
        return 1;
    printf("slots of days 1 to %d:", DAYS);
    for (int i = 0; i < DAYS; i++)
        if (codes[i] == 1)
            printf(" %d", (int)labels[i]);
        else
            printf(" .");
    printf("\n");

    const int64_t slots[SLOTS] = {5, 6, 2000000000};
    if (jogipahn_up_granules(ROW(3), ROW(4), slots, SLOTS, codes, DAYS, labels, DAYS) != SLOTS)
        return 1;
    for (int i = 0; i < SLOTS; i++)
        if (codes[i] == 1)
            printf("slot %d is in working week %d\n", (int)slots[i], (int)labels[i]);
        else
            printf("slot %lld is refused with %d, and the others are answered\n", (long long)slots[i], (int)-codes[i]);

    const int64_t weeks[WEEKS] = {1, 2, 3};
    if (jogipahn_may_be_late_each(ROW(4), weeks, WEEKS, 2, 1, 0.5, codes, DAYS) != WEEKS)
        return 1;
    for (int i = 0; i < WEEKS; i++)
        printf("working week %d may be 2 days late, where half of it is allowed: %s\n", (int)weeks[i],
               codes[i] == 1 ? "yes" : "no");

    /* One list that is too short refuses the call, and nothing is answered. */
    printf("three answers in a list of two: refused with %d\n",
           (int)-jogipahn_may_be_late_each(ROW(4), weeks, WEEKS, 2, 1, 0.5, codes, 2));
    return 0;
}
