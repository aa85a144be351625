/* Which month, which year and which delivery slot a date is in, and at which place there: that in the month is its day. The civil
 * table is handed out, and a customer's own entries stand behind it. */
#include <stdio.h>

#include "jogipahn.h"

/* The civil table has 66 numbers, and its rows have 332,046 cells. */
enum { CIVIL = 66, MONTHS = 9, YEARS = 10, SLOTS = 13, ENTRIES = 14, CELLS = 332046 + 3 * 7 };

/* What a heading says of its entry's row. */
enum { START, PERIOD, DISTANCE, HEADING = 4 };

/* Kind, first, second, x, y, z of each entry behind the civil table, whose entry 0 is days. Day 1, which is 1 January 2001, is a
 * Monday. */
static const int32_t own[6 * ENTRIES - CIVIL] = {
    1,  0,  0,  7, 0, 0, /* 11: weeks, Monday to Sunday */
    6,  0,  11, 1, 5, 0, /* 12: open days, Monday to Friday */
    12, 12, 0,  1, 0, 0, /* 13: delivery slots, the open days numbered from 1 */
};

static int32_t table[6 * ENTRIES];
static int32_t pool[CELLS];
static uint32_t headings[HEADING * ENTRIES];

/* A number of an entry's heading. */
#define OF(entry, number) headings[HEADING * (entry) + (number)]

/* What a question is handed: an entry's cells, their number, its period and its distance. */
#define ROW(entry) pool + OF(entry, START), OF(entry, PERIOD), OF(entry, PERIOD), OF(entry, DISTANCE)

static void tell(int year, int month, int day)
{
    int64_t t, label, place;
    printf("%d-%02d-%02d is ", year, month, day);
    int64_t answer = jogipahn_instant(year, month, day, &t);
    if (answer != 0) {
        printf("no date: refused with %d\n", (int)-answer);
        return;
    }
    printf("day %d:", (int)t);
    if (jogipahn_up_instant(ROW(MONTHS), t, &label, &place) == 1)
        printf(" place %d in month %d,", (int)place, (int)label);
    if (jogipahn_up_instant(ROW(YEARS), t, &label, &place) == 1)
        printf(" place %d in year %d,", (int)place, (int)label);
    if (jogipahn_up_instant(ROW(SLOTS), t, &label, &place) == 1)
        printf(" delivery slot %d\n", (int)label);
    else
        printf(" closed\n");
}

int main(void)
{
    jogipahn_civil_table(table, 6 * ENTRIES);
    for (int i = CIVIL; i < 6 * ENTRIES; i++)
        table[i] = own[i - CIVIL];
    int64_t answer = jogipahn_convert(table, 6 * ENTRIES, headings, HEADING * ENTRIES, pool, CELLS);
    if (answer != 0) {
        printf("refused with %d at entry %d\n", (int)(answer / 100), (int)(answer % 100));
        return 1;
    }
    printf("months: period %d, distance %d\n", (int)OF(MONTHS, PERIOD), (int)OF(MONTHS, DISTANCE));
    printf("years: period %d, distance %d\n", (int)OF(YEARS, PERIOD), (int)OF(YEARS, DISTANCE));

    tell(2028, 2, 29);
    tell(2028, 3, 4);
    tell(2000, 12, 31);
    tell(2100, 2, 29);
    int64_t year, month, day;
    jogipahn_date(10000, &year, &month, &day);
    printf("day 10000 is %d-%02d-%02d\n", (int)year, (int)month, (int)day);
    return 0;
}
