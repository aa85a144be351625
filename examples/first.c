/* A customer takes deliveries on five days of each week. From that table to slot numbers: which slot a day has, its place in the
 * working week, and which slots make up a week. */
#include <stdio.h>

#include "jogipahn.h"

enum { ENTRIES = 5, CELLS = 64 };

/* What a heading says of its entry's row. */
enum { START, PERIOD, DISTANCE, SLOTS, HEADING };

/* Kind, first, second, x, y, z of each entry. */
static const int32_t table[6 * ENTRIES] = {
    0,  0, 0, 0, 0, 0, /* 0: days, each its own label */
    1,  0, 0, 7, 0, 0, /* 1: weeks, 7 days each */
    6,  0, 1, 1, 5, 0, /* 2: open days, the first 5 days of each week */
    12, 2, 0, 1, 0, 0, /* 3: slots, the open days numbered from 1 */
    1,  3, 0, 5, 0, 0, /* 4: working weeks, 5 slots each */
};

static int32_t pool[CELLS];
static uint32_t headings[HEADING * ENTRIES];

/* A number of an entry's heading. */
#define OF(entry, number) headings[HEADING * (entry) + (number)]

/* What a question is handed: an entry's cells, their number, its period and its distance. */
#define ROW(entry) pool + OF(entry, START), OF(entry, PERIOD), OF(entry, PERIOD), OF(entry, DISTANCE)

int main(void)
{
    int64_t answer = jogipahn_convert(table, 6 * ENTRIES, headings, HEADING * ENTRIES, pool, CELLS);
    if (answer != 0) {
        printf("refused with %d at entry %d\n", (int)(answer / 100), (int)(answer % 100));
        return 1;
    }
    printf("slots: period %d, distance %d, %d a period:", (int)OF(3, PERIOD), (int)OF(3, DISTANCE), (int)OF(3, SLOTS));
    for (uint32_t i = 0; i < OF(3, PERIOD); i++) {
        int32_t cell = pool[OF(3, START) + i];
        if (cell == INT32_MIN)
            printf(" .");
        else
            printf(" %d", (int)cell);
    }
    printf("\n");

    int64_t label, place;
    for (int64_t day = 5; day <= 8; day++) {
        if (jogipahn_up_instant(ROW(3), day, &label, &place) == 1)
            printf("day %d has slot %d", (int)day, (int)label);
        else
            printf("day %d is closed", (int)day);
        if (jogipahn_up_instant(ROW(4), day, &label, &place) == 1)
            printf(", place %d in working week %d", (int)place, (int)label);
        printf("\n");
    }
    if (jogipahn_up_granule(ROW(3), ROW(1), 6, &label) == 1)
        printf("slot 6 is in week %d\n", (int)label);

    int64_t parts[8];
    int64_t count = jogipahn_down(ROW(4), ROW(3), 2, parts, 8);
    printf("working week 2 is made up of slots");
    for (int64_t i = 0; i < count; i++)
        printf(" %d", (int)parts[i]);
    printf("\n");
    printf("week 2 is not made up of slots: refused with %d\n", (int)-jogipahn_down(ROW(1), ROW(3), 2, parts, 8));

    double openness, mean_length, mean_spacing;
    jogipahn_figures(ROW(3), OF(3, SLOTS), &openness, &mean_length, &mean_spacing);
    printf("open %.4f, a slot every %.4f days\n", openness, mean_spacing);
    return 0;
}
