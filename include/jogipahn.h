/* Jogipahn: calendars as rows that repeat. A table of operations is converted to rows; rows that somebody else made are
 * checked; questions are put to a row or to its open map; dates are changed to instants and back; tables are kept in a
 * journal.
 *
 * ROWS. An instant is a whole number: a day, say. A row is the labels of the instants 0 to period - 1, and INT32_MIN
 * for an instant that has none. The instant t has the label in cell (t mod period) plus distance * floor(t / period).
 * The instants with one label are a slot. A question is handed a row as its cells, with their number, its period and
 * its distance; it need not be one that jogipahn_convert left, and need not be least.
 *
 * ANSWERS AND REFUSALS. Any numbers may be passed: each function answers, or refuses by one of the numbers 1 to 20
 * below, and says what every lent list holds then. There is one convention:
 *   - what takes a table (jogipahn_convert, jogipahn_walk_start, jogipahn_walk_step, jogipahn_check) refuses with 100
 *     times the number plus the entry, above zero; jogipahn_check answers -1 - entry where an entry is wrong;
 *   - all else refuses with minus the number, and answers with what is not below zero. What is lent for results is all
 *     zero then. Of several refusals the answer is the first of 13 (each row in the order of the arguments), 14, 18,
 *     15, 16, 17; 20 comes before 14;
 *   - text is refused with 19 and its line: jogipahn_sheet prints that, as it prints any refusal, and
 *     jogipahn_journal_record answers -(1900 + line). Where the list that is lent for a table, a sheet or a record is
 *     too short, the answer is -1.
 *
 * COSTS. Nothing is allocated and nothing is kept between calls; every function may be called from several threads at
 * once, on lists of their own. Time is linear:
 *   - a conversion takes some nanoseconds for each cell of an entry's operands and working row, whatever its kind, and
 *     for the search of its least period passes over the row, most of which end at once; clearing the pool is one pass;
 *   - a step of a walk: a pass over headings and pool, the test of each row that stands there, and its own entry;
 *   - a check: a pass over each claimed row beside its operands, some 40 nanoseconds a cell at the most;
 *   - a question passes over its rows once, to test them by 13, and then over the slots that it speaks of; a batch
 *     passes over the rows once for all its questions;
 *   - a question to an open map passes over its words, 64 cells at a time, a few times at the most;
 *   - a sheet: the text, the conversion in 4,096 cells, and what it prints; a journal is looked through from its end.
 *
 * POINTERS. What is asked of the caller is what C cannot check: a pointer points to as many numbers as its length says
 * (to one, where it has none), is aligned and is not null, even where the length is 0; the whole of a list is at most
 * 2^63 - 1 bytes; and what a function writes to overlaps nothing else that is passed to it.
 *
 * The functions are in the archive libjogipahn.a, which needs nothing but the C library; `sh scripts/build archive` writes
 * it to target/staticlib, and `make install` puts it, this header and a pkg-config file where they are wanted. */
#ifndef JOGIPAHN_H
#define JOGIPAHN_H

#include <stddef.h>
#include <stdint.h>

/* This header's version, by semantic versioning. */
#define JOGIPAHN_VERSION "2.0.0"
#define JOGIPAHN_VERSION_MAJOR 2
#define JOGIPAHN_VERSION_MINOR 0
#define JOGIPAHN_VERSION_PATCH 0

/* The cell of an instant that has no label. */
#define JOGIPAHN_EMPTY INT32_MIN

/* Limits. */
#define JOGIPAHN_ENTRY_NUMBERS 6             /* numbers of an entry: kind, first, second, x, y, z */
#define JOGIPAHN_ENTRIES_MAX 64              /* entries of a table */
#define JOGIPAHN_HEADING_NUMBERS 4           /* numbers of a heading: start, period, distance, slots per period */
#define JOGIPAHN_CELLS_MAX 4194304           /* cells of a pool, and the longest period */
#define JOGIPAHN_LABEL_MAX 1000000000        /* labels and instants that are handed in lie from minus this to this */
#define JOGIPAHN_LATE_MAX 1048576            /* the greatest lateness that may be asked for */
#define JOGIPAHN_STEPS_MAX 1000000           /* the most steps, either way */
#define JOGIPAHN_TEXT_MAX 4096               /* bytes of a table that is typed in */
#define JOGIPAHN_SHEET_MAX 49792             /* bytes that are enough for any sheet */
#define JOGIPAHN_RECORD_MAX 4102             /* bytes that are enough for any record of a journal */
#define JOGIPAHN_WALK_NUMBERS 8              /* numbers of a walk's state */
#define JOGIPAHN_CIVIL_NUMBERS 66            /* numbers of the civil table */
#define JOGIPAHN_CIVIL_CELLS 332046          /* cells that its rows take */

/* The kinds. An entry's first and second name earlier entries, a and b; numbers that its kind does not name are 0.
 *
 *     kind                 operands    numbers, and what the result is
 *     bottom               none        each instant is its own label
 *     group                a full      x 1 to 1,000,000: label j becomes ceil(j / x)
 *     shift                a           x within +-1,000,000,000: label j becomes j + x
 *     alter                a, b full   x 1 to 1,000,000, y 1 to x, z within +-1,000,000: of each x slots of b the y-th
 *                                      gets z slots of a more, or fewer
 *     combine              a, b        slot i is the union of b's slots inside a's slot i
 *     anchor               a full, b   an instant labelled j in a gets b's greatest label not above j
 *     select-down          a, b        x within +-1,000,000 and not 0, y 1 to 1,000,000: of a's slots inside each slot
 *                                      of b, y from the x-th on, counted from the end where x is below 0
 *     select-up            a, b        those slots of a that hold a whole slot of b
 *     select-by-meeting    a, b        x, y as select-down, of a's slots that share an instant with each slot of b
 *     union, intersection, difference: a, b, by labels
 *     renumber             a           x within +-1,000,000,000: the least label from x on becomes 1, its neighbours
 *                                      follow one by one both ways */
#define JOGIPAHN_BOTTOM 0
#define JOGIPAHN_GROUP 1
#define JOGIPAHN_SHIFT 2
#define JOGIPAHN_ALTER 3
#define JOGIPAHN_COMBINE 4
#define JOGIPAHN_ANCHOR 5
#define JOGIPAHN_SELECT_DOWN 6
#define JOGIPAHN_SELECT_UP 7
#define JOGIPAHN_SELECT_BY_MEETING 8
#define JOGIPAHN_UNION 9
#define JOGIPAHN_INTERSECTION 10
#define JOGIPAHN_DIFFERENCE 11
#define JOGIPAHN_RENUMBER 12

/* The refusals, by number. In full:
 *     13   a row is not sound: its length is not the period, not 1 <= distance <= period <= 4,194,304, a label is
 *          outside the limits, no instant has a label, or labels fall, from one turn to the next too; or the slots per
 *          period that are handed in with it are not its own; or an open map is none, or the list lent for one has the
 *          wrong length
 *     14   a label or an instant outside -1,000,000,000 to 1,000,000,000, a lateness outside 0 to 1,048,576, or a
 *          number of steps outside -1,000,000 to 1,000,000; or a stretch of instants ends before it begins
 *     18   a rule that is neither 0 nor 1, a fixed allowance that is negative, infinite or no number, or a share that
 *          is not 1/256 to 1 in steps of 1/256 */
#define JOGIPAHN_TABLE_LENGTH 1              /* the table's length is not 6 times 1 to 64 */
#define JOGIPAHN_TOO_FEW_HEADINGS 2          /* fewer headings than entries */
#define JOGIPAHN_POOL_TOO_LONG 3             /* a pool above 4,194,304 cells */
#define JOGIPAHN_UNKNOWN_KIND 4              /* a kind that is not 0 to 12 */
#define JOGIPAHN_OPERAND_NOT_EARLIER 5       /* an operand that is no earlier entry */
#define JOGIPAHN_NUMBER_OUTSIDE_LIMITS 6     /* x, y or z outside its limits, or an unnamed number that is not 0 */
#define JOGIPAHN_OPERAND_NOT_FULL 7          /* an operand that must be full is not */
#define JOGIPAHN_TOO_LONG 8                  /* span or working period above the room */
#define JOGIPAHN_NOT_ALIGNED 9               /* operands that are not aligned */
#define JOGIPAHN_SLOT_EMPTIED 10             /* alter would leave a slot with fewer than one fine slot */
#define JOGIPAHN_LABEL_OUTSIDE_LIMITS 11     /* a label of the working row outside the limits */
#define JOGIPAHN_NOTHING_LABELLED 12         /* no instant has a label */
#define JOGIPAHN_ROW_NOT_SOUND 13            /* a row or an open map that is handed in is none */
#define JOGIPAHN_ARGUMENT_OUTSIDE_LIMITS 14  /* an instant, a label, a lateness or steps outside the limits */
#define JOGIPAHN_NOT_A_LABEL 15              /* z is not a label of its row */
#define JOGIPAHN_PARTS_INCOMPLETE 16         /* the slots do not make up the whole slot */
#define JOGIPAHN_LIST_TOO_SHORT 17           /* more parts, or answers of a batch, than the list holds */
#define JOGIPAHN_ALLOWANCE_NOT_ALLOWED 18    /* an allowance that is not allowed */
#define JOGIPAHN_TEXT_NOT_ALLOWED 19         /* text that breaks the rules */
#define JOGIPAHN_NO_SUCH_DATE 20             /* a date that does not exist */

#ifdef __cplusplus
extern "C" {
#endif

/* Converts a table of six numbers an entry: kind, first, second, x, y, z. 0, or 100 times the number of a refusal
 * plus its entry (0 for 1 to 3). Answered, the pool holds the least row of each entry, one behind the other, and
 * INT32_MIN behind the last; headings holds four numbers of each entry, and 0 behind the last: start, period,
 * distance and the slots per period of that row. One to three numbers left over are no heading and end as 0. After a
 * refusal all of the pool is INT32_MIN and all of headings 0. Refusals: 1 the table's length is not 6 times 1 to 64;
 * 2 fewer than four heading numbers for each entry; 3 a pool above 4,194,304 cells; then entry by entry 4 an unknown
 * kind; 5 an operand that is no earlier entry; 6 a number outside its limits; 7 an operand that must be full is not;
 * 8 span or working period above the room; 9 operands not aligned; 10 a slot emptied by alter; 12 no label; 11 a
 * label outside -1,000,000,000 to 1,000,000,000. */
int64_t jogipahn_convert(const int32_t *table, size_t table_len, uint32_t *headings, size_t headings_len,
                         int32_t *pool, size_t pool_len);

/* The conversion in steps: jogipahn_walk_start makes the checks 1 to 3, and each call of jogipahn_walk_step takes one
 * entry. `state` is a list of 8 numbers, which only these two write and whose content is their own; the caller lends
 * it, and the other three lists, again at each call. Both answer 0 where there is more to do (the start: begun), 1
 * where the walk is done, and 100 times a refusal's number plus its entry. */

/* Begins a walk. All of the pool is INT32_MIN then and all of headings 0, after a refusal too. Refusals: 1, 2, 3,
 * with entry 0. */
int64_t jogipahn_walk_start(const int32_t *table, size_t table_len, uint32_t *headings, size_t headings_len,
                            int32_t *pool, size_t pool_len, int64_t *state, size_t state_len);

/* One call. After k calls without a refusal the lists are those of jogipahn_convert for the first k entries and this
 * pool; a table of n entries is done after n calls. What counts is each entry as it stands at its own call, and the
 * rows as they stand then: first it is tested that all three lists have the lengths they had at the start and that
 * the rows of the entries before lie one behind the other, each sound, in its least form and with its own heading,
 * all behind them being empty; if not, it is 13. A refusal is at the entry due; all of the pool is INT32_MIN and all
 * of headings 0 then. After the end and after a refusal a call changes nothing and answers the same. Refusals: 13,
 * then 4 to 12 as in jogipahn_convert.
 * Where a state has another length than 8, or its first two numbers say nothing that these functions write, both
 * answer 1300 and nothing is touched (the start asks only for the length). Any other state is taken for what its
 * numbers say, by the same test: it gives 13 where lists and state do not go together.
 * A call costs a pass over headings and pool, the test of each stored row, and its own entry. */
int64_t jogipahn_walk_step(const int32_t *table, size_t table_len, uint32_t *headings, size_t headings_len,
                           int32_t *pool, size_t pool_len, int64_t *state, size_t state_len);

/* Checks finished headings, four numbers an entry, and rows that somebody else made for the table: 0 exactly if
 * jogipahn_convert answers the table and would leave just these numbers and cells in lists of these lengths, all
 * behind the last heading and the last row included. Else it stops at the first entry that jogipahn_convert refuses
 * or whose heading or row is not right: 100 times a refusal's number plus its entry (0 for 1 to 3, which come first),
 * or, where the entry is not refused, -1 - entry. Where only what is behind is not right, it is -1 - the number of
 * entries. Nothing is written. Refusals are those of jogipahn_convert, in its order. */
int64_t jogipahn_check(const int32_t *table, size_t table_len, const uint32_t *headings, size_t headings_len,
                       const int32_t *pool, size_t pool_len);

/* The sheet of a table that is typed in, all that `slots rows` prints for that text on its standard output: how many
 * bytes of it stand in out; the rest of out is 0. -1, and all of out 0, where out is too short; 49,792 bytes are
 * enough for any text. The text has a line for each entry, six decimal numbers with a single space between, each line
 * ended by a line feed; no plus sign, no leading zeros, no "-0". The sheet has a line for each entry: period,
 * distance, then the cells, "." for none, a single space between. A refusal is a sheet of one line, its number and
 * entry: "refused 8 at 1". 19 is text that breaks the rules, is above 4,096 bytes or has a number outside 32 bits,
 * with the first bad line from 0 (0 for the length, which is judged first); then come those of jogipahn_convert, with
 * a pool of 4,096 cells and headings enough. Any bytes may be passed. */
int64_t jogipahn_sheet(const uint8_t *text, size_t text_len, uint8_t *out, size_t out_len);

/* A journal keeps tables in a file, one appended after another. A record is a table's text, all of its bytes below
 * 128, and a trailer of six bytes that points back: 255, the text's length in four bytes of seven bits each, lowest
 * first, and 254. An append puts a record behind all that stands in the file. If it is cut after any of its bytes,
 * the former table is the last one, or the new one if none of them is missing; a torn end stays where it is, and the
 * next append goes behind it. The program `slots` keeps such a file. */

/* The last table of a journal, in the bytes of its file: the length of its text, which starts at book[*start]; 0, and
 * 0 in *start, for a journal with no table. It is what stands before the last complete trailer (its four length bytes
 * below 128) whose length is 1 to 4,096 and no more than the bytes before it. Any bytes may be passed; whoever else
 * wrote to the file, the text lies within it. */
int64_t jogipahn_journal_last(const uint8_t *book, size_t book_len, size_t *start);

/* What appending a text writes, in out: how many bytes, 4,102 at the most; the rest of out is 0. All of out is 0
 * otherwise: -1 where it is too short; -(1900 + line) for a text that is refused with 19, with the first bad line as
 * jogipahn_sheet has it, and 0 for a text of no bytes or above 4,096. Whether the table can be converted is not
 * asked. To survive a cut it is to be written by one call, behind the file's end. */
int64_t jogipahn_journal_record(const uint8_t *text, size_t text_len, uint8_t *out, size_t out_len);

/* The civil calendar as a table over days: 66 with the table's 66 numbers in the list and 0 behind them; -1, and all
 * of the list 0, where the list is shorter. Instant 1 is 1 January 2001. Entry 9 is months, of which 1 is January
 * 2001: period 146,097, distance 4,800. Entry 10 is years, of which 1 is 2001: period 146,097, distance 400. Both are
 * the Gregorian calendar, run backward without end. Rows of all eleven entries take a pool of 332,046 cells. Other
 * entries may be written behind the table. */
int64_t jogipahn_civil_table(int32_t *table, size_t table_len);

/* The date of the instant t: 0 with year, month (1 to 12) and day (from 1). The year is the civil number, 2001 for
 * year slot 1; a year 0 stands before year 1. All three are 0 after a refusal. Refusals: 14. */
int64_t jogipahn_date(int64_t t, int64_t *year, int64_t *month, int64_t *day);

/* The instant of a date: 0 with the instant in *t, and 0 there after a refusal. Refusals: 20 for a date that does not
 * exist, wherever it would be; then 14 for one whose instant is outside -1,000,000,000 to 1,000,000,000. */
int64_t jogipahn_instant(int64_t year, int64_t month, int64_t day, int64_t *t);

/* The label of the instant t, and its place among the slot's own instants, from 1: closed instants inside the slot
 * don't count. 1 with both in *label and *place; 0 if the instant has none. Both are 0 after 0 and after a refusal.
 * The place of a date's instant in its month is its day. Refusals: 13, 14. */
int64_t jogipahn_up_instant(const int32_t *cells, size_t cells_len, int64_t period, int64_t distance, int64_t t,
                            int64_t *label, int64_t *place);

/* The label of the slot of h that contains the whole slot z of g. 1 with the label in *label; 0 if there is none.
 * *label is 0 after 0 and after a refusal. Refusals: 13 for g and for h, 14, 15. */
int64_t jogipahn_up_granule(const int32_t *g_cells, size_t g_len, int64_t g_period, int64_t g_distance,
                            const int32_t *h_cells, size_t h_len, int64_t h_period, int64_t h_distance,
                            int64_t z, int64_t *label);

/* The labels of g's slots that make up the slot z of h, rising, in parts[0], parts[1], ..: how many there are. The
 * rest of the list is 0, and all of it after a refusal. Refusals: 13 for h and for g, 14, 15, 16, 17. */
int64_t jogipahn_down(const int32_t *h_cells, size_t h_len, int64_t h_period, int64_t h_distance,
                      const int32_t *g_cells, size_t g_len, int64_t g_period, int64_t g_distance, int64_t z,
                      int64_t *parts, size_t parts_len);

/* The part of the instants that is labelled, the mean length of a slot and the mean spacing: 0 with the three
 * figures. They are 0.0 after a refusal. `granules` is the row's slots per period, as a heading's fourth number has
 * it for the row there: counted over the period that is handed in, not over the least one. Refusals: 13, also for a
 * wrong `granules`, a negative one too. */
int64_t jogipahn_figures(const int32_t *cells, size_t cells_len, int64_t period, int64_t distance, int64_t granules,
                         double *openness, double *mean_length, double *mean_spacing);

/* The least period of the calendar that the row means: above 0, with the number of divisors that were tried for it in
 * *tried. These are the divisors of the greatest common divisor of period, distance and slots per period, from the
 * greatest down to the first that gives a period; 1 counts as a try. *tried is 0 after a refusal. Refusals: 13. */
int64_t jogipahn_least_period(const int32_t *cells, size_t cells_len, int64_t period, int64_t distance, int64_t *tried);

/* Whether a delivery may be d instants late on the slot z: 1 for yes, 0 for no. By rule 0 it may be late by `amount`
 * instants, which is finite and not below zero; by rule 1 by a share of the slot's length, a multiple of 1/256 above
 * 0 and up to 1. The length is the number of the slot's own instants, which is the place of its last: closed days
 * inside it don't count. A share of 0 and any other rule are refused with 18; a fixed 0 is not. Refusals: 13, 14, 18,
 * 15. */
int64_t jogipahn_may_be_late(const int32_t *cells, size_t cells_len, int64_t period, int64_t distance,
                             int64_t z, int64_t d, int64_t rule, double amount);

/* Questions in batches: many instants or slots asked of one row in a call, which passes over the row once for rule
 * 13. A call answers the number of questions. codes[i] is the answer to question i as the single question gives it, a
 * refusal below zero included (13 for each where the row is not sound), and what that leaves behind its pointers is
 * at i in the other lists. Behind the answers each list is 0. A list that is shorter than the list of questions is
 * refused with 17, and all lists are 0 then. No two lists may overlap. */

/* jogipahn_up_instant for each of the instants. */
int64_t jogipahn_up_instants(const int32_t *cells, size_t cells_len, int64_t period, int64_t distance,
                             const int64_t *instants, size_t instants_len,
                             int64_t *codes, size_t codes_len, int64_t *labels, size_t labels_len,
                             int64_t *places, size_t places_len);

/* jogipahn_up_granule for each of the slots of g. */
int64_t jogipahn_up_granules(const int32_t *g_cells, size_t g_len, int64_t g_period, int64_t g_distance,
                             const int32_t *h_cells, size_t h_len, int64_t h_period, int64_t h_distance,
                             const int64_t *slots, size_t slots_len, int64_t *codes, size_t codes_len,
                             int64_t *labels, size_t labels_len);

/* jogipahn_may_be_late for each of the slots, with one lateness and one allowance for all. */
int64_t jogipahn_may_be_late_each(const int32_t *cells, size_t cells_len, int64_t period, int64_t distance,
                                  const int64_t *slots, size_t slots_len,
                                  int64_t d, int64_t rule, double amount, int64_t *codes, size_t codes_len);

/* The open map of a row: 0 with a bit for each cell in the words, set where the instant has a label. Cell c has
 * weight 2^(c mod 64) in words[c / 64], and unused bits of the last word are 0. The list must have just the words for
 * the row's cells, (period + 63) / 64; one of another length is refused with 13. All of it is 0 after a refusal.
 * Refusals: 13. */
int64_t jogipahn_open_map(const int32_t *cells, size_t cells_len, int64_t period, int64_t distance,
                          uint64_t *words, size_t words_len);

/* The questions below take an open map and its period, whoever made it; the instants that its bits show are open,
 * repeated every period. It is a map where the period is 1 to 4,194,304, there are (period + 63) / 64 words, unused
 * bits of the last word are 0 and a bit is set; else it is 13. They go over whole words, not cells. */

/* How many instants are open from s up to but not including t: the count, 0 for s = t. Refusals: 13; 14, also for s >
 * t. */
int64_t jogipahn_count_open(const uint64_t *words, size_t words_len, int64_t period, int64_t s, int64_t t);

/* The least open instant above x: 0 with the instant in *found, and 0 there after a refusal. It may be past
 * 1,000,000,000. Refusals: 13, 14. */
int64_t jogipahn_next_open(const uint64_t *words, size_t words_len, int64_t period, int64_t x, int64_t *found);

/* The greatest open instant below x: 0 with the instant in *found, and 0 there after a refusal. It may be past
 * -1,000,000,000. Refusals: 13, 14. */
int64_t jogipahn_last_open(const uint64_t *words, size_t words_len, int64_t period, int64_t x, int64_t *found);

/* The instant so many steps from x: 1 with the instant in *found; 0 if there is none. A step forward goes to the
 * least open instant above, a step backward, for steps below 0, to the greatest below. Zero steps give x if x is open
 * and none otherwise; nothing else gives none. *found is 0 after 0 and after a refusal. It may be past the limits of
 * x. From an open x, n steps and then -n steps give x, as long as the instant reached is within the limits. Refusals:
 * 13, 14. */
int64_t jogipahn_nth_open(const uint64_t *words, size_t words_len, int64_t period,
                          int64_t x, int64_t steps, int64_t *found);

/* How many instants t with x < t <= y are open, and minus that for the pair the other way round: 0 with the number in
 * *number, and 0 there after a refusal. Refusals: 13, 14. */
int64_t jogipahn_between(const uint64_t *words, size_t words_len, int64_t period,
                         int64_t x, int64_t y, int64_t *number);

#ifdef __cplusplus
}
#endif

#endif
