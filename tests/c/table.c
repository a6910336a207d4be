/* The entries over a table in memory: the worked case, refusals 1 to 10 and 14, the moves, both methods, the part of a day, and every buffer between
 * guards. */
#include "check.h"
#include "honeyplank.h"
#include "told.h"
#include "values.h"

enum { MOST = 129 };

static uint32_t first = 6951;
static uint8_t marks[MOST];
static uint32_t readings[MOST * QUARTERS];
static uint32_t moves[2 * (HP_MOST_MOVES + 1)];
static size_t days, count, moved; /* moved: how many numbers the moves are */
static uint32_t p, d, s, e, n, method;
static int at_end;

/* Document 01's worked case. */
static void worked(void)
{
    memset(marks, 0, sizeof marks);
    first = 6951;
    days = 22;
    count = 22 * QUARTERS;
    moved = 0;
    fill_worked(readings, MOST);
    p = 6900, d = 6972, s = 152, e = 156, n = 148, method = HP_METHOD_HIGH;
}

static void add_move(uint32_t from, uint32_t to)
{
    moves[moved++] = from;
    moves[moved++] = to;
}

/* So many moves that are none of these tables' days. */
static void add_far_moves(uint32_t pairs)
{
    uint32_t i;
    for (i = 0; i < pairs; i++)
        add_move(far_holiday(i), far_holiday(i) + 3);
}

/* hp_baseline_table with so much room gives this number and, answered, these numerators; hp_told_table tells the result by every name. */
static void expect(int line, size_t room, uint32_t number, struct result result)
{
    struct lent m = lend_copy(marks, days, at_end), r = lend_copy(readings, 4 * count, at_end), out = lend(4 * room, at_end);
    struct lent v = lend_copy(moves, 4 * moved, at_end);
    const uint32_t *lent = (const uint32_t *)(const void *)r.bytes, *list = (const uint32_t *)(const void *)v.bytes;
    size_t written = number == HP_ANSWERED ? 4 * result.quarters : 0;
    int before = failures, i;
    CHECK(hp_baseline_table(first, m.bytes, days, lent, count, list, moved, p, d, s, e, n, method, (uint32_t *)(void *)out.bytes, room) == number);
    CHECK(kept(&out, written) && memcmp(out.bytes, result.numerators, written) == 0);
    for (i = 0; i < NAMES; i++)
        CHECK(tells(&result.told, name_at(i), hp_told_table(first, m.bytes, days, lent, count, list, moved, p, d, s, e, n, method, name_at(i))));
    if (failures != before)
        printf("  in the call of line %d\n", line);
    give_back(&m);
    give_back(&r);
    give_back(&v);
    give_back(&out);
}

#define REFUSED(room, number, one, two) expect(__LINE__, room, number, refused(number, one, two))
#define ANSWERED(room, result) expect(__LINE__, room, HP_ANSWERED, result)
#define NO_ROOM(room, result) expect(__LINE__, room, HP_NO_ROOM, result)

static void answers(void)
{
    static const uint32_t saturdays[] = {6951, 6965}, spare[] = {6965, 6958}, weekdays[] = {6960, 6969, 6968, 6967, 6964};
    struct result whole_day = answered(saturdays, 2, 21, -6000, 96, 24000), floored = answered(saturdays, 2, 21, -30000, 4, 0);
    whole_day.numerators[56] = 24084;
    floored.numerators[0] = 84;
    worked(), ANSWERED(4, worked_answer()), ANSWERED(5, worked_answer()), ANSWERED(96, worked_answer());
    worked(), s = 96, e = 192, n = 96, ANSWERED(96, whole_day), NO_ROOM(95, whole_day);
    worked(), p = 6958, marks[7] = HP_MARK_EVENT, ANSWERED(4, answered(spare, 2, 14, 2664, 4, 30264));
    worked(), d = 6971, fill_day(readings, 6960, 1012), ANSWERED(4, answered(weekdays, 5, 15, -144, 4, 60000)); /* Friday 1 February 2019 */
    worked(), fill_day(readings, 6972, 0), ANSWERED(4, floored);
}

static void refusals(void)
{
    int i;
    worked(), days = 0, count = 0, REFUSED(4, HP_BAD_TABLE, NONE, NONE);
    worked(), days = 129, count = 129 * QUARTERS, REFUSED(4, HP_BAD_TABLE, NONE, NONE);
    worked(), count--, REFUSED(4, HP_BAD_TABLE, NONE, NONE);
    worked(), count++, REFUSED(4, HP_BAD_TABLE, NONE, NONE);
    worked(), first = 36504, REFUSED(4, HP_BAD_TABLE, NONE, NONE);
    worked(), first = UINT32_MAX, REFUSED(0, HP_BAD_TABLE, NONE, NONE);
    worked(), marks[21] = 4, REFUSED(4, HP_BAD_MARK, 21, NONE);
    worked(), readings[2111] = HP_HIGHEST + 1, REFUSED(4, HP_BAD_READING, 2111, NONE);
    worked(), p = 36525, REFUSED(4, HP_BAD_REQUEST, NONE, NONE);
    worked(), s = 192, e = 193, REFUSED(4, HP_BAD_REQUEST, NONE, NONE);
    worked(), e = UINT32_MAX, REFUSED(4, HP_BAD_REQUEST, NONE, NONE);
    worked(), n = 153, REFUSED(4, HP_BAD_REQUEST, NONE, NONE);
    worked(), d = 6973, REFUSED(4, HP_NOT_HELD, NONE, NONE);
    worked(), d = UINT32_MAX, REFUSED(4, HP_NOT_HELD, NONE, NONE);
    worked(), p = 6973, REFUSED(4, HP_NOT_YET_PARTICIPATING, NONE, NONE);
    worked(), NO_ROOM(3, worked_answer()), NO_ROOM(0, worked_answer());
    worked(), d = 6966, REFUSED(4, HP_MARGIN_TOO_SHORT, 42, NONE), NO_ROOM(3, refused(HP_MARGIN_TOO_SHORT, 42, NONE));
    worked(), p = 6972, REFUSED(4, HP_TOO_FEW, 0, 0);
    worked(), p = 6958, marks[7] = HP_MARK_OUTAGE, REFUSED(4, HP_TOO_FEW, 1, 14);
    worked();
    for (i = 20 * QUARTERS; i < 22 * QUARTERS; i++)
        readings[i] = HP_MISSING;
    REFUSED(4, HP_NO_ADJUSTMENT_WINDOW, 21, NONE);
}

/* 14: how long the list is, and days past the calendar, also such that a narrower number would take for days. */
static void refused_lists(void)
{
    static const uint32_t past[] = {HP_LAST_DAY + 1, 65536, 2147483648u, UINT32_MAX};
    uint32_t i, j;
    for (i = 0; i <= HP_MOST_MOVES; i++)
        worked(), add_far_moves(i), ANSWERED(4, worked_answer());
    worked(), add_far_moves(HP_MOST_MOVES + 1), REFUSED(4, HP_BAD_MOVES, NONE, NONE);
    for (i = 1; i < 2 * (HP_MOST_MOVES + 1); i += 2)
        worked(), add_far_moves(HP_MOST_MOVES + 1), moved = i, REFUSED(4, HP_BAD_MOVES, NONE, NONE);
    for (i = 0; i < 2 * HP_MOST_MOVES; i++)
        for (j = 0; j < sizeof past / sizeof past[0]; j++) {
            worked(), add_far_moves(HP_MOST_MOVES), moves[i] = past[j], REFUSED(4, HP_BAD_MOVES, NONE, NONE);
            worked(), add_far_moves(HP_MOST_MOVES), moves[i] |= 65536 << j, REFUSED(4, HP_BAD_MOVES, NONE, NONE);
        }
    worked(), add_move(36518, HP_LAST_DAY), add_move(36519, 0), ANSWERED(4, worked_answer()); /* 25 and 26 December 2099 */
}

/* 14: a first day twice, at every two places; the second days may be the same, and may be any. */
static void repeated_days(void)
{
    uint32_t i, j;
    for (i = 1; i < HP_MOST_MOVES; i++)
        for (j = 0; j < i; j++) {
            worked(), add_far_moves(HP_MOST_MOVES), moves[2 * i] = moves[2 * j], REFUSED(4, HP_BAD_MOVES, NONE, NONE);
            moves[2 * i + 1] = moves[2 * j + 1], REFUSED(4, HP_BAD_MOVES, NONE, NONE);
            worked(), add_far_moves(HP_MOST_MOVES), moves[2 * i + 1] = moves[2 * j + 1], ANSWERED(4, worked_answer());
            moves[2 * i + 1] = moves[2 * j], ANSWERED(4, worked_answer());
        }
    worked(), add_move(8887, 8893), add_move(8887, 8893), REFUSED(4, HP_BAD_MOVES, NONE, NONE);
}

static int is_fixed(int64_t date)
{
    static const int64_t fixed[] = {101, 106, 325, 501, 815, 1028, 1225, 1226};
    size_t i = 0;
    while (i < 8 && fixed[i] != date % 10000)
        i++;
    return i < 8;
}

/* 14: every day of the calendar as a first day, and those about its end; of one day held there is too little to choose from. */
static void every_first_day(void)
{
    uint32_t day, out[4];
    worked(), days = 1, count = QUARTERS, p = d = first;
    for (day = 0; day <= HP_LAST_DAY + 366; day++) {
        uint32_t due = day <= HP_LAST_DAY && is_fixed(hp_date(day)) ? HP_TOO_FEW : HP_BAD_MOVES, list[] = {day, 0};
        CHECK(hp_baseline_table(first, marks, days, readings, count, list, 2, p, d, s, e, n, method, out, 4) == due);
    }
}

/* The worked case with a bad list: 2 May 2024 is no fixed-date holiday. */
static void unlisted(void)
{
    worked(), add_move(8888, 8893);
}

/* A bad list is refused after 3 and before 4. */
static void place_of_14(void)
{
    int i;
    unlisted(), REFUSED(4, HP_BAD_MOVES, NONE, NONE), REFUSED(3, HP_BAD_MOVES, NONE, NONE), REFUSED(0, HP_BAD_MOVES, NONE, NONE);
    unlisted(), days = 0, count = 0, REFUSED(4, HP_BAD_TABLE, NONE, NONE);
    unlisted(), first = 36504, REFUSED(4, HP_BAD_TABLE, NONE, NONE);
    unlisted(), marks[21] = 4, REFUSED(4, HP_BAD_MARK, 21, NONE);
    unlisted(), readings[2111] = HP_HIGHEST + 1, REFUSED(4, HP_BAD_READING, 2111, NONE);
    unlisted(), p = 36525, REFUSED(4, HP_BAD_MOVES, NONE, NONE);
    unlisted(), s = 192, e = 193, REFUSED(4, HP_BAD_MOVES, NONE, NONE);
    unlisted(), e = UINT32_MAX, REFUSED(4, HP_BAD_MOVES, NONE, NONE);
    unlisted(), n = 153, REFUSED(4, HP_BAD_MOVES, NONE, NONE);
    unlisted(), d = 6973, REFUSED(4, HP_BAD_MOVES, NONE, NONE);
    unlisted(), p = 6973, REFUSED(4, HP_BAD_MOVES, NONE, NONE);
    unlisted(), d = 6966, REFUSED(4, HP_BAD_MOVES, NONE, NONE);
    unlisted(), p = 6972, REFUSED(4, HP_BAD_MOVES, NONE, NONE);
    unlisted();
    for (i = 20 * QUARTERS; i < 22 * QUARTERS; i++)
        readings[i] = HP_MISSING;
    REFUSED(4, HP_BAD_MOVES, NONE, NONE);
}

/* The worked case with 16 moves of other years. */
static void listed(void)
{
    worked(), add_far_moves(HP_MOST_MOVES);
}

/* With such a list each other refusal is as without. */
static void refusals_with_moves(void)
{
    listed(), count--, REFUSED(4, HP_BAD_TABLE, NONE, NONE);
    listed(), marks[21] = 4, REFUSED(4, HP_BAD_MARK, 21, NONE);
    listed(), readings[2111] = HP_HIGHEST + 1, REFUSED(4, HP_BAD_READING, 2111, NONE);
    listed(), p = 36525, REFUSED(4, HP_BAD_REQUEST, NONE, NONE);
    listed(), d = 6973, REFUSED(4, HP_NOT_HELD, NONE, NONE);
    listed(), p = 6973, REFUSED(4, HP_NOT_YET_PARTICIPATING, NONE, NONE);
    listed(), NO_ROOM(3, worked_answer());
    listed(), d = 6966, REFUSED(4, HP_MARGIN_TOO_SHORT, 42, NONE);
    listed(), p = 6972, REFUSED(4, HP_TOO_FEW, 0, 0);
}

/* Days from this one on, all at 1000 kW, with no list; the event is of four quarters of this day, and is answered with the nearest days of its
 * group, at 1000 kW too. */
static void even(uint32_t from, uint32_t day)
{
    uint32_t i;
    worked();
    first = from, days = day + 1 - from, count = days * QUARTERS, p = 0, d = day;
    for (i = 0; i < MOST * QUARTERS; i++)
        readings[i] = 1000;
}

#define CHOSEN(count, reach, ...) ANSWERED(4, answered((const uint32_t[]){__VA_ARGS__}, count, reach, 0, 4, 12000 * count))

/* 1 May 2024 (8887, a Wednesday) moved to 7 May (8893): events of both, and of Easter Sunday between them (8891), without and with the list. */
static void labour_day(void)
{
    even(8840, 8887), CHOSEN(2, 17, 8884, 8877);
    add_move(8887, 8893), CHOSEN(5, 15, 8885, 8882, 8881, 8880, 8879);
    even(8840, 8893), CHOSEN(5, 19, 8888, 8886, 8885, 8882, 8881);
    add_move(8887, 8893), CHOSEN(2, 3, 8892, 8891);
    even(8840, 8891), CHOSEN(2, 4, 8890, 8889);
    add_move(8887, 8893), CHOSEN(2, 7, 8890, 8889);
    even(8840, 8891), add_move(8887, 8887), CHOSEN(2, 4, 8890, 8889); /* onto itself */
}

/* Thursday 9 May 2024: 7 May is in its window and 1 May is not; by the list it is the other way round. 1 May is the highest day, 7 May the next. */
static void thursday(void)
{
    static const uint32_t without[] = {8893, 8888, 8886, 8885, 8882}, with[] = {8887, 8888, 8886, 8885, 8882};
    uint32_t i;
    even(8850, 8895);
    for (i = 0; i < QUARTERS; i++) {
        readings[QUARTERS * (8887 - 8850) + i] = 1500;
        readings[QUARTERS * (8893 - 8850) + i] = 1400;
    }
    ANSWERED(4, answered(without, 5, 20, -4800, 4, 60000));
    add_move(8887, 8893), ANSWERED(4, answered(with, 5, 20, -6000, 4, 60000));
    add_move(8850, 8850), ANSWERED(4, answered(with, 5, 20, -6000, 4, 60000)); /* 25 March onto itself */
    moved = 0, add_far_moves(15), add_move(8887, 8893), ANSWERED(4, answered(with, 5, 20, -6000, 4, 60000));
    moved = 0, add_move(8850, 8850), ANSWERED(4, answered(without, 5, 20, -4800, 4, 60000));
    moved = 0, add_move(8888, 8893), REFUSED(4, HP_BAD_MOVES, NONE, NONE);
    moved = 0, add_move(8887, 8893), add_move(8887, 8893), REFUSED(4, HP_BAD_MOVES, NONE, NONE);
}

/* What is a holiday for another reason stays one though it is moved away. */
static void stays_a_holiday(void)
{
    even(76, 121), CHOSEN(2, 3, 120, 119); /* 1 May 2000, Easter Monday */
    add_move(121, 122), CHOSEN(2, 3, 120, 119);
    even(7852, 7897), CHOSEN(2, 21, 7890, 7883); /* Sunday 15 August 2021 */
    add_move(7897, 7898), CHOSEN(2, 21, 7890, 7883);
    even(6890, 6934), CHOSEN(2, 10, 6933, 6931); /* Wednesday 26 December 2018 */
    add_move(6933, 6934), add_move(6934, 6933), CHOSEN(2, 10, 6933, 6931);
    moved = 0, add_move(6933, 6934), add_move(6934, 6935), CHOSEN(2, 17, 6931, 6924);
    even(6890, 6934), add_move(6934, 6935), CHOSEN(5, 15, 6932, 6929, 6928, 6927, 6926);
}

/* The second day may be any: of another year, a Saturday, one that two moves share. */
static void any_second_day(void)
{
    static const uint32_t saturdays[] = {6951, 6958}, sundays[] = {6966, 6959};
    struct result result = answered(saturdays, 2, 21, 1464, 4, 30264);
    result.numerators[0] = 30348;
    worked(), add_move(6695, 6965), REFUSED(4, HP_MARGIN_TOO_SHORT, 42, NONE); /* 1 May 2018 to Saturday 26 January 2019 */
    p = 6951, ANSWERED(4, result);
    add_move(6801, 6965), ANSWERED(4, result);
    worked(), p = 6951, add_move(6695, 6972), ANSWERED(4, answered(sundays, 2, 20, 6264, 4, 30264));
    even(6903, 6948), CHOSEN(5, 20, 6946, 6943, 6942, 6941, 6939); /* Wednesday 9 January 2019 */
    add_move(6934, 6942), CHOSEN(5, 20, 6946, 6943, 6941, 6939, 6936); /* 26 December 2018 to 3 January */
}

/* Days from this one on, each one kW below the day before it, so that the farthest rank highest; the event is of four quarters of this day, by
 * HP_METHOD_AVERAGE. */
static void sloping(uint32_t from, uint32_t day)
{
    uint32_t i;
    even(from, day);
    for (i = 0; i < MOST * QUARTERS; i++)
        readings[i] = 2000 - i / QUARTERS;
    method = HP_METHOD_AVERAGE;
}

/* Every day with this mark. */
static void mark_all(uint8_t mark)
{
    memset(marks, mark, sizeof marks);
}

static void set_mark(uint32_t day, uint8_t mark)
{
    marks[day - first] = mark;
}

static uint32_t load(uint32_t day)
{
    return readings[QUARTERS * (day - first)];
}

/* Two days averaged, over 2, or one, over 1. */
#define TWO(reach, one, two) ANSWERED(4, averaged((const uint32_t[]){one, two}, 2, reach, 4, load(one) + load(two)))
#define ONE(reach, day) ANSWERED(4, averaged((const uint32_t[]){day}, 1, reach, 4, load(day)))

/* Wednesday 28 August 2024 (9006) has the weekdays 9004, 9001 to 8997, 8994 and 8992 to 8990 in its window of ten: 9005 is the day before, 8993 is 15
 * August. The 5th and 6th by rank are averaged. */
static void average_of_ten(void)
{
    sloping(8961, 9006), TWO(16, 8997, 8998);
    sloping(8990, 9006), TWO(16, 8997, 8998);
    sloping(8991, 9006), REFUSED(4, HP_MARGIN_TOO_SHORT, 44, NONE), NO_ROOM(3, refused(HP_MARGIN_TOO_SHORT, 44, NONE));
    sloping(8961, 9006), s = 96, e = 192, n = 0, ANSWERED(96, averaged((const uint32_t[]){8997, 8998}, 2, 16, 96, load(8997) + load(8998)));
    sloping(8961, 9006), NO_ROOM(3, averaged((const uint32_t[]){8997, 8998}, 2, 16, 4, load(8997) + load(8998)));
    even(8961, 9006), method = HP_METHOD_AVERAGE, TWO(16, 8998, 8997); /* equal sums: the nearer first */
    even(8961, 9006), CHOSEN(5, 16, 9004, 9001, 9000, 8999, 8998);
    sloping(8961, 9006), set_mark(9004, HP_MARK_EVENT), set_mark(9001, HP_MARK_OUTAGE), TWO(20, 8992, 8994); /* to 8987 and 8986 */
    sloping(8961, 9006), readings[QUARTERS * (8990 - 8961) + 95] = HP_MISSING, TWO(19, 8997, 8998); /* to 8987 */
}

/* The sum over the event's quarters ranks, and equal sums put the nearer first: that of 8998 is 4 below 8997's and 16 below 8994's. */
static void ranked_by_sums(void)
{
    static const uint32_t more[] = {0, 3, 4, 5, 15}, upper[] = {8997, 8997, 8998, 8998, 8998}, lower[] = {8998, 8998, 8997, 8997, 8997};
    int i;
    for (i = 0; i < 5; i++) {
        struct result result;
        sloping(8961, 9006), result = averaged((const uint32_t[]){upper[i], lower[i]}, 2, 16, 4, load(8997) + load(8998));
        result.numerators[1] += more[i];
        readings[QUARTERS * (8998 - 8961) + 57] += more[i];
        ANSWERED(4, result);
    }
    sloping(8961, 9006), readings[QUARTERS * (8998 - 8961) + 57] += 16, TWO(16, 8994, 8997); /* the 4th now */
    sloping(8961, 9006), readings[QUARTERS * (8998 - 8961) + 55] += 17, TWO(16, 8997, 8998); /* before the event */
    sloping(8961, 9006), readings[QUARTERS * (8998 - 8961) + 60] += 17, TWO(16, 8997, 8998); /* after it */
}

/* Participation that starts later leaves four to nine weekdays: the 2nd and 3rd are averaged. */
static void average_of_some(void)
{
    static const uint32_t window[] = {8991, 8992, 8994, 8997, 8998, 8999, 9000, 9001, 9004};
    uint32_t i;
    for (i = 0; i <= 5; i++)
        sloping(8961, 9006), p = window[i], TWO(9006 - window[i], window[i + 1], window[i + 2]);
    sloping(8961, 9006), p = 8993, TWO(12, 8997, 8998); /* the holiday is not relevant */
    sloping(8961, 9006), p = 8990, set_mark(8998, HP_MARK_EVENT), TWO(16, 8991, 8992); /* nine, and a spare day that is not needed */
}

/* Three and two weekdays, where participation started 7 days before the event, and 6. */
static void average_of_few(void)
{
    sloping(8961, 9006), p = 8999, TWO(7, 9000, 9001); /* four */
    p = 9000, REFUSED(4, HP_TOO_FEW, 3, 6), NO_ROOM(3, refused(HP_TOO_FEW, 3, 6));
    p = 9001, REFUSED(4, HP_TOO_FEW, 2, 5);
    p = 9002, REFUSED(4, HP_TOO_FEW, 1, 2);
    p = 9005, REFUSED(4, HP_TOO_FEW, 0, 0);
    p = 9006, REFUSED(4, HP_TOO_FEW, 0, 0);
    p = 9007, REFUSED(4, HP_NOT_YET_PARTICIPATING, NONE, NONE);
    sloping(8961, 9006), p = 8999, set_mark(8999, HP_MARK_OUTAGE), TWO(7, 9001, 9004); /* three: the highest is left out */
    p = 9000, REFUSED(4, HP_TOO_FEW, 3, 6);
    set_mark(9000, HP_MARK_OUTAGE), p = 8999, TWO(7, 9001, 9004); /* two: both */
    p = 9000, REFUSED(4, HP_TOO_FEW, 2, 6);
    set_mark(9001, HP_MARK_OUTAGE), p = 8999, REFUSED(4, HP_TOO_FEW, 1, 7);
    set_mark(9004, HP_MARK_OUTAGE), REFUSED(4, HP_TOO_FEW, 0, 7);
    sloping(8961, 9004), p = 8998, TWO(6, 8999, 9000); /* Monday 26 August: four weekdays in six days */
    p = 8999, REFUSED(4, HP_TOO_FEW, 3, 5);
    sloping(8961, 9006), mark_all(HP_MARK_OUTAGE), set_mark(8962, 0), set_mark(9004, 0), TWO(44, 8962, 9004);
    p = 8963, REFUSED(4, HP_TOO_FEW, 1, 43);
}

/* Below four weekdays the latest event days are added up to four, not the highest: the farthest are the highest here. */
static void average_with_spares(void)
{
    sloping(8961, 9006), mark_all(HP_MARK_EVENT), TWO(44, 9000, 9001);
    p = 9000, REFUSED(4, HP_TOO_FEW, 3, 6);
    p = 8999, TWO(7, 9000, 9001);
    sloping(8961, 9006), mark_all(HP_MARK_EVENT), set_mark(8962, 0), TWO(44, 9000, 9001); /* 8962, 9000, 9001, 9004 */
    set_mark(8963, 0), TWO(44, 8963, 9001);
    set_mark(8964, 0), TWO(44, 8963, 8964);
    set_mark(8965, 0), TWO(44, 8963, 8964); /* four, and no spare day */
    sloping(8961, 9006), mark_all(HP_MARK_EVENT | HP_MARK_OUTAGE), set_mark(9000, HP_MARK_EVENT), set_mark(8990, 0), TWO(44, 8990, 9000);
    set_mark(8990, HP_MARK_EVENT | HP_MARK_OUTAGE), REFUSED(4, HP_TOO_FEW, 1, 44);
    sloping(8999, 9006), p = 8999, mark_all(HP_MARK_EVENT), readings[95] = HP_MISSING, TWO(7, 9001, 9004); /* not complete: three */
    p = 9000, set_mark(9001, 0), REFUSED(4, HP_TOO_FEW, 3, 6);
}

/* Saturday 31 August 2024 (9009) has 9002, 8995, 8988 and 8981 in its window of four; event days are never added. */
static void average_of_saturdays(void)
{
    sloping(8961, 9009), TWO(28, 8988, 8995);
    sloping(8981, 9009), TWO(28, 8988, 8995);
    sloping(8982, 9009), REFUSED(4, HP_MARGIN_TOO_SHORT, 42, NONE);
    sloping(8961, 9009), set_mark(8995, HP_MARK_EVENT), TWO(35, 8981, 8988);
    sloping(8961, 9009), p = 8982, TWO(21, 8995, 9002); /* three: the last two by rank */
    p = 8989, TWO(14, 8995, 9002); /* two */
    set_mark(8995, HP_MARK_EVENT), ONE(14, 9002); /* one: the event day plays no part */
    set_mark(8995, 0), p = 8996, ONE(7, 9002);
    set_mark(9002, HP_MARK_EVENT), REFUSED(4, HP_TOO_FEW, 0, 7);
    p = 9003, REFUSED(4, HP_TOO_FEW, 0, 0);
    worked(), method = HP_METHOD_AVERAGE, REFUSED(4, HP_MARGIN_TOO_SHORT, 42, NONE); /* the worked case holds three, and High X of Y needs no more */
    p = 6951, ANSWERED(4, averaged((const uint32_t[]){6965, 6958}, 2, 21, 4, 2300));
}

/* Easter Sunday 2024 (8891) comes after Good Friday and Holy Saturday, which are of its group: one day alone, 7 days after participation started and
 * 6. Two are enough at any time. */
static void average_of_holidays(void)
{
    sloping(8840, 8891), TWO(7, 8887, 8889); /* 1 May, and the Sunday before: four in the window */
    p = 8889, TWO(2, 8889, 8890);
    p = 8890, REFUSED(4, HP_TOO_FEW, 1, 1);
    sloping(8840, 8891), set_mark(8884, HP_MARK_OUTAGE), set_mark(8887, HP_MARK_EVENT), set_mark(8889, HP_MARK_OUTAGE);
    p = 8884, ONE(7, 8890);
    p = 8885, REFUSED(4, HP_TOO_FEW, 1, 4);
    p = 8878, ONE(7, 8890);
    p = 8877, TWO(14, 8877, 8890);
    add_move(8887, 8893), set_mark(8887, 0), p = 8884, ONE(7, 8890); /* 1 May moved: a weekday */
}

/* Refusal 4: an unknown method, after 14 and before 5; n is tested by either method. */
static void methods(void)
{
    static const uint32_t unknown[] = {2, 3, 5, 255, 256, 257, 65536, 65537, 2147483648u, UINT32_MAX};
    size_t i;
    for (i = 0; i < sizeof unknown / sizeof unknown[0]; i++) {
        worked(), method = unknown[i], REFUSED(4, HP_BAD_REQUEST, NONE, NONE), REFUSED(0, HP_BAD_REQUEST, NONE, NONE);
        worked(), method = unknown[i], d = 6973, REFUSED(4, HP_BAD_REQUEST, NONE, NONE);
        worked(), method = unknown[i], p = 6973, REFUSED(4, HP_BAD_REQUEST, NONE, NONE);
        worked(), method = unknown[i], add_move(8888, 8893), REFUSED(4, HP_BAD_MOVES, NONE, NONE);
        worked(), method = unknown[i], readings[2111] = HP_HIGHEST + 1, REFUSED(4, HP_BAD_READING, 2111, NONE);
    }
    sloping(8961, 9006), n = 153, REFUSED(4, HP_BAD_REQUEST, NONE, NONE);
    sloping(8961, 9006), s = 95, REFUSED(4, HP_BAD_REQUEST, NONE, NONE);
    sloping(8961, 9006), e = 152, REFUSED(4, HP_BAD_REQUEST, NONE, NONE);
    sloping(8961, 9006), p = 36525, REFUSED(4, HP_BAD_REQUEST, NONE, NONE);
    sloping(8961, 9006), d = 9007, REFUSED(4, HP_NOT_HELD, NONE, NONE);
}

/* Nothing read on the day before nor on the event day: High X of Y has no adjustment window, Average X of Y needs none, whatever n is. */
static void no_adjustment(void)
{
    uint32_t i;
    sloping(8961, 9006);
    for (i = QUARTERS * (9005 - 8961); i < QUARTERS * (9007 - 8961); i++)
        readings[i] = HP_MISSING;
    for (n = 0; n <= s; n++)
        TWO(16, 8997, 8998);
    n = 148, method = HP_METHOD_HIGH, REFUSED(4, HP_NO_ADJUSTMENT_WINDOW, 16, NONE);
}

/* The highest readings: no numerator is higher. */
static void highest_average(void)
{
    uint32_t i;
    sloping(8961, 9009);
    for (i = 0; i < count; i++)
        readings[i] = HP_HIGHEST;
    TWO(28, 8995, 8988);
    p = 8996, ONE(7, 9002);
    for (i = 0; i < count; i++)
        readings[i] = 0;
    ONE(7, 9002);
}

/* What the header says of places that are counted within the day: s and e are refused; n is taken, as a place of the day before. */
static void within_the_day(void)
{
    static const uint32_t saturdays[] = {6951, 6965};
    int i;
    worked(), s = 56, e = 60, REFUSED(4, HP_BAD_REQUEST, NONE, NONE);
    worked(), s = 56, REFUSED(4, HP_BAD_REQUEST, NONE, NONE);
    worked(), e = 60, REFUSED(4, HP_BAD_REQUEST, NONE, NONE);
    worked(), n = 52; /* the three hours before 14:00 of the day before: 40 to 51 on the ruler, at 900 kW */
    for (i = 40; i < 52; i++)
        readings[20 * QUARTERS + i] = 900;
    {
        struct result yesterday = answered(saturdays, 2, 21, 2 * 12 * 900 - 12 * 2500, 4, 12 * 2500 + 2 * 12 * 900 - 12 * 2500);
        yesterday.numerators[0] += 12 * 7;
        ANSWERED(4, yesterday);
    }
}

/* hp_day_part of every day about the table, and of days far off: `held` says whether any is held. */
static void expect_parts(int line, int held)
{
    static const uint32_t far[] = {0, 1, 36524, 36525, 65536 + 6951, 2147483648u, UINT32_MAX - 1, UINT32_MAX};
    struct lent m = lend_copy(marks, days, at_end), r = lend_copy(readings, 4 * count, at_end);
    const uint32_t *lent = (const uint32_t *)(const void *)r.bytes;
    int before = failures;
    uint32_t i;
    for (i = 0; i < MOST + 10; i++) {
        uint32_t day = first - 5 + i;
        int64_t due = held && i >= 5 && i - 5 < days ? (int64_t)(QUARTERS * (i - 5)) : HP_NOTHING;
        CHECK(hp_day_part(first, m.bytes, days, lent, count, day) == due);
    }
    for (i = 0; i < sizeof far / sizeof far[0]; i++)
        CHECK(far[i] - first < days || hp_day_part(first, m.bytes, days, lent, count, far[i]) == HP_NOTHING);
    if (failures != before)
        printf("  in the parts of line %d\n", line);
    give_back(&m);
    give_back(&r);
}

#define PARTS_HELD() expect_parts(__LINE__, 1)
#define NO_PARTS() expect_parts(__LINE__, 0)

static void day_parts(void)
{
    uint32_t day;
    worked(), PARTS_HELD();
    for (day = 6951; day <= 6972; day++) { /* what stands there is that day's reading */
        const uint32_t *part = readings + hp_day_part(first, marks, days, readings, count, day);
        CHECK(part[0] == (day == 6951 ? 1300 : day == 6958 ? 1100 : day == 6965 ? 1200 : day == 6972 ? 1261 : 1000));
        CHECK(part[56] == (day == 6951 ? 1307 : part[0]) && part[95] == part[0]);
    }
    worked(), marks[3] = 255, readings[5] = HP_MISSING - 1, PARTS_HELD(); /* refusals 2 and 3 leave the parts as they are */
    worked(), days = 1, count = QUARTERS, PARTS_HELD();
    worked(), days = 128, count = 128 * QUARTERS, PARTS_HELD();
    worked(), first = 0, PARTS_HELD();
    worked(), first = 36503, PARTS_HELD();
    worked(), first = 36504, NO_PARTS();
    worked(), first = UINT32_MAX, NO_PARTS();
    worked(), days = 0, count = 0, NO_PARTS();
    worked(), days = 129, count = 129 * QUARTERS, NO_PARTS();
    worked(), count--, NO_PARTS();
    worked(), count++, NO_PARTS();
    worked(), count = 0, NO_PARTS();
}

static void nothing_lent(void)
{
    uint32_t out[4] = {0};
    worked();
    CHECK(hp_baseline_table(0, NULL, 0, NULL, 0, NULL, 0, 0, 0, 0, 0, 0, 0, NULL, 0) == HP_BAD_TABLE);
    CHECK(hp_told_table(0, NULL, 0, NULL, 0, NULL, 0, 0, 0, 0, 0, 0, 0, HP_RESULT) == HP_BAD_TABLE);
    CHECK(hp_day_part(0, NULL, 0, NULL, 0, 0) == HP_NOTHING);
    CHECK(hp_baseline_table(first, marks, days, NULL, 0, NULL, 0, p, d, s, e, n, method, out, 4) == HP_BAD_TABLE);
    CHECK(hp_baseline_table(first, NULL, 0, readings, count, NULL, 0, p, d, s, e, n, method, out, 4) == HP_BAD_TABLE);
    CHECK(hp_baseline_table(first, marks, days, readings, count, NULL, 0, p, d, s, e, n, method, NULL, 0) == HP_NO_ROOM);
    CHECK(hp_baseline_table(first, marks, days, readings, count, NULL, 0, p, d, s, e, n, method, out, 4) == HP_ANSWERED && out[0] == 30348);
    CHECK(hp_told_table(first, marks, days, readings, count, NULL, 0, p, d, s, e, n, method, HP_ADJUSTMENT) == 264);
}

int main(void)
{
    for (at_end = 0; at_end < 2; at_end++) {
        answers();
        refusals();
        refused_lists();
        repeated_days();
        every_first_day();
        place_of_14();
        refusals_with_moves();
        labour_day();
        thursday();
        stays_a_holiday();
        any_second_day();
        average_of_ten();
        ranked_by_sums();
        average_of_some();
        average_of_few();
        average_with_spares();
        average_of_saturdays();
        average_of_holidays();
        methods();
        no_adjustment();
        highest_average();
        within_the_day();
        day_parts();
        nothing_lent();
    }
    return checked("table");
}
