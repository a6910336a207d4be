/* The working of an event, number by number: the worked sample, how far it goes where the event is refused, both methods; the overlap that an event
 * needs and the day to cut from; readings and marks; days of the calendar. */
#include "check.h"
#include "honeyplank.h"
#include "record.h"
#include "sample.h"
#include "told.h"

static struct record_file file;
static int at_end; /* whether a file ends at its guard page, or starts at it */

/* Places of the look-back and of the ruler, about their ends and the event's, and some that a narrower number would take for one of them. */
static const uint32_t far_ats[] = {256, 256 + 7, 256 + 152, 65536 + 7, 65536 + 152, 2147483648u + 7, UINT32_MAX - 95, UINT32_MAX};
enum { NEAR = 200, ATS = NEAR + sizeof far_ats / sizeof far_ats[0] };

static uint32_t at_of(uint32_t i)
{
    return i < NEAR ? i : far_ats[i - NEAR];
}

/* hp_working tells this by every name. */
static void expect(int line, size_t place, uint32_t at, const struct told *due)
{
    struct lent in = lend_copy(file.bytes, file.length, at_end);
    int before = failures, i;
    for (i = 0; i < NAMES; i++)
        CHECK(tells(due, name_at(i), hp_working(in.bytes, in.length, place, at, name_at(i))));
    if (failures != before)
        printf("  of the working of line %d, at %u\n", line, at);
    give_back(&in);
}

/* Of an event: its group, Y, and the window's size, the ranks passed over and taken; no adjustment. */
static struct told shown(int64_t group, int64_t most, int64_t size, int64_t passed, int64_t taken)
{
    struct told told = told_refusal(HP_ANSWERED, NONE, NONE);
    told.numbers[HP_WORKING_GROUP] = group;
    told.numbers[HP_WORKING_MOST] = most;
    told.numbers[HP_WORKING_SIZE] = size;
    told.numbers[HP_WORKING_PASSED] = passed;
    told.numbers[HP_WORKING_TAKEN] = taken;
    return told;
}

static void adjusted(struct told *told, int64_t end, int64_t a, int64_t b)
{
    told->numbers[HP_WORKING_END] = end;
    told->numbers[HP_WORKING_A] = a;
    told->numbers[HP_WORKING_B] = b;
}

static void of_day(struct told *told, int64_t day, int64_t group, int64_t reason, int64_t sum, int64_t rank, int64_t chosen)
{
    told->numbers[HP_BACK_DAY] = day;
    told->numbers[HP_BACK_GROUP] = group;
    told->numbers[HP_BACK_REASON] = reason;
    told->numbers[HP_BACK_SUM] = sum;
    told->numbers[HP_BACK_RANK] = rank;
    told->numbers[HP_BACK_CHOSEN] = chosen;
}

static void of_quarter(struct told *told, int64_t sum, int64_t numerator)
{
    told->numbers[HP_QUARTER_S] = sum;
    told->numbers[HP_QUARTER_NUMERATOR] = numerator;
}

/* By a day's place in the week: 6972 is a Saturday. */
static int64_t plain_group(uint32_t day)
{
    return day % 7 == 0 ? HP_GROUP_SATURDAY : day % 7 == 1 ? HP_GROUP_HOLIDAY : HP_GROUP_WEEKDAY;
}

/* 25 and 26 December 2018 and 1 January 2019; 6 January is a Sunday. */
static int64_t worked_group(uint32_t day)
{
    return day == 6933 || day == 6934 || day == 6940 ? HP_GROUP_HOLIDAY : plain_group(day);
}

/* From 15:00 to 16:00. */
static int64_t worked_sum(uint32_t day)
{
    return day < 6951 ? NONE : day == 6951 ? 5207 : day == 6958 ? 4400 : day == 6965 ? 4800 : 4000;
}

/* Of the worked case's first event: of the Saturdays 6965, 6958 and 6951 the last is the highest. */
static void worked_day(struct told *told, uint32_t back)
{
    uint32_t day = 6972 - back;
    int64_t reason = back % 7 != 0 ? HP_ANOTHER_GROUP : back > 21 ? HP_DAY_NOT_HELD : HP_ELIGIBLE;
    int64_t rank = back == 21 ? 1 : back == 7 ? 2 : back == 14 ? 3 : 0;
    of_day(told, day, worked_group(day), reason, worked_sum(day), rank, rank == 1 || rank == 2);
}

/* Every place of the look-back and of the ruler. */
static void first_event(void)
{
    uint32_t i;
    for (i = 0; i < ATS; i++) {
        uint32_t at = at_of(i);
        struct told due = shown(HP_GROUP_SATURDAY, 3, 3, 0, 2);
        adjusted(&due, 148, 15132, 30000);
        if (at >= 1 && at <= HP_LOOK_BACK)
            worked_day(&due, at);
        if (at < 192)
            of_quarter(&due, at % QUARTERS == 56 ? 2507 : 2500, at == 152 ? 30348 : at > 152 && at < 156 ? 30264 : NONE);
        expect(__LINE__, 0, at, &due);
    }
}

/* 8: the days, and nothing of the window. */
static void second_event(void)
{
    uint32_t i;
    for (i = 0; i < ATS; i++) {
        uint32_t at = at_of(i), day = 6966 - at;
        struct told due = shown(HP_GROUP_HOLIDAY, 3, NONE, NONE, NONE);
        if (at >= 1 && at <= HP_LOOK_BACK) {
            int64_t group = worked_group(day);
            of_day(&due, day, group, group != HP_GROUP_HOLIDAY ? HP_ANOTHER_GROUP : day < 6951 ? HP_DAY_NOT_HELD : HP_ELIGIBLE, worked_sum(day), NONE, NONE);
        }
        expect(__LINE__, 1, at, &due);
    }
}

static void worked_sample(void)
{
    static struct record_file sample;
    sample.length = read_sample("worked", ".rec", sample.bytes, sizeof sample.bytes);
    put_worked(&file);
    CHECK(sample.length == file.length && memcmp(sample.bytes, file.bytes, file.length) == 0);
    first_event();
    second_event();
}

/* The worked case from P on, with a mark on Saturday 6965. */
static void put_marked(uint32_t p, uint8_t mark, uint32_t method)
{
    put_head(&file, p, 77);
    put_worked_days(&file);
    file.bytes[8 + 14 * DAY_BYTES + 4] = mark;
    put_event_by(&file, 6972, 152, 156, 148, method);
}

/* 9: the window, and nothing chosen; with an event day it is filled up. */
static void too_few(void)
{
    struct told due;
    put_marked(6958, HP_MARK_OUTAGE | HP_MARK_EVENT, HP_METHOD_HIGH);
    due = shown(HP_GROUP_SATURDAY, 3, 1, 0, 0);
    of_day(&due, 6965, HP_GROUP_SATURDAY, HP_OUTAGE, 4800, 0, 0);
    expect(__LINE__, 0, 7, &due);
    of_day(&due, 6958, HP_GROUP_SATURDAY, HP_ELIGIBLE, 4400, 1, 0);
    expect(__LINE__, 0, 14, &due);
    of_day(&due, 6951, HP_GROUP_SATURDAY, HP_TOO_EARLY, 5207, 0, 0);
    expect(__LINE__, 0, 21, &due);
    due = shown(HP_GROUP_SATURDAY, 3, 1, 0, 0);
    expect(__LINE__, 0, 152, &due);
    put_marked(6958, HP_MARK_EVENT, HP_METHOD_HIGH);
    due = shown(HP_GROUP_SATURDAY, 3, 2, 0, 2);
    adjusted(&due, 148, 15132, 27600);
    of_day(&due, 6965, HP_GROUP_SATURDAY, HP_EVENT_RECORDED, 4800, 1, 1);
    of_quarter(&due, 2300, NONE);
    expect(__LINE__, 0, 7, &due);
}

/* 10: no adjustment; with twelve readings before the event there is one, and with none of its own load one below 0. */
static void adjustments(void)
{
    struct told due = shown(HP_GROUP_SATURDAY, 3, 3, 0, 2);
    uint32_t i;
    put_worked(&file);
    for (i = 20 * QUARTERS; i < 21 * QUARTERS + 56; i++)
        set_reading(&file, i, HP_MISSING);
    of_day(&due, 6971, HP_GROUP_WEEKDAY, HP_ANOTHER_GROUP, NONE, 0, 0);
    of_quarter(&due, 2500, NONE);
    expect(__LINE__, 0, 1, &due);
    due = shown(HP_GROUP_SATURDAY, 3, 3, 0, 2);
    of_quarter(&due, 2507, NONE);
    expect(__LINE__, 0, 152, &due);
    for (i = 21 * QUARTERS + 44; i < 21 * QUARTERS + 56; i++)
        set_reading(&file, i, 1000);
    adjusted(&due, 152, 12000, 30000);
    of_quarter(&due, 2507, 24084);
    expect(__LINE__, 0, 152, &due);
    for (i = 21 * QUARTERS + 44; i < 21 * QUARTERS + 56; i++)
        set_reading(&file, i, 0);
    set_reading(&file, 14 * QUARTERS + 57, 1100);
    adjusted(&due, 152, 0, 30000);
    of_quarter(&due, 2400, -1200);
    expect(__LINE__, 0, 153, &due);
}

/* A reading that is missing within the event's quarters or outside of them; a day that is not held and one that is. */
static void missing_readings(void)
{
    struct told due = shown(HP_GROUP_SATURDAY, 3, 2, 0, 2);
    put_marked(6951, 0, HP_METHOD_HIGH);
    set_reading(&file, 56 + 3, HP_MISSING);
    adjusted(&due, 148, 15132, 27600);
    of_day(&due, 6951, HP_GROUP_SATURDAY, HP_READING_MISSING, NONE, 0, 0);
    of_quarter(&due, 2300, NONE);
    expect(__LINE__, 0, 21, &due);
    set_reading(&file, 56 + 3, 1300);
    set_reading(&file, 56 + 4, HP_MISSING);
    of_day(&due, 6951, HP_GROUP_SATURDAY, HP_READING_MISSING, 5207, 0, 0);
    expect(__LINE__, 0, 21, &due);
    file.bytes[8 + 4] = HP_MARK_OUTAGE | HP_MARK_EVENT; /* the first reason that holds */
    expect(__LINE__, 0, 21, &due);
}

/* Friday 6971, an event marked on every day before it: Monday 6953, the highest, fills the window by High X of Y, and by Average X of Y the latest do. */
static void filled_windows(void)
{
    struct told due = shown(HP_GROUP_WEEKDAY, 10, 5, 0, 5);
    uint32_t i;
    put_head(&file, 6951, 77);
    put_worked_days(&file);
    put_event(&file, 6971, 152, 156, 148);
    put_event_by(&file, 6971, 152, 156, 148, HP_METHOD_AVERAGE);
    for (i = 0; i < 20; i++)
        file.bytes[8 + i * DAY_BYTES + 4] = HP_MARK_EVENT;
    for (i = 56; i < 60; i++)
        set_reading(&file, 2 * QUARTERS + i, 3000);
    adjusted(&due, 148, 12000, 60000);
    of_day(&due, 6953, HP_GROUP_WEEKDAY, HP_EVENT_RECORDED, 12000, 1, 1);
    of_quarter(&due, 5000, NONE);
    expect(__LINE__, 0, 18, &due);
    due = shown(HP_GROUP_WEEKDAY, 10, 4, 1, 2);
    of_day(&due, 6953, HP_GROUP_WEEKDAY, HP_EVENT_RECORDED, 12000, 0, 0);
    of_quarter(&due, 2000, NONE);
    expect(__LINE__, 1, 18, &due);
    of_day(&due, 6969, HP_GROUP_WEEKDAY, HP_EVENT_RECORDED, 4000, 1, 0);
    expect(__LINE__, 1, 2, &due);
}

/* By Average X of Y the 2nd and 3rd of three, and no adjustment; as too few of them on a weekday; and the day before that. */
static void averages(void)
{
    struct told due = shown(HP_GROUP_SATURDAY, 4, 3, 1, 2);
    put_marked(6951, 0, HP_METHOD_AVERAGE);
    of_day(&due, 6951, HP_GROUP_SATURDAY, HP_ELIGIBLE, 5207, 1, 0);
    of_quarter(&due, 2300, NONE);
    expect(__LINE__, 0, 21, &due);
    due = shown(HP_GROUP_SATURDAY, 4, 3, 1, 2);
    of_quarter(&due, 2300, 2300);
    expect(__LINE__, 0, 152, &due);
    of_quarter(&due, 2300, NONE);
    expect(__LINE__, 0, 156, &due);

    put_head(&file, 6965, 77);
    put_worked_days(&file);
    put_event_by(&file, 6971, 152, 156, 148, HP_METHOD_AVERAGE);
    due = shown(HP_GROUP_WEEKDAY, 10, 3, 1, 0);
    of_day(&due, 6970, HP_GROUP_WEEKDAY, HP_DAY_BEFORE, 4000, 0, 0);
    expect(__LINE__, 0, 1, &due);
    of_day(&due, 6969, HP_GROUP_WEEKDAY, HP_ELIGIBLE, 4000, 1, 0);
    expect(__LINE__, 0, 2, &due);
    of_day(&due, 6964, HP_GROUP_WEEKDAY, HP_TOO_EARLY, 4000, 0, 0);
    expect(__LINE__, 0, 7, &due);
}

/* Where the calendar starts: days below day 0 have no number. */
static void first_days(void)
{
    struct told due = shown(HP_GROUP_WEEKDAY, 10, 1, 0, 0);
    uint32_t day;
    put_head(&file, 0, 77);
    for (day = 0; day <= 4; day++)
        put_day(&file, day, 0, 1000);
    put_event(&file, 4, 152, 156, 148);
    of_day(&due, 0, HP_GROUP_HOLIDAY, HP_ANOTHER_GROUP, 4000, 0, 0);
    expect(__LINE__, 0, 4, &due);
    of_day(&due, NONE, NONE, HP_TOO_EARLY, NONE, 0, 0);
    expect(__LINE__, 0, 5, &due);
    expect(__LINE__, 0, HP_LOOK_BACK, &due);
    due = shown(HP_GROUP_WEEKDAY, 10, 1, 0, 0);
    expect(__LINE__, 0, HP_LOOK_BACK + 1, &due);
    expect(__LINE__, 0, 0, &due);
}

/* What leaves nothing to show tells nothing else, whatever is asked for. */
static void expect_refused(int line, size_t place, uint32_t number, int64_t carried)
{
    static const uint32_t ats[] = {0, 1, 7, HP_LOOK_BACK, 152, UINT32_MAX};
    struct told due = told_refusal(number, carried, NONE);
    size_t i;
    for (i = 0; i < sizeof ats / sizeof ats[0]; i++)
        expect(line, place, ats[i], &due);
}

#define REFUSED(place, number, carried) expect_refused(__LINE__, place, number, carried)

static void refusals(void)
{
    put_head(&file, 6900, 77);
    put_event(&file, 6972, 152, 156, 148);
    REFUSED(0, HP_BAD_TABLE, NONE);
    REFUSED(1, HP_NO_EVENT, NONE);
    put_worked(&file);
    put_event(&file, 6972, 152, 152, 148);
    put_event(&file, 6973, 152, 156, 148);
    put_event_by(&file, 6972, 152, 156, 148, 2);
    REFUSED(2, HP_BAD_REQUEST, NONE);
    REFUSED(3, HP_NOT_HELD, NONE);
    REFUSED(4, HP_BAD_REQUEST, NONE);
    REFUSED(5, HP_NO_EVENT, NONE);
    REFUSED(SIZE_MAX, HP_NO_EVENT, NONE);
    REFUSED((size_t)1 << 32, HP_NO_EVENT, NONE);
    set_reading(&file, 21, HP_HIGHEST + 1);
    REFUSED(0, HP_BAD_READING, 21);
    file.bytes[8 + 3 * DAY_BYTES + 4] = 4;
    REFUSED(0, HP_BAD_MARK, 3);
    REFUSED(2, HP_BAD_MARK, 3);
    file.length--;
    REFUSED(0, HP_BAD_FILE, (int64_t)file.length - EVENT_BYTES + 1);
    REFUSED(9, HP_BAD_FILE, (int64_t)file.length - EVENT_BYTES + 1);
    put_worked(&file);
    file.bytes[2] = 6973 & 0xFF;
    file.bytes[3] = 6973 >> 8;
    REFUSED(0, HP_NOT_YET_PARTICIPATING, NONE);
    put_head(&file, 6900, 77);
    put_move(&file, 1, 1);
    put_worked_days(&file);
    put_event(&file, 6972, 152, 152, 148);
    REFUSED(0, HP_BAD_MOVES, NONE);
}

/* hp_overlap tells this by every name. */
static void expect_overlap(int line, size_t place, struct told due)
{
    struct lent in = lend_copy(file.bytes, file.length, at_end);
    int before = failures, i;
    for (i = 0; i < NAMES; i++)
        CHECK(tells(&due, name_at(i), hp_overlap(in.bytes, in.length, place, name_at(i))));
    if (failures != before)
        printf("  of the overlap of line %d\n", line);
    give_back(&in);
}

static struct told needs(int64_t held, int64_t suffices, int64_t more, int64_t from)
{
    struct told told = told_refusal(HP_ANSWERED, NONE, NONE);
    told.numbers[HP_OVERLAP_HELD] = held;
    told.numbers[HP_OVERLAP_SUFFICES] = suffices;
    told.numbers[HP_OVERLAP_MORE] = more;
    told.numbers[HP_OVERLAP_FROM] = from;
    return told;
}

#define NEEDS(place, held, suffices, more, from) expect_overlap(__LINE__, place, needs(held, suffices, more, from))
#define NO_OVERLAP(place, number, carried) expect_overlap(__LINE__, place, told_refusal(number, carried, NONE))
#define CUT_FROM(day) CHECK(hp_cut_from(file.bytes, file.length) == (day))

static void overlaps(void)
{
    put_worked(&file);
    NEEDS(0, 21, 42, 21, 6930);
    NEEDS(1, 15, 42, 27, 6924);
    NO_OVERLAP(2, HP_NO_EVENT, NONE);
    NO_OVERLAP(SIZE_MAX, HP_NO_EVENT, NONE);
    CUT_FROM(6924);
    file.length -= EVENT_BYTES;
    CUT_FROM(6930);
    file.length--;
    NO_OVERLAP(0, HP_BAD_FILE, (int64_t)file.length - EVENT_BYTES + 1);
    CUT_FROM(NONE);

    /* by marks and readings that are refused, of a day that is not held, and as much as is needed */
    put_head(&file, 6951, 77);
    put_worked_days(&file);
    put_event(&file, 6972, 152, 156, 148);
    put_event(&file, 6973, 152, 156, 148);
    put_event_by(&file, 6972, 152, 156, 148, HP_METHOD_AVERAGE);
    put_event(&file, 6950, 152, 156, 148);
    put_event(&file, 6972, 152, 156, 153);
    file.bytes[8 + 4] = 4;
    set_reading(&file, 5, HP_MISSING - 1);
    NEEDS(0, 21, 21, 0, 6951);
    NEEDS(1, NONE, 21, NONE, 6952);
    NEEDS(2, 21, 21, 0, 6951);
    NO_OVERLAP(3, HP_NOT_YET_PARTICIPATING, NONE);
    NO_OVERLAP(4, HP_BAD_REQUEST, NONE);
    CUT_FROM(6951);
    file.bytes[2] = 6958 & 0xFF; /* P a week later: more days are held than are needed */
    file.bytes[3] = 6958 >> 8;
    NEEDS(0, 21, 14, 0, 6958);
}

/* A file of events alone; what moves change: 7 May 2024 is a holiday once 1 May is moved to it, and there is one on 25 March. */
static void overlaps_of_no_days(void)
{
    put_head(&file, 0, 77);
    CUT_FROM(NONE);
    put_event(&file, 8893, 152, 156, 148);
    put_event(&file, 0, 152, 156, 148);
    put_event(&file, 9007, 152, 156, 148); /* a Thursday: the whole look-back */
    NEEDS(0, NONE, 42, NONE, 8851);
    NEEDS(1, NONE, 0, NONE, 0);
    NEEDS(2, NONE, HP_LOOK_BACK, NONE, 8962);
    CUT_FROM(0);
    put_head(&file, 0, 77);
    put_move(&file, 8887, 8893);
    put_event(&file, 8893, 152, 156, 148);
    NEEDS(0, NONE, 44, NONE, 8849);
    CUT_FROM(8849);
    file.bytes[8 + 2]++;
    NO_OVERLAP(0, HP_BAD_MOVES, NONE);
    CUT_FROM(NONE);
}

/* As the file has them, also where the entries over events refuse them. */
static void readings_and_marks(void)
{
    struct lent in;
    put_worked(&file);
    set_reading(&file, 95, HP_MISSING);
    set_reading(&file, 96, HP_MISSING - 1);
    file.bytes[8 + 21 * DAY_BYTES + 4] = 255;
    in = lend_copy(file.bytes, file.length, at_end);
    CHECK(hp_reading(in.bytes, in.length, 6951, 56) == 1307);
    CHECK(hp_reading(in.bytes, in.length, 6951, 95) == HP_MISSING);
    CHECK(hp_reading(in.bytes, in.length, 6952, 0) == HP_MISSING - 1);
    CHECK(hp_reading(in.bytes, in.length, 6972, 95) == 1261);
    CHECK(hp_reading(in.bytes, in.length, 6972, 96) == NONE && hp_reading(in.bytes, in.length, 6951, 256) == NONE);
    CHECK(hp_reading(in.bytes, in.length, 6951, UINT32_MAX) == NONE && hp_reading(in.bytes, in.length, 6951, 65536) == NONE);
    CHECK(hp_reading(in.bytes, in.length, 6950, 0) == NONE && hp_reading(in.bytes, in.length, 6973, 0) == NONE);
    CHECK(hp_reading(in.bytes, in.length, 65536 + 6951, 0) == NONE && hp_reading(in.bytes, in.length, UINT32_MAX, 0) == NONE);
    CHECK(hp_mark(in.bytes, in.length, 6951) == 0 && hp_mark(in.bytes, in.length, 6972) == 255);
    CHECK(hp_mark(in.bytes, in.length, 6950) == NONE && hp_mark(in.bytes, in.length, 6973) == NONE);
    CHECK(hp_mark(in.bytes, in.length, 65536 + 6951) == NONE);
    give_back(&in);
    file.length--;
    CHECK(hp_reading(file.bytes, file.length, 6951, 56) == NONE && hp_mark(file.bytes, file.length, 6951) == NONE);
    put_head(&file, 0, 77);
    CHECK(hp_reading(file.bytes, file.length, 0, 0) == NONE && hp_mark(file.bytes, file.length, 0) == NONE);
    put_day(&file, 65535, 3, 7);
    CHECK(hp_reading(file.bytes, file.length, 65535, 95) == 7 && hp_mark(file.bytes, file.length, 65535) == 3);
}

/* hp_calendar tells this by every name. */
static void expect_calendar(int line, uint32_t day, int64_t group, int64_t fixed, int64_t easter)
{
    struct told due = told_refusal(HP_ANSWERED, NONE, NONE);
    int before = failures, i;
    due.numbers[HP_CALENDAR_GROUP] = group;
    due.numbers[HP_CALENDAR_FIXED] = fixed;
    due.numbers[HP_CALENDAR_EASTER] = easter;
    for (i = 0; i < NAMES; i++)
        CHECK(tells(&due, name_at(i), hp_calendar(day, name_at(i))));
    if (failures != before)
        printf("  of the day of line %d\n", line);
}

#define DAY_IS(day, group, fixed, easter) expect_calendar(__LINE__, (uint32_t)(day), group, fixed, easter)

/* The holidays of 2024, where Easter Sunday is 5 May; 1 May 2021, which is Holy Saturday too; plain days, and the calendar's ends. */
static void calendar(void)
{
    static const uint32_t fixed[][2] = {{1, 1}, {1, 6}, {3, 25}, {5, 1}, {8, 15}, {10, 28}, {12, 25}, {12, 26}};
    static const int easter[] = {-48, -2, -1, 0, 1, 50};
    size_t i;
    for (i = 0; i < sizeof fixed / sizeof fixed[0]; i++)
        DAY_IS(hp_day(2024, fixed[i][0], fixed[i][1]), HP_GROUP_HOLIDAY, 100 * fixed[i][0] + fixed[i][1], NONE);
    for (i = 0; i < sizeof easter / sizeof easter[0]; i++)
        DAY_IS(hp_day(2024, 5, 5) + easter[i], HP_GROUP_HOLIDAY, NONE, easter[i]);
    DAY_IS(hp_day(2021, 5, 1), HP_GROUP_HOLIDAY, 501, -1);
    DAY_IS(9006, HP_GROUP_WEEKDAY, NONE, NONE);
    DAY_IS(9009, HP_GROUP_SATURDAY, NONE, NONE);
    DAY_IS(9010, HP_GROUP_HOLIDAY, NONE, NONE);
    DAY_IS(0, HP_GROUP_HOLIDAY, 101, NONE);
    DAY_IS(HP_LAST_DAY, HP_GROUP_WEEKDAY, NONE, NONE);
    DAY_IS(HP_LAST_DAY + 1, NONE, NONE, NONE);
    DAY_IS(65536 + 9006, NONE, NONE, NONE);
    DAY_IS(UINT32_MAX, NONE, NONE, NONE);
}

static void nothing_lent(void)
{
    CHECK(hp_working(NULL, 0, 0, 1, HP_RESULT) == HP_BAD_FILE && hp_working(NULL, 0, 0, 1, HP_CARRIED) == 0);
    CHECK(hp_working(NULL, 0, 0, 1, HP_BACK_REASON) == NONE);
    CHECK(hp_overlap(NULL, 0, 0, HP_RESULT) == HP_BAD_FILE && hp_overlap(NULL, 0, 0, HP_CARRIED) == 0);
    CHECK(hp_cut_from(NULL, 0) == NONE && hp_reading(NULL, 0, 0, 0) == NONE && hp_mark(NULL, 0, 0) == NONE);
}

/* What a person with a pencil makes of the working of an answered event is what hp_baseline writes: the chosen days by rank, and each numerator. */
static void pencil(const char *name)
{
    uint8_t out[HP_MOST_BYTES];
    size_t events, place;
    file.length = read_sample(name, ".rec", file.bytes, sizeof file.bytes);
    events = hp_file(file.bytes, file.length, HP_RESULT) == HP_ANSWERED ? (size_t)hp_file(file.bytes, file.length, HP_FILE_EVENTS) : 0;
    for (place = 0; place < events; place++) {
        int64_t passed = hp_working(file.bytes, file.length, place, 0, HP_WORKING_PASSED), t;
        uint32_t back, start = (uint32_t)hp_event(file.bytes, file.length, place, HP_EVENT_START);
        if (hp_baseline(file.bytes, file.length, place, out, sizeof out) != HP_ANSWERED)
            continue;
        for (back = 1; back <= HP_LOOK_BACK; back++) {
            int64_t rank = hp_working(file.bytes, file.length, place, back, HP_BACK_RANK) - passed;
            int64_t day = hp_working(file.bytes, file.length, place, back, HP_BACK_DAY);
            int chosen = rank >= 1 && rank <= hp_told(file.bytes, file.length, place, HP_COUNT);
            CHECK(hp_working(file.bytes, file.length, place, back, HP_BACK_CHOSEN) == chosen);
            CHECK(!chosen || hp_told(file.bytes, file.length, place, (uint32_t)(HP_DAY_1 + rank - 1)) == day);
        }
        for (t = start; t < hp_event(file.bytes, file.length, place, HP_EVENT_END); t++) {
            int64_t numerator = hp_working(file.bytes, file.length, place, (uint32_t)t, HP_QUARTER_NUMERATOR);
            CHECK(word_at(out + 4 * (t - start)) == (numerator < 0 ? 0 : numerator));
        }
    }
}

int main(void)
{
    for (at_end = 0; at_end < 2; at_end++) {
        worked_sample();
        too_few();
        adjustments();
        missing_readings();
        filled_windows();
        averages();
        first_days();
        refusals();
        overlaps();
        overlaps_of_no_days();
        readings_and_marks();
    }
    calendar();
    nothing_lent();
    each_sample(pencil);
    return checked("working");
}
