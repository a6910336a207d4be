/* The entries over a record file: the worked case, each refusal, its moves, both methods, the listing, and every buffer between guards. */
#include <inttypes.h>

#include "check.h"
#include "honeyplank.h"
#include "record.h"
#include "sample.h"
#include "told.h"

static struct record_file file;
static int at_end; /* whether buffers end at their guard page, or start at it */

/* hp_baseline with so many bytes gives this number and, answered, these numerators; hp_told tells the result by every name. */
static void expect(int line, size_t place, size_t room, uint32_t number, struct result result)
{
    struct lent in = lend_copy(file.bytes, file.length, at_end), out = lend(room, at_end);
    size_t quarters = number == HP_ANSWERED ? result.quarters : 0, i;
    int before = failures;
    CHECK(hp_baseline(in.bytes, in.length, place, out.bytes, room) == number);
    CHECK(kept(&out, 4 * quarters));
    for (i = 0; i < quarters; i++)
        CHECK(word_at(out.bytes + 4 * i) == result.numerators[i]);
    for (i = 0; i < NAMES; i++)
        CHECK(tells(&result.told, name_at((int)i), hp_told(in.bytes, in.length, place, name_at((int)i))));
    if (failures != before)
        printf("  in the call of line %d\n", line);
    give_back(&in);
    give_back(&out);
}

#define REFUSED(place, room, number, first, second) expect(__LINE__, place, room, number, refused(number, first, second))
#define ANSWERED(place, room, result) expect(__LINE__, place, room, HP_ANSWERED, result)
#define NO_ROOM(place, room, result) expect(__LINE__, place, room, HP_NO_ROOM, result)

static void expect_file(int line, struct told due)
{
    struct lent in = lend_copy(file.bytes, file.length, at_end);
    int before = failures;
    check_file(in.bytes, in.length, &due);
    if (failures != before)
        printf("  of the file of line %d\n", line);
    give_back(&in);
}

/* What stands at a place: an event or a move, by the check of it. */
static void expect_at(int line, const char *what, void (*check)(const uint8_t *, size_t, size_t, const struct told *), size_t place,
                      struct told due)
{
    struct lent in = lend_copy(file.bytes, file.length, at_end);
    int before = failures;
    check(in.bytes, in.length, place, &due);
    if (failures != before)
        printf("  of the %s of line %d\n", what, line);
    give_back(&in);
}

#define FILE_HOLDS(p, portfolio, moves, first, days, events) expect_file(__LINE__, held(p, portfolio, moves, first, days, events))
#define EVENT_BY(place, d, s, e, n, method) expect_at(__LINE__, "event", check_event, place, event_of(d, s, e, n, method))
#define EVENT_IS(place, d, s, e, n) EVENT_BY(place, d, s, e, n, HP_METHOD_HIGH)
#define MOVE_IS(place, from, to) expect_at(__LINE__, "move", check_move, place, move_of(from, to))
#define NO_MOVE(place) MOVE_IS(place, NONE, NONE)
#define FILE_REFUSED(offset) expect_file(__LINE__, told_refusal(HP_BAD_FILE, offset, NONE))
#define EVENT_REFUSED(place, number, first) expect_at(__LINE__, "event", check_event, place, told_refusal(number, first, NONE))
#define MOVE_REFUSED(place, offset) expect_at(__LINE__, "move", check_move, place, told_refusal(HP_BAD_FILE, offset, NONE))

static void worked_case(void)
{
    uint8_t out[HP_MOST_BYTES];
    put_worked(&file);
    FILE_HOLDS(6900, 77, 0, 6951, 22, 2);
    EVENT_IS(0, 6972, 152, 156, 148);
    EVENT_IS(1, 6966, 152, 156, 148);
    NO_MOVE(0);
    ANSWERED(0, 16, worked_answer());
    ANSWERED(0, 17, worked_answer());
    ANSWERED(0, HP_MOST_BYTES, worked_answer());
    REFUSED(1, 16, HP_MARGIN_TOO_SHORT, 42, NONE);
    memmove(file.bytes + 1, file.bytes, file.length); /* a file at an odd address */
    CHECK(hp_baseline(file.bytes + 1, file.length, 0, out, 16) == HP_ANSWERED && word_at(out) == 30348);
    CHECK(hp_told(file.bytes + 1, file.length, 0, HP_ADJUSTMENT) == 264);
}

/* Places where the worked file has no event, and two moves before its days no third; the last two are 0 and 1 to a narrower number. */
static void far_places(void)
{
    static const size_t far[] = {2, SIZE_MAX, (size_t)1 << 32, ((size_t)1 << 32) + 1};
    size_t i;
    put_worked(&file);
    for (i = 0; i < sizeof far / sizeof far[0]; i++) {
        REFUSED(far[i], 16, HP_NO_EVENT, NONE, NONE);
        REFUSED(far[i], 0, HP_NO_EVENT, NONE, NONE);
        EVENT_REFUSED(far[i], HP_NO_EVENT, NONE);
        NO_MOVE(far[i]);
    }
    put_head(&file, 6900, 77);
    put_far_moves(&file, 2);
    put_worked_days(&file);
    for (i = 0; i < sizeof far / sizeof far[0]; i++)
        NO_MOVE(far[i]);
}

/* Numbers at their ends, as they stand in a file. */
static void highest_numbers(void)
{
    put_head(&file, 65535, UINT32_MAX);
    put_move(&file, 65535, 0);
    put_move(&file, 0, 65535);
    put_day(&file, 65535, 255, HP_MISSING);
    put_event_by(&file, 65535, 255, 255, 255, 255);
    FILE_HOLDS(65535, 4294967295, 2, 65535, 1, 1);
    MOVE_IS(0, 65535, 0);
    MOVE_IS(1, 0, 65535);
    EVENT_BY(0, 65535, 255, 255, 255, 255);
    put_head(&file, 0, 0);
    put_event(&file, 0, 0, 0, 0);
    FILE_HOLDS(0, 0, 0, 0, 0, 1);
    EVENT_IS(0, 0, 0, 0, 0);
}

/* 1 to 3: the table. */
static void refused_tables(void)
{
    put_head(&file, 6900, 77);
    put_event(&file, 6972, 152, 156, 148);
    FILE_HOLDS(6900, 77, 0, 0, 0, 1);
    REFUSED(0, 16, HP_BAD_TABLE, NONE, NONE);
    REFUSED(0, 0, HP_BAD_TABLE, NONE, NONE);
    put_head(&file, 36524, 77);
    put_day(&file, 36524, 0, 1);
    put_day(&file, 36525, 0, 1);
    put_event(&file, 36524, 152, 156, 148);
    REFUSED(0, 16, HP_BAD_TABLE, NONE, NONE);

    put_worked(&file);
    file.bytes[8 + 14 * DAY_BYTES + 4] = 4;
    file.bytes[8 + 15 * DAY_BYTES + 4] = 255;
    REFUSED(0, 16, HP_BAD_MARK, 14, NONE);
    REFUSED(1, 0, HP_BAD_MARK, 14, NONE);
    put_worked(&file);
    file.bytes[8 + 4] = 128;
    REFUSED(0, 16, HP_BAD_MARK, 0, NONE);

    put_worked(&file);
    set_reading(&file, 99, HP_HIGHEST + 1);
    set_reading(&file, 100, HP_MISSING - 1);
    REFUSED(0, 16, HP_BAD_READING, 99, NONE);
    set_reading(&file, 99, HP_HIGHEST);
    REFUSED(0, 16, HP_BAD_READING, 100, NONE);
    set_reading(&file, 100, HP_MISSING);
    ANSWERED(0, 16, worked_answer());
    set_reading(&file, 22 * QUARTERS - 1, HP_MISSING - 1);
    REFUSED(0, 16, HP_BAD_READING, 22 * QUARTERS - 1, NONE);
}

/* 4 to 7: the request and the room. */
static void refused_requests(void)
{
    static const uint32_t days[] = {6951, 6965};
    struct result whole_day = answered(days, 2, 21, -6000, 96, 24000);
    whole_day.numerators[56] = 24084;
    put_head(&file, 6900, 77);
    put_worked_days(&file);
    put_event(&file, 6972, 95, 156, 90);
    put_event(&file, 6972, 152, 152, 148);
    put_event(&file, 6972, 152, 193, 148);
    put_event(&file, 6972, 152, 156, 153);
    put_event(&file, 6950, 152, 156, 148);
    put_event(&file, 6973, 152, 156, 148);
    put_event(&file, 6972, 96, 192, 96);
    REFUSED(0, 0, HP_BAD_REQUEST, NONE, NONE);
    REFUSED(1, 16, HP_BAD_REQUEST, NONE, NONE);
    REFUSED(2, HP_MOST_BYTES, HP_BAD_REQUEST, NONE, NONE);
    REFUSED(3, 16, HP_BAD_REQUEST, NONE, NONE);
    REFUSED(4, 16, HP_NOT_HELD, NONE, NONE);
    REFUSED(5, 0, HP_NOT_HELD, NONE, NONE);
    NO_ROOM(6, 383, whole_day);
    ANSWERED(6, 384, whole_day);
    ANSWERED(6, 385, whole_day);

    put_worked(&file);
    file.bytes[2] = file.bytes[3] = 0xFF;
    REFUSED(0, 16, HP_BAD_REQUEST, NONE, NONE);
    file.bytes[2] = 6973 & 0xFF;
    file.bytes[3] = 6973 >> 8;
    REFUSED(0, 16, HP_NOT_YET_PARTICIPATING, NONE, NONE);
    REFUSED(0, 0, HP_NOT_YET_PARTICIPATING, NONE, NONE);

    put_worked(&file);
    NO_ROOM(0, 0, worked_answer());
    NO_ROOM(0, 15, worked_answer());
    ANSWERED(0, 16, worked_answer());
    NO_ROOM(1, 15, refused(HP_MARGIN_TOO_SHORT, 42, NONE));
}

/* 8 to 10: the choice and the adjustment window. */
static void refused_choices(void)
{
    static const uint32_t with_spare[] = {6965, 6958}, days[] = {6951, 6965};
    struct result later_window = answered(days, 2, 21, -6000, 4, 24000);
    uint32_t i;
    put_worked(&file);
    REFUSED(1, 16, HP_MARGIN_TOO_SHORT, 42, NONE);
    file.bytes[2] = 6972 & 0xFF;
    file.bytes[3] = 6972 >> 8;
    REFUSED(0, 16, HP_TOO_FEW, 0, 0);
    put_head(&file, 6958, 77);
    put_worked_days(&file);
    file.bytes[8 + 7 * DAY_BYTES + 4] = HP_MARK_OUTAGE;
    put_event(&file, 6972, 152, 156, 148);
    REFUSED(0, 16, HP_TOO_FEW, 1, 14);
    NO_ROOM(0, 15, refused(HP_TOO_FEW, 1, 14));
    file.bytes[8 + 7 * DAY_BYTES + 4] = HP_MARK_EVENT;
    ANSWERED(0, 16, answered(with_spare, 2, 14, 2664, 4, 30264));
    put_worked(&file);
    for (i = 20 * QUARTERS; i < 21 * QUARTERS + 56; i++)
        set_reading(&file, i, HP_MISSING);
    REFUSED(0, 16, HP_NO_ADJUSTMENT_WINDOW, 21, NONE);
    for (i = 21 * QUARTERS + 44; i < 21 * QUARTERS + 56; i++)
        set_reading(&file, i, 1000);
    later_window.numerators[0] = 24084;
    ANSWERED(0, 16, later_window);
}

/* So many moves before the days of the worked case, and its first event. */
static void put_moved(uint32_t moves)
{
    put_head(&file, 6900, 77);
    put_far_moves(&file, moves);
    put_worked_days(&file);
    put_event(&file, 6972, 152, 156, 148);
}

/* Up to 16 moves are taken, whatever follows them; a seventeenth is refused where it starts. */
static void most_moves(void)
{
    uint32_t moves, i;
    for (moves = 0; moves <= HP_MOST_MOVES; moves++) {
        put_moved(moves);
        FILE_HOLDS(6900, 77, moves, 6951, 22, 1);
        for (i = 0; i < moves; i++)
            MOVE_IS(i, far_holiday(i), far_holiday(i) + 3);
        NO_MOVE(moves);
        EVENT_IS(0, 6972, 152, 156, 148);
        ANSWERED(0, 16, worked_answer());
        put_head(&file, 6900, 77);
        put_far_moves(&file, moves);
        FILE_HOLDS(6900, 77, moves, 0, 0, 0);
        put_event(&file, 6972, 152, 156, 148);
        FILE_HOLDS(6900, 77, moves, 0, 0, 1);
        REFUSED(0, 16, HP_BAD_TABLE, NONE, NONE);
    }
    put_moved(HP_MOST_MOVES + 1);
    REFUSED(0, 16, HP_BAD_FILE, 8 + 16 * MOVE_BYTES, NONE);
    FILE_REFUSED(8 + 16 * MOVE_BYTES);
    MOVE_REFUSED(0, 8 + 16 * MOVE_BYTES);
    put_head(&file, 6900, 77);
    put_far_moves(&file, HP_MOST_MOVES + 1);
    FILE_REFUSED(8 + 16 * MOVE_BYTES);
}

/* The file ends in a move that is refused at this offset, also where one stands before the first day. */
static void expect_misplaced(int64_t offset)
{
    put_move(&file, 8887, 8893);
    REFUSED(0, 16, HP_BAD_FILE, offset, NONE);
    FILE_REFUSED(offset);
    EVENT_REFUSED(0, HP_BAD_FILE, offset);
    MOVE_REFUSED(0, offset);
    MOVE_REFUSED(SIZE_MAX, offset);
}

/* 11: moves after a day or an event, or before PF. */
static void misplaced_moves(void)
{
    put_head(&file, 6900, 77);
    put_day(&file, 6951, 0, 7);
    expect_misplaced(8 + DAY_BYTES);
    put_day(&file, 6952, 0, 7);
    FILE_REFUSED(8 + DAY_BYTES);
    put_head(&file, 6900, 77);
    put_event(&file, 6951, 152, 156, 148);
    expect_misplaced(8 + EVENT_BYTES);
    put_moved(1);
    expect_misplaced(8 + MOVE_BYTES + 22 * DAY_BYTES + EVENT_BYTES);
    file.length = 0;
    put_move(&file, 8887, 8893);
    put(&file, 0, 2);
    FILE_REFUSED(0);
    MOVE_REFUSED(0, 0);
}

/* 14: what the moves say is carried by any file, and refused at each event: after 1, 2 and 3, and before 4. */
static void refused_moves(void)
{
    static const uint32_t bad[][4] = {{8888, 8893, 8887, 8893}, {8887, 8893, 8887, 8894}, {8887, 36525, 121, 122}, {121, 122, 36525, 0}};
    size_t i;
    for (i = 0; i < sizeof bad / sizeof bad[0]; i++) {
        put_head(&file, 6900, 77);
        put_move(&file, bad[i][0], bad[i][1]);
        put_move(&file, bad[i][2], bad[i][3]);
        put_event(&file, 6972, 152, 156, 148);
        REFUSED(0, 16, HP_BAD_TABLE, NONE, NONE);
        file.length -= EVENT_BYTES;
        put_worked_days(&file);
        put_event(&file, 6972, 152, 156, 148);
        put_event(&file, 6973, 95, 156, 200);
        FILE_HOLDS(6900, 77, 2, 6951, 22, 2);
        MOVE_IS(0, bad[i][0], bad[i][1]);
        MOVE_IS(1, bad[i][2], bad[i][3]);
        EVENT_IS(1, 6973, 95, 156, 200);
        REFUSED(0, 16, HP_BAD_MOVES, NONE, NONE);
        REFUSED(1, 0, HP_BAD_MOVES, NONE, NONE);
        REFUSED(2, 0, HP_NO_EVENT, NONE, NONE);
        set_reading(&file, 2111, HP_HIGHEST + 1);
        REFUSED(0, 16, HP_BAD_READING, 2111, NONE);
        file.bytes[reading_at(2, 0) - 2] = 4;
        REFUSED(0, 16, HP_BAD_MARK, 0, NONE);
    }
}

/* 1 May 2024 (8887) moved to 7 May (8893): events of both, of Easter Sunday (8891) and of Thursday 9 May, over days of 1000 kW. */
static void labour_day(void)
{
    static const uint32_t events[] = {8887, 8893, 8891, 8895};
    static const uint32_t without[][5] = {{8884, 8877}, {8888, 8886, 8885, 8882, 8881}, {8890, 8889}, {8893, 8888, 8886, 8885, 8882}};
    static const uint32_t with[][5] = {{8885, 8882, 8881, 8880, 8879}, {8892, 8891}, {8890, 8889}, {8888, 8887, 8886, 8885, 8882}};
    static const int64_t reach[2][4] = {{17, 19, 4, 20}, {15, 3, 7, 20}};
    uint32_t moves, day, i;
    for (moves = 0; moves < 2; moves++) {
        put_head(&file, 0, 1);
        if (moves)
            put_move(&file, 8887, 8893);
        for (day = 8840; day <= 8895; day++)
            put_day(&file, day, 0, 1000);
        for (i = 0; i < 4; i++)
            put_event(&file, events[i], 152, 156, 148);
        for (i = 0; i < 4; i++) {
            const uint32_t *days = moves ? with[i] : without[i], count = days[2] ? 5 : 2;
            ANSWERED(i, 16, answered(days, count, reach[moves][i], 0, 4, 12000 * count));
        }
    }
}

/* Days from 14 July 2024 (8961) to Wednesday 28 August (9006), participation from this day on; each day is one kW below the day before it, so that the
 * farthest rank highest. */
static void put_sloping(uint32_t p)
{
    uint32_t day;
    put_head(&file, p, 7);
    for (day = 8961; day <= 9006; day++)
        put_day(&file, day, 0, 2000 - (day - 8961));
}

/* One event by each method, and by methods that are unknown: the file is read, these are refused 4, and the others are answered. */
static void methods(void)
{
    static const uint32_t middle[] = {8997, 8998}, highest[] = {8990, 8991, 8992, 8994, 8997}, few[] = {9000, 9001};
    static const uint32_t events[] = {0, 1, 2, 255, 1, 128, 0};
    uint32_t i;
    put_sloping(8000);
    for (i = 0; i < 7; i++)
        put_event_by(&file, 9006, 152, 156, 148, events[i]);
    FILE_HOLDS(8000, 7, 0, 8961, 46, 7);
    for (i = 0; i < 7; i++) {
        EVENT_BY(i, 9006, 152, 156, 148, events[i]);
        if (events[i] == HP_METHOD_HIGH)
            ANSWERED(i, 16, answered(highest, 5, 16, 60 * 1955 - 12 * 9841, 4, 60 * 1955));
        else if (events[i] == HP_METHOD_AVERAGE)
            ANSWERED(i, 16, averaged(middle, 2, 16, 4, 1964 + 1963));
        else
            REFUSED(i, 16, HP_BAD_REQUEST, NONE, NONE);
    }
    NO_ROOM(1, 15, averaged(middle, 2, 16, 4, 1964 + 1963));
    put_sloping(8999); /* 7 days before the event, and 6 */
    put_event_by(&file, 9006, 152, 156, 148, HP_METHOD_AVERAGE);
    ANSWERED(0, 16, averaged(few, 2, 7, 4, 1961 + 1960));
    put_sloping(9000);
    put_event_by(&file, 9006, 152, 156, 148, HP_METHOD_AVERAGE);
    REFUSED(0, 16, HP_TOO_FEW, 3, 6);
}

/* Every byte is a method that the reader takes; it is told, and refused where it is unknown. */
static void every_method(void)
{
    uint32_t method;
    put_worked(&file);
    for (method = 0; method <= 255; method++) {
        file.bytes[file.length - EVENT_BYTES - 1] = (uint8_t)method;
        FILE_HOLDS(6900, 77, 0, 6951, 22, 2);
        EVENT_BY(0, 6972, 152, 156, 148, method);
        EVENT_IS(1, 6966, 152, 156, 148);
        if (method == HP_METHOD_HIGH)
            ANSWERED(0, 16, worked_answer());
        else
            REFUSED(0, 16, method == HP_METHOD_AVERAGE ? HP_MARGIN_TOO_SHORT : HP_BAD_REQUEST, method == HP_METHOD_AVERAGE ? 42 : NONE, NONE);
    }
}

/* Saturdays of the worked case, by participation from three of them before the event on: three, two, one and none. */
static void saturdays(void)
{
    static const uint32_t days[] = {6965, 6958};
    static const uint32_t start[] = {6951, 6952, 6959, 6966};
    uint32_t i;
    for (i = 0; i < 4; i++) {
        put_head(&file, start[i], 77);
        put_worked_days(&file);
        put_event_by(&file, 6972, 152, 156, 148, HP_METHOD_AVERAGE);
        if (i < 3)
            ANSWERED(0, 16, averaged(days, i < 2 ? 2 : 1, 21 - 7 * i, 4, i < 2 ? 2300 : 1200));
        else
            REFUSED(0, 16, HP_TOO_FEW, 0, 0);
    }
}

/* 11 and 12: the file. */
static void refused_files(void)
{
    int i;
    put_worked(&file);
    file.length--;
    REFUSED(0, 16, HP_BAD_FILE, 8596, NONE);
    REFUSED(9, 16, HP_BAD_FILE, 8596, NONE);
    FILE_REFUSED(8596);
    EVENT_REFUSED(0, HP_BAD_FILE, 8596);
    MOVE_REFUSED(0, 8596);
    file.length = 0;
    REFUSED(0, 16, HP_BAD_FILE, 0, NONE);
    FILE_REFUSED(0);
    EVENT_REFUSED(SIZE_MAX, HP_BAD_FILE, 0);
    MOVE_REFUSED(SIZE_MAX, 0);
    put_head(&file, 0, 0);
    for (i = 0; i < 65; i++)
        put_event(&file, 0, 96, 97, 0);
    REFUSED(0, 4, HP_BAD_FILE, 8 + 64 * EVENT_BYTES, NONE);
    file.length -= EVENT_BYTES;
    FILE_HOLDS(0, 0, 0, 0, 0, 64);
    REFUSED(63, 4, HP_BAD_TABLE, NONE, NONE);
    REFUSED(64, 4, HP_NO_EVENT, NONE, NONE);
}

/* A file with so many moves, cut at every length. */
static void cut_files(uint32_t moves)
{
    uint8_t whole[2048];
    size_t start = 8 + MOVE_BYTES * moves, length, size, record = 0; /* start: of the days */
    put_head(&file, 6900, 77);
    put_far_moves(&file, moves);
    put_day(&file, 6951, 0, 7);
    put_day(&file, 6952, 0, 7);
    put_event(&file, 6952, 152, 156, 148);
    size = file.length;
    memcpy(whole, file.bytes, size);
    for (length = 0; length < size; length++) {
        size_t whole_moves = length < 8 ? 0 : length < start ? (length - 8) / MOVE_BYTES : moves;
        size_t days = length < start ? 0 : (length - start) / DAY_BYTES;
        record = length < 8 ? 0 : 8 + MOVE_BYTES * whole_moves + DAY_BYTES * days;
        memcpy(file.bytes, whole, length);
        file.length = length;
        if (length > 0 && length == record) {
            REFUSED(0, 16, HP_NO_EVENT, NONE, NONE);
            EVENT_REFUSED(0, HP_NO_EVENT, NONE);
            FILE_HOLDS(6900, 77, (int64_t)whole_moves, days == 0 ? 0 : 6951, (int64_t)days, 0);
            NO_MOVE(whole_moves);
        } else {
            REFUSED(0, 16, HP_BAD_FILE, (int64_t)record, NONE);
            EVENT_REFUSED(0, HP_BAD_FILE, (int64_t)record);
            MOVE_REFUSED(0, (int64_t)record);
            FILE_REFUSED((int64_t)record);
        }
    }
}

/* One byte that is laid down, altered: the file is refused at that record. */
static void expect_altered(size_t offset, uint8_t byte, int64_t record)
{
    uint8_t was = file.bytes[offset];
    file.bytes[offset] = byte;
    REFUSED(0, 16, HP_BAD_FILE, record, NONE);
    FILE_REFUSED(record);
    file.bytes[offset] = was;
}

static void altered_files(void)
{
    put_worked(&file);
    expect_altered(0, 'p', 0);
    expect_altered(1, 'f', 0);
    expect_altered(8 + DAY_BYTES, 'E', 8 + DAY_BYTES);
    expect_altered(8 + DAY_BYTES + 1, 'V', 8 + DAY_BYTES);
    expect_altered(8 + DAY_BYTES + 2, 1, 8 + DAY_BYTES); /* not the next day */
    expect_altered(8 + 5, 1, 8);
    expect_altered(8 + 21 * DAY_BYTES + 5, 255, 8 + 21 * DAY_BYTES);
    expect_altered(8 + 22 * DAY_BYTES, 'D', 8 + 22 * DAY_BYTES);
    expect_altered(8 + 22 * DAY_BYTES + 1, 'Y', 8 + 22 * DAY_BYTES);
    expect_altered(file.length - EVENT_BYTES, 'e', 8 + 22 * DAY_BYTES + EVENT_BYTES);
    ANSWERED(0, 16, worked_answer());
    put_moved(2);
    expect_altered(8, 'm', 8);
    expect_altered(9, 'v', 8);
    expect_altered(8 + MOVE_BYTES, 'D', 8 + MOVE_BYTES);
    expect_altered(8 + MOVE_BYTES + 1, 'F', 8 + MOVE_BYTES);
    expect_altered(8 + 2 * MOVE_BYTES, 'M', 8 + 2 * MOVE_BYTES);
    ANSWERED(0, 16, worked_answer());
}

/* The most days: 128 are taken, 129 are not. */
static void most_days(void)
{
    static const uint32_t days[] = {9004, 9001, 9000, 8999, 8998}; /* 26, 23, 22, 21 and 20 August 2024 */
    uint32_t day;
    put_head(&file, 0, 0);
    for (day = 0; day < 128; day++)
        put_day(&file, 8879 + day, 0, 1000);
    put_event(&file, 9006, 152, 156, 148);
    FILE_HOLDS(0, 0, 0, 8879, 128, 1);
    ANSWERED(0, 16, answered(days, 5, 16, 0, 4, 60000));
    put_head(&file, 0, 0);
    for (day = 0; day < 129; day++)
        put_day(&file, 8879 + day, 0, 1000);
    REFUSED(0, 16, HP_BAD_FILE, 8 + 128 * DAY_BYTES, NONE);
}

/* A text, with room for more than any listing. */
struct text {
    char bytes[1 << 18];
    size_t length;
};

/* hp_listing gives this text: with just its room, with more and with room for any, the rest kept; with a byte less it writes nothing. */
static void expect_listing(int line, const char *text, size_t length)
{
    size_t rooms[] = {0, length - 1, length, length + 1, HP_MOST_LISTING - 1, HP_MOST_LISTING, HP_MOST_LISTING + 1}, i;
    struct lent in = lend_copy(file.bytes, file.length, at_end);
    int before = failures;
    CHECK(length <= HP_MOST_LISTING);
    for (i = 0; i < sizeof rooms / sizeof rooms[0]; i++) {
        struct lent out = lend(rooms[i], at_end);
        size_t written = rooms[i] < length ? 0 : length;
        CHECK(hp_listing(in.bytes, in.length, out.bytes, rooms[i]) == (written ? (int64_t)length : -HP_NO_ROOM));
        CHECK(kept(&out, written) && memcmp(out.bytes, text, written) == 0);
        give_back(&out);
    }
    if (failures != before)
        printf("  in the listing of line %d, %zu bytes\n", line, length);
    give_back(&in);
}

#define PRINT(...) (text->length += (size_t)snprintf(text->bytes + text->length, sizeof text->bytes - text->length, __VA_ARGS__))
#define OF_FILE(name) hp_file(file.bytes, file.length, name)
#define OF_EVENT(name) hp_event(file.bytes, file.length, place, name)
#define OF_RESULT(name) hp_told(file.bytes, file.length, place, name)

/* What is told by names that follow one another, each after a space. */
static void print_told(struct text *text, size_t place, uint32_t from, uint32_t to)
{
    uint32_t name;
    for (name = from; name <= to; name++)
        if (OF_RESULT(name) != HP_NOTHING)
            PRINT(" %" PRId64, OF_RESULT(name));
}

static void print_event(struct text *text, size_t place)
{
    uint8_t out[HP_MOST_BYTES];
    int64_t s = OF_EVENT(HP_EVENT_START), e = OF_EVENT(HP_EVENT_END), over = OF_RESULT(HP_DENOMINATOR), t;
    uint32_t number = hp_baseline(file.bytes, file.length, place, out, sizeof out);
    PRINT("%" PRId64 " %" PRId64 " %" PRId64, OF_EVENT(HP_EVENT_DAY), s, e);
    if (number != HP_ANSWERED) {
        PRINT(" refused %" PRIu32, number);
        print_told(text, place, HP_CARRIED, HP_CARRIED_SECOND);
        PRINT("\n");
        return;
    }
    PRINT(" days");
    print_told(text, place, HP_COUNT, HP_DAY_5);
    PRINT(" reach %" PRId64 " over %" PRId64 " adj %" PRId64 "\n", OF_RESULT(HP_REACH), over, OF_RESULT(HP_ADJUSTMENT));
    for (t = s; t < e; t++) {
        int64_t numerator = word_at(out + 4 * (t - s));
        PRINT("%" PRId64 " %" PRId64 " %" PRId64 "\n", t, numerator, (2 * numerator + over) / (2 * over));
    }
}

/* The listing as the other entries tell it. */
static void print_file(struct text *text)
{
    size_t place;
    text->length = 0;
    if (OF_FILE(HP_RESULT) != HP_ANSWERED) {
        PRINT("file refused %" PRId64 "\n", OF_FILE(HP_CARRIED));
        return;
    }
    PRINT("portfolio %" PRId64 " from %" PRId64, OF_FILE(HP_FILE_PORTFOLIO), OF_FILE(HP_FILE_PARTICIPATION));
    PRINT(" held %" PRId64 " %" PRId64 "\n", OF_FILE(HP_FILE_FIRST), OF_FILE(HP_FILE_DAYS));
    for (place = 0; (int64_t)place < OF_FILE(HP_FILE_EVENTS); place++)
        print_event(text, place);
}

static void expect_listing_by_entries(int line)
{
    static struct text text;
    print_file(&text);
    expect_listing(line, text.bytes, text.length);
}

static void sample_listing(const char *name)
{
    static struct text text;
    file.length = read_sample(name, ".rec", file.bytes, sizeof file.bytes);
    text.length = read_sample(name, ".listing", text.bytes, sizeof text.bytes);
    CHECK(file.length > 0 && text.length > 0);
    expect_listing(__LINE__, text.bytes, text.length);
    expect_listing_by_entries(__LINE__);
}

#define LISTED(text) expect_listing(__LINE__, text, strlen(text))

static void listings(void)
{
    file.length = 0;
    LISTED("file refused 0\n");
    put_head(&file, 65535, UINT32_MAX);
    LISTED("portfolio 4294967295 from 65535 held 0 0\n");
    put_event(&file, 65535, 255, 255, 255);
    LISTED("portfolio 4294967295 from 65535 held 0 0\n65535 255 255 refused 1\n");
    put_worked(&file);
    LISTED("portfolio 77 from 6900 held 6951 22\n6972 152 156 days 2 6951 6965 reach 21 over 24 adj 264\n152 30348 1265\n153 30264 1261\n"
           "154 30264 1261\n155 30264 1261\n6966 152 156 refused 8 42\n");
    file.length--;
    LISTED("file refused 8596\n");
    put_sloping(8000);
    put_event_by(&file, 9006, 152, 154, 148, HP_METHOD_AVERAGE);
    put_event_by(&file, 9006, 152, 154, 148, 2);
    put_event_by(&file, 9006, 152, 154, 148, HP_METHOD_HIGH);
    LISTED("portfolio 7 from 8000 held 8961 46\n9006 152 154 days 2 8997 8998 reach 16 over 2 adj 0\n152 3927 1964\n153 3927 1964\n"
           "9006 152 154 refused 4\n9006 152 154 days 5 8990 8991 8992 8994 8997 reach 16 over 60 adj -792\n152 117300 1955\n153 117300 1955\n");
    put_head(&file, 6965, 77);
    put_worked_days(&file);
    put_event_by(&file, 6972, 152, 154, 148, HP_METHOD_AVERAGE);
    LISTED("portfolio 77 from 6965 held 6951 22\n6972 152 154 days 1 6965 reach 7 over 1 adj 0\n152 1200 1200\n153 1200 1200\n");
    put_moved(HP_MOST_MOVES);
    LISTED("portfolio 77 from 6900 held 6951 22\n6972 152 156 days 2 6951 6965 reach 21 over 24 adj 264\n152 30348 1265\n153 30264 1261\n"
           "154 30264 1261\n155 30264 1261\n");
    file.bytes[8 + 2]++;
    LISTED("portfolio 77 from 6900 held 6951 22\n6972 152 156 refused 14\n");
    put_moved(HP_MOST_MOVES + 1);
    LISTED("file refused 104\n");
}

/* The largest file, with the longest listing that we could make (HP_MOST_LISTING is what is proved of any): 64 events over the whole of Wednesday
 * 30 December 2099. The adjustment window, the last twelve quarters of the day before, is at the highest; on every other day those quarters are 0
 * and all others at the highest. So the adjustment is the highest, and so are the numerators but those of the twelve, whose mean is never above
 * 600,000,000. */
static void put_longest(void)
{
    uint32_t day, i;
    put_head(&file, 36396, UINT32_MAX);
    put_far_moves(&file, HP_MOST_MOVES);
    for (day = 36396; day <= 36523; day++)
        put_day(&file, day, 0, HP_HIGHEST);
    for (i = 0; i < 128 * QUARTERS; i++)
        if (i % QUARTERS >= 84 && i / QUARTERS != 126)
            set_reading(&file, i, 0);
    for (i = 0; i < 64; i++)
        put_event(&file, 36523, 96, 192, 96);
}

static void print_longest(struct text *text)
{
    int event, t;
    text->length = 0;
    PRINT("portfolio 4294967295 from 36396 held 36396 128\n");
    for (event = 0; event < 64; event++) {
        PRINT("36523 96 192 days 5 36521 36517 36516 36515 36514 reach 16 over 60 adj 600000000\n");
        for (t = 96; t < 192; t++)
            PRINT("%d %s\n", t, t < 180 ? "1200000000 20000000" : "600000000 10000000");
    }
}

static void longest_listing(void)
{
    static struct text text;
    put_longest();
    print_longest(&text);
    CHECK(file.length == HP_MOST_FILE && text.length == 151663);
    CHECK(strcmp(text.bytes + text.length - 23, "191 600000000 10000000\n") == 0);
    expect_listing(__LINE__, text.bytes, text.length);
    expect_listing_by_entries(__LINE__);
    put_event(&file, 36523, 96, 192, 96);
    LISTED("file refused 50536\n");
}

/* Every pointer NULL with a length of 0. */
static void nothing_lent(void)
{
    CHECK(hp_baseline(NULL, 0, 0, NULL, 0) == HP_BAD_FILE);
    CHECK(hp_told(NULL, 0, 0, HP_RESULT) == HP_BAD_FILE && hp_told(NULL, 0, 0, HP_CARRIED) == 0);
    CHECK(hp_file(NULL, 0, HP_RESULT) == HP_BAD_FILE && hp_file(NULL, 0, HP_CARRIED) == 0);
    CHECK(hp_event(NULL, 0, 0, HP_RESULT) == HP_BAD_FILE && hp_event(NULL, 0, 0, HP_CARRIED) == 0);
    CHECK(hp_move(NULL, 0, 0, HP_RESULT) == HP_BAD_FILE && hp_move(NULL, 0, 0, HP_CARRIED) == 0);
    CHECK(hp_listing(NULL, 0, NULL, 0) == -HP_NO_ROOM);
    put_worked(&file);
    CHECK(hp_baseline(file.bytes, file.length, 0, NULL, 0) == HP_NO_ROOM);
    CHECK(hp_listing(file.bytes, file.length, NULL, 0) == -HP_NO_ROOM);
}

int main(void)
{
    for (at_end = 0; at_end < 2; at_end++) {
        worked_case();
        far_places();
        highest_numbers();
        refused_tables();
        refused_requests();
        refused_choices();
        refused_files();
        most_moves();
        misplaced_moves();
        refused_moves();
        labour_day();
        methods();
        every_method();
        saturdays();
        cut_files(0);
        cut_files(2);
        altered_files();
        most_days();
        listings();
        longest_listing();
        each_sample(sample_listing);
        nothing_lent();
    }
    return checked("files");
}
