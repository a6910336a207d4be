/* The writer: the worked case, files of every length, each refusal, what is written read back, and every buffer between guards. */
#include "check.h"
#include "honeyplank.h"
#include "record.h"
#include "sample.h"
#include "told.h"
#include "values.h"

static struct values values;
static struct record_file file; /* what the values have to be written as */
static int at_end;

/* hp_write with so many bytes gives this, and writes the file where that is its length. */
static void expect(int line, size_t room, int64_t due)
{
    struct lent m = lend_copy(values.marks, values.days, at_end), r = lend_copy(values.readings, 4 * values.count, at_end);
    struct lent l = lend_copy(values.moves, 4 * values.moved, at_end), v = lend_copy(values.events, 4 * values.numbers, at_end);
    struct lent out = lend(room, at_end);
    const uint32_t *readings = (const uint32_t *)(const void *)r.bytes, *moves = (const uint32_t *)(const void *)l.bytes;
    const uint32_t *events = (const uint32_t *)(const void *)v.bytes;
    size_t written = due < 0 ? 0 : (size_t)due;
    int before = failures;
    int64_t given = hp_write(values.p, values.portfolio, values.first, m.bytes, values.days, readings, values.count, moves, values.moved,
                             events, values.numbers, out.bytes, room);
    CHECK(given == due);
    CHECK(kept(&out, written) && memcmp(out.bytes, file.bytes, written) == 0);
    if (failures != before)
        printf("  in the call of line %d, with %zu bytes: %lld is due, %lld is given\n", line, room, (long long)due, (long long)given);
    give_back(&m);
    give_back(&r);
    give_back(&l);
    give_back(&v);
    give_back(&out);
}

/* Refused with no room and with enough: what is refused for room comes last. */
static void expect_refused(int line, int64_t number)
{
    expect(line, 0, -number);
    expect(line, 8 + MOVE_BYTES * (values.moved / 2 + 1) + DAY_BYTES * values.days + EVENT_BYTES * (values.numbers / EVENT_NUMBERS + 1), -number);
}

/* With just its room the file is written, with a byte less nothing is. */
static void expect_written(int line)
{
    put_values(&file, &values);
    expect(line, file.length, (int64_t)file.length);
    expect(line, file.length - 1, -HP_NO_ROOM);
}

#define REFUSED(number) expect_refused(__LINE__, number)
#define WRITTEN() expect_written(__LINE__)

/* What is written tells the same values. */
static void expect_read_back(int line)
{
    static uint8_t out[HP_MOST_FILE];
    int64_t given = write_values(&values, out, sizeof out);
    size_t length = given < 0 ? 0 : (size_t)given, i;
    int64_t moves = (int64_t)values.moved / 2, events = (int64_t)values.numbers / EVENT_NUMBERS;
    struct told due = held(values.p, values.portfolio, moves, values.first, (int64_t)values.days, events);
    int before = failures;
    check_file(out, length, &due);
    for (i = 0; i < values.moved / 2; i++) {
        due = move_of(values.moves[2 * i], values.moves[2 * i + 1]);
        check_move(out, length, i, &due);
    }
    for (i = 0; i < values.numbers / EVENT_NUMBERS; i++) {
        const uint32_t *event = values.events + EVENT_NUMBERS * i;
        due = event_of(event[0], event[1], event[2], event[3], event[4]);
        check_event(out, length, i, &due);
    }
    if (failures != before)
        printf("  of the values of line %d\n", line);
}

#define READ_BACK() expect_read_back(__LINE__)

/* Document 01's worked case. */
static void worked(void)
{
    static const uint32_t events[] = {6972, 152, 156, 148, HP_METHOD_HIGH, 6966, 152, 156, 148, HP_METHOD_HIGH};
    memset(&values, 0, sizeof values);
    values.p = 6900, values.portfolio = 77, values.first = 6951;
    values.days = 22, values.count = 22 * QUARTERS, values.numbers = 2 * EVENT_NUMBERS;
    fill_worked(values.readings, HP_MOST_DAYS + 1);
    memcpy(values.events, events, sizeof events);
}

/* So many moves, days and events, with any numbers that their bytes hold; most moves, marks and readings mean nothing. */
static void fill(uint32_t moves, uint32_t days, uint32_t events)
{
    uint32_t i;
    worked();
    values.days = days, values.count = days * QUARTERS, values.moved = 2 * moves, values.numbers = EVENT_NUMBERS * events;
    values.first = days == 0 ? 0 : 250;
    for (i = 0; i < days; i++)
        values.marks[i] = (uint8_t)(255 - i);
    for (i = 0; i < days * QUARTERS; i++)
        values.readings[i] = (i + days) * 2654435761u;
    for (i = 0; i < 2 * moves; i++)
        values.moves[i] = (i + 1) * 2654435761u >> 16;
    for (i = 0; i < EVENT_NUMBERS * events; i++)
        values.events[i] = i * 2654435761u >> (i % EVENT_NUMBERS == 0 ? 16 : 24);
}

/* The worked case is the sample, and has its listing; `out` may stand at any address. */
static void worked_case(void)
{
    static uint8_t sample[16384], listing[4096], out[16384], text[4096];
    size_t size = read_sample("worked", ".rec", sample, sizeof sample), length = read_sample("worked", ".listing", listing, sizeof listing), more;
    worked(), WRITTEN(), READ_BACK();
    CHECK(file.length == size && memcmp(file.bytes, sample, size) == 0);
    CHECK(write_values(&values, out, sizeof out) == (int64_t)size && memcmp(out, sample, size) == 0);
    CHECK(hp_listing(out, size, text, sizeof text) == (int64_t)length && memcmp(text, listing, length) == 0);
    for (more = 1; more <= 16; more++)
        expect(__LINE__, file.length + more, (int64_t)file.length);
    expect(__LINE__, HP_MOST_FILE, (int64_t)file.length);
}

static void every_length(void)
{
    uint32_t moves, days, events;
    for (moves = 0; moves <= HP_MOST_MOVES; moves++) {
        fill(moves, 0, 0), WRITTEN(), READ_BACK();
        CHECK(file.length == 8 + 6 * moves);
        fill(moves, 3, 2), WRITTEN(), READ_BACK();
        CHECK(file.length == 8 + 6 * moves + 3 * 390 + 2 * 8);
    }
    for (days = 0; days <= HP_MOST_DAYS; days++)
        fill(0, days, 0), WRITTEN();
    for (events = 0; events <= HP_MOST_EVENTS; events++)
        fill(0, 0, events), WRITTEN();
    fill(HP_MOST_MOVES, HP_MOST_DAYS, HP_MOST_EVENTS), WRITTEN(), READ_BACK();
    CHECK(file.length == HP_MOST_FILE);
}

static void no_days(void)
{
    fill(0, 0, 0), WRITTEN(), READ_BACK();
    CHECK(file.length == 8);
    worked(), values.days = 0, values.count = 0, values.first = 0, WRITTEN(), READ_BACK();
}

static void highest_numbers(void)
{
    int i;
    fill(1, 1, 1), values.p = 65535, values.portfolio = UINT32_MAX, values.marks[0] = 255;
    values.moves[0] = values.moves[1] = values.events[0] = 65535, values.events[1] = values.events[2] = values.events[3] = values.events[4] = 255;
    for (i = 0; i < QUARTERS; i++)
        values.readings[i] = i % 2 == 0 ? UINT32_MAX : UINT32_MAX - 1;
    WRITTEN(), READ_BACK();
}

/* 1: the table, before all else. */
static void refused_tables(void)
{
    worked(), values.count--, REFUSED(HP_BAD_TABLE);
    worked(), values.count++, REFUSED(HP_BAD_TABLE);
    worked(), values.count = 0, REFUSED(HP_BAD_TABLE);
    worked(), values.days--, REFUSED(HP_BAD_TABLE);
    worked(), values.days = 0, values.first = 0, REFUSED(HP_BAD_TABLE);
    worked(), values.days = 129, values.count = 129 * QUARTERS, REFUSED(HP_BAD_TABLE);
    values.p = values.events[0] = UINT32_MAX, values.numbers = EVENT_NUMBERS * HP_MOST_EVENTS + 1, REFUSED(HP_BAD_TABLE);
    worked(), values.count--, values.first = UINT32_MAX, REFUSED(HP_BAD_TABLE);
    fill(HP_MOST_MOVES + 1, 2, 1), values.count--, REFUSED(HP_BAD_TABLE);
    fill(1, 2, 1), values.count--, values.moved = 1, values.moves[0] = UINT32_MAX, REFUSED(HP_BAD_TABLE);
}

/* 13: P, and how many numbers the events and the moves have. */
static void refused_counts(void)
{
    size_t i;
    for (i = 1; i <= EVENT_NUMBERS * (HP_MOST_EVENTS + 1); i++)
        if (i % EVENT_NUMBERS != 0 || i > EVENT_NUMBERS * HP_MOST_EVENTS)
            fill(0, 2, HP_MOST_EVENTS + 1), values.numbers = i, REFUSED(HP_UNWRITABLE);
    for (i = 1; i <= 2 * HP_MOST_MOVES; i += 2)
        fill(HP_MOST_MOVES + 1, 2, 1), values.moved = i, REFUSED(HP_UNWRITABLE);
    for (i = 2 * HP_MOST_MOVES + 1; i <= 2 * (HP_MOST_MOVES + 1); i++)
        fill(HP_MOST_MOVES + 1, 2, 1), values.moved = i, REFUSED(HP_UNWRITABLE);
    worked(), values.p = 65536, REFUSED(HP_UNWRITABLE);
    worked(), values.p += 65536, REFUSED(HP_UNWRITABLE);
    worked(), values.p = UINT32_MAX, REFUSED(HP_UNWRITABLE);
}

/* 13: days that their bytes don't hold, also where a narrower sum would wrap around to one that they do. */
static void refused_days(void)
{
    static const uint32_t counts[] = {1, 2, 22, HP_MOST_DAYS}, firsts[] = {1, 65535, 65536, 2147483648u, UINT32_MAX};
    size_t i;
    for (i = 0; i < sizeof counts / sizeof counts[0]; i++) {
        fill(0, counts[i], 1), values.first = 65536 - counts[i], WRITTEN(), READ_BACK();
        values.first = 65537 - counts[i], REFUSED(HP_UNWRITABLE);
        values.first = 65536, REFUSED(HP_UNWRITABLE);
        values.first = 2147483648u, REFUSED(HP_UNWRITABLE);
        values.first = 0 - counts[i], REFUSED(HP_UNWRITABLE);
        values.first = UINT32_MAX, REFUSED(HP_UNWRITABLE);
    }
    for (i = 0; i < sizeof firsts / sizeof firsts[0]; i++)
        fill(0, 0, 1), values.first = firsts[i], REFUSED(HP_UNWRITABLE);
}

/* 13: each number of each event, above what its bytes hold. */
static void refused_events(void)
{
    uint32_t i, was;
    fill(0, 0, HP_MOST_EVENTS);
    for (i = 0; i < values.numbers; i++) {
        was = values.events[i];
        values.events[i] = i % EVENT_NUMBERS == 0 ? 65536 : 256, REFUSED(HP_UNWRITABLE);
        values.events[i] = was + (i % EVENT_NUMBERS == 0 ? 65536 : 256), REFUSED(HP_UNWRITABLE);
        values.events[i] = UINT32_MAX, REFUSED(HP_UNWRITABLE);
        values.events[i] = was;
    }
    WRITTEN();
}

/* 13: each day of each move, above what its bytes hold; a day that they hold is written, also past the calendar. */
static void refused_moves(void)
{
    static const uint32_t held[] = {0, HP_LAST_DAY, HP_LAST_DAY + 1, 65535}, beyond[] = {65536, 65537, 131071, 2147483648u, UINT32_MAX};
    uint32_t i, j, was;
    fill(HP_MOST_MOVES, 1, 1);
    for (i = 0; i < values.moved; i++) {
        was = values.moves[i];
        for (j = 0; j < sizeof held / sizeof held[0]; j++)
            values.moves[i] = held[j], WRITTEN();
        for (j = 0; j < sizeof beyond / sizeof beyond[0]; j++)
            values.moves[i] = beyond[j], REFUSED(HP_UNWRITABLE);
        values.moves[i] = was + 65536, REFUSED(HP_UNWRITABLE);
        values.moves[i] = was;
    }
    WRITTEN(), READ_BACK();
}

/* The method of an event: every byte is written and read back, the first above it is 13. */
static void methods(void)
{
    static const uint32_t beyond[] = {256, 257, 65536, 65537, 2147483648u, UINT32_MAX};
    uint32_t method, i;
    for (method = 0; method <= 255; method++) {
        worked(), values.events[4] = method, values.events[9] = 255 - method, WRITTEN(), READ_BACK();
        CHECK(file.bytes[file.length - EVENT_BYTES - 1] == method && file.bytes[file.length - 1] == 255 - method);
    }
    for (i = 0; i < sizeof beyond / sizeof beyond[0]; i++) {
        worked(), values.events[4] = beyond[i], REFUSED(HP_UNWRITABLE);
        worked(), values.events[9] = beyond[i], REFUSED(HP_UNWRITABLE);
    }
}

/* Four numbers an event, as up to version 0.5.0, are refused: they are no multiple of five, or a day stands where a method does. */
static void four_numbers(void)
{
    static const uint32_t old[] = {6972, 152, 156, 148};
    uint32_t events, i;
    for (events = 1; events <= HP_MOST_EVENTS; events++) {
        worked(), values.numbers = 4 * events;
        for (i = 0; i < 4 * events; i++)
            values.events[i] = old[i % 4];
        REFUSED(HP_UNWRITABLE);
    }
    worked(), memset(values.events, 0, sizeof values.events), values.numbers = 20, WRITTEN(), READ_BACK();
    CHECK(file.length == 8 + 22 * DAY_BYTES + 4 * EVENT_BYTES);
}

static int again;

/* A sample that is as laid down is written again byte for byte. */
static void sample_again(const char *name)
{
    file.length = read_sample(name, ".rec", file.bytes, sizeof file.bytes);
    if (hp_file(file.bytes, file.length, HP_RESULT) != HP_ANSWERED)
        return;
    take_values(&values, &file);
    expect(__LINE__, file.length, (int64_t)file.length);
    again++;
}

static void samples_again(void)
{
    again = 0;
    each_sample(sample_again);
    CHECK(again >= 8);
}

/* Every pointer NULL with a length of 0. */
static void nothing_lent(void)
{
    uint8_t out[16];
    CHECK(hp_write(0, 0, 0, NULL, 0, NULL, 0, NULL, 0, NULL, 0, NULL, 0) == -HP_NO_ROOM);
    CHECK(hp_write(0, 0, 1, NULL, 0, NULL, 0, NULL, 0, NULL, 0, NULL, 0) == -HP_UNWRITABLE);
    CHECK(hp_write(6900, 77, 0, NULL, 0, NULL, 0, NULL, 0, NULL, 0, out, 8) == 8 && memcmp(out, "PF\xF4\x1A\x4D\0\0\0", 8) == 0);
    worked();
    CHECK(write_values(&values, NULL, 0) == -HP_NO_ROOM);
    CHECK(hp_write(0, 0, 0, values.marks, 1, NULL, 0, NULL, 0, NULL, 0, out, 16) == -HP_BAD_TABLE);
    CHECK(hp_write(0, 0, 0, NULL, 0, values.readings, QUARTERS, NULL, 0, NULL, 0, out, 16) == -HP_BAD_TABLE);
}

int main(void)
{
    for (at_end = 0; at_end < 2; at_end++) {
        worked_case();
        every_length();
        no_days();
        highest_numbers();
        refused_tables();
        refused_counts();
        refused_days();
        refused_events();
        refused_moves();
        methods();
        four_numbers();
        samples_again();
        nothing_lent();
    }
    return checked("write");
}
