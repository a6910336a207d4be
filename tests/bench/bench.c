/* bench DIR: the proved entries against the same rules in plain C at -O3, built by gcc and by clang, on the same input in one run. Prints
 * nanoseconds a call, the best of the rounds, which take turns, and the ratio of proved to each other way. Every buffer is touched before the
 * clock starts. Writing is also measured against a copy of as many bytes, the limit. The largest file, and the same with loads above eight million
 * kW, are also written to DIR/largest.rec and DIR/high.rec, for the listing programs. The whole working of an event is measured against as many calls of
 * hp_told.
 * bench DIR once: each case once in each way, whose names its line has, between call_begins and call_ends, for an emulator to count instructions.
 * Compiled with GROUPS it also measures the group of a day by itself (tests/bench/groups).
 * Compiled with BEFORE it also measures the entries of an earlier archive, in which every name that it exports begins with before_; with
 * BEFORE_WRITES its writer too, with BEFORE_GROUPS its group of a day. With BEFORE_METHODS they are those of this header. With BEFORE_MOVES alone they
 * take no method, otherwise no list of moves either; and they have no case with what they do not take. */
#define _POSIX_C_SOURCE 200809L
#include <stdio.h>
#include <stdlib.h>
#include <time.h>

#include "honeyplank.h"
#include "../c/record.h"
#include "../reference/c/file.h"

enum { ROUNDS = 41, CALLS = 500 };

/* Days of 2024. */
enum { JANUARY_1 = 8766, FEBRUARY_15 = 8811, MAY_15 = 8901, JUNE_27 = 8944, AUGUST_15 = 8993, AUGUST_28 = 9006, DECEMBER_31 = 9131 };

/* The entries of an archive, as honeyplank.h declares them. */
typedef uint32_t baseline_entry(const uint8_t *file, size_t length, size_t place, uint8_t *out, size_t room);
typedef int64_t told_entry(const uint8_t *file, size_t length, size_t place, uint32_t name);
typedef uint32_t baseline_table_entry(uint32_t first, const uint8_t *marks, size_t days, const uint32_t *readings, size_t count,
                                      const uint32_t *moves, size_t moved, uint32_t p, uint32_t d, uint32_t s, uint32_t e, uint32_t n,
                                      uint32_t method, uint32_t *out, size_t room);
typedef int64_t told_table_entry(uint32_t first, const uint8_t *marks, size_t days, const uint32_t *readings, size_t count, const uint32_t *moves,
                                 size_t moved, uint32_t p, uint32_t d, uint32_t s, uint32_t e, uint32_t n, uint32_t method, uint32_t name);
typedef int64_t write_entry(uint32_t p, uint32_t portfolio, uint32_t first, const uint8_t *marks, size_t days, const uint32_t *readings, size_t count,
                            const uint32_t *moves, size_t moved, const uint32_t *events, size_t numbers, uint8_t *out, size_t room);

/* Those that take no method, as they were declared in version 0.5.0; hp_write had the same type, and took four numbers an event. */
typedef uint32_t listed_baseline_table_entry(uint32_t first, const uint8_t *marks, size_t days, const uint32_t *readings, size_t count,
                                             const uint32_t *moves, size_t moved, uint32_t p, uint32_t d, uint32_t s, uint32_t e, uint32_t n,
                                             uint32_t *out, size_t room);
typedef int64_t listed_told_table_entry(uint32_t first, const uint8_t *marks, size_t days, const uint32_t *readings, size_t count,
                                        const uint32_t *moves, size_t moved, uint32_t p, uint32_t d, uint32_t s, uint32_t e, uint32_t n,
                                        uint32_t name);

/* Those that take no list of moves either, as they were declared up to version 0.4.0. */
typedef uint32_t unlisted_baseline_table_entry(uint32_t first, const uint8_t *marks, size_t days, const uint32_t *readings, size_t count, uint32_t p,
                                               uint32_t d, uint32_t s, uint32_t e, uint32_t n, uint32_t *out, size_t room);
typedef int64_t unlisted_told_table_entry(uint32_t first, const uint8_t *marks, size_t days, const uint32_t *readings, size_t count, uint32_t p,
                                          uint32_t d, uint32_t s, uint32_t e, uint32_t n, uint32_t name);
typedef int64_t unlisted_write_entry(uint32_t p, uint32_t portfolio, uint32_t first, const uint8_t *marks, size_t days, const uint32_t *readings,
                                     size_t count, const uint32_t *events, size_t numbers, uint8_t *out, size_t room);

/* No entry, but what tests/bench/groups has made: 0 weekday, 1 Saturday, 2 holiday group. */
typedef uint32_t group_entry(uint32_t day);

struct listed {
    listed_baseline_table_entry *baseline_table;
    listed_told_table_entry *told_table;
    write_entry *write;
};

struct unlisted {
    unlisted_baseline_table_entry *baseline_table;
    unlisted_told_table_entry *told_table;
    unlisted_write_entry *write; /* NULL where an earlier archive has none */
};

struct archive {
    baseline_entry *baseline;
    told_entry *told;
    baseline_table_entry *baseline_table;
    told_table_entry *told_table;
    write_entry *write;
    const struct listed *listed;     /* in place of the three above, or NULL */
    const struct unlisted *unlisted; /* the same */
    group_entry *group;              /* NULL where it was not made */
};

/* The same in plain C, where an answer tells everything. */
typedef uint32_t plain_entry(const uint8_t *file, size_t length, size_t place, uint8_t *out, size_t room, struct plain_answer *answer);
typedef uint32_t plain_table_entry(uint32_t first, const uint8_t *marks, size_t days, const uint32_t *readings, size_t count, const uint32_t *moves,
                                   size_t moved, uint32_t p, uint32_t d, uint32_t s, uint32_t e, uint32_t n, uint32_t method, uint32_t *out,
                                   size_t room, struct plain_answer *answer);

struct plain {
    plain_entry *baseline;
    plain_table_entry *baseline_table;
    write_entry *write;
    group_entry *group;
};

plain_entry plain_host_gcc, plain_host_clang;
plain_table_entry plain_baseline_gcc, plain_baseline_clang;
write_entry plain_write_gcc, plain_write_clang;
group_entry plain_group_gcc, plain_group_clang;

#ifdef GROUPS
group_entry measured_group;
#else
#define measured_group NULL
#endif
#ifdef BEFORE_GROUPS
group_entry before_measured_group;
#else
#define before_measured_group NULL
#endif

static const struct archive proved = {hp_baseline, hp_told, hp_baseline_table, hp_told_table, hp_write, NULL, NULL, measured_group};
static const struct plain gcc = {plain_host_gcc, plain_baseline_gcc, plain_write_gcc, plain_group_gcc};
static const struct plain clang = {plain_host_clang, plain_baseline_clang, plain_write_clang, plain_group_clang};

#ifdef BEFORE
baseline_entry before_hp_baseline;
told_entry before_hp_told;
#if defined BEFORE_METHODS
baseline_table_entry before_hp_baseline_table;
told_table_entry before_hp_told_table;
write_entry before_hp_write;

static const struct archive before = {before_hp_baseline, before_hp_told, before_hp_baseline_table, before_hp_told_table, before_hp_write,
                                      NULL, NULL, before_measured_group};
#elif defined BEFORE_MOVES
listed_baseline_table_entry before_hp_baseline_table;
listed_told_table_entry before_hp_told_table;
write_entry before_hp_write;

static const struct listed before_listed = {before_hp_baseline_table, before_hp_told_table, before_hp_write};
static const struct archive before = {before_hp_baseline, before_hp_told, NULL, NULL, NULL, &before_listed, NULL, before_measured_group};
#else
unlisted_baseline_table_entry before_hp_baseline_table;
unlisted_told_table_entry before_hp_told_table;
#ifdef BEFORE_WRITES
unlisted_write_entry before_hp_write;
#else
#define before_hp_write NULL
#endif

static const struct unlisted before_unlisted = {before_hp_baseline_table, before_hp_told_table, before_hp_write};
static const struct archive before = {before_hp_baseline, before_hp_told, NULL, NULL, NULL, NULL, &before_unlisted, before_measured_group};
#endif
#endif

/* The ways that are measured, each by an archive, by plain C or, of writing, by a copy. The first is compared with each of the others. */
static const struct way {
    const char *name;
    const struct archive *archive;
    const struct plain *plain;
} ways[] = {
    {"proved", &proved, NULL},
#ifdef BEFORE
    {"before", &before, NULL},
#endif
    {"gcc -O3", NULL, &gcc},
    {"clang -O3", NULL, &clang},
    {"memcpy", NULL, NULL},
};

enum { WAYS = sizeof ways / sizeof ways[0] };

static const struct way *taken[WAYS]; /* those of the case at hand */
static int count_taken;

static struct record_file file;
static size_t place;
static uint8_t marks[128];
static uint32_t readings[128 * QUARTERS], days, event_day = AUGUST_28, s, e, method;
static uint32_t first_asked, last_asked; /* the days whose groups are asked for */
static uint32_t list[2 * HP_MOST_MOVES], moved; /* the moves, and how many numbers they are */
static uint32_t events[5 * HP_MOST_EVENTS], old_events[4 * HP_MOST_EVENTS], count_events; /* those of the file, and the same without the method */
static uint8_t out[HP_MOST_BYTES], written[HP_MOST_FILE];
static uint32_t numerators[QUARTERS];
static struct plain_answer answer;

/* A call of a case in one way: the number that comes back. */
typedef uint32_t case_call(const struct way *way);

static uint32_t call_file(const struct way *way)
{
    if (way->archive)
        return way->archive->baseline(file.bytes, file.length, place, out, HP_MOST_BYTES);
    return way->plain->baseline(file.bytes, file.length, place, out, HP_MOST_BYTES, &answer);
}

/* The reach. */
static uint32_t call_told(const struct way *way)
{
    if (way->archive)
        return (uint32_t)way->archive->told(file.bytes, file.length, place, HP_REACH);
    call_file(way);
    return answer.reach;
}

static uint32_t call_table(const struct way *way)
{
    const struct archive *archive = way->archive;
    const uint32_t first = event_day + 1 - days, *moves = moved ? list : NULL;
    size_t count = days * QUARTERS;
    if (archive && archive->unlisted)
        return archive->unlisted->baseline_table(first, marks, days, readings, count, 8000, event_day, s, e, s - 4, numerators, QUARTERS);
    if (archive && archive->listed)
        return archive->listed->baseline_table(first, marks, days, readings, count, moves, moved, 8000, event_day, s, e, s - 4, numerators, QUARTERS);
    if (archive)
        return archive->baseline_table(first, marks, days, readings, count, moves, moved, 8000, event_day, s, e, s - 4, method, numerators, QUARTERS);
    return way->plain->baseline_table(first, marks, days, readings, count, moves, moved, 8000, event_day, s, e, s - 4, method, numerators, QUARTERS,
                                      &answer);
}

/* The reach. */
static uint32_t call_told_table(const struct way *way)
{
    const struct archive *archive = way->archive;
    const uint32_t first = event_day + 1 - days, *moves = moved ? list : NULL;
    size_t count = days * QUARTERS;
    if (archive && archive->unlisted)
        return (uint32_t)archive->unlisted->told_table(first, marks, days, readings, count, 8000, event_day, s, e, s - 4, HP_REACH);
    if (archive && archive->listed)
        return (uint32_t)archive->listed->told_table(first, marks, days, readings, count, moves, moved, 8000, event_day, s, e, s - 4, HP_REACH);
    if (archive)
        return (uint32_t)archive->told_table(first, marks, days, readings, count, moves, moved, 8000, event_day, s, e, s - 4, method, HP_REACH);
    call_table(way);
    return answer.reach;
}

/* Writes the moves, the table and the events, which are those of the file. */
static uint32_t call_write(const struct way *way)
{
    const struct unlisted *unlisted = way->archive ? way->archive->unlisted : NULL;
    const struct listed *listed = way->archive ? way->archive->listed : NULL;
    write_entry *entry = listed ? listed->write : way->archive ? way->archive->write : way->plain ? way->plain->write : NULL;
    const uint32_t first = event_day + 1 - days, *moves = moved ? list : NULL, *asked = listed ? old_events : events;
    size_t count = days * QUARTERS, numbers = (listed ? 4 : 5) * count_events;
    if (unlisted)
        return (uint32_t)unlisted->write(8000, 77, first, marks, days, readings, count, old_events, 4 * count_events, written, sizeof written);
    if (entry)
        return (uint32_t)entry(8000, 77, first, marks, days, readings, count, moves, moved, asked, numbers, written, sizeof written);
    memcpy(written, file.bytes, file.length);
    return (uint32_t)file.length;
}

/* The groups, by a number in which each has its part. */
static uint32_t call_groups(const struct way *way)
{
    group_entry *group = way->archive ? way->archive->group : way->plain->group;
    uint32_t day, number = 0;
    for (day = first_asked; day <= last_asked; day++)
        number = 3 * number + group(day);
    return number;
}

/* Whether a way has a case: an earlier archive may take no moves and no methods, and may have no writer, and a copy does nothing but write. */
static int has_case(const struct way *way, case_call *call)
{
    const struct unlisted *unlisted = way->archive ? way->archive->unlisted : NULL;
    if (method != HP_METHOD_HIGH && way->archive && (way->archive->listed || unlisted))
        return 0;
    if (unlisted && (call == call_file || call == call_told ? file.moves : moved) > 0)
        return 0;
    if (call == call_write)
        return !unlisted || unlisted->write;
    if (call == call_groups)
        return way->archive ? way->archive->group != NULL : way->plain != NULL;
    return way->archive || way->plain;
}

static void take_ways(case_call *call)
{
    int way;
    count_taken = 0;
    for (way = 0; way < WAYS; way++)
        if (has_case(&ways[way], call))
            taken[count_taken++] = &ways[way];
}

static int once;

__attribute__((noinline)) void call_begins(void)
{
    __asm__ volatile("");
}

__attribute__((noinline)) void call_ends(void)
{
    __asm__ volatile("");
}

static void call_once(case_call *call)
{
    int way;
    for (way = 0; way < count_taken; way++) {
        printf("\t%s", taken[way]->name);
        call_begins();
        call(taken[way]);
        call_ends();
    }
}

static double now(void)
{
    struct timespec time;
    clock_gettime(CLOCK_MONOTONIC, &time);
    return 1e9 * (double)time.tv_sec + (double)time.tv_nsec;
}

/* Nanoseconds a call. */
static double time_calls(case_call *call, const struct way *way, uint32_t number)
{
    double began = now();
    int i;
    for (i = 0; i < CALLS; i++)
        if (call(way) != number)
            abort();
    return (now() - began) / CALLS;
}

static void time_rounds(case_call *call, uint32_t number, double best[WAYS])
{
    int round, way;
    for (way = 0; way < count_taken; way++)
        best[way] = 1e18;
    for (round = 0; round < ROUNDS; round++)
        for (way = 0; way < count_taken; way++) {
            double took = time_calls(call, taken[way], number);
            best[way] = took < best[way] ? took : best[way];
        }
}

/* The number that every way gives; of writing, the file too. */
static uint32_t same_number(const char *name, case_call *call)
{
    uint32_t number = call(taken[0]);
    int way;
    for (way = 0; way < count_taken; way++) {
        memset(written, 0, sizeof written);
        if (call(taken[way]) != number || (call == call_write && memcmp(written, file.bytes, file.length) != 0)) {
            printf("%s: %s gives another %s\n", name, taken[way]->name, call == call_write ? "file" : "number");
            exit(1);
        }
    }
    return number;
}

static void report(const char *name, case_call *call)
{
    double best[WAYS];
    uint32_t number;
    int way;
    take_ways(call);
    number = same_number(name, call);
    printf("%s: result %u", name, number);
    if (once)
        call_once(call);
    else {
        time_rounds(call, number, best);
        printf(", %s %.0f ns", taken[0]->name, best[0]);
        for (way = 1; way < count_taken; way++)
            printf(", %s %.0f ns (ratio %.2f)", taken[way]->name, best[way], best[0] / best[way]);
    }
    printf("\n");
    fflush(stdout);
}

/* Loads that vary by day and quarter, up to the event day, a Wednesday: of a large portfolio; above eight million kW; above it on a day in eight;
 * with a reading missing on a day in four. */
static uint32_t ordinary(uint32_t i)
{
    return 900000 + (i * 2654435761u >> 12) % 100000;
}

static uint32_t high(uint32_t i)
{
    return 8000001 + (i * 2654435761u >> 11) % 2000000;
}

static uint32_t high_on_some_days(uint32_t i)
{
    return i / QUARTERS % 8 == 3 ? high(i) : ordinary(i);
}

static uint32_t missing_on_some_days(uint32_t i)
{
    return i % (4 * QUARTERS) == 140 ? HP_MISSING : ordinary(i);
}

static uint32_t (*load)(uint32_t i) = ordinary;

/* An event day now and then. */
static uint8_t mark(uint32_t day)
{
    return day % 9 == 4;
}

/* 16 moves: this one, and 15 of holidays long before it. */
static void set_moves(uint32_t from, uint32_t to)
{
    uint32_t i;
    for (i = 0; i < HP_MOST_MOVES; i++) {
        list[2 * i] = far_holiday(i);
        list[2 * i + 1] = far_holiday(i) + 3;
    }
    list[2 * HP_MOST_MOVES - 2] = from;
    list[2 * HP_MOST_MOVES - 1] = to;
    moved = 2 * HP_MOST_MOVES;
}

static void put_days(uint32_t h)
{
    uint32_t day, i;
    put_head(&file, 8000, 77);
    for (i = 0; i < moved; i += 2)
        put_move(&file, list[i], list[i + 1]);
    for (day = 0; day < h; day++) {
        put_day(&file, event_day + 1 - h + day, mark(day), 0);
        for (i = 0; i < QUARTERS; i++)
            set_reading(&file, QUARTERS * day + i, load(QUARTERS * day + i));
    }
}

/* Events of the last days by the method, put into the file and kept for the writer. */
static void put_events(uint32_t count, uint32_t end)
{
    uint32_t i;
    for (i = 0; i < count; i++) {
        const uint32_t event[] = {event_day - i, 152, end, 148, method};
        put_event_by(&file, event[0], event[1], event[2], event[3], event[4]);
        memcpy(events + 5 * i, event, 5 * sizeof event[0]);
        memcpy(old_events + 4 * i, event, 4 * sizeof event[0]);
    }
    count_events = count;
    place = 0;
}

static void put_largest(void)
{
    put_days(128);
    put_events(64, 160);
}

static void put_one_event(uint32_t h)
{
    put_days(h);
    put_events(1, 156);
}

static void fill_table(uint32_t h)
{
    uint32_t i;
    days = h;
    s = 152;
    e = 156;
    for (i = 0; i < h; i++)
        marks[i] = mark(i);
    for (i = 0; i < h * QUARTERS; i++)
        readings[i] = load(i);
}

static void files(void)
{
    put_largest();
    report("file a. 128 days, 64 events, the first", call_file);
    place = 63;
    report("file b. 128 days, 64 events, the last", call_file);
    put_one_event(46);
    report("file c. 46 days, one event", call_file);
    put_one_event(31);
    put_event(&file, event_day - 23, 152, 156, 148);
    report("file d. 31 days", call_file);
    place = 1;
    report("file e. 31 days, refused 8", call_file);
    put_largest();
    set_reading(&file, 128 * QUARTERS - 1, HP_HIGHEST + 1);
    report("file f. 128 days, refused 3 at the last reading", call_file);
    put_largest();
    file.bytes[file.length - EVENT_BYTES] = 'X';
    report("file g. 128 days, refused 11 at the last record", call_file);
    load = high;
    put_largest();
    report("file h. 128 days, loads above 8,000,000 kW", call_file);
    load = high_on_some_days;
    put_largest();
    report("file i. 128 days, such loads on a day in eight", call_file);
    load = ordinary;
    put_one_event(92);
    report("file j. 92 days, one event", call_file);
    load = missing_on_some_days;
    put_largest();
    report("file k. 128 days, a reading missing on a day in four", call_file);
    load = ordinary;
    put_largest();
    report("told by a file. 128 days, the reach", call_told);
}

static void tables(void)
{
    fill_table(128);
    report("table a. 128 days, event of 4 quarters", call_table);
    s = 96;
    e = 192;
    report("table b. 128 days, event of 96 quarters", call_table);
    fill_table(128);
    readings[128 * QUARTERS - 1] = HP_HIGHEST + 1;
    report("table c. 128 days, refused 3 at the last reading", call_table);
    fill_table(46);
    report("table d. 46 days, event of 4 quarters", call_table);
    load = high;
    fill_table(128);
    report("table e. 128 days, loads above 8,000,000 kW", call_table);
    load = high_on_some_days;
    fill_table(128);
    report("table f. 128 days, such loads on a day in eight", call_table);
    load = missing_on_some_days;
    fill_table(128);
    report("table g. 128 days, a reading missing on a day in four", call_table);
    load = ordinary;
    fill_table(128);
    report("told by a table. 128 days, the reach", call_told_table);
}

static void writing(void)
{
    fill_table(128);
    put_largest();
    report("write a. 128 days, 64 events", call_write);
    fill_table(31);
    put_one_event(31);
    report("write b. 31 days, one event", call_write);
}

/* Each with 16 moves. 15 August 2024 is a Thursday before the event, 20 August a Tuesday; an event day that replaces a holiday is in the holiday
 * group. */
static void with_moves(void)
{
    const uint32_t far = far_holiday(HP_MOST_MOVES - 1);
    fill_table(128);
    set_moves(far, far + 3);
    report("table h. 128 days, 16 moves of other years", call_table);
    set_moves(AUGUST_15, event_day - 8);
    report("table i. 128 days, 16 moves, 15 August's to 20 August", call_table);
    set_moves(far, event_day);
    report("table j. 128 days, 16 moves, one to the event day", call_table);
    fill_table(46);
    set_moves(AUGUST_15, event_day - 8);
    report("table k. 46 days, 16 moves, 15 August's to 20 August", call_table);
    fill_table(128);
    set_moves(AUGUST_15, event_day - 8);
    put_largest();
    report("file l. 128 days, 16 moves, 64 events, the first", call_file);
    report("write c. 128 days, 16 moves, 64 events", call_write);
    put_one_event(46);
    report("file m. 46 days, 16 moves, one event", call_file);
}

/* The same as tables a and d and files a and c, by Average X of Y, whose window is the same ten weekdays; and a portfolio that trades every day, whose window
 * is the latest four event days. */
static void by_average(void)
{
    method = HP_METHOD_AVERAGE;
    moved = 0;
    fill_table(128);
    report("table l. 128 days, by Average X of Y", call_table);
    fill_table(46);
    report("table m. 46 days, by Average X of Y", call_table);
    memset(marks, HP_MARK_EVENT, days);
    report("table n. 46 days, all with an event, by Average X of Y", call_table);
    put_largest();
    report("file n. 128 days, 64 events by Average X of Y, the first", call_file);
    put_one_event(46);
    report("file o. 46 days, one event by Average X of Y", call_file);
}

/* Events in May, behind Easter: the look-back has days whose group goes by it. By High X of Y, with no moves. */
static void after_easter(void)
{
    method = HP_METHOD_HIGH;
    event_day = MAY_15;
    fill_table(128);
    report("table o. 128 days, the event in May", call_table);
    fill_table(46);
    report("table p. 46 days, the event in May", call_table);
    put_one_event(46);
    report("file p. 46 days, one event in May", call_file);
}

static void report_groups(const char *name, uint32_t first, uint32_t last)
{
    first_asked = first;
    last_asked = last;
    report(name, call_groups);
}

static void groups(void)
{
    if (!proved.group)
        return;
    report_groups("groups a. the 366 days of 2024, a call each", JANUARY_1, DECEMBER_31);
    report_groups("groups b. the 134 of them where a holiday of Easter's can lie", FEBRUARY_15, JUNE_27);
}

/* Every number of the working of the file's event, which lasts two hours, a call each: how many there are. */
static uint32_t whole_working(void)
{
    uint32_t at, name, count = 0;
    for (name = HP_WORKING_GROUP; name <= HP_WORKING_B; name++, count++)
        hp_working(file.bytes, file.length, place, 0, name);
    for (at = 1; at <= HP_LOOK_BACK; at++)
        for (name = HP_BACK_DAY; name <= HP_BACK_CHOSEN; name++, count++)
            hp_working(file.bytes, file.length, place, at, name);
    for (at = 136; at < 160; at++, count++)
        hp_working(file.bytes, file.length, place, at, HP_QUARTER_S);
    for (at = 152; at < 160; at++, count++)
        hp_working(file.bytes, file.length, place, at, HP_QUARTER_NUMERATOR);
    return count;
}

/* The working of file a's first event, in rounds with as many calls of hp_told. */
static void working(void)
{
    double whole = 1e18, told = 1e18;
    uint32_t count = 0, i;
    int round;
    put_largest();
    for (round = 0; round < ROUNDS && !once; round++) {
        double began = now(), between;
        count = whole_working();
        between = now();
        for (i = 0; i < count; i++)
            if (hp_told(file.bytes, file.length, place, HP_REACH) == HP_NOTHING)
                abort();
        whole = between - began < whole ? between - began : whole;
        told = now() - between < told ? now() - between : told;
    }
    if (count > 0)
        printf("working of a file. 128 days, %u numbers: proved %.0f ns, as many calls of hp_told %.0f ns (ratio %.2f)\n", count, whole, told, whole / told);
}

static void write_largest(const char *directory, const char *name)
{
    char path[4096];
    FILE *largest;
    put_largest();
    snprintf(path, sizeof path, "%s/%s", directory, name);
    largest = fopen(path, "wb");
    if (largest == NULL || fwrite(file.bytes, 1, file.length, largest) != file.length || fclose(largest) != 0) {
        perror(path);
        exit(1);
    }
}

int main(int argc, char **argv)
{
    once = argc == 3 && strcmp(argv[2], "once") == 0;
    if (argc != 2 + once) {
        fprintf(stderr, "usage: bench DIR [once]\n");
        return 2;
    }
    load = high;
    write_largest(argv[1], "high.rec");
    load = ordinary;
    write_largest(argv[1], "largest.rec");
    files();
    tables();
    writing();
    working();
    with_moves();
    by_average();
    after_easter();
    groups();
    return 0;
}
