/* What an entry that is asked by a name has to tell, name by name, and what a baseline has to be. */
#ifndef TOLD_H
#define TOLD_H

#include "check.h"
#include "honeyplank.h"

enum { LAST_NAME = HP_CALENDAR_EASTER };

#define NONE HP_NOTHING

struct told {
    int64_t numbers[LAST_NAME + 1];
};

/* A baseline's result, with room for any event. */
struct result {
    struct told told;
    size_t quarters; /* how many numerators there are: none where it is refused */
    uint32_t numerators[96];
};

static inline struct told told_nothing(void)
{
    struct told told;
    int name;
    for (name = 0; name <= LAST_NAME; name++)
        told.numbers[name] = HP_NOTHING;
    return told;
}

static inline struct told told_refusal(uint32_t number, int64_t first, int64_t second)
{
    struct told told = told_nothing();
    told.numbers[HP_RESULT] = number;
    told.numbers[HP_CARRIED] = first;
    told.numbers[HP_CARRIED_SECOND] = second;
    return told;
}

static inline struct result refused(uint32_t number, int64_t first, int64_t second)
{
    struct result result = {0};
    result.told = told_refusal(number, first, second);
    return result;
}

/* Averaged over these days without adjustment, by HP_METHOD_AVERAGE, and the same numerator at every quarter. */
static inline struct result averaged(const uint32_t *days, uint32_t count, int64_t reach, size_t quarters, uint32_t numerator)
{
    struct result result = {0};
    size_t i;
    result.told = told_refusal(HP_ANSWERED, NONE, NONE);
    result.told.numbers[HP_COUNT] = count;
    for (i = 0; i < count; i++)
        result.told.numbers[HP_DAY_1 + i] = days[i];
    result.told.numbers[HP_REACH] = reach;
    result.told.numbers[HP_DENOMINATOR] = count;
    result.told.numbers[HP_ADJUSTMENT] = 0;
    result.quarters = quarters;
    for (i = 0; i < quarters; i++)
        result.numerators[i] = numerator;
    return result;
}

/* The same by HP_METHOD_HIGH, with this adjustment. */
static inline struct result answered(const uint32_t *days, uint32_t count, int64_t reach, int64_t adjustment, size_t quarters, uint32_t numerator)
{
    struct result result = averaged(days, count, reach, quarters, numerator);
    result.told.numbers[HP_DENOMINATOR] = 12 * count;
    result.told.numbers[HP_ADJUSTMENT] = adjustment;
    return result;
}

/* What hp_file tells of a file that is as laid down. */
static inline struct told held(int64_t p, int64_t portfolio, int64_t moves, int64_t first, int64_t days, int64_t events)
{
    struct told told = told_refusal(HP_ANSWERED, NONE, NONE);
    told.numbers[HP_FILE_PARTICIPATION] = p;
    told.numbers[HP_FILE_PORTFOLIO] = portfolio;
    told.numbers[HP_FILE_FIRST] = first;
    told.numbers[HP_FILE_DAYS] = days;
    told.numbers[HP_FILE_EVENTS] = events;
    told.numbers[HP_FILE_MOVES] = moves;
    return told;
}

/* What hp_move tells of a move; NONE and NONE past the last one. */
static inline struct told move_of(int64_t from, int64_t to)
{
    struct told told = told_refusal(HP_ANSWERED, NONE, NONE);
    told.numbers[HP_MOVE_FROM] = from;
    told.numbers[HP_MOVE_TO] = to;
    return told;
}

/* What hp_event tells of an event. */
static inline struct told event_of(int64_t d, int64_t s, int64_t e, int64_t n, int64_t method)
{
    struct told told = told_refusal(HP_ANSWERED, NONE, NONE);
    told.numbers[HP_EVENT_DAY] = d;
    told.numbers[HP_EVENT_START] = s;
    told.numbers[HP_EVENT_END] = e;
    told.numbers[HP_EVENT_NOTICE] = n;
    told.numbers[HP_EVENT_METHOD] = method;
    return told;
}

/* The answer of document 01's worked case: the Saturdays 6951 and 6965, and 7 kW more at the first quarter. */
static inline struct result worked_answer(void)
{
    static const uint32_t days[] = {6951, 6965};
    struct result result = answered(days, 2, 21, 264, 4, 30264);
    result.numerators[0] = 30348;
    return result;
}

/* The names that are asked for: 0 to 50, and some that a narrower number would take for one of them. */
enum { NAMES = 56 };

static inline uint32_t name_at(int i)
{
    static const uint32_t far[] = {256, 65536, 65539, 2147483648u, UINT32_MAX};
    return i <= 50 ? (uint32_t)i : far[i - 51];
}

/* Whether `found` is what is told by this name; says so where it is not. */
static inline int tells(const struct told *told, uint32_t name, int64_t found)
{
    int64_t due = name <= LAST_NAME ? told->numbers[name] : HP_NOTHING;
    if (found != due)
        printf("name %u: %lld is due, %lld is told\n", name, (long long)due, (long long)found);
    return found == due;
}

/* hp_file tells this by every name. */
static inline void check_file(const uint8_t *file, size_t length, const struct told *due)
{
    int i;
    for (i = 0; i < NAMES; i++)
        CHECK(tells(due, name_at(i), hp_file(file, length, name_at(i))));
}

/* hp_event tells this by every name. */
static inline void check_event(const uint8_t *file, size_t length, size_t place, const struct told *due)
{
    int i;
    for (i = 0; i < NAMES; i++)
        CHECK(tells(due, name_at(i), hp_event(file, length, place, name_at(i))));
}

/* hp_move tells this by every name. */
static inline void check_move(const uint8_t *file, size_t length, size_t place, const struct told *due)
{
    int i;
    for (i = 0; i < NAMES; i++)
        CHECK(tells(due, name_at(i), hp_move(file, length, place, name_at(i))));
}

#endif
