/* A table in memory, and the values of a whole file: what hp_write is given, put into a file and taken from one record by record. */
#ifndef VALUES_H
#define VALUES_H

#include "honeyplank.h"
#include "record.h"

/* Every reading of a day, in a table that starts as the worked case does. */
static inline void fill_day(uint32_t *readings, uint32_t day, uint32_t reading)
{
    uint32_t quarter;
    for (quarter = 0; quarter < QUARTERS; quarter++)
        readings[QUARTERS * (day - 6951) + quarter] = reading;
}

/* The readings of document 01's worked case, which has 22 days; days past them are as the ordinary ones. */
static inline void fill_worked(uint32_t *readings, uint32_t days)
{
    uint32_t day;
    for (day = 6951; day < 6951 + days; day++)
        fill_day(readings, day, 1000);
    fill_day(readings, 6951, 1300);
    readings[56] = 1307;
    fill_day(readings, 6958, 1100);
    fill_day(readings, 6965, 1200);
    fill_day(readings, 6972, 1261);
}

/* Of an event: D, s, e, n and the method. */
enum { EVENT_NUMBERS = 5 };

/* With room for a day, a move and an event more than a file has. */
struct values {
    uint32_t p, portfolio, first;
    size_t days, count, moved, numbers; /* how many marks, readings, numbers of moves and numbers of events there are */
    uint8_t marks[HP_MOST_DAYS + 1];
    uint32_t readings[(HP_MOST_DAYS + 1) * QUARTERS];
    uint32_t moves[2 * (HP_MOST_MOVES + 1)];
    uint32_t events[EVENT_NUMBERS * (HP_MOST_EVENTS + 1)];
};

static inline int64_t write_values(const struct values *values, uint8_t *out, size_t room)
{
    return hp_write(values->p, values->portfolio, values->first, values->marks, values->days, values->readings, values->count, values->moves,
                    values->moved, values->events, values->numbers, out, room);
}

static inline void put_values(struct record_file *file, const struct values *values)
{
    const uint32_t *event = values->events;
    size_t i;
    put_head(file, values->p, values->portfolio);
    for (i = 0; i < values->moved; i += 2)
        put_move(file, values->moves[i], values->moves[i + 1]);
    for (i = 0; i < values->days; i++)
        put_day(file, values->first + (uint32_t)i, values->marks[i], 0);
    for (i = 0; i < values->count; i++)
        set_reading(file, i, values->readings[i]);
    for (; event < values->events + values->numbers; event += EVENT_NUMBERS)
        put_event_by(file, event[0], event[1], event[2], event[3], event[4]);
}

/* The values of a file that is as laid down, by the entries: all but marks and readings. */
static inline void take_told(struct values *values, const uint8_t *file, size_t length)
{
    static const uint32_t names[EVENT_NUMBERS] = {HP_EVENT_DAY, HP_EVENT_START, HP_EVENT_END, HP_EVENT_NOTICE, HP_EVENT_METHOD};
    size_t i;
    values->p = (uint32_t)hp_file(file, length, HP_FILE_PARTICIPATION);
    values->portfolio = (uint32_t)hp_file(file, length, HP_FILE_PORTFOLIO);
    values->first = (uint32_t)hp_file(file, length, HP_FILE_FIRST);
    values->days = (size_t)hp_file(file, length, HP_FILE_DAYS);
    values->count = QUARTERS * values->days;
    values->moved = 2 * (size_t)hp_file(file, length, HP_FILE_MOVES);
    values->numbers = EVENT_NUMBERS * (size_t)hp_file(file, length, HP_FILE_EVENTS);
    for (i = 0; i < values->moved; i++)
        values->moves[i] = (uint32_t)hp_move(file, length, i / 2, HP_MOVE_FROM + i % 2);
    for (i = 0; i < values->numbers; i++)
        values->events[i] = (uint32_t)hp_event(file, length, i / EVENT_NUMBERS, names[i % EVENT_NUMBERS]);
}

/* All of them: marks and readings from the bytes. */
static inline void take_values(struct values *values, const struct record_file *file)
{
    size_t i;
    take_told(values, file->bytes, file->length);
    for (i = 0; i < values->days; i++)
        values->marks[i] = file->bytes[reading_at(values->moved / 2, QUARTERS * i) - 2];
    for (i = 0; i < values->count; i++)
        values->readings[i] = word_at(file->bytes + reading_at(values->moved / 2, i));
}

#endif
