/* Record files for the tests, built record by record (document 01, "Record file, listing, host entry"; order 2 for the moves, order 3 for
 * the method). */
#ifndef RECORD_H
#define RECORD_H

#include <stddef.h>
#include <stdint.h>
#include <string.h>

enum { QUARTERS = 96, MOVE_BYTES = 6, DAY_BYTES = 390, EVENT_BYTES = 8 };

struct record_file {
    uint8_t bytes[51200];
    size_t length, moves; /* moves: how many were put, before any day */
};

static inline void put(struct record_file *file, uint32_t number, int bytes)
{
    for (; bytes > 0; bytes--, number >>= 8)
        file->bytes[file->length++] = (uint8_t)number;
}

static inline void put_head(struct record_file *file, uint32_t p, uint32_t portfolio)
{
    file->length = file->moves = 0;
    put(file, 'P' | 'F' << 8, 2);
    put(file, p, 2);
    put(file, portfolio, 4);
}

static inline void put_move(struct record_file *file, uint32_t from, uint32_t to)
{
    put(file, 'M' | 'V' << 8, 2);
    put(file, from, 2);
    put(file, to, 2);
    file->moves++;
}

/* The fixed-date holidays from 1 January 2001 on, of three common years: far before any event of these tests. */
static inline uint32_t far_holiday(uint32_t place)
{
    static const uint32_t in_year[] = {0, 5, 83, 120, 226, 300, 358, 359};
    return 366 + 365 * (place / 8) + in_year[place % 8];
}

/* So many moves, up to 24: of those holidays, each to the third day after it. */
static inline void put_far_moves(struct record_file *file, uint32_t count)
{
    uint32_t i;
    for (i = 0; i < count; i++)
        put_move(file, far_holiday(i), far_holiday(i) + 3);
}

static inline void put_day(struct record_file *file, uint32_t day, uint32_t mark, uint32_t reading)
{
    int quarter;
    put(file, 'D' | 'Y' << 8, 2);
    put(file, day, 2);
    put(file, mark, 1);
    put(file, 0, 1);
    for (quarter = 0; quarter < QUARTERS; quarter++)
        put(file, reading, 4);
}

static inline void put_event_by(struct record_file *file, uint32_t d, uint32_t s, uint32_t e, uint32_t n, uint32_t method)
{
    put(file, 'E' | 'V' << 8, 2);
    put(file, d, 2);
    put(file, s, 1);
    put(file, e, 1);
    put(file, n, 1);
    put(file, method, 1);
}

/* By method 0, High X of Y. */
static inline void put_event(struct record_file *file, uint32_t d, uint32_t s, uint32_t e, uint32_t n)
{
    put_event_by(file, d, s, e, n, 0);
}

/* Where a reading stands in a file with so many moves, by its place over the whole table. */
static inline size_t reading_at(size_t moves, size_t place)
{
    return 8 + MOVE_BYTES * moves + DAY_BYTES * (place / QUARTERS) + 6 + 4 * (place % QUARTERS);
}

static inline void set_reading(struct record_file *file, size_t place, uint32_t reading)
{
    size_t end = file->length;
    file->length = reading_at(file->moves, place);
    put(file, reading, 4);
    file->length = end;
}

/* The days of document 01's worked case. */
static inline void put_worked_days(struct record_file *file)
{
    uint32_t day;
    for (day = 6951; day <= 6972; day++)
        put_day(file, day, 0, day == 6951 ? 1300 : day == 6958 ? 1100 : day == 6965 ? 1200 : day == 6972 ? 1261 : 1000);
    set_reading(file, 56, 1307);
}

static inline void put_worked(struct record_file *file)
{
    put_head(file, 6900, 77);
    put_worked_days(file);
    put_event(file, 6972, 152, 156, 148);
    put_event(file, 6966, 152, 156, 148);
}

static inline uint32_t word_at(const uint8_t *bytes)
{
    return bytes[0] | (uint32_t)bytes[1] << 8 | (uint32_t)bytes[2] << 16 | (uint32_t)bytes[3] << 24;
}

#endif
