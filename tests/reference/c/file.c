/* The record file and the host entry (document 01, with order 2's moves and order 3's method) and the writer (order 1), in plain C99, written from 01,
 * the orders and the headers alone. */
#include "file.h"

#include <string.h>

/* The records' lengths in bytes, the most of each, and the quarters of a day, which are also the most an event covers. */
enum { PF_SIZE = 8, MV_SIZE = 6, DY_SIZE = 390, EV_SIZE = 8, MOST_MOVES = 16, MOST_DAYS = 128, MOST_EVENTS = 64, QUARTERS = 96 };

/* Whether this machine keeps numbers as the file does; where that is not known, bytes are taken one by one, which is right anywhere. */
#if defined(__BYTE_ORDER__) && __BYTE_ORDER__ == __ORDER_LITTLE_ENDIAN__
enum { FILE_ORDER = 1 };
#else
enum { FILE_ORDER = 0 };
#endif

/* A number of two bytes; the compilers make one load of it, as of the four below. */
static uint32_t get2(const uint8_t *from)
{
    return (uint32_t)from[0] | (uint32_t)from[1] << 8;
}

static uint32_t get4(const uint8_t *from)
{
    return get2(from) | get2(from + 2) << 16;
}

static void put2(uint8_t *to, uint32_t number)
{
    to[0] = (uint8_t)number;
    to[1] = (uint8_t)(number >> 8);
}

static void put4(uint8_t *to, uint32_t number)
{
    put2(to, number);
    put2(to + 2, number >> 16);
}

/* Whether a whole record of `size` bytes with that mark stands at `at`, which is not above `length`. */
static int stands(const uint8_t *file, size_t length, size_t at, size_t size, const char *mark)
{
    return length - at >= size && memcmp(file + at, mark, 2) == 0;
}

/* Takes records while they are as laid down. Where that ends is the end of the file, or the record to refuse. */
uint32_t plain_read(const uint8_t *file, size_t length, struct plain_file *shape, size_t *offset)
{
    size_t at = PF_SIZE;
    uint32_t moves = 0, first = 0, days = 0, events = 0;

    *offset = 0;
    if (!stands(file, length, 0, PF_SIZE, "PF"))
        return 11;
    while (moves < MOST_MOVES && stands(file, length, at, MV_SIZE, "MV")) {
        moves++;
        at += MV_SIZE;
    }
    if (stands(file, length, at, DY_SIZE, "DY"))
        first = get2(file + at + 2);
    while (days < MOST_DAYS && stands(file, length, at, DY_SIZE, "DY") && get2(file + at + 2) == first + days && file[at + 5] == 0) {
        days++;
        at += DY_SIZE;
    }
    while (events < MOST_EVENTS && stands(file, length, at, EV_SIZE, "EV")) {
        events++;
        at += EV_SIZE;
    }
    shape->p = get2(file + 2);
    shape->portfolio = get4(file + 4);
    shape->moves = moves;
    shape->first = first;
    shape->days = days;
    shape->events = events;
    *offset = at;
    return at == length ? 0 : 11;
}

/* Where the days of a file start. */
static const uint8_t *first_day(const uint8_t *file, const struct plain_file *shape)
{
    return file + PF_SIZE + (size_t)MV_SIZE * shape->moves;
}

struct plain_event plain_event_at(const uint8_t *file, const struct plain_file *shape, uint32_t place)
{
    const uint8_t *record = first_day(file, shape) + (size_t)DY_SIZE * shape->days + (size_t)EV_SIZE * place;
    struct plain_event event;

    event.d = get2(record + 2);
    event.s = record[4];
    event.e = record[5];
    event.n = record[6];
    event.method = record[7];
    return event;
}

void plain_load_moves(const uint8_t *file, const struct plain_file *shape, uint32_t moves[32])
{
    const uint8_t *record = file + PF_SIZE;
    uint32_t i;

    for (i = 0; i < shape->moves; i++, record += MV_SIZE) {
        moves[2 * i] = get2(record + 2);
        moves[2 * i + 1] = get2(record + 4);
    }
}

void plain_load(const uint8_t *file, const struct plain_file *shape, uint8_t marks[128], uint32_t readings[128 * 96])
{
    const uint8_t *record = first_day(file, shape);
    uint32_t day, days = shape->days, i;

    for (day = 0; day < days; day++, record += DY_SIZE, readings += QUARTERS) {
        marks[day] = record[4];
        if (FILE_ORDER)
            memcpy(readings, record + 6, 4 * QUARTERS);
        else
            for (i = 0; i < QUARTERS; i++)
                readings[i] = get4(record + 6 + 4 * i);
    }
}

/* Whether each day of the moves fits its bytes. */
static int moves_fit(const uint32_t *moves, size_t moves_len)
{
    uint32_t all = 0;
    size_t i;

    for (i = 0; i < moves_len; i++)
        all |= moves[i];
    return all >> 16 == 0;
}

/* Whether each number of the events fits its bytes. */
static int events_fit(const uint32_t *events, size_t events_len)
{
    uint32_t beyond = 0;
    size_t i;

    for (i = 0; i < events_len; i += 5)
        beyond |= events[i] >> 16 | (events[i + 1] | events[i + 2] | events[i + 3] | events[i + 4]) >> 8;
    return beyond == 0;
}

/* A record's mark, and the number of two bytes that follows it in each. */
static void put_head(uint8_t *record, const char *mark, uint32_t number)
{
    memcpy(record, mark, 2);
    put2(record + 2, number);
}

/* Gives back where the moves end. */
static uint8_t *put_moves(uint8_t *record, const uint32_t *moves, size_t moves_len)
{
    size_t i;

    for (i = 0; i < moves_len; i += 2, record += MV_SIZE) {
        put_head(record, "MV", moves[i]);
        put2(record + 4, moves[i + 1]);
    }
    return record;
}

/* Gives back where the days end. */
static uint8_t *put_days(uint8_t *record, uint32_t first, const uint8_t *marks, size_t days, const uint32_t *readings)
{
    uint32_t day, i;

    for (day = 0; day < days; day++, record += DY_SIZE, readings += QUARTERS) {
        put_head(record, "DY", first + day);
        record[4] = marks[day];
        record[5] = 0;
        if (FILE_ORDER)
            memcpy(record + 6, readings, 4 * QUARTERS);
        else
            for (i = 0; i < QUARTERS; i++)
                put4(record + 6 + 4 * i, readings[i]);
    }
    return record;
}

static void put_events(uint8_t *record, const uint32_t *events, size_t events_len)
{
    size_t i;

    for (i = 0; i < events_len; i += 5, record += EV_SIZE) {
        put_head(record, "EV", events[i]);
        record[4] = (uint8_t)events[i + 1];
        record[5] = (uint8_t)events[i + 2];
        record[6] = (uint8_t)events[i + 3];
        record[7] = (uint8_t)events[i + 4];
    }
}

int64_t plain_write(uint32_t p, uint32_t portfolio, uint32_t first, const uint8_t *marks, size_t days, const uint32_t *readings, size_t count,
                    const uint32_t *moves, size_t moves_len, const uint32_t *events, size_t events_len, uint8_t *out, size_t room)
{
    size_t length;
    uint8_t *record;

    if (days > MOST_DAYS || count != QUARTERS * days)
        return -1;
    if (events_len > 5 * MOST_EVENTS || events_len % 5 != 0 || p > 65535 || !events_fit(events, events_len))
        return -13;
    if (moves_len > 2 * MOST_MOVES || moves_len % 2 != 0 || !moves_fit(moves, moves_len))
        return -13;
    if (days == 0 ? first != 0 : first > 65536 - days)
        return -13;
    length = PF_SIZE + MV_SIZE * (moves_len / 2) + DY_SIZE * days + EV_SIZE * (events_len / 5);
    if (room < length)
        return -7;
    put_head(out, "PF", p);
    put4(out + 4, portfolio);
    record = put_moves(out + PF_SIZE, moves, moves_len);
    record = put_days(record, first, marks, days, readings);
    put_events(record, events, events_len);
    return (int64_t)length;
}

/* The numerators pass through an array of their own, for `out` may lie at any address. */
uint32_t plain_host(const uint8_t *file, size_t length, size_t place, uint8_t *out, size_t room, struct plain_answer *answer)
{
    struct plain_file shape;
    struct plain_event event;
    uint8_t marks[MOST_DAYS];
    uint32_t readings[MOST_DAYS * QUARTERS], moves[2 * MOST_MOVES], numerators[QUARTERS], number, i;
    size_t offset, fit = room / 4 < QUARTERS ? room / 4 : QUARTERS;

    memset(answer, 0, sizeof *answer);
    if (plain_read(file, length, &shape, &offset)) {
        answer->carried[0] = offset;
        answer->carries = 1;
        return 11;
    }
    if (place >= shape.events)
        return 12;
    event = plain_event_at(file, &shape, (uint32_t)place);
    plain_load_moves(file, &shape, moves);
    plain_load(file, &shape, marks, readings);
    number = plain_baseline(shape.first, marks, shape.days, readings, (size_t)QUARTERS * shape.days, moves, (size_t)2 * shape.moves, shape.p,
                            event.d, event.s, event.e, event.n, event.method, numerators, fit, answer);
    if (number)
        return number;
    if (FILE_ORDER)
        memcpy(out, numerators, (size_t)4 * (event.e - event.s));
    else
        for (i = 0; i < event.e - event.s; i++)
            put4(out + 4 * i, numerators[i]);
    return 0;
}
