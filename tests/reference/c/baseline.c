#include "baseline.h"

#include <string.h>

enum {
    LAST_DAY = 36524,
    MOST_DAYS = 128,
    MOST_MOVES = 16,
    NO_HOLIDAY = 800,
    QUARTERS = 96,
    LOOK_BACK = 45,
    TWELVE = 12,
    EVENT = 1,
    OUTAGE = 2,
    AVERAGE = 1,
    MOST_RANKS = 6
};

#define HIGHEST 10000000u
#define MISSING 4294967295u

/* Days by their distance before D, the highest sum first. */
struct ranked {
    uint32_t sum[MOST_RANKS];
    uint32_t back[MOST_RANKS];
    uint32_t count;
};

/* The event: the mark and the readings of day D, and its quarters in a day. */
struct event {
    const uint8_t *mark;
    const uint32_t *readings;
    uint32_t start, end;
};

static uint32_t refuse(struct plain_answer *answer, uint32_t number,
                       uint32_t carries, uint64_t one, uint64_t two)
{
    memset(answer, 0, sizeof *answer);
    answer->carried[0] = one;
    answer->carried[1] = two;
    answer->carries = carries;
    return number;
}

/* The place of the first mark with another bit, or `days`. */
static size_t strange_mark(const uint8_t *marks, size_t days)
{
    uint8_t all = 0;
    size_t i;
    for (i = 0; i < days; i++)
        all |= marks[i];
    if (!(all & ~(EVENT | OUTAGE)))
        return days;
    for (i = 0; !(marks[i] & ~(EVENT | OUTAGE)); i++)
        ;
    return i;
}

/* One more than a reading puts the missing mark at 0, below the limit. */
static uint32_t strange(uint32_t reading)
{
    return reading + 1u > HIGHEST + 1u;
}

/* The place of the first reading that is neither allowed nor missing, or the
 * number of readings; `readings` come in whole days. */
static size_t strange_reading(const uint32_t *readings, size_t days)
{
    size_t day, i;
    for (day = 0; day < days; day++) {
        const uint32_t *part = readings + day * QUARTERS;
        uint32_t any = 0;
        for (i = 0; i < QUARTERS; i++)
            any |= strange(part[i]);
        if (any) {
            for (i = 0; !strange(part[i]); i++)
                ;
            return day * QUARTERS + i;
        }
    }
    return days * QUARTERS;
}

static int complete(const uint32_t *part)
{
    uint32_t any = 0;
    size_t i;
    for (i = 0; i < QUARTERS; i++)
        any |= part[i] == MISSING;
    return !any;
}

/* 1 January of a year from 2000 to 2100: every fourth year is a leap year. */
static uint32_t new_year(uint32_t year)
{
    uint32_t k = year - 2000;
    return 365 * k + (k + 3) / 4;
}

static uint32_t year_of(uint32_t day)
{
    uint32_t year = 2000 + day / 366;
    while (new_year(year + 1) <= day)
        year++;
    return year;
}

/* The number of a fixed-date holiday (1 and 6 January, 25 March, 1 May, 15
 * August, 28 October, 25 and 26 December), eight a year, or NO_HOLIDAY. */
static uint32_t fixed_number(uint32_t day)
{
    /* Its place in four years, of which the first has 29 February, day 59; then
     * in a common year. */
    uint32_t place = day % 1461, eight = day / 1461 * 32;
    if (place > 59) {
        eight += (place - 1) / 365 * 8;
        place = (place - 1) % 365;
    }
    switch (place) {
    case 0: return eight;
    case 5: return eight + 1;
    case 83: return eight + 2;
    case 120: return eight + 3;
    case 226: return eight + 4;
    case 300: return eight + 5;
    case 358: return eight + 6;
    case 359: return eight + 7;
    default: return NO_HOLIDAY;
    }
}

/* Whether a list is one of moves; if not, it is refused (14). */
static int good_moves(const uint32_t *moves, size_t len)
{
    uint64_t seen[NO_HOLIDAY / 64 + 1] = {0};
    size_t i;
    if (len > 2 * MOST_MOVES || len % 2 != 0)
        return 0;
    for (i = 0; i < len; i += 2) {
        uint32_t number = fixed_number(moves[i]);
        uint64_t bit = (uint64_t)1 << number % 64;
        if (moves[i] > LAST_DAY || moves[i + 1] > LAST_DAY || number == NO_HOLIDAY)
            return 0;
        if (seen[number / 64] & bit)
            return 0;
        seen[number / 64] |= bit;
    }
    return 1;
}

/* A day as a bit at its distance before d (0 to 45), or no bit. */
static uint64_t day_bit(uint32_t day, uint32_t d)
{
    uint32_t back = d - day;
    return (uint64_t)(back <= LOOK_BACK) << (back & 63);
}

/* The holidays of a year, as bits at their distance before d (0 to 45);
 * `moved` are the fixed ones that a list moves. */
static uint64_t holiday_bits(uint32_t year, uint32_t d, uint64_t moved)
{
    /* From 1 January, and from 1 March (day 59 of a common year). */
    static const uint32_t winter[2] = {0, 5};
    static const uint32_t later[6] = {83, 120, 226, 300, 358, 359};
    static const uint32_t moving[6] = {0, 46, 47, 48, 49, 98};
    uint32_t start = new_year(year);
    uint32_t leap = year % 4 == 0;
    uint32_t a = year % 4, b = year % 7, c = year % 19;
    uint32_t m = (19 * c + 15) % 30;
    uint32_t w = (2 * a + 4 * b + 34 - m) % 7;
    /* 22 March, Julian, is m + w = 0; it is 4 April, day 93. */
    uint32_t clean_monday = start + leap + 93 + m + w - 48;
    uint64_t fixed = 0, feasts = 0;
    size_t i;
    for (i = 0; i < 2; i++)
        fixed |= day_bit(start + winter[i], d);
    for (i = 0; i < 6; i++) {
        fixed |= day_bit(start + leap + later[i], d);
        feasts |= day_bit(clean_monday + moving[i], d);
    }
    return (fixed & ~moved) | feasts;
}

/* Bits 0, 7, 14 and so on, `from` places up. */
static uint64_t weekly(uint32_t from)
{
    return (uint64_t)0x0102040810204081u << from;
}

/* The days of d's group by a list of moves, as bits at their distance before d. */
static uint64_t group_bits(uint32_t d, const uint32_t *moves, size_t moves_len,
                           int *weekday)
{
    uint32_t year = year_of(d);
    uint64_t saturday = weekly(d % 7);
    uint64_t sunday = weekly((d + 6) % 7);
    uint64_t moved = 0, holiday = sunday;
    size_t i;
    for (i = 0; i < moves_len; i += 2) {
        moved |= day_bit(moves[i], d);
        holiday |= day_bit(moves[i + 1], d);
    }
    holiday |= holiday_bits(year, d, moved);
    if (d - new_year(year) < LOOK_BACK && year > 2000)
        holiday |= holiday_bits(year - 1, d, moved);
    saturday &= ~holiday;
    *weekday = 0;
    if (holiday & 1)
        return holiday;
    if (saturday & 1)
        return saturday;
    *weekday = 1;
    return ~(holiday | saturday);
}

/* The relevant days, as bits at their distance before d. */
static uint64_t relevant_bits(uint32_t p, uint32_t d, const uint32_t *moves,
                              size_t moves_len, int *weekday)
{
    uint32_t most = d - p < LOOK_BACK ? d - p : LOOK_BACK;
    uint64_t back = ((uint64_t)2 << most) - 2;
    uint64_t bits = group_bits(d, moves, moves_len, weekday) & back;
    return *weekday ? bits & ~(uint64_t)2 : bits;
}

static uint32_t highest_bit(uint64_t bits)
{
    uint32_t place = 0;
    while (bits >>= 1)
        place++;
    return place;
}

/* The readings of the day `back` days before D. */
static const uint32_t *day_part(const struct event *event, uint32_t back)
{
    return event->readings - (size_t)back * QUARTERS;
}

static uint32_t event_sum(const struct event *event, uint32_t back)
{
    const uint32_t *part = day_part(event, back);
    uint32_t sum = 0, t;
    for (t = event->start; t < event->end; t++)
        sum += part[t];
    return sum;
}

/* Puts a day into a ranking of at most `most` days. A day that finds the
 * ranking full must be farther from D than all in it. */
static void insert(struct ranked *list, uint32_t most, uint32_t sum, uint32_t back)
{
    uint32_t i = list->count;
    if (i < most)
        list->count++;
    else if (sum > list->sum[i - 1])
        i--;
    else
        return;
    for (; i > 0; i--) {
        if (list->sum[i - 1] > sum)
            break;
        if (list->sum[i - 1] == sum && list->back[i - 1] < back)
            break;
        list->sum[i] = list->sum[i - 1];
        list->back[i] = list->back[i - 1];
    }
    list->sum[i] = sum;
    list->back[i] = back;
}

/* Ranks the nearest `limit` complete days among `days` that have this mark;
 * gives how many there are up to `limit`, and how far the last one lies. */
static uint32_t rank_days(const struct event *event, uint64_t days, uint8_t mark,
                          uint32_t limit, uint32_t most, struct ranked *list,
                          uint32_t *farthest)
{
    uint32_t found = 0, back;
    for (back = 1; days >> back && found < limit; back++) {
        if (!(days >> back & 1) || *(event->mark - back) != mark)
            continue;
        if (!complete(day_part(event, back)))
            continue;
        insert(list, most, event_sum(event, back), back);
        *farthest = back;
        found++;
    }
    return found;
}

/* Fills a ranking up to `most` days with the highest spare days. */
static void add_spares(const struct event *event, uint64_t days, uint32_t most,
                       struct ranked *list)
{
    struct ranked spare = {{0}, {0}, 0};
    uint32_t farthest, i;
    rank_days(event, days, EVENT, LOOK_BACK, most - list->count, &spare, &farthest);
    for (i = 0; i < spare.count; i++)
        insert(list, most, spare.sum[i], spare.back[i]);
}

/* Average X of Y: a weekday with fewer than four eligible days has the latest
 * spare ones too, up to four in all; gives the size of the window. */
static uint32_t add_latest(const struct event *event, uint64_t days, int weekday,
                           uint32_t eligible, struct ranked *list)
{
    uint32_t farthest;
    if (!weekday || eligible >= 4)
        return eligible;
    return eligible + rank_days(event, days, EVENT, 4 - eligible, MOST_RANKS, list, &farthest);
}

/* Average X of Y: leaves of a window of so many days those that are averaged;
 * `seven` is whether there are seven days of data. Gives 0 where there are none. */
static int take_middle(struct ranked *list, uint32_t size, int weekday, int seven)
{
    uint32_t least = weekday ? (seven ? 2 : 4) : (seven ? 1 : 2);
    uint32_t passed = size == 10 ? 4 : size > 2, i;
    if (size < least)
        return 0;
    list->count = size < 2 ? 1 : 2;
    for (i = 0; i < list->count; i++)
        list->back[i] = list->back[i + passed];
    return 1;
}

/* The end of the latest twelve present quarters that end at or before s, or 0. */
static uint32_t latest_twelve(const uint32_t *ruler, uint32_t s)
{
    uint32_t run = 0, t;
    for (t = s; t-- > 0;) {
        run = ruler[t] == MISSING ? 0 : run + 1;
        if (run == TWELVE)
            return t + TWELVE;
    }
    return 0;
}

/* The end of the adjustment window, or 0. */
static uint32_t adjustment_end(const uint32_t *ruler, uint32_t s, uint32_t n)
{
    uint32_t any = 0, t;
    if (n < TWELVE)
        return latest_twelve(ruler, s);
    for (t = n - TWELVE; t < n; t++)
        any |= ruler[t] == MISSING;
    return any ? latest_twelve(ruler, s) : n;
}

/* N*A - B for the twelve quarters that end at `end`. */
static int32_t adjustment(const struct event *event, const struct ranked *list,
                          uint32_t end)
{
    const uint32_t *ruler = day_part(event, 1);
    uint32_t a = 0, b = 0, i, t;
    for (t = end - TWELVE; t < end; t++)
        a += ruler[t];
    for (i = 0; i < list->count; i++) {
        const uint32_t *part = day_part(event, list->back[i]);
        for (t = end - TWELVE; t < end; t++)
            b += part[t < QUARTERS ? t : t - QUARTERS];
    }
    return (int32_t)(list->count * a) - (int32_t)b;
}

/* max(0, 12*S + N*A - B) for each quarter of the event. */
static void write_numerators(const struct event *event, const struct ranked *list,
                             int32_t adj, uint32_t *out)
{
    uint32_t length = event->end - event->start;
    int32_t sums[QUARTERS] = {0};
    uint32_t i, t;
    for (i = 0; i < list->count; i++) {
        const uint32_t *part = day_part(event, list->back[i]) + event->start;
        for (t = 0; t < length; t++)
            sums[t] += (int32_t)part[t];
    }
    for (t = 0; t < length; t++) {
        int32_t numerator = 12 * sums[t] + adj;
        out[t] = numerator < 0 ? 0 : (uint32_t)numerator;
    }
}

/* The sum of one or two days at each quarter of the event. */
static void write_sums(const struct event *event, const struct ranked *list,
                       uint32_t *out)
{
    uint32_t length = event->end - event->start, t;
    const uint32_t *part;
    memcpy(out, day_part(event, list->back[0]) + event->start, length * sizeof *out);
    if (list->count < 2)
        return;
    part = day_part(event, list->back[1]) + event->start;
    for (t = 0; t < length; t++)
        out[t] += part[t];
}

static void write_answer(struct plain_answer *answer, const struct ranked *list,
                         uint32_t d, uint32_t reach, uint32_t over, int32_t adj)
{
    uint32_t i;
    memset(answer, 0, sizeof *answer);
    for (i = 0; i < list->count; i++)
        answer->days[i] = d - list->back[i];
    answer->count = list->count;
    answer->reach = reach;
    answer->denominator = over;
    answer->adjustment = adj;
}

/* Refusals 1 to 3, or 0. */
static uint32_t check_table(uint32_t first, const uint8_t *marks, size_t days,
                            const uint32_t *readings, size_t count,
                            struct plain_answer *answer)
{
    size_t place;
    if (days == 0 || days > MOST_DAYS || count != QUARTERS * days ||
        (uint64_t)first + days - 1 > LAST_DAY)
        return refuse(answer, 1, 0, 0, 0);
    place = strange_mark(marks, days);
    if (place < days)
        return refuse(answer, 2, 1, place, 0);
    place = strange_reading(readings, days);
    if (place < count)
        return refuse(answer, 3, 1, place, 0);
    return 0;
}

uint32_t plain_baseline(uint32_t first, const uint8_t *marks, size_t days,
                        const uint32_t *readings, size_t count,
                        const uint32_t *moves, size_t moves_len, uint32_t p,
                        uint32_t d, uint32_t s, uint32_t e, uint32_t n,
                        uint32_t method, uint32_t *out, size_t room,
                        struct plain_answer *answer)
{
    struct ranked list = {{0}, {0}, 0};
    struct event event;
    uint64_t relevant, held;
    uint32_t refused, before, y, most, eligible, size, oldest, reach, end;
    uint32_t farthest = 0;
    int32_t adj;
    int weekday;

    refused = check_table(first, marks, days, readings, count, answer);
    if (refused)
        return refused;
    if (!good_moves(moves, moves_len))
        return refuse(answer, 14, 0, 0, 0);
    if (p > LAST_DAY || s < 96 || s > 191 || e <= s || e > 192 || n > s || method > AVERAGE)
        return refuse(answer, 4, 0, 0, 0);
    if (d < first || d - first >= days)
        return refuse(answer, 5, 0, 0, 0);
    if (p > d)
        return refuse(answer, 6, 0, 0, 0);
    if (room < e - s)
        return refuse(answer, 7, 0, 0, 0);

    before = d - first;
    event.mark = marks + before;
    event.readings = readings + (size_t)before * QUARTERS;
    event.start = s - QUARTERS;
    event.end = e - QUARTERS;
    relevant = relevant_bits(p, d, moves, moves_len, &weekday);
    oldest = highest_bit(relevant);
    held = relevant;
    if (before < LOOK_BACK)
        held &= ((uint64_t)2 << before) - 1;
    y = weekday ? 10 : method == AVERAGE ? 4 : 3;
    most = method == AVERAGE ? (weekday ? MOST_RANKS : 3) : (weekday ? 5 : 2);

    eligible = rank_days(&event, held, 0, y, most, &list, &farthest);
    if (eligible < y && oldest > before)
        return refuse(answer, 8, 1, oldest, 0);
    reach = eligible == y ? farthest : oldest;
    if (method == AVERAGE) {
        size = add_latest(&event, held, weekday, eligible, &list);
        if (!take_middle(&list, size, weekday, d - p >= 7))
            return refuse(answer, 9, 2, size, reach);
        write_sums(&event, &list, out);
        write_answer(answer, &list, d, reach, list.count, 0);
        return 0;
    }
    if (eligible < most)
        add_spares(&event, held, most, &list);
    if (list.count < most)
        return refuse(answer, 9, 2, list.count, reach);
    end = adjustment_end(day_part(&event, 1), s, n);
    if (!end)
        return refuse(answer, 10, 1, reach, 0);

    adj = adjustment(&event, &list, end);
    write_numerators(&event, &list, adj, out);
    write_answer(answer, &list, d, reach, 12 * list.count, adj);
    return 0;
}
