/* The words of a text for pack: numbers, days, clock times and places. */
#include <inttypes.h>
#include <stdio.h>
#include <string.h>

#include "pack.h"

int take_number(struct text *text, const char *word, uint32_t most, const char *what, uint32_t *number)
{
    uint64_t value;
    if (!is_number(word, most, &value))
        return bad_line(text, text->line, "'%s' is no %s: a whole number from 0 to %" PRIu32 " is", word, what, most);
    *number = (uint32_t)value;
    return 1;
}

int take_day(struct text *text, const char *word, uint32_t *day)
{
    if (strchr(word, '-') == NULL)
        return take_number(text, word, UINT16_MAX, "date like 2024-08-28, and no day", day);
    int64_t value = dated(word);
    if (value == HP_NOTHING)
        return bad_line(text, text->line, "'%s' is no date from 2000-01-01 to 2099-12-31", word);
    *day = (uint32_t)value;
    return 1;
}

/* A word of some that stand for numbers, or else a number. */
static int take_named(struct text *text, const char *word, const char *const *names, size_t count, const char *what, uint32_t *number)
{
    for (size_t i = 0; i < count; i++)
        if (strcmp(word, names[i]) == 0) {
            *number = (uint32_t)i;
            return 1;
        }
    return take_number(text, word, UINT8_MAX, what, number);
}

int take_mark(struct text *text, const char *word, uint32_t *mark)
{
    static const char *const names[] = {"none", "event", "outage", "both"};
    return take_named(text, word, names, 4, "mark, and not `none`, `event`, `outage` or `both`", mark);
}

int take_method(struct text *text, const char *word, uint32_t *method)
{
    static const char *const names[] = {"high", "average"};
    return take_named(text, word, names, 2, "method, and not `high` or `average`", method);
}

/* The quarters from midnight to a clock time like 15:00, or -1. */
static int from_midnight(const char *word)
{
    static const char digits[] = "0123456789";
    if (strlen(word) != 5 || strspn(word, digits) != 2 || word[2] != ':' || strspn(word + 3, digits) != 2)
        return -1;
    int hour = 10 * (word[0] - '0') + word[1] - '0', minute = 10 * (word[3] - '0') + word[4] - '0';
    return hour < 24 && minute < 60 && minute % 15 == 0 ? 4 * hour + minute / 15 : -1;
}

static int no_clock(struct text *text, const char *word)
{
    return bad_line(text, text->line, "'%s' is no clock time of a quarter: 00:00, 00:15 and so on to 23:45 are", word);
}

/* A day starts at 01:00, so midnight is its quarter 92. */
int take_clock(struct text *text, const char *word, uint32_t *quarter)
{
    int found = from_midnight(word);
    if (found < 0)
        return no_clock(text, word);
    *quarter = (uint32_t)(found + HP_QUARTERS - 4) % HP_QUARTERS;
    return 1;
}

/* A date and a clock time by the calendar, 2024-08-27T14:00. */
static int take_moment(struct text *text, const char *word, uint32_t day, uint32_t *place)
{
    char date[ROOM];
    size_t length = strcspn(word, "T");
    uint32_t on = 0;
    snprintf(date, sizeof date, "%.*s", (int)(length < 20 ? length : 20), word);
    int found = from_midnight(word + length + 1);
    if (!take_day(text, date, &on))
        return 0;
    if (found < 0)
        return no_clock(text, word + length + 1);
    int64_t quarter = HP_QUARTERS * ((int64_t)on - day + 1) + found - 4;
    if (quarter < 0 || quarter > 2 * HP_QUARTERS)
        return bad_line(text, text->line, "'%s' is not from 01:00 of the day before the event to 01:00 of the day after", word);
    *place = (uint32_t)quarter;
    return 1;
}

int take_place(struct text *text, const char *word, uint32_t day, int is_end, uint32_t *place)
{
    uint32_t quarter = 0;
    if (strchr(word, ':') == NULL)
        return take_number(text, word, UINT8_MAX, "clock time like 15:00, and no place", place);
    if (strchr(word, 'T') != NULL)
        return take_moment(text, word, day, place);
    if (!take_clock(text, word, &quarter))
        return 0;
    *place = is_end && quarter == 0 ? 2 * HP_QUARTERS : HP_QUARTERS + quarter; /* at 01:00 a day starts, and an event ends */
    return 1;
}
