/* honeyplank days: the calendar where no holiday was moved. */
#include <inttypes.h>
#include <stdio.h>
#include <string.h>

#include "command.h"

const char days_help[] =
    "usage: honeyplank days FIRST LAST\n"
    "\n"
    "A line for each day from FIRST to LAST, which are dates like 2024-08-28 or day\n"
    "numbers like 9006: its number, date, weekday, group, and which holiday it is.\n"
    "Sundays and holidays are of the holiday group. It is the calendar where no\n"
    "holiday was moved: a record file can move those with a fixed date.\n"
    "\n"
    "Exit status: 0; 3 wrong use, or a write that failed.\n";

struct holiday {
    int64_t when;
    const char *name;
};

/* By month and day */
static const struct holiday fixed[] = {
    {101, "New Year's Day"}, {106, "Epiphany"}, {325, "Annunciation"}, {501, "Labour Day"},
    {815, "Assumption"}, {1028, "Ohi Day"}, {1225, "Christmas Day"}, {1226, "Synaxis of the Theotokos"},
};

/* By the days after Easter Sunday */
static const struct holiday moving[] = {
    {-48, "Clean Monday"}, {-2, "Good Friday"}, {-1, "Holy Saturday"}, {0, "Easter Sunday"}, {1, "Easter Monday"}, {50, "Whit Monday"},
};

static const char *holiday_name(const struct holiday *list, size_t count, int64_t when)
{
    for (size_t i = 0; i < count; i++)
        if (list[i].when == when)
            return list[i].name;
    return "";
}

static void print_day(uint32_t day)
{
    char date[ROOM];
    const char *one = holiday_name(fixed, sizeof fixed / sizeof *fixed, hp_calendar(day, HP_CALENDAR_FIXED));
    const char *other = holiday_name(moving, sizeof moving / sizeof *moving, hp_calendar(day, HP_CALENDAR_EASTER));
    const char *group = group_name(hp_calendar(day, HP_CALENDAR_GROUP)), *gap = *one != '\0' && *other != '\0' ? ", " : "";
    int last = *one != '\0' || *other != '\0' ? 10 : 0; /* no blanks at the line's end */
    printf("%5" PRIu32 "  %s  %-9s  %-*s%s%s%s\n", day, put_date(date, day), weekday_name(day), last, group, one, gap, other);
}

static int64_t day_of(const char *word)
{
    uint64_t number;
    return is_number(word, HP_LAST_DAY, &number) ? (int64_t)number : dated(word);
}

int days_command(char **words, int count)
{
    int64_t day[2] = {0, 0};
    for (int i = 0; i < count; i++) {
        day[i] = day_of(words[i]);
        if (day[i] == HP_NOTHING)
            return complain(STATUS_FAILED, words[i], "no date from 2000-01-01 to 2099-12-31, and no day number from 0 to %d", HP_LAST_DAY);
    }
    if (day[1] < day[0])
        return complain(STATUS_FAILED, words[1], "it is before %s", words[0]);
    for (int64_t each = day[0]; each <= day[1]; each++)
        print_day((uint32_t)each);
    return STATUS_ANSWERED;
}
