/* Dates, clock times and names, as people read them. */
#include <inttypes.h>
#include <stdarg.h>
#include <stdio.h>
#include <string.h>

#include "command.h"

const char *weekday_name(int64_t day)
{
    static const char *const names[] = {"Saturday", "Sunday", "Monday", "Tuesday", "Wednesday", "Thursday", "Friday"};
    return day < 0 ? "-" : names[day % 7]; /* day 0 is a Saturday */
}

const char *group_name(int64_t group)
{
    switch (group) {
    case HP_GROUP_WEEKDAY:
        return "weekday";
    case HP_GROUP_SATURDAY:
        return "Saturday";
    case HP_GROUP_HOLIDAY:
        return "holiday";
    default:
        return "-";
    }
}

const char *method_name(int64_t method)
{
    return method == HP_METHOD_HIGH ? "High X of Y" : method == HP_METHOD_AVERAGE ? "Average X of Y" : "unknown method";
}

char *put_number(char *to, int64_t number)
{
    if (number == HP_NOTHING)
        snprintf(to, ROOM, "-");
    else
        snprintf(to, ROOM, "%" PRId64, number);
    return to;
}

char *put_reading(char *to, int64_t reading)
{
    if (reading == HP_MISSING)
        snprintf(to, ROOM, "missing");
    else
        put_number(to, reading);
    return to;
}

char *put_date(char *to, int64_t day)
{
    int64_t date = day < 0 || day > HP_LAST_DAY ? HP_NOTHING : hp_date((uint32_t)day);
    if (day < 0)
        snprintf(to, ROOM, "-");
    else if (date == HP_NOTHING)
        snprintf(to, ROOM, "%" PRId64, day);
    else
        snprintf(to, ROOM, "%04" PRId64 "-%02" PRId64 "-%02" PRId64, date / 10000, date / 100 % 100, date % 100);
    return to;
}

char *put_day(char *to, int64_t day)
{
    char date[ROOM];
    if (day < 0)
        snprintf(to, ROOM, "no day");
    else if (day > HP_LAST_DAY)
        snprintf(to, ROOM, "day %" PRId64 ", after 2099", day);
    else
        snprintf(to, ROOM, "%s %.10s (day %" PRId64 ")", weekday_name(day), put_date(date, day), day);
    return to;
}

char *put_clock(char *to, int64_t quarter)
{
    int64_t minute = 60 + 15 * (quarter % HP_QUARTERS); /* a day starts at 01:00 */
    snprintf(to, ROOM, "%02" PRId64 ":%02" PRId64, minute / 60 % 24, minute % 60);
    return to;
}

void print_wrapped(int indent, const char *form, ...)
{
    char all[16 * ROOM], *text = all;
    va_list words;
    va_start(words, form);
    vsnprintf(all, sizeof all, form, words);
    va_end(words);
    while (*text != '\0') {
        int length = (int)strlen(text), room = WIDTH - indent;
        if (length > room)
            for (length = room; length > 1 && text[length] != ' '; length--)
                ;
        printf("%*s%.*s\n", indent, "", length, text);
        for (text += length; *text == ' '; text++)
            ;
    }
}

int is_number(const char *word, uint64_t most, uint64_t *number)
{
    uint64_t value = 0;
    if (*word == '\0')
        return 0;
    for (; *word != '\0'; word++) {
        uint64_t digit = (uint64_t)(*word - '0');
        if (*word < '0' || *word > '9' || digit > most || value > (most - digit) / 10)
            return 0;
        value = 10 * value + digit;
    }
    *number = value;
    return 1;
}

int64_t dated(const char *word)
{
    static const char form[] = "dddd-dd-dd";
    uint32_t part[3] = {0, 0, 0};
    size_t i, at = 0;
    for (i = 0; form[i] != '\0'; i++) {
        if (form[i] == '-' ? word[i] != '-' : word[i] < '0' || word[i] > '9')
            return HP_NOTHING;
        if (form[i] == '-')
            at++;
        else
            part[at] = 10 * part[at] + (uint32_t)(word[i] - '0');
    }
    return word[i] == '\0' ? hp_day(part[0], part[1], part[2]) : HP_NOTHING;
}
