/* The days of a text for pack: a line each, or a row for each quarter. */
#include <inttypes.h>
#include <stdio.h>
#include <string.h>

#include "pack.h"

#define MIDNIGHT (HP_QUARTERS - 4) /* the quarter of a day that starts at 00:00 */

/* One day or time, or two with `to` between. */
static char *put_span(char *to, const char *first, const char *last)
{
    if (strcmp(first, last) == 0)
        snprintf(to, 2 * ROOM, "%.*s is", ROOM / 2, first);
    else
        snprintf(to, 2 * ROOM, "%.*s to %.*s are", ROOM / 2, first, ROOM / 2, last);
    return to;
}

/* Begins the next day: its place among the days held, or HP_MOST_DAYS where it can't be kept. */
static size_t begin_day(struct text *text, uint32_t day, int by_rows)
{
    char own[ROOM], one[ROOM], other[ROOM], span[2 * ROOM];
    int64_t due = text->last == HP_NOTHING ? day : text->last + 1;
    if (day < due)
        bad_line(text, text->line, "%s does not come after %s: days stand in order, each once", put_date(own, day), put_date(other, text->last));
    else if (day > due)
        bad_line(text, text->line, "%s left out before %s: a day of which nothing is known has missing readings",
                 put_span(span, put_date(one, due), put_date(other, day - 1)), put_date(own, day));
    text->last = day < due ? text->last : day;
    if (text->days == HP_MOST_DAYS) {
        bad_line(text, text->line, "a file has at most %d days", HP_MOST_DAYS);
        return HP_MOST_DAYS;
    }
    text->held[text->days] = day;
    text->by_rows[text->days] = (uint8_t)by_rows;
    text->marks[text->days] = 0;
    return text->days++;
}

/* Puts the readings of a word at this place of a day, as far as there is room: gives the place behind them, or SIZE_MAX where the word is bad. */
static size_t take_readings(struct text *text, char *word, uint32_t *own, size_t place)
{
    uint32_t times = 1, kw = HP_MISSING;
    char *star = strchr(word, '*');
    if (star != NULL)
        *star = '\0';
    if (star != NULL && !take_number(text, star + 1, HP_QUARTERS, "number of readings", &times))
        return SIZE_MAX;
    if (strcmp(word, "missing") != 0 && !take_number(text, word, UINT32_MAX, "reading, and not `missing`", &kw))
        return SIZE_MAX;
    for (size_t i = place; i < place + times && i < HP_QUARTERS; i++)
        own[i] = kw;
    return place + times;
}

void take_day_line(struct text *text, char **words, size_t count)
{
    static uint32_t spare[HP_QUARTERS]; /* for a day that can't be kept */
    uint32_t day = 0, mark = 0;
    size_t place = 0;
    if (count < 3) {
        bad_line(text, text->line, "a day line is: %s", DAY_LINE);
        text->last = HP_NOTHING;
        return;
    }
    if (!take_day(text, words[1], &day)) {
        text->last = HP_NOTHING;
        return;
    }
    size_t own = begin_day(text, day, 0);
    if (!take_mark(text, words[2], &mark))
        return;
    if (own < HP_MOST_DAYS)
        text->marks[own] = (uint8_t)mark;
    for (size_t i = 3; i < count && place != SIZE_MAX; i++)
        place = take_readings(text, words[i], own < HP_MOST_DAYS ? text->readings + HP_QUARTERS * own : spare, place);
    if (place != SIZE_MAX && place != HP_QUARTERS)
        bad_line(text, text->line, "a day has %d readings, not %zu", HP_QUARTERS, place);
}

void take_mark_line(struct text *text, char **words, size_t count)
{
    uint32_t day = 0, mark = 0;
    if (count != 3) {
        bad_line(text, text->line, "a mark line is: %s", MARK_LINE);
        return;
    }
    if (!take_day(text, words[1], &day) || !take_mark(text, words[2], &mark))
        return;
    if (text->mark_lines_len == HP_MOST_DAYS) {
        bad_line(text, text->line, "a file has at most %d days to mark", HP_MOST_DAYS);
        return;
    }
    struct mark_line *own = &text->mark_lines[text->mark_lines_len++];
    own->line = text->line;
    own->day = day;
    own->mark = (uint8_t)mark;
}

static void put_mark(struct text *text, size_t which)
{
    char date[ROOM];
    const struct mark_line *own = &text->mark_lines[which];
    size_t i = 0;
    put_date(date, own->day);
    for (size_t before = 0; before < which; before++)
        if (text->mark_lines[before].day == own->day) {
            bad_line(text, own->line, "%s has a mark at line %zu", date, text->mark_lines[before].line);
            return;
        }
    while (i < text->days && text->held[i] != own->day)
        i++;
    if (i == text->days)
        bad_line(text, own->line, "the text does not hold %s", date);
    else if (!text->by_rows[i])
        bad_line(text, own->line, "%s has its mark in its day line", date);
    else
        text->marks[i] = own->mark;
}

void put_marks(struct text *text)
{
    for (size_t i = 0; i < text->mark_lines_len; i++)
        put_mark(text, i);
}

/* The quarters of the open day from its next up to this one are left out. */
static void leave_out(struct text *text, uint32_t quarter)
{
    char from[ROOM], to[ROOM], date[ROOM], span[2 * ROOM];
    if (text->row_next < quarter)
        bad_line(text, text->line, "of %s %s left out: a day has a row for each quarter from 01:00 to 00:45", put_date(date, text->row_day),
                 put_span(span, put_clock(from, text->row_next), put_clock(to, quarter - 1)));
    text->row_next = quarter;
}

void end_rows(struct text *text)
{
    leave_out(text, HP_QUARTERS);
}

/* Whether a row is of the day that is open: the rows after midnight may have its date or the next. */
static int is_of_open_day(const struct text *text, uint32_t day, uint32_t quarter)
{
    return text->row_next < HP_QUARTERS && (day == text->row_day || (quarter >= MIDNIGHT && day == text->row_day + 1));
}

static void put_row(struct text *text, uint32_t day, uint32_t quarter, uint32_t kw)
{
    char clock[ROOM], date[ROOM];
    if (!is_of_open_day(text, day, quarter)) {
        if (quarter >= MIDNIGHT) {
            bad_line(text, text->line, "%s is one of the last quarters of a day, and 01:00 its first: the rows of a day start there",
                     put_clock(clock, quarter));
            return;
        }
        end_rows(text);
        begin_day(text, day, 1);
        text->row_day = day;
        text->row_next = 0;
    }
    if (quarter < text->row_next) {
        bad_line(text, text->line, "%s of %s stands after a later row: rows stand in order, each once", put_clock(clock, quarter),
                 put_date(date, text->row_day));
        return;
    }
    leave_out(text, quarter);
    text->row_next = quarter + 1;
    if (text->held[text->days - 1] == text->row_day)
        text->readings[HP_QUARTERS * (text->days - 1) + quarter] = kw;
}

/* Takes the blanks off both ends. */
static char *trimmed(char *word)
{
    char *end = word + strlen(word);
    while (*word == ' ' || *word == '\t' || *word == '\r')
        word++;
    while (end > word && (end[-1] == ' ' || end[-1] == '\t' || end[-1] == '\r'))
        *--end = '\0';
    return word;
}

void take_row(struct text *text, char *line)
{
    char *field[3] = {line, strchr(line, ','), NULL};
    uint32_t day = 0, quarter = 0, kw = HP_MISSING;
    if (field[1] != NULL)
        field[2] = strchr(field[1] + 1, ',');
    if (field[2] == NULL || strchr(field[2] + 1, ',') != NULL) {
        bad_line(text, text->line, "a row is: %s", ROW);
        return;
    }
    *field[1]++ = *field[2]++ = '\0';
    for (size_t i = 0; i < 3; i++)
        field[i] = trimmed(field[i]);
    if (strcmp(field[0], "date") == 0 && strcmp(field[1], "time") == 0 && strcmp(field[2], "kW") == 0)
        return; /* the heads of the columns */
    if (!take_day(text, field[0], &day) || !take_clock(text, field[1], &quarter)) {
        if (text->row_next < HP_QUARTERS)
            text->row_next++; /* as if it were the row that is due */
        return;
    }
    if (*field[2] != '\0' && strcmp(field[2], "missing") != 0)
        take_number(text, field[2], UINT32_MAX, "reading, and not `missing`", &kw);
    put_row(text, day, quarter, kw);
}
