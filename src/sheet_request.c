/* The head of a sheet: the request in words, and a refusal with what it was given for. */
#include <inttypes.h>
#include <stdio.h>
#include <string.h>

#include "command.h"

#define LABEL "  %-20s  "

static int64_t file_number(const struct event *event, uint32_t name)
{
    return hp_file(event->file->bytes, event->file->length, name);
}

static int64_t last_held(const struct event *event)
{
    return file_number(event, HP_FILE_FIRST) + file_number(event, HP_FILE_DAYS) - 1;
}

static void print_day_line(const char *label, int64_t day)
{
    char words[ROOM];
    printf(LABEL "%s\n", label, put_day(words, day));
}

/* A place of the ruler, by its clock time and its day. */
static void print_place(const struct event *event, const char *label, int64_t place)
{
    char clock[ROOM], date[ROOM];
    if (place > 2 * HP_QUARTERS)
        printf(LABEL "ruler quarter %" PRId64 ", which is off the ruler\n", label, place);
    else if (place == 2 * HP_QUARTERS)
        printf(LABEL "01:00, where %s ends       ruler quarter %" PRId64 "\n", label, put_date(date, event->day), place);
    else
        printf(LABEL "%s of %-10s               ruler quarter %" PRId64 "\n", label, put_clock(clock, place), put_date(date, ruler_day(event, place)), place);
}

static void print_held(const struct event *event)
{
    char from[ROOM], to[ROOM];
    int64_t days = file_number(event, HP_FILE_DAYS);
    if (days == 0)
        printf(LABEL "none\n", "days held");
    else
        printf(LABEL "%" PRId64 ": %s to %s\n", "days held", days, put_day(from, file_number(event, HP_FILE_FIRST)), put_day(to, last_held(event)));
}

/* What is wrong with a move, or nothing: refusal 14 does not tell which it is. */
static const char *move_fault(const struct event *event, int64_t place, int64_t from, int64_t to)
{
    if (from > HP_LAST_DAY || to > HP_LAST_DAY)
        return ": a day after 2099";
    if (hp_calendar((uint32_t)from, HP_CALENDAR_FIXED) == HP_NOTHING)
        return ": no fixed-date holiday";
    for (int64_t other = 0; other < place; other++)
        if (hp_move(event->file->bytes, event->file->length, (size_t)other, HP_MOVE_FROM) == from)
            return ": moved twice";
    return "";
}

static void print_moves(const struct event *event)
{
    char one[ROOM], other[ROOM];
    int64_t moves = file_number(event, HP_FILE_MOVES);
    if (moves == 0)
        printf(LABEL "none\n", "moved holidays");
    for (int64_t place = 0; place < moves; place++) {
        int64_t from = hp_move(event->file->bytes, event->file->length, (size_t)place, HP_MOVE_FROM);
        int64_t to = hp_move(event->file->bytes, event->file->length, (size_t)place, HP_MOVE_TO);
        printf(LABEL "%s to %s (days %" PRId64 " and %" PRId64 ")%s\n", place == 0 ? "moved holidays" : "", put_date(one, from), put_date(other, to), from, to,
               move_fault(event, place, from, to));
    }
}

void print_request(const struct event *event)
{
    printf("\nTHE REQUEST\n");
    printf(LABEL "%" PRId64 "\n", "portfolio", file_number(event, HP_FILE_PORTFOLIO));
    print_day_line("participation from P", file_number(event, HP_FILE_PARTICIPATION));
    print_held(event);
    print_moves(event);
    print_day_line("event day D", event->day);
    if (event->group != HP_NOTHING)
        printf(LABEL "%s%s\n", "group of D", group_name(event->group), event->group == HP_GROUP_HOLIDAY ? " (a Sunday or a holiday)" : "");
    print_place(event, "start s", event->start);
    print_place(event, "end e", event->end);
    print_place(event, "notice n", event->notice);
    if (event->method == HP_METHOD_HIGH || event->method == HP_METHOD_AVERAGE)
        printf(LABEL "%s\n", "method", method_name(event->method));
    else
        printf(LABEL "unknown: %" PRId64 "\n", "method", event->method);
}

/* Refusal 4: which of its tests. */
static void print_out_of_range(const struct event *event)
{
    int64_t participation = file_number(event, HP_FILE_PARTICIPATION);
    if (participation > HP_LAST_DAY)
        print_wrapped(2, "P, day %" PRId64 ", is after the calendar's last day, %d.", participation, HP_LAST_DAY);
    if (event->start < HP_QUARTERS || event->start >= 2 * HP_QUARTERS)
        print_wrapped(2, "s, %" PRId64 ", is not from 96 to 191: an event starts on its own day.", event->start);
    if (event->end <= event->start || event->end > 2 * HP_QUARTERS)
        print_wrapped(2, "e, %" PRId64 ", is not from s + 1 to 192: an event ends after it has started, on its own day.", event->end);
    if (event->notice > event->start)
        print_wrapped(2, "n, %" PRId64 ", is above s: notice comes before the event.", event->notice);
    if (event->method != HP_METHOD_HIGH && event->method != HP_METHOD_AVERAGE)
        print_wrapped(2, "The method, %" PRId64 ", is neither 0 nor 1.", event->method);
}

/* Refusals 2 and 3: the mark or the reading. */
static void print_bad_value(const struct event *event)
{
    char words[ROOM], clock[ROOM];
    int64_t place = event->result == HP_BAD_MARK ? event->carried : event->carried / HP_QUARTERS, quarter = event->carried % HP_QUARTERS;
    int64_t day = file_number(event, HP_FILE_FIRST) + place;
    if (event->result == HP_BAD_MARK)
        print_wrapped(2, "It is the mark of %s, at place %" PRId64 " of the days held: %" PRId64 ".", put_day(words, day), place,
                      hp_mark(event->file->bytes, event->file->length, (uint32_t)day));
    else
        print_wrapped(2, "It is the reading of %s, %s (quarter %" PRId64 "), at place %" PRId64 " of all: %" PRId64 ".", put_day(words, day),
                      put_clock(clock, quarter), quarter, event->carried, reading_of(event, day, quarter));
}

/* Refusal 8: how many days more, and from when on. */
static void print_margin(const struct event *event)
{
    char words[ROOM];
    const uint8_t *bytes = event->file->bytes;
    size_t length = event->file->length, place = event->place;
    print_wrapped(2, "%" PRId64 " days before the event always suffice; the file holds %" PRId64 ", so %" PRId64 " more have to be sent: cut the days "
                  "from %s on.", event->carried, hp_overlap(bytes, length, place, HP_OVERLAP_HELD), hp_overlap(bytes, length, place, HP_OVERLAP_MORE),
                  put_day(words, hp_overlap(bytes, length, place, HP_OVERLAP_FROM)));
}

static void print_grounds(const struct event *event)
{
    char words[ROOM];
    switch (event->result) {
    case HP_BAD_TABLE:
        if (file_number(event, HP_FILE_DAYS) == 0)
            print_wrapped(2, "The file holds no days.");
        else
            print_wrapped(2, "The last day held is %s.", put_day(words, last_held(event)));
        break;
    case HP_BAD_MARK:
    case HP_BAD_READING:
        print_bad_value(event);
        break;
    case HP_BAD_MOVES:
        print_wrapped(2, "The request above says which of the moved holidays can't be.");
        break;
    case HP_BAD_REQUEST:
        print_out_of_range(event);
        break;
    case HP_NOT_HELD:
        print_wrapped(2, "It is %s; the request above says which days are held.", put_day(words, event->day));
        break;
    case HP_NOT_YET_PARTICIPATING:
        print_wrapped(2, "It starts on %s.", put_day(words, file_number(event, HP_FILE_PARTICIPATION)));
        break;
    case HP_MARGIN_TOO_SHORT:
        print_margin(event);
        break;
    case HP_TOO_FEW:
        print_wrapped(2, "There are %" PRId64 ", which step 2 shows; the reach is %" PRId64 " days.", event->carried, event->second);
        break;
    case HP_NO_ADJUSTMENT_WINDOW:
        print_wrapped(2, "Step 3 says where readings are missing; the reach is %" PRId64 " days.", event->carried);
        break;
    default:
        break;
    }
}

void print_refusal(const struct event *event)
{
    char number[ROOM];
    printf("  %s\n", put_refusal(number, event));
    print_wrapped(2, "%s", hp_refusal_text((uint32_t)event->result));
    print_grounds(event);
}
