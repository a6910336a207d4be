/* The days of a sheet: the look-back, and the window by rank. */
#include <inttypes.h>
#include <stdio.h>
#include <string.h>

#include "command.h"

#define MARGIN 11 /* of the tables that have a line for each quarter: ruler quarter and clock time */

static const char *reason_words(int64_t reason, int64_t day)
{
    static const char *const words[] = {
        [HP_TOO_EARLY] = "before participation", [HP_ANOTHER_GROUP] = "of another group", [HP_DAY_BEFORE] = "the day before a weekday",
        [HP_DAY_NOT_HELD] = "not held by this file", [HP_READING_MISSING] = "a reading is missing", [HP_OUTAGE] = "an outage is marked",
        [HP_EVENT_RECORDED] = "an event is marked", [HP_ELIGIBLE] = "eligible",
    };
    if (reason < HP_TOO_EARLY || reason > HP_ELIGIBLE)
        return "-";
    return reason == HP_TOO_EARLY && day == HP_NOTHING ? "before the calendar" : words[reason];
}

/* Whether a day of this reason may stand in a window. */
static int may_stand(int64_t reason)
{
    return reason == HP_DAY_NOT_HELD || reason == HP_EVENT_RECORDED || reason == HP_ELIGIBLE;
}

/* The line of the day so many days before the event. */
static void print_back(const struct event *event, int64_t back)
{
    char number[ROOM], date[ROOM], sum[ROOM] = "", rank[ROOM];
    int64_t day = working_of(event, back, HP_BACK_DAY), total = working_of(event, back, HP_BACK_SUM), place = working_of(event, back, HP_BACK_RANK);
    int64_t reason = working_of(event, back, HP_BACK_REASON);
    if (total != HP_NOTHING)
        put_number(sum, total);
    if (place == HP_NOTHING && may_stand(reason))
        snprintf(rank, ROOM, "?");
    else
        put_number(rank, place == 0 ? HP_NOTHING : place);
    printf("  D-%-2" PRId64 "  %5s  %-10s  %-9s  %-8s  %-24s  %9s  %4s%s\n", back, put_number(number, day), put_date(date, day), weekday_name(day),
           group_name(working_of(event, back, HP_BACK_GROUP)), reason_words(reason, day), sum, rank,
           working_of(event, back, HP_BACK_CHOSEN) == 1 ? "  chosen" : "");
}

void print_look_back(const struct event *event)
{
    char from[ROOM], to[ROOM];
    printf("\n1. THE LOOK-BACK: the %d days before the event, the nearest first\n", HP_LOOK_BACK);
    print_wrapped(3, "A day counts where it is eligible. The sum is over the event's own quarters, %s to %s.\n", put_clock(from, event->start),
           put_clock(to, event->end));
    printf("  back  day    date        weekday    group     used, or why not               sum  rank\n");
    for (int64_t back = 1; back <= HP_LOOK_BACK; back++)
        print_back(event, back);
    if (event->size == HP_NOTHING)
        printf("  ? stands where the days held do not tell the rank.\n");
}

/* Whether days on which an event is marked stand in the window. */
static int is_filled(const struct event *event)
{
    for (int64_t rank = 0; rank < event->size; rank++)
        if (working_of(event, event->back[rank], HP_BACK_REASON) == HP_EVENT_RECORDED)
            return 1;
    return 0;
}

/* The method's rule, and what it makes of this window. */
static void print_choice(const struct event *event)
{
    if (event->method == HP_METHOD_HIGH)
        print_wrapped(3, "High X of Y chooses the N highest: 5 where the event day is a weekday, otherwise 2.");
    else
        print_wrapped(3, "Average X of Y chooses the 5th and 6th of ten, the 2nd and 3rd of nine to three, both of two, or one. Three or two weekdays, "
                      "or one other day, are enough only where P is 7 or more days before D, and it is %" PRId64 "; one weekday never is.",
                      event->day - hp_file(event->file->bytes, event->file->length, HP_FILE_PARTICIPATION));
    if (event->taken > 1)
        print_wrapped(3, "So N = %" PRId64 ": ranks %" PRId64 " to %" PRId64 " are chosen.", event->taken, event->passed + 1, event->passed + event->taken);
    else if (event->taken == 1)
        print_wrapped(3, "So N = 1: rank %" PRId64 " is chosen.", event->passed + 1);
    else
        print_wrapped(3, "These are too few: none is chosen.");
}

static void print_window_words(const struct event *event)
{
    char day[ROOM];
    int64_t reach = event->result == HP_NO_ADJUSTMENT_WINDOW ? event->carried : event->result == HP_TOO_FEW ? event->second : told_of(event, HP_REACH);
    if (event->size == event->most)
        print_wrapped(3, "It is the %" PRId64 " latest eligible days (Y = %" PRId64 ").", event->size, event->most);
    else
        print_wrapped(3, "A whole window has Y = %" PRId64 " days; the look-back gives %" PRId64 ".", event->most, event->size);
    if (is_filled(event))
        print_wrapped(3, "Too few are eligible, so days on which an event is marked were added, the %s first.",
                      event->method == HP_METHOD_AVERAGE ? "latest" : "highest");
    print_wrapped(3, "Rank 1 is the highest sum; of equal sums the nearer day comes first.");
    print_choice(event);
    print_wrapped(3, "Reach: %" PRId64 " days before the event were needed, back to %s.", reach, put_day(day, event->day - reach));
}

/* The cells of a line: what a day of the window has of it. */
enum line { RANK, DATE, DAY, SUM, CHOSEN, READING };

static void put_cell(char *to, const struct event *event, enum line line, int64_t rank, int64_t quarter)
{
    int64_t day = ranked_day(event, rank), back = event->back[rank];
    char date[ROOM];
    if (line == DATE)
        snprintf(to, ROOM, "%s", strlen(put_date(date, day)) == 10 ? date + 5 : date);
    else if (line == CHOSEN)
        snprintf(to, ROOM, "%s", working_of(event, back, HP_BACK_CHOSEN) == 1 ? "chosen" : "-");
    else if (line == READING)
        put_reading(to, reading_of(event, day, quarter));
    else
        put_number(to, line == RANK ? rank + 1 : line == DAY ? day : working_of(event, back, HP_BACK_SUM));
}

/* The ranks from one up to another, side by side. */
struct block {
    const struct event *event;
    int64_t from, to;
    int width;
};

static void print_cells(const struct block *block, enum line line, int64_t quarter)
{
    char cell[ROOM];
    for (int64_t rank = block->from; rank < block->to; rank++) {
        put_cell(cell, block->event, line, rank, quarter);
        printf("%*s", block->width, cell);
    }
    printf("\n");
}

static void print_block(const struct block *block)
{
    static const struct { const char *label; enum line line; } above[] = {{"rank", RANK}, {"date", DATE}, {"day", DAY}}, below[] = {{"sum", SUM}, {"", CHOSEN}};
    char clock[ROOM];
    printf("\n");
    for (size_t i = 0; i < sizeof above / sizeof *above; i++) {
        printf("  %-*s", MARGIN - 2, above[i].label);
        print_cells(block, above[i].line, 0);
    }
    for (int64_t quarter = block->event->start; quarter < block->event->end; quarter++) {
        printf("  %3" PRId64 " %s", quarter, put_clock(clock, quarter));
        print_cells(block, READING, quarter);
    }
    for (size_t i = 0; i < sizeof below / sizeof *below; i++) {
        printf("  %-*s", MARGIN - 2, below[i].label);
        print_cells(block, below[i].line, 0);
    }
}

void print_window(const struct event *event)
{
    char sum[ROOM];
    struct block block = {event, 0, 0, 8};
    printf("\n2. THE WINDOW, by rank\n");
    if (event->size == HP_NOTHING) {
        print_wrapped(3, "It is not known: days that the file does not hold could stand in it.");
        return;
    }
    print_window_words(event);
    if (event->size > 0 && (int)strlen(put_number(sum, working_of(event, event->back[0], HP_BACK_SUM))) + 1 > block.width)
        block.width = (int)strlen(sum) + 1;
    int64_t fits = (WIDTH - MARGIN) / block.width, step = event->size <= fits ? event->size : 5;
    for (block.from = 0; block.from < event->size; block.from = block.to) {
        block.to = block.from + step < event->size ? block.from + step : event->size;
        print_block(&block);
    }
}
