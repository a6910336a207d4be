/* The quarters of a sheet: the adjustment window, the sums, and the baseline. */
#include <inttypes.h>
#include <stdio.h>
#include <string.h>

#include "command.h"

#define CELL 9       /* the width of a reading */
#define SUM_CELL 11  /* and of a sum */
#define WINDOW 12    /* quarters of the adjustment window */

/* The dates of the chosen days, by rank, over their readings. */
static void print_chosen_dates(const struct event *event)
{
    char date[ROOM];
    for (int64_t i = 0; i < event->taken; i++)
        printf("%*s", CELL, strlen(put_date(date, ranked_day(event, event->passed + i))) == 10 ? date + 5 : date);
}

/* What the chosen days read at a quarter, and S(t). */
static void print_chosen(const struct event *event, int64_t quarter)
{
    char cell[ROOM];
    for (int64_t i = 0; i < event->taken; i++)
        printf("%*s", CELL, put_reading(cell, reading_of(event, ranked_day(event, event->passed + i), quarter)));
    printf("%*s\n", SUM_CELL, put_number(cell, working_of(event, quarter, HP_QUARTER_S)));
}

/* The readings that are missing up to the event's start, a line for each row of them. */
static void print_missing(const struct event *event)
{
    char from[ROOM], to[ROOM], date[ROOM];
    for (int64_t t = 0, end; t < event->start; t = end) {
        end = t + 1;
        if (is_reading(ruler_reading(event, t)))
            continue;
        while (end < event->start && end != HP_QUARTERS && !is_reading(ruler_reading(event, end)))
            end++;
        printf("   %3" PRId64 " to %3" PRId64 "   %s to %s of %s   quarters: %" PRId64 "%s\n", t, end - 1, put_clock(from, t), put_clock(to, end - 1),
               put_date(date, ruler_day(event, t)), end - t, ruler_reading(event, t) == HP_NOTHING ? ", the day is not held" : "");
    }
}

static void print_window_quarters(const struct event *event)
{
    char clock[ROOM], date[ROOM], number[ROOM], other[ROOM];
    printf("\n    t  time   of          quarter  reading");
    print_chosen_dates(event);
    printf("%*s\n", SUM_CELL, "S(t)");
    for (int64_t t = event->closes - WINDOW; t < event->closes; t++) {
        printf("  %3" PRId64 "  %s  %s  %7" PRId64 "%*s", t, put_clock(clock, t), put_date(date, ruler_day(event, t)), t % HP_QUARTERS, CELL,
               put_reading(number, ruler_reading(event, t)));
        print_chosen(event, t);
    }
    printf("  sum  A = %s (of the readings), B = %s (of S(t))\n", put_number(number, working_of(event, 0, HP_WORKING_A)),
           put_number(other, working_of(event, 0, HP_WORKING_B)));
}

static void print_fraction(const struct event *event)
{
    int64_t a = working_of(event, 0, HP_WORKING_A), b = working_of(event, 0, HP_WORKING_B), over = told_of(event, HP_DENOMINATOR);
    printf("\n4. THE ADJUSTMENT: neither divided nor rounded, and never floored\n");
    print_wrapped(3, "N x A - B = %" PRId64 " x %" PRId64 " - %" PRId64 " = %" PRId64 " - %" PRId64 " = %" PRId64, event->taken, a, b, event->taken * a, b,
                  told_of(event, HP_ADJUSTMENT));
    print_wrapped(3, "12 x N = 12 x %" PRId64 " = %" PRId64, event->taken, over);
    print_wrapped(3, "adjustment: %" PRId64 "/%" PRId64 " kW", told_of(event, HP_ADJUSTMENT), over);
}

void print_adjustment(const struct event *event)
{
    printf("\n3. THE ADJUSTMENT WINDOW\n");
    if (event->method == HP_METHOD_AVERAGE) {
        print_wrapped(3, "None: Average X of Y does not adjust. Step 4 is left out.");
        return;
    }
    if (event->result == HP_NO_ADJUSTMENT_WINDOW) {
        print_wrapped(3, "None: no twelve quarters in a row up to the event have all their readings. These are missing:");
        print_missing(event);
        return;
    }
    if (event->closes == event->notice)
        print_wrapped(3, "The twelve ruler quarters that end where notice came, at %" PRId64 ".", event->notice);
    else
        print_wrapped(3, "The twelve that end where notice came, at %" PRId64 ", are not all there. These are the latest twelve in a row with all their "
                      "readings that end at or before the event's start, %" PRId64 ".", event->notice, event->start);
    print_window_quarters(event);
    print_fraction(event);
}

void print_sums(const struct event *event)
{
    char clock[ROOM];
    printf("\n5. THE SUMS S(t): what the chosen days read at each quarter of the event, added up\n\n    t  time ");
    print_chosen_dates(event);
    printf("%*s\n", SUM_CELL, "S(t)");
    for (int64_t t = event->start; t < event->end; t++) {
        printf("  %3" PRId64 "  %s", t, put_clock(clock, t));
        print_chosen(event, t);
    }
}

/* The line of a quarter: the proved numerator, floored as the proved baseline has it, and the division. */
static void print_quarter(const struct event *event, int64_t t, int64_t numerator, int64_t over)
{
    char clock[ROOM], division[ROOM];
    int64_t sum = working_of(event, t, HP_QUARTER_S);
    printf("  %3" PRId64 "  %s%*" PRId64, t, put_clock(clock, t), SUM_CELL, sum);
    if (event->method == HP_METHOD_HIGH)
        printf("%*" PRId64 "%*" PRId64, SUM_CELL, 12 * sum, SUM_CELL, working_of(event, t, HP_QUARTER_NUMERATOR));
    snprintf(division, ROOM, "%" PRId64 "/%" PRId64 " = %" PRId64 " %" PRId64 "/%" PRId64, numerator, over, numerator / over, numerator % over, over);
    printf("%*" PRId64 "   %-30s%9" PRId64 "\n", SUM_CELL, numerator, division, (2 * numerator + over) / (2 * over));
}

void print_baseline(const struct event *event)
{
    uint8_t numerators[HP_MOST_BYTES];
    int64_t over = told_of(event, HP_DENOMINATOR), added = told_of(event, HP_ADJUSTMENT);
    if (hp_baseline(event->file->bytes, event->file->length, event->place, numerators, sizeof numerators) != HP_ANSWERED || over <= 0)
        return;
    printf("\n6. THE BASELINE\n");
    if (event->method == HP_METHOD_HIGH)
        print_wrapped(3, "Before the floor: 12 x S(t) + N x A - B = 12 x S(t) %c %" PRId64 "; below 0 it is 0. It is divided by %" PRId64 ", and rounded to "
                      "the nearest kW, halves up.", added < 0 ? '-' : '+', added < 0 ? -added : added, over);
    else
        print_wrapped(3, "S(t) divided by the number of days, %" PRId64 ", and rounded to the nearest kW, halves up.", over);
    printf("\n    t  time        S(t)%s   division                             kW\n",
           event->method == HP_METHOD_HIGH ? "  12 x S(t)     before    floored" : "  numerator");
    for (int64_t t = event->start; t < event->end; t++)
        print_quarter(event, t, numerator_of(numerators, t - event->start), over);
}
