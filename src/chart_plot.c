/* The plot of a chart: its scale, its axes and its lines. */
#include <inttypes.h>
#include <stdio.h>

#include "chart.h"

#define HOURS_3 12  /* quarters between two times of the axis */
#define MOST_STEPS 8

char *put_hundredths(char *to, int64_t hundredths)
{
    snprintf(to, ROOM, "%" PRId64 ".%02" PRId64, hundredths / 100, hundredths % 100);
    return to;
}

/* The nearest whole number to a quotient, both 0 or more. */
static int64_t nearest(int64_t number, int64_t over)
{
    return (2 * number + over) / (2 * over);
}

int64_t x_of(const struct scale *scale, int64_t quarter)
{
    return 100 * LEFT + nearest(100 * (RIGHT - LEFT) * (quarter - scale->from), scale->to - scale->from);
}

int64_t y_of(const struct scale *scale, int64_t numerator, int64_t over)
{
    return 100 * BOTTOM - nearest(100 * (BOTTOM - TOP) * (numerator - scale->low * over), (scale->high - scale->low) * over);
}

/* Widens a range of kW so that it has this value. */
static void widen(struct scale *scale, int64_t low, int64_t high)
{
    scale->low = scale->low < 0 || low < scale->low ? low : scale->low;
    scale->high = high > scale->high ? high : scale->high;
}

/* 1, 2 or 5 and noughts: the least by which the range takes few steps. */
static int64_t step_of(int64_t range)
{
    for (int64_t ten = 1;; ten *= 10)
        for (int64_t part = 1; part <= 5; part += part == 1 ? 1 : 3)
            if (range <= MOST_STEPS * part * ten)
                return part * ten;
}

/* The ends of the axis are whole steps; it starts at 0 but where all values are far above. */
static void round_range(struct scale *scale)
{
    if (scale->low < 0)
        scale->low = 0;
    if (scale->high <= scale->low)
        scale->high = scale->low + (scale->low < 10 ? 10 : scale->low / 10);
    if (scale->low <= scale->high - scale->low)
        scale->low = 0;
    scale->step = step_of(scale->high - scale->low);
    if (scale->low > 0)
        scale->low -= (scale->low - 1) % scale->step + 1;
    scale->high += scale->step - scale->high % scale->step;
}

/* The lowest and highest numerator over the event widen the range, rounded outwards. */
static void widen_by_baseline(struct scale *scale, const struct event *event)
{
    uint8_t out[HP_MOST_BYTES];
    int64_t over = told_of(event, HP_DENOMINATOR);
    if (hp_baseline(event->file->bytes, event->file->length, event->place, out, sizeof out) != HP_ANSWERED || over <= 0)
        return;
    for (int64_t t = event->start; t < event->end; t++) {
        int64_t numerator = numerator_of(out, t - event->start);
        widen(scale, numerator / over, numerator / over + 1);
    }
}

void read_scale(struct scale *scale, const struct event *event)
{
    int64_t from = event->closes == HP_NOTHING || event->closes - 12 > HP_QUARTERS / 2 ? HP_QUARTERS / 2 : event->closes - 12;
    scale->from = from - from % HOURS_3;
    scale->to = 2 * HP_QUARTERS;
    scale->low = scale->high = -1;
    for (int64_t t = scale->from; t < scale->to; t++) {
        int64_t own = ruler_reading(event, t);
        if (is_reading(own))
            widen(scale, own, own);
        for (int64_t i = 0; i < event->taken; i++) {
            int64_t reading = reading_of(event, ranked_day(event, event->passed + i), t);
            if (is_reading(reading))
                widen(scale, reading, reading);
        }
    }
    widen_by_baseline(scale, event);
    round_range(scale);
}

static void print_times_axis(const struct event *event, const struct scale *scale)
{
    char x[ROOM], clock[ROOM], day[ROOM];
    for (int64_t t = scale->from; t <= scale->to; t += 4)
        printf("<path d=\"M%s,%dv%d\" stroke=\"#000\"/>\n", put_hundredths(x, x_of(scale, t)), BOTTOM, t % HOURS_3 == 0 ? 7 : 4);
    for (int64_t t = scale->from; t <= scale->to; t += HOURS_3)
        printf("<text x=\"%s\" y=\"%d\" text-anchor=\"middle\">%s</text>\n", put_hundredths(x, x_of(scale, t)), BOTTOM + 22, put_clock(clock, t));
    printf("<path d=\"M%s,%dV%dM%s,%dv18\" stroke=\"#000\" stroke-width=\"0.7\"/>\n", put_hundredths(x, x_of(scale, HP_QUARTERS)), TOP, BOTTOM,
           put_hundredths(clock, x_of(scale, HP_QUARTERS)), BOTTOM + 28);
    for (int64_t part = 0; part < 2; part++) {
        int64_t from = part == 0 ? scale->from : HP_QUARTERS, to = part == 0 ? HP_QUARTERS : scale->to;
        int64_t date = event->day - 1 + part;
        if (date >= 0)
            printf("<text x=\"%s\" y=\"%d\" text-anchor=\"middle\">%s</text>\n", put_hundredths(x, (x_of(scale, from) + x_of(scale, to)) / 2), BOTTOM + 42,
                   put_day(day, date));
    }
    printf("<text x=\"%d\" y=\"%d\" text-anchor=\"end\" font-size=\"11\">Eastern European Time; a dispatch day begins at 01:00</text>\n", RIGHT, BOTTOM + 60);
}

void print_axes(const struct event *event, const struct scale *scale)
{
    char y[ROOM];
    printf("<g class=\"axes\" data-from=\"%" PRId64 "\" data-to=\"%" PRId64 "\" data-x-from=\"%d\" data-x-to=\"%d\"", scale->from, scale->to, LEFT, RIGHT);
    printf(" data-kw-low=\"%" PRId64 "\" data-kw-high=\"%" PRId64 "\" data-y-low=\"%d\" data-y-high=\"%d\">\n", scale->low, scale->high, BOTTOM, TOP);
    for (int64_t kw = scale->low; kw <= scale->high; kw += scale->step) {
        put_hundredths(y, y_of(scale, kw, 1));
        printf("<path d=\"M%d,%sH%d\" stroke=\"#ccc\" stroke-width=\"0.5\"/>\n", LEFT, y, RIGHT);
        printf("<text x=\"%d\" y=\"%s\" dy=\"4\" text-anchor=\"end\">%" PRId64 "</text>\n", LEFT - 8, y, kw);
    }
    printf("<text x=\"%d\" y=\"%d\" text-anchor=\"end\">kW</text>\n", LEFT - 8, TOP - 14);
    if (scale->low > 0)
        printf("<text x=\"%d\" y=\"%d\" font-size=\"11\">the kW axis starts at %" PRId64 ", not at 0</text>\n", LEFT, BOTTOM + 60, scale->low);
    printf("<path d=\"M%d,%dV%dH%d\" fill=\"none\" stroke=\"#000\"/>\n", LEFT, TOP, BOTTOM, RIGHT);
    print_times_axis(event, scale);
    printf("</g>\n");
}

/* A step of a line: from where the one before ended, or from anew. */
static void print_step(const struct scale *scale, int64_t t, int64_t y, int goes_on)
{
    char from[ROOM], to[ROOM], high[ROOM];
    put_hundredths(from, x_of(scale, t));
    put_hundredths(to, x_of(scale, t + 1));
    put_hundredths(high, y);
    if (goes_on)
        printf("V%sH%s", high, to);
    else
        printf("M%s,%sH%s", from, high, to);
}

/* The readings of a day, or along the ruler for day -1: as numbers, and as a line with gaps where they are missing. */
static void print_readings(const struct event *event, const struct scale *scale, int64_t day, const char *line)
{
    char cell[ROOM];
    int goes_on = 0;
    printf(" data-from=\"%" PRId64 "\" data-kw=\"", scale->from);
    for (int64_t t = scale->from; t < scale->to; t++) {
        int64_t reading = day < 0 ? ruler_reading(event, t) : reading_of(event, day, t);
        printf("%s%s", t > scale->from ? " " : "", put_number(cell, is_reading(reading) ? reading : HP_NOTHING));
    }
    printf("\"><path d=\"");
    for (int64_t t = scale->from; t < scale->to; t++) {
        int64_t reading = day < 0 ? ruler_reading(event, t) : reading_of(event, day, t);
        if (is_reading(reading))
            print_step(scale, t, y_of(scale, reading, 1), goes_on);
        goes_on = is_reading(reading);
    }
    printf("\" %s/></g>\n", line);
}

void print_chosen_lines(const struct event *event, const struct scale *scale)
{
    for (int64_t i = 0; i < event->taken; i++) {
        int64_t day = ranked_day(event, event->passed + i);
        printf("<g class=\"chosen\" data-day=\"%" PRId64 "\" data-rank=\"%" PRId64 "\"", day, event->passed + i + 1);
        print_readings(event, scale, day, CHOSEN_LINE);
    }
}

void print_load_line(const struct event *event, const struct scale *scale)
{
    printf("<g class=\"load\" data-day=\"%" PRId64 "\"", event->day);
    print_readings(event, scale, -1, LOAD_LINE);
}

void print_baseline_line(const struct event *event, const struct scale *scale)
{
    uint8_t out[HP_MOST_BYTES];
    int64_t over = told_of(event, HP_DENOMINATOR);
    if (hp_baseline(event->file->bytes, event->file->length, event->place, out, sizeof out) != HP_ANSWERED || over <= 0)
        return;
    printf("<g class=\"baseline\" data-from=\"%" PRId64 "\" data-to=\"%" PRId64 "\"", event->start, event->end);
    printf(" data-denominator=\"%" PRId64 "\" data-numerators=\"", over);
    for (int64_t t = event->start; t < event->end; t++)
        printf("%s%" PRId64, t > event->start ? " " : "", numerator_of(out, t - event->start));
    printf("\"><path d=\"");
    for (int64_t t = event->start; t < event->end; t++)
        print_step(scale, t, y_of(scale, numerator_of(out, t - event->start), over), 0); /* a dash a quarter */
    printf("\" %s/></g>\n", BASELINE_LINE);
}
