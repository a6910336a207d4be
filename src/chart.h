/* What the files of `honeyplank chart` share. */
#ifndef CHART_H
#define CHART_H

#include "command.h"

/* The plot, in pixels. */
#define LEFT 90
#define RIGHT 970
#define TOP 170
#define BOTTOM 515

#define LOAD_LINE "fill=\"none\" stroke=\"#000\" stroke-width=\"1.6\""
#define CHOSEN_LINE "fill=\"none\" stroke=\"#888\" stroke-width=\"0.8\""
/* a dash and its gap are as long as the widest quarter, so that each quarter begins with a dash and has no second */
#define BASELINE_LINE "fill=\"none\" stroke=\"#000\" stroke-width=\"4\" stroke-dasharray=\"5 1.2\""

/* One linear scale: ruler quarters along, kW up. Coordinates are whole hundredths of a pixel. */
struct scale {
    int64_t from, to;        /* ruler quarters */
    int64_t low, high, step; /* kW */
};
void read_scale(struct scale *scale, const struct event *event);
int64_t x_of(const struct scale *scale, int64_t quarter);
/* Of so many kW, a numerator over a denominator. */
int64_t y_of(const struct scale *scale, int64_t numerator, int64_t over);
char *put_hundredths(char *to, int64_t hundredths);

void print_axes(const struct event *event, const struct scale *scale);
void print_chosen_lines(const struct event *event, const struct scale *scale);
void print_load_line(const struct event *event, const struct scale *scale);
void print_baseline_line(const struct event *event, const struct scale *scale);

#endif
