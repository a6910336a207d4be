/* honeyplank chart: an event drawn, as SVG. What is drawn differs by width, dash and label, and not by colour. */
#include <inttypes.h>
#include <stdio.h>
#include <string.h>

#include "chart.h"

const char chart_help[] =
    "usage: honeyplank chart FILE PLACE\n"
    "\n"
    "Draws the event at PLACE of FILE, 0 for its first, as SVG on standard output:\n"
    "the load of the event day and of the evening before, the chosen days behind it,\n"
    "the baseline over the event, and the adjustment window. Every value that is\n"
    "drawn also stands in the file as a number (data-kw, data-numerators), with the\n"
    "scale that it is drawn by. Of an event that is refused the load is drawn, and\n"
    "why it is refused.\n"
    "\n"
    "Exit status: 0 the event is answered; 1 it is refused, or there is none at\n"
    "PLACE, and then nothing is drawn; 2 the file is refused or can't be read; 3\n"
    "wrong use, or a write that failed.\n";

/* Where things stand, in pixels. */
#define WHOLE_WIDTH 1000
#define WHOLE_HEIGHT 680
#define BRACKETS 104 /* the first of three rows of labels over the plot */
#define BRACKET_ROW 27
#define LEGEND 606
#define LEGEND_ROW 22
#define LETTER 8 /* no letter of a label is wider on average */
#define MOST_LETTERS 100 /* of a line */

static void text(int64_t x, int64_t y, const char *more, const char *words)
{
    printf("<text x=\"%" PRId64 "\" y=\"%" PRId64 "\"%s>%s</text>\n", x, y, more, words);
}

/* Which event it is. */
static void print_title(const struct event *event)
{
    char title[6 * ROOM], times[3 * ROOM], day[ROOM], from[ROOM], to[ROOM];
    if (on_ruler(event))
        snprintf(times, sizeof times, "%s to %s", put_clock(from, event->start), put_clock(to, event->end));
    else
        snprintf(times, sizeof times, "ruler quarters %s to %s", put_number(from, event->start), put_number(to, event->end));
    snprintf(title, sizeof title, "Portfolio %" PRId64 ": %s, %s, %s", hp_file(event->file->bytes, event->file->length, HP_FILE_PORTFOLIO),
             put_day(day, event->day), times, method_name(event->method));
    printf("<title>%s</title>\n<rect width=\"100%%\" height=\"100%%\" fill=\"#fff\"/>\n", title);
    text(LEFT, 28, " font-size=\"15\" font-weight=\"bold\"", title);
}

/* What came of it, on a second line, and on a third where a refusal is long. */
static void print_result(const struct event *event)
{
    char line[4 * ROOM], number[3][ROOM];
    const char *refusal = hp_refusal_text((uint32_t)event->result);
    size_t length = strlen(refusal);
    if (event->result == HP_ANSWERED) {
        snprintf(line, sizeof line, "answered; reach %s days; adjustment %s/%s kW", put_number(number[0], told_of(event, HP_REACH)),
                 put_number(number[1], told_of(event, HP_ADJUSTMENT)), put_number(number[2], told_of(event, HP_DENOMINATOR)));
        text(LEFT, 50, "", line);
        return;
    }
    if (length > MOST_LETTERS)
        for (length = MOST_LETTERS; length > 1 && refusal[length] != ' '; length--)
            ;
    snprintf(line, sizeof line, "%s: %.*s", put_refusal(number[0], event), (int)length, refusal);
    text(LEFT, 50, "", line);
    if (refusal[length] != '\0')
        text(LEFT, 68, "", refusal + length + 1);
}

/* A stretch of the ruler that is marked over the plot, on a row of its own so that no two labels meet. */
static void print_bracket(const struct scale *scale, int row, int64_t from, int64_t to, const char *words)
{
    int64_t y = BRACKETS + BRACKET_ROW * row, middle = (x_of(scale, from) + x_of(scale, to)) / 200, half = LETTER * (int64_t)strlen(words) / 2;
    char left[ROOM], right[ROOM];
    middle = middle - half < LEFT ? LEFT + half : middle + half > RIGHT ? RIGHT - half : middle;
    text(middle, y - 7, " text-anchor=\"middle\"", words);
    printf("<path d=\"M%s,%" PRId64 "v-5H%sv5\" fill=\"none\" stroke=\"#000\"/>\n", put_hundredths(left, x_of(scale, from)), y + 3,
           put_hundredths(right, x_of(scale, to)));
}

static void print_times(char *to, const char *label, int64_t from, int64_t end)
{
    char one[ROOM], other[ROOM];
    snprintf(to, 2 * ROOM, "%s %s to %s", label, put_clock(one, from), put_clock(other, end));
}

/* A stretch of the ruler that is shaded in the plot. */
static void print_band(const struct scale *scale, const char *name, int64_t from, int64_t to, const char *fill)
{
    char left[ROOM], wide[ROOM];
    printf("<g class=\"%s\" data-from=\"%" PRId64 "\" data-to=\"%" PRId64 "\">", name, from, to);
    printf("<rect x=\"%s\" y=\"%d\" width=\"%s\" height=\"%d\" fill=\"%s\"/></g>\n",
           put_hundredths(left, x_of(scale, from)), TOP, put_hundredths(wide, x_of(scale, to) - x_of(scale, from)), BOTTOM - TOP, fill);
}

static void print_marks(const struct event *event, const struct scale *scale)
{
    char words[2 * ROOM], clock[ROOM];
    if (event->closes != HP_NOTHING) {
        print_band(scale, "adjustment", event->closes - 12, event->closes, "url(#hatch)");
        print_times(words, "adjustment window", event->closes - 12, event->closes);
        print_bracket(scale, 0, event->closes - 12, event->closes, words);
    }
    if (on_ruler(event)) {
        print_band(scale, "event", event->start, event->end, "#e4e4e4");
        print_times(words, "event", event->start, event->end);
        print_bracket(scale, 1, event->start, event->end, words);
    }
    if (event->method == HP_METHOD_HIGH && event->notice >= scale->from && event->notice <= scale->to) {
        snprintf(words, sizeof words, "notice %s", put_clock(clock, event->notice));
        print_bracket(scale, 2, event->notice, event->notice, words);
        printf("<path class=\"notice\" data-at=\"%" PRId64 "\" d=\"M%s,%dV%d\" stroke=\"#000\" stroke-dasharray=\"1 3\"/>\n", event->notice,
               put_hundredths(clock, x_of(scale, event->notice)), TOP, BOTTOM);
    }
}

static void print_legend_line(int row, int column, const char *line, const char *words)
{
    int x = LEFT + 460 * column, y = LEGEND + LEGEND_ROW * row;
    printf("<path d=\"M%d,%dh44\" %s/>\n", x, y - 4, line);
    text(x + 54, y, "", words);
}

static void print_legend_box(int row, int column, const char *fill, const char *words)
{
    int x = LEFT + 460 * column, y = LEGEND + LEGEND_ROW * row;
    printf("<rect x=\"%d\" y=\"%d\" width=\"44\" height=\"12\" fill=\"%s\" stroke=\"#000\" stroke-width=\"0.5\"/>\n", x, y - 10, fill);
    text(x + 54, y, "", words);
}

static void print_legend(const struct event *event)
{
    char days[ROOM * 2] = "chosen days, by rank: ", date[ROOM];
    int adjusts = event->closes != HP_NOTHING;
    print_legend_line(0, 0, LOAD_LINE, "load, with gaps where readings are missing");
    if (event->result == HP_ANSWERED)
        print_legend_line(0, 1, BASELINE_LINE, "baseline over the event");
    if (adjusts)
        print_legend_box(1, 0, "url(#hatch)", "adjustment window");
    if (on_ruler(event))
        print_legend_box(1, adjusts, "#e4e4e4", "event");
    for (int64_t i = 0; i < event->taken; i++) {
        strncat(days, i > 0 ? ", " : "", sizeof days - strlen(days) - 1);
        strncat(days, put_date(date, ranked_day(event, event->passed + i)), sizeof days - strlen(days) - 1);
    }
    if (event->taken > 0)
        print_legend_line(2, 0, CHOSEN_LINE, days);
}

static void print_chart(const struct event *event)
{
    struct scale scale;
    read_scale(&scale, event);
    printf("<svg xmlns=\"http://www.w3.org/2000/svg\" width=\"%d\" height=\"%d\" viewBox=\"0 0 %d %d\" font-family=\"sans-serif\" font-size=\"13\">\n",
           WHOLE_WIDTH, WHOLE_HEIGHT, WHOLE_WIDTH, WHOLE_HEIGHT);
    print_title(event);
    print_result(event);
    printf("<defs><pattern id=\"hatch\" width=\"6\" height=\"6\" patternUnits=\"userSpaceOnUse\" patternTransform=\"rotate(45)\">"
           "<path d=\"M0,0V6\" stroke=\"#aaa\"/></pattern></defs>\n");
    print_marks(event, &scale);
    print_axes(event, &scale);
    print_chosen_lines(event, &scale);
    print_load_line(event, &scale);
    print_baseline_line(event, &scale);
    print_legend(event);
    printf("</svg>\n");
}

int chart_command(char **words, int count)
{
    static struct input file;
    struct event event;
    int64_t place = 0;
    if (!is_place(words[count - 1], &place))
        return STATUS_FAILED;
    int status = read_record_file(&file, words[0]);
    if (status != STATUS_ANSWERED)
        return status;
    if (place >= hp_file(file.bytes, file.length, HP_FILE_EVENTS))
        return no_event(&file, words[count - 1]);
    read_event(&event, &file, (size_t)place);
    print_chart(&event);
    return event.result == HP_ANSWERED ? STATUS_ANSWERED : STATUS_REFUSED;
}
