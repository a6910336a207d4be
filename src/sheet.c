/* honeyplank sheet: the working of an event on a page, in the order in which it is done with a pencil. */
#include <inttypes.h>
#include <stdio.h>

#include "command.h"

const char sheet_help[] =
    "usage: honeyplank sheet FILE [PLACE]\n"
    "\n"
    "The working of the event at PLACE of FILE, 0 for its first, or of every event: a\n"
    "page that leads from the readings to kW, to be followed with a pencil. The\n"
    "request; the 45 days before the event, with the reason why each is used or is\n"
    "not; the window by rank; the adjustment window; the sums; the baseline of each\n"
    "quarter. Of an event that is refused: why, on what, and the working as far as it\n"
    "goes. No line has more than 100 characters.\n"
    "\n"
    "Exit status: 0 every event asked for is answered; 1 some event is refused, or\n"
    "there is none at PLACE; 2 the file is refused or can't be read; 3 wrong use, or\n"
    "a write that failed.\n";

static void rule(void)
{
    for (int i = 0; i < WIDTH; i++)
        putchar('=');
    putchar('\n');
}

static void print_head(const struct event *event, int64_t events)
{
    rule();
    printf("WORKING SHEET  portfolio %" PRId64 ", the event at place %zu of %" PRId64 " (the first has place 0)\n",
           hp_file(event->file->bytes, event->file->length, HP_FILE_PORTFOLIO), event->place, events);
    rule();
    print_wrapped(0, "The numbers are those of the proved library, honeyplank " HP_VERSION ", or are worked out beside them; that they are laid out rightly is "
                  "not proved. A dispatch day has 96 quarters, from 01:00 to 01:00 Eastern European Time; a time says when a quarter starts, and 00:00 to "
                  "00:45 are the last four of the day that is over by then. The ruler has two days: its quarters 0 to 95 are of the day before the event, "
                  "96 to 191 of the event day. Readings are kW.");
}

static void print_result(const struct event *event)
{
    printf("\nTHE RESULT\n");
    if (event->result == HP_ANSWERED)
        printf("  answered: %s, the baseline is in step 6\n", method_name(event->method));
    else
        print_refusal(event);
}

static void print_page(const struct event *event, int64_t events)
{
    print_head(event, events);
    print_request(event);
    print_result(event);
    if (!has_working(event))
        return;
    print_look_back(event);
    print_window(event);
    if (event->taken <= 0)
        return;
    print_adjustment(event);
    print_sums(event);
    if (event->result == HP_ANSWERED)
        print_baseline(event);
}

/* The pages of the events from a place up to another: whether all are answered. */
static int print_pages(const struct input *file, int64_t from, int64_t to, int64_t events)
{
    struct event event;
    int status = STATUS_ANSWERED;
    for (int64_t place = from; place < to; place++) {
        if (place > from)
            printf("\n\n");
        read_event(&event, file, (size_t)place);
        print_page(&event, events);
        if (event.result != HP_ANSWERED)
            status = STATUS_REFUSED;
    }
    return status;
}

int sheet_command(char **words, int count)
{
    static struct input file;
    int64_t place = 0;
    if (count == 2 && !is_place(words[1], &place))
        return STATUS_FAILED;
    int status = read_record_file(&file, words[0]);
    if (status != STATUS_ANSWERED)
        return status;
    int64_t events = hp_file(file.bytes, file.length, HP_FILE_EVENTS);
    if (count == 2 && place >= events)
        return no_event(&file, words[1]);
    if (events == 0)
        printf("The file has no events.\n");
    return print_pages(&file, place, count == 2 ? place + 1 : events, events);
}
