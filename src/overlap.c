/* honeyplank overlap: how many days each event of a record file needs before it. */
#include <inttypes.h>
#include <stdio.h>

#include "command.h"

const char overlap_help[] =
    "usage: honeyplank overlap FILE\n"
    "\n"
    "How many days before it each event of FILE needs, by the calendar, the moved\n"
    "holidays and the event alone. A line for each event: its place and its day; how\n"
    "many days before it the file holds; how many always suffice, so that it is never\n"
    "refused 8; how many more have to be sent; the first day of these; and what came\n"
    "of it: its reach, which is how many days were needed, or the refusal's number.\n"
    "Then the first day to cut the file's days from. A file with events and no days\n"
    "can be asked too. - stands for what can't be told: the file does not hold the\n"
    "event day, or the request is refused.\n"
    "\n"
    "Exit status: 0 every event is answered; 1 some event is refused; 2 the file is\n"
    "refused or can't be read; 3 wrong use, or a write that failed.\n";

static int64_t overlap(const struct input *file, int64_t place, uint32_t name)
{
    return hp_overlap(file->bytes, file->length, (size_t)place, name);
}

/* The line of an event: gives whether it is refused. */
static int print_event(const struct input *file, int64_t place)
{
    char day[ROOM], from[ROOM], number[6][ROOM];
    int64_t result = hp_told(file->bytes, file->length, (size_t)place, HP_RESULT);
    int64_t own = hp_event(file->bytes, file->length, (size_t)place, HP_EVENT_DAY), first = overlap(file, place, HP_OVERLAP_FROM);
    int64_t reach = hp_told(file->bytes, file->length, (size_t)place, HP_REACH);
    printf("%5" PRId64 "  %-10s %6s  %5s  %8s  %5s  %-10s %6s  %s %s\n", place, put_date(day, own), put_number(number[0], own),
           put_number(number[1], overlap(file, place, HP_OVERLAP_HELD)), put_number(number[2], overlap(file, place, HP_OVERLAP_SUFFICES)),
           put_number(number[3], overlap(file, place, HP_OVERLAP_MORE)), put_date(from, first), put_number(number[4], first),
           result == HP_ANSWERED ? "reach" : "refused", put_number(number[5], result == HP_ANSWERED ? reach : result));
    return result != HP_ANSWERED;
}

static void print_cut(const struct input *file)
{
    char day[ROOM];
    int64_t from = hp_cut_from(file->bytes, file->length);
    if (from == HP_NOTHING)
        printf("\nNo event tells where to cut the days.\n");
    else
        printf("\nCut the days from %s on, or earlier: then no event is refused 8.\n", put_day(day, from));
}

int overlap_command(char **words, int count)
{
    static struct input file;
    int status = read_record_file(&file, words[count - 1]);
    if (status != STATUS_ANSWERED)
        return status;
    int64_t events = hp_file(file.bytes, file.length, HP_FILE_EVENTS);
    printf("                           days    always   days  first day\n");
    printf("place  event day     day   held  suffices   more  needed        day  result\n");
    for (int64_t place = 0; place < events; place++)
        if (print_event(&file, place))
            status = STATUS_REFUSED;
    print_cut(&file);
    return status;
}
