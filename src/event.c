/* One event of a record file, as the entries tell it. */
#include <inttypes.h>
#include <stdio.h>
#include <string.h>

#include "command.h"

int is_place(const char *word, int64_t *place)
{
    uint64_t number = 0;
    if (*word == '\0' || word[strspn(word, "0123456789")] != '\0')
        return !complain(STATUS_FAILED, word, "no place of an event: a whole number is, 0 for the first");
    *place = is_number(word, INT64_MAX - 1, &number) ? (int64_t)number : INT64_MAX - 1; /* no event is there either */
    return 1;
}

int no_event(const struct input *file, const char *word)
{
    return complain(STATUS_REFUSED, file->name, "refused %d: %s It is %s, and the file has %" PRId64 ".", HP_NO_EVENT, hp_refusal_text(HP_NO_EVENT), word,
                    hp_file(file->bytes, file->length, HP_FILE_EVENTS));
}

int64_t working_of(const struct event *event, int64_t at, uint32_t name)
{
    return hp_working(event->file->bytes, event->file->length, event->place, (uint32_t)at, name);
}

int64_t told_of(const struct event *event, uint32_t name)
{
    return hp_told(event->file->bytes, event->file->length, event->place, name);
}

static void read_window(struct event *event)
{
    event->group = working_of(event, 0, HP_WORKING_GROUP);
    event->most = working_of(event, 0, HP_WORKING_MOST);
    event->size = working_of(event, 0, HP_WORKING_SIZE);
    event->passed = working_of(event, 0, HP_WORKING_PASSED);
    event->taken = working_of(event, 0, HP_WORKING_TAKEN);
    event->closes = working_of(event, 0, HP_WORKING_END);
    for (int64_t back = 1; back <= HP_LOOK_BACK; back++)
        event->back[back - 1] = 0;
    for (int64_t back = 1; back <= HP_LOOK_BACK && event->size > 0; back++) {
        int64_t rank = working_of(event, back, HP_BACK_RANK);
        if (rank > 0 && rank <= HP_LOOK_BACK)
            event->back[rank - 1] = back;
    }
}

void read_event(struct event *event, const struct input *file, size_t place)
{
    const uint8_t *bytes = file->bytes;
    event->file = file;
    event->place = place;
    event->day = hp_event(bytes, file->length, place, HP_EVENT_DAY);
    event->start = hp_event(bytes, file->length, place, HP_EVENT_START);
    event->end = hp_event(bytes, file->length, place, HP_EVENT_END);
    event->notice = hp_event(bytes, file->length, place, HP_EVENT_NOTICE);
    event->method = hp_event(bytes, file->length, place, HP_EVENT_METHOD);
    event->result = told_of(event, HP_RESULT);
    event->carried = told_of(event, HP_CARRIED);
    event->second = told_of(event, HP_CARRIED_SECOND);
    read_window(event);
}

int has_working(const struct event *event)
{
    return working_of(event, 0, HP_RESULT) == HP_ANSWERED;
}

int on_ruler(const struct event *event)
{
    return event->start >= HP_QUARTERS && event->start < event->end && event->end <= 2 * HP_QUARTERS;
}

int64_t ranked_day(const struct event *event, int64_t rank)
{
    return event->day - event->back[rank];
}

int is_reading(int64_t reading)
{
    return reading >= 0 && reading != HP_MISSING;
}

int64_t reading_of(const struct event *event, int64_t day, int64_t quarter)
{
    if (day < 0)
        return HP_NOTHING;
    return hp_reading(event->file->bytes, event->file->length, (uint32_t)day, (uint32_t)(quarter % HP_QUARTERS));
}

int64_t ruler_day(const struct event *event, int64_t quarter)
{
    return quarter < HP_QUARTERS ? event->day - 1 : event->day;
}

int64_t ruler_reading(const struct event *event, int64_t quarter)
{
    return reading_of(event, ruler_day(event, quarter), quarter);
}

char *put_refusal(char *to, const struct event *event)
{
    if (event->second != HP_NOTHING)
        snprintf(to, ROOM, "REFUSED %" PRId64 ", carrying %" PRId64 " and %" PRId64, event->result, event->carried, event->second);
    else if (event->carried != HP_NOTHING)
        snprintf(to, ROOM, "REFUSED %" PRId64 ", carrying %" PRId64, event->result, event->carried);
    else
        snprintf(to, ROOM, "REFUSED %" PRId64, event->result);
    return to;
}

int64_t numerator_of(const uint8_t *numerators, int64_t place)
{
    const uint8_t *four = numerators + 4 * place;
    return four[0] | four[1] << 8 | four[2] << 16 | (int64_t)four[3] << 24;
}
