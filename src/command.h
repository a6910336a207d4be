/* What the files of the honeyplank command share. The command only lays out, and nothing of it is proved: every number that it prints comes from an entry of
 * honeyplank.h, or is arithmetic on such numbers that the page writes out. */
#ifndef COMMAND_H
#define COMMAND_H

#include <stddef.h>
#include <stdint.h>

#include "honeyplank.h"

/* Exit statuses. Of two the higher is given. */
#define STATUS_ANSWERED 0  /* every event that was asked for is answered */
#define STATUS_REFUSED 1   /* some event is refused */
#define STATUS_BAD_INPUT 2 /* a file is refused or can't be read; a text that is bad */
#define STATUS_FAILED 3    /* wrong use, or a write that failed */

/* The commands: each takes its operands, as many as main has tested, and gives an exit status. */
int list_command(char **words, int count);
int sheet_command(char **words, int count);
int chart_command(char **words, int count);
int overlap_command(char **words, int count);
int pack_command(char **words, int count);
int days_command(char **words, int count);
extern const char list_help[], sheet_help[], chart_help[], overlap_help[], pack_help[], days_help[];

/* A record file that was read: one byte more than the longest there is, so that a longer one is refused. */
struct input {
    const char *name;
    size_t length;
    uint8_t bytes[HP_MOST_FILE + 1];
};

/* Says on standard error what is wrong with a file or a word, and gives this status. */
int complain(int status, const char *name, const char *form, ...);
/* Reads a file by its name, or standard input by `-`: STATUS_ANSWERED, or STATUS_BAD_INPUT, with the reason said. */
int read_input(struct input *file, const char *name);
/* The status of a file that was read: STATUS_BAD_INPUT, with the refusal said, where it is not as laid down. */
int refuse_file(const struct input *file);
/* Both. */
int read_record_file(struct input *file, const char *name);

/* One event of a file: its request, what came of it, and the window by rank, as the entries tell them. */
struct event {
    const struct input *file;
    size_t place;
    int64_t day, start, end, notice, method;
    int64_t result, carried, second;                  /* of hp_told */
    int64_t group, most, size, passed, taken, closes; /* of hp_working; HP_NOTHING where it tells none */
    int64_t back[HP_LOOK_BACK];                       /* the days of the window by rank: how many days before the event */
};
int64_t working_of(const struct event *event, int64_t at, uint32_t name);
int64_t told_of(const struct event *event, uint32_t name);
void read_event(struct event *event, const struct input *file, size_t place);
/* Whether hp_working tells of the event. */
int has_working(const struct event *event);
/* Whether the event's quarters are on the ruler. */
int on_ruler(const struct event *event);
/* The day of a rank, counted from 0. */
int64_t ranked_day(const struct event *event, int64_t rank);
/* The reading of a day at a quarter of the ruler, HP_NOTHING where the day is not held, or where there is none. */
int64_t reading_of(const struct event *event, int64_t day, int64_t quarter);
/* The reading along the ruler, of the day before the event or of the event day. */
int64_t ruler_reading(const struct event *event, int64_t quarter);
int64_t ruler_day(const struct event *event, int64_t quarter);
/* The numerator of one of the event's quarters, as hp_baseline gives them. */
int64_t numerator_of(const uint8_t *numerators, int64_t place);
int is_reading(int64_t reading);

/* The place of an event, from a word; where it is none, that is said. */
int is_place(const char *word, int64_t *place);
/* Says that the file has no event at the place that this word names: STATUS_REFUSED. */
int no_event(const struct input *file, const char *word);

/* Words for people. Those that are put stand in the caller's room, which is given back. */
#define ROOM 128
#define WIDTH 100 /* no line of a sheet is longer */
const char *weekday_name(int64_t day);
const char *group_name(int64_t group);
const char *method_name(int64_t method);
char *put_date(char *to, int64_t day);           /* 2024-08-28, or its number where it has no date */
char *put_day(char *to, int64_t day);            /* Wednesday 2024-08-28 (day 9006) */
char *put_clock(char *to, int64_t quarter);      /* 15:00, where a quarter of the day or of the ruler starts */
char *put_number(char *to, int64_t number);      /* in digits; - for HP_NOTHING */
char *put_reading(char *to, int64_t reading);    /* in digits; `missing`; - for HP_NOTHING */
char *put_refusal(char *to, const struct event *event); /* REFUSED 9, carrying 1 and 42 */
/* Prints a text in lines of at most WIDTH, each after so many blanks. */
void print_wrapped(int indent, const char *form, ...);
/* Whether a word is a whole number up to `most`; then it is put there. */
int is_number(const char *word, uint64_t most, uint64_t *number);
/* The day of a date like 2024-08-28; HP_NOTHING where it is none from 2000 to 2099. */
int64_t dated(const char *word);

/* The parts of a sheet (sheet.c has their order). */
void print_request(const struct event *event);
void print_refusal(const struct event *event);
void print_look_back(const struct event *event);
void print_window(const struct event *event);
void print_adjustment(const struct event *event);
void print_sums(const struct event *event);
void print_baseline(const struct event *event);

#endif
