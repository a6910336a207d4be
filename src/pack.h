/* What the files of `honeyplank pack` share: a text that describes a record file, docs/PACK.md. */
#ifndef PACK_H
#define PACK_H

#include "command.h"

/* The forms of lines */
#define PORTFOLIO "portfolio NUMBER from DAY"
#define MOVE "move DAY DAY"
#define DAY_LINE "day DAY MARK READING.."
#define MARK_LINE "mark DAY MARK"
#define ROW "DAY,TIME,KW"
#define EVENT "event DAY START END NOTICE [METHOD]"
#define EVENT_NUMBERS 5 /* of an event, as hp_write takes them */

struct mark_line {
    size_t line;
    uint32_t day;
    uint8_t mark;
};

/* What a text has said up to a line. */
struct text {
    const char *name;
    size_t line, bad;                 /* the line that is read; how often something was bad */
    int opened, has_portfolio;        /* whether the first record was read, and the portfolio's */
    uint32_t portfolio, participation;
    size_t days, moves_len, events_len, mark_lines_len;
    int64_t last;                     /* the day before, HP_NOTHING where there is none, or it could not be read */
    int64_t row_day;                  /* the day whose rows are read, */
    uint32_t row_next;                /* and its next quarter; HP_QUARTERS where no day is open */
    uint32_t held[HP_MOST_DAYS], readings[HP_MOST_DAYS * HP_QUARTERS], moves[2 * HP_MOST_MOVES], events[EVENT_NUMBERS * HP_MOST_EVENTS];
    uint8_t marks[HP_MOST_DAYS], by_rows[HP_MOST_DAYS];
    struct mark_line mark_lines[HP_MOST_DAYS];
};

/* Says what is bad at a line: always gives 0. */
int bad_line(struct text *text, size_t line, const char *form, ...);

/* Words. Each puts what it read, and gives 1; or says what is bad at this line, and gives 0. */
int take_number(struct text *text, const char *word, uint32_t most, const char *what, uint32_t *number);
int take_day(struct text *text, const char *word, uint32_t *day);
int take_mark(struct text *text, const char *word, uint32_t *mark);
int take_method(struct text *text, const char *word, uint32_t *method);
int take_clock(struct text *text, const char *word, uint32_t *quarter);
/* A place on the ruler of an event: a number, a clock time of the event day, or a moment. */
int take_place(struct text *text, const char *word, uint32_t day, int is_end, uint32_t *place);

/* Days. */
void take_day_line(struct text *text, char **words, size_t count);
void take_mark_line(struct text *text, char **words, size_t count);
void take_row(struct text *text, char *line);
/* The day whose rows are read is over: says what of it is left out. */
void end_rows(struct text *text);
/* The marks of the days that have rows, once all are known. */
void put_marks(struct text *text);

#endif
