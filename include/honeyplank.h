/* honeyplank.h: the demand response baseline of the Greek transmission operator, for C and C++: High X of Y (methodology version 1.0, May 2020), and
 * Average X of Y, the day-ahead baseline (version 5.0).
 *
 * Each entry answers every input, and its code is proved to give that answer and no other. Nothing is asked of the values: any numbers, any
 * bytes, any lengths.
 *
 * What is asked of the pointers:
 *  - A pointer goes with its length in elements, and points at so many; with a length of 0 it may be NULL.
 *  - `out`, the one buffer that is ever lent for writing, overlaps nothing else that is lent to the same call.
 *  - uint32_t pointers are aligned as C aligns that type; byte pointers need no alignment, so a file may be mapped or stand anywhere in a
 *    larger buffer.
 *
 * What a caller may count on:
 *  - A refusal changes no buffer; an answer writes only the quarters of the event: an entry that gives a baseline has nothing but `out` to
 *    write. (A listing and a record file are no baseline: hp_listing and hp_write write only these, and nothing where they do not fit.)
 *  - No state, no heap, no files, no locks: any threads may call at once. It always returns.
 *  - HP_STACK bytes of stack are enough for any entry but hp_working, for which HP_STACK_WORKING are, and hp_listing, for which HP_STACK_LISTING are.
 *
 * Days are numbers: 0 is 1 January 2000, 36524 is 31 December 2099; hp_day and hp_date tell a date's number and a number's date. P is the first
 * day of participation, D the event day, F the first day held. The reach is how many days before the event were needed.
 *
 * A dispatch day has 96 quarters; quarter 0 begins at 01:00 Eastern European Time. The event's start s, its end e and the notice n are places on
 * a ruler of two days: 0 to 95 is the day before the event, 96 to 191 the event day. So 15:00 of the event day, its quarter 56, is place 152. The
 * event covers s up to but not e, and notice came at the start of quarter n. Whoever counts within the day is told so for s and e, which are then
 * out of range (HP_BAD_REQUEST), but not for n: notice at 14:00 of the event day is 148, and 52 is 14:00 of the day before. That is no mistake
 * that can be seen: the baseline is then adjusted by the three hours before 14:00 of the day before, and is another number. (Where n is below 12, or
 * a reading of the twelve quarters before it is missing, the latest twelve in a row that are all present and end at or before s are taken.)
 *
 * An event is worked out by the method that its request names. Both rank the latest days of the event day's group that count, by what they used in the
 * event's own quarters. HP_METHOD_HIGH, High X of Y, averages the highest and adjusts them by the three hours before notice. HP_METHOD_AVERAGE, Average
 * X of Y, is for trades of the Day-Ahead and Intraday Market (version 5.0, section 3.2.2): it averages two days in the middle, the 5th and 6th of the
 * latest ten, or the 2nd and 3rd of four where the event day is no weekday, and does not adjust; n plays no part then, and is tested all the same.
 * With fewer days it averages the 2nd and 3rd of three to nine, both of two, or one. Weekdays below four are filled up to four with the latest
 * event days; three or two of them, or one day of another group, are enough only where P is at least 7 days before D. Both methods look back
 * HP_LOOK_BACK days, and so need the same overlap.
 *
 * Eight holidays have a fixed date: 1 and 6 January, 25 March, 1 May, 15 August, 28 October, 25 and 26 December. A decree can move one: in 2024 the
 * day off for 1 May was 7 May. No rule of the calendar tells which were moved, so a call over a table is lent a list of moves, up to 16, two numbers
 * for each: the fixed-date holiday, and the day that replaces it, any day up to 36524, which is then a holiday. The fixed-date holiday is then none,
 * unless it is also one of Easter's or some move's second day; and a Sunday stays in the holiday group, moved or not. A record file has its list in
 * it. Whoever sends the readings has to send the list: a move with a day among the event day and the 45 days before it can change which days are
 * chosen, and without it the answer is a plausible number over the wrong days. Where none was moved, NULL and 0 are lent.
 *
 * A record file holds these records in this order and nothing else; numbers have the low byte first:
 *   one PF       8 bytes: the letters PF, P (2 bytes), the portfolio's number (4)
 *   up to 16 MV  6 bytes each: the letters MV, a fixed-date holiday (2), the day that replaces it (2)
 *   up to 128 DY 390 bytes each, consecutive days: the letters DY, the day (2), its mark (1), a zero byte, 96 readings (4 each)
 *   up to 64 EV  8 bytes each: the letters EV, D (2), s, e, n and the method (1 each)
 *
 * docs/RECORD-FILE.md has it field by field. A refused file's offset is where the first record starts that is not so.
 *
 * Archive and shared library are for x86-64 Linux:   cc event.c $(pkg-config --cflags --libs honeyplank)         the archive
 *                                                    cc event.c $(pkg-config --cflags --libs honeyplank-shared)  the shared library
 */
#ifndef HONEYPLANK_H
#define HONEYPLANK_H

#include <stddef.h>
#include <stdint.h>

#define HP_VERSION_MAJOR 0
#define HP_VERSION_MINOR 7
#define HP_VERSION_PATCH 0
#define HP_VERSION "0.7.0"
/* What hp_version() gives where the library is of this header. Before 1.0.0 another second number may break callers: the soname has both. */
#define HP_VERSION_NUMBER (10000 * HP_VERSION_MAJOR + 100 * HP_VERSION_MINOR + HP_VERSION_PATCH)

/* Stack, in bytes, that is enough for any entry but two: the entries over a file hold there its marks, its moves, and the readings of the event
 * day and the 45 days before it (17,928 bytes). hp_working has room there for all days of a file, and hp_listing, whatever out_len is, for these and for any
 * listing. */
#define HP_STACK 28672
#define HP_STACK_WORKING 61440
#define HP_STACK_LISTING 327680

/* What an entry gives back. The refusals are tested in this order: 11, 12, then 1, 2, 3, 14 and 4 to 10; hp_write has an order of its own. After the
 * colon: what it carries (HP_CARRIED, HP_CARRIED_SECOND). */
#define HP_ANSWERED 0
#define HP_BAD_FILE 11              /* the file is not as laid down: byte offset of the first record that is not */
#define HP_NO_EVENT 12              /* the file has no event at that place: nothing */
#define HP_BAD_TABLE 1              /* no days, more than 128, not 96 readings a day, or days after 36524: nothing */
#define HP_BAD_MARK 2               /* a mark with another bit than HP_MARK_EVENT and HP_MARK_OUTAGE: the day's place, from 0 */
#define HP_BAD_READING 3            /* a reading above HP_HIGHEST that is not HP_MISSING: its place, from 0 over the whole table */
#define HP_BAD_REQUEST 4            /* P after 36524, s outside 96..191, e outside s+1..192, n above s, or an unknown method: nothing */
#define HP_NOT_HELD 5               /* the event day is not in the table: nothing */
#define HP_NOT_YET_PARTICIPATING 6  /* P is later than the event day: nothing */
#define HP_NO_ROOM 7                /* `out` is too short: nothing */
#define HP_MARGIN_TOO_SHORT 8       /* the table starts too late to tell: so many days before the event always suffice */
#define HP_TOO_FEW 9                /* too few days to choose from, by the method: how many there are; the reach */
#define HP_NO_ADJUSTMENT_WINDOW 10  /* no twelve quarters in a row are present, which HP_METHOD_AVERAGE does not ask: the reach */
#define HP_UNWRITABLE 13            /* hp_write alone: no record file says this: nothing */
#define HP_BAD_MOVES 14             /* after 3 and before 4: more than 16 moves, or not two numbers for each; a day after 36524; a first day that is
                                       no fixed-date holiday; or the same first day twice: nothing */

/* Days, and how many of what there are. */
#define HP_QUARTERS 96     /* quarters of a day, and so readings of a day */
#define HP_LAST_DAY 36524  /* 31 December 2099, where the calendar ends */
#define HP_LOOK_BACK 45    /* days before the event that are looked at: with so many held before it, HP_MARGIN_TOO_SHORT never comes, by either method */
#define HP_MOST_DAYS 128   /* days of a table or a file, at most */
#define HP_MOST_EVENTS 64  /* events of a file, at most */
#define HP_MOST_MOVES 16   /* moves of a list or a file, at most */

/* Readings and marks. */
#define HP_HIGHEST 10000000u    /* the highest reading, in kW */
#define HP_MISSING 4294967295u  /* in place of a reading: missing */
#define HP_MARK_EVENT 1         /* a demand response event was recorded */
#define HP_MARK_OUTAGE 2        /* outage or force majeure */

/* The method of a request. Any other number is HP_BAD_REQUEST. */
#define HP_METHOD_HIGH 0     /* High X of Y: the highest days, adjusted */
#define HP_METHOD_AVERAGE 1  /* Average X of Y, of day-ahead and intraday trades: the days in the middle, without adjustment */

/* The names of what can be asked, one number a call. No two names are the same number, and what an entry does not tell is HP_NOTHING: a name
 * that does not exist, a name of another entry, a day past the last one chosen, a move past the last one, what a refusal does not carry. */
#define HP_NOTHING INT64_MIN
/* Of every entry that is asked by a name: */
#define HP_RESULT 0          /* HP_ANSWERED, or the number of the refusal */
#define HP_CARRIED 1         /* refused: the first number that the refusal carries */
#define HP_CARRIED_SECOND 2  /* refused: the second */
/* Of an answer (hp_told, hp_told_table): */
#define HP_COUNT 3         /* how many days are chosen, and averaged: 5 for a weekday, 2 otherwise; by HP_METHOD_AVERAGE 2, or 1 */
#define HP_DAY_1 4         /* the chosen days by rank: the highest of them, */
#define HP_DAY_2 5         /* the second, */
#define HP_DAY_3 6         /* and so on, up to HP_COUNT */
#define HP_DAY_4 7
#define HP_DAY_5 8
#define HP_REACH 9         /* so many days before the event were needed */
#define HP_DENOMINATOR 10  /* what the numerators and the adjustment are over: 60 or 24; by HP_METHOD_AVERAGE 2 or 1, which is HP_COUNT */
#define HP_ADJUSTMENT 11   /* the adjustment's numerator, which may be negative; by HP_METHOD_AVERAGE 0 */
/* Of a file (hp_file): */
#define HP_FILE_PARTICIPATION 12  /* P, the first day of participation */
#define HP_FILE_PORTFOLIO 13      /* the portfolio's number */
#define HP_FILE_FIRST 14          /* F, the first day held; 0 where none is */
#define HP_FILE_DAYS 15           /* h, how many days are held */
#define HP_FILE_EVENTS 16         /* how many events there are */
#define HP_FILE_MOVES 21          /* how many moves there are */
/* Of an event of a file (hp_event): */
#define HP_EVENT_DAY 17     /* D */
#define HP_EVENT_START 18   /* s */
#define HP_EVENT_END 19     /* e */
#define HP_EVENT_NOTICE 20  /* n */
#define HP_EVENT_METHOD 24  /* its method, as the file has it: 0 to 255 */
/* Of a move of a file (hp_move): */
#define HP_MOVE_FROM 22  /* the fixed-date holiday that is moved */
#define HP_MOVE_TO 23    /* the day that replaces it */
/* Of the working of an event of a file (hp_working). Of the event itself: */
#define HP_WORKING_GROUP 25   /* the event day's group: HP_GROUP_.. */
#define HP_WORKING_MOST 26    /* Y: so many of the latest days that count make a whole window */
#define HP_WORKING_SIZE 27    /* how many days the window has */
#define HP_WORKING_PASSED 28  /* how many of its ranks are passed over, from the highest on */
#define HP_WORKING_TAKEN 29   /* N: how many of the next are chosen; 0 is HP_TOO_FEW */
#define HP_WORKING_END 30     /* where the adjustment window ends on the ruler: its quarters are this less 12, up to but not this */
#define HP_WORKING_A 31       /* A: the sum of the event's own twelve readings of the adjustment window */
#define HP_WORKING_B 32       /* B: the sum of S(t) over the adjustment window */
/* Of the day so many days before the event, 1 to HP_LOOK_BACK: */
#define HP_BACK_DAY 33        /* its number; HP_NOTHING below day 0 */
#define HP_BACK_GROUP 34      /* its group by the file's moves: HP_GROUP_..; HP_NOTHING below day 0 */
#define HP_BACK_REASON 35     /* why it is used or is not: HP_TOO_EARLY to HP_ELIGIBLE */
#define HP_BACK_SUM 36        /* the sum of its readings over the event's own quarters; HP_NOTHING where it is not held, or one of these is missing */
#define HP_BACK_RANK 37       /* its rank in the window, 1 for the highest; 0 where it is not in the window */
#define HP_BACK_CHOSEN 38     /* 1 where it is chosen, else 0 */
/* Of a quarter of the ruler, 0 to 191: */
#define HP_QUARTER_S 39          /* S(t): the sum of the chosen days' readings at this quarter of the day */
#define HP_QUARTER_NUMERATOR 40  /* of the event's quarters: the numerator before it is floored at 0, which may be negative */
/* Of the overlap that an event of a file needs (hp_overlap): */
#define HP_OVERLAP_HELD 41      /* how many days are held before the event; HP_NOTHING where the event day is not held */
#define HP_OVERLAP_SUFFICES 42  /* so many days before the event always suffice: HP_MARGIN_TOO_SHORT does not come, whatever they hold */
#define HP_OVERLAP_MORE 43      /* how many of these are not held; HP_NOTHING where the event day is not */
#define HP_OVERLAP_FROM 44      /* the first day of these: the event day less HP_OVERLAP_SUFFICES */
/* Of a day of the calendar where no holiday was moved (hp_calendar): */
#define HP_CALENDAR_GROUP 45   /* its group: HP_GROUP_.. */
#define HP_CALENDAR_FIXED 46   /* where it is a fixed-date holiday: its month and day as they are written, 815 for 15 August; else HP_NOTHING */
#define HP_CALENDAR_EASTER 47  /* where it is a holiday counted from Easter Sunday: so many days after it, -48, -2, -1, 0, 1 or 50; else HP_NOTHING */

/* The group of a day. */
#define HP_GROUP_WEEKDAY 0
#define HP_GROUP_SATURDAY 1
#define HP_GROUP_HOLIDAY 2  /* a Sunday or a holiday */

/* Why a day of the look-back is used or is not: the first of these that holds. */
#define HP_TOO_EARLY 1        /* it is below day 0, or before P */
#define HP_ANOTHER_GROUP 2    /* it is of another group than the event day */
#define HP_DAY_BEFORE 3       /* it is the day before an event on a weekday */
#define HP_DAY_NOT_HELD 4     /* the file does not hold it */
#define HP_READING_MISSING 5  /* a reading of it is missing */
#define HP_OUTAGE 6           /* it is marked HP_MARK_OUTAGE */
#define HP_EVENT_RECORDED 7   /* it is marked HP_MARK_EVENT: it stands in a window only where days that count are too few */
#define HP_ELIGIBLE 8         /* it counts */

/* An event has at most 96 quarters: so many bytes of `out` are enough for the numerators of any. */
#define HP_MOST_BYTES 384

/* No listing has more bytes: so many of `out` are enough for any. */
#define HP_MOST_LISTING 213194

/* No record file has more bytes: so many of `out` are enough for hp_write. One byte more is enough to read of any input: a longer one is refused all the
 * same. */
#define HP_MOST_FILE 50536

#ifdef __cplusplus
extern "C" {
#endif

/* The baseline of the event at `event_place` of a record file, 0 for its first event: HP_ANSWERED or the number of one refusal.
 *
 * Answered: the first 4(e-s) bytes of `out` are the numerators, one a quarter, four bytes each, the low byte first; the rest is kept. The
 * baseline in kW is the numerator over the denominator, which hp_told gives (HP_DENOMINATOR).
 * Refused: `out` is kept. HP_NO_ROOM means that out_len is below 4(e-s). */
uint32_t hp_baseline(const uint8_t *file, size_t file_len, size_t event_place, uint8_t *out, size_t out_len);

/* What that result tells, with room for any event (HP_NO_ROOM never comes): the number of this name, from HP_RESULT to HP_ADJUSTMENT. */
int64_t hp_told(const uint8_t *file, size_t file_len, size_t event_place, uint32_t name);

/* The baseline over a table in memory, with no file: `marks` has one byte a day, `readings` 96 a day.
 *   moves                                     has two numbers for each moved holiday: the fixed-date holiday, and the day that replaces it; moves_len
 *                                             is how many numbers there are; NULL and 0 where none was moved
 *   first_day, participation_day, event_day   are days: F, P and D
 *   event_start, event_end, notice            are places on the ruler of two days: s, e and n; 96 is where the event day starts
 *   method                                    is HP_METHOD_HIGH or HP_METHOD_AVERAGE
 * Gives HP_ANSWERED or a refusal, 1 to 10 or 14. Answered: the first e-s elements of `out` are the numerators, and the rest is kept. Refused:
 * `out` is kept. HP_NO_ROOM means that out_len is below e-s. */
uint32_t hp_baseline_table(uint32_t first_day, const uint8_t *marks, size_t marks_len, const uint32_t *readings, size_t readings_len,
                           const uint32_t *moves, size_t moves_len, uint32_t participation_day, uint32_t event_day,
                           uint32_t event_start, uint32_t event_end, uint32_t notice, uint32_t method, uint32_t *out, size_t out_len);

/* What that result tells, with room for any event, as hp_told does. */
int64_t hp_told_table(uint32_t first_day, const uint8_t *marks, size_t marks_len, const uint32_t *readings, size_t readings_len,
                      const uint32_t *moves, size_t moves_len, uint32_t participation_day, uint32_t event_day, uint32_t event_start,
                      uint32_t event_end, uint32_t notice, uint32_t method, uint32_t name);

/* Where the 96 readings of a day stand in a table in memory: the place of its first in `readings`, from 0. HP_NOTHING where the day is not
 * held, or the table is one that HP_BAD_TABLE refuses. */
int64_t hp_day_part(uint32_t first_day, const uint8_t *marks, size_t marks_len, const uint32_t *readings, size_t readings_len, uint32_t day);

/* What a record file holds: the number of this name, HP_RESULT (HP_ANSWERED or HP_BAD_FILE), HP_CARRIED, or HP_FILE_.. */
int64_t hp_file(const uint8_t *file, size_t file_len, uint32_t name);

/* The event at `event_place` of a record file, 0 for its first event: the number of this name, HP_RESULT (HP_ANSWERED, HP_BAD_FILE or HP_NO_EVENT),
 * HP_CARRIED, or HP_EVENT_.. */
int64_t hp_event(const uint8_t *file, size_t file_len, size_t event_place, uint32_t name);

/* The move at `move_place` of a record file, 0 for its first: the number of this name, HP_RESULT (HP_ANSWERED or HP_BAD_FILE), HP_CARRIED, or
 * HP_MOVE_.., which is HP_NOTHING where the file has no move at that place. How many there are hp_file tells (HP_FILE_MOVES). */
int64_t hp_move(const uint8_t *file, size_t file_len, size_t move_place, uint32_t name);

/* The working of the event at `event_place` of a record file: the numbers by which a person reworks its answer with a pencil, one a call.
 *   HP_WORKING_..   of the event; `at` plays no part
 *   HP_BACK_..      of the day `at` days before the event, 1 to HP_LOOK_BACK
 *   HP_QUARTER_..   of the quarter `at` of the ruler, 0 to 191
 * The days that have the ranks HP_WORKING_PASSED + 1 up to HP_WORKING_PASSED + HP_WORKING_TAKEN are chosen, which makes N = HP_WORKING_TAKEN; a quarter's
 * numerator is 12 S(t) + N A - B, or S(t) by HP_METHOD_AVERAGE, and is floored at 0.
 *
 * HP_RESULT is HP_ANSWERED, or a refusal that leaves nothing to show: 11, 12, 1 to 3, 14, 4, 5 or 6. Where the event is refused 8, 9 or 10 (hp_told) the
 * working is told as far as it goes, and the rest is HP_NOTHING:
 *   8    the table starts too late to tell the window: its size and ranks, and all that comes of them, HP_WORKING_END, A, B, S(t) and numerators
 *   9    no day is chosen: HP_WORKING_TAKEN is 0, and HP_WORKING_END, A and B, S(t) and numerators are not told; HP_WORKING_PASSED is that of the window's size
 *   10   there is no adjustment window: HP_WORKING_END, A and B, and numerators
 * By HP_METHOD_AVERAGE there is no adjustment window either, and HP_WORKING_END, A and B are HP_NOTHING. */
int64_t hp_working(const uint8_t *file, size_t file_len, size_t event_place, uint32_t at, uint32_t name);

/* How long an overlap the event at `event_place` of a record file needs, by the calendar, the file's moves and the event alone, whatever days the file holds:
 * the number of this name, HP_RESULT (HP_ANSWERED, or 11, 12, 14, 4 or 6), HP_CARRIED, or HP_OVERLAP_.. So it can be asked of a file
 * with events and no days. No holiday is known after HP_LAST_DAY. */
int64_t hp_overlap(const uint8_t *file, size_t file_len, size_t event_place, uint32_t name);

/* The first day to cut a record file's days from so that none of its events is refused HP_MARGIN_TOO_SHORT: the least HP_OVERLAP_FROM of its events.
 * HP_NOTHING where no event has one. */
int64_t hp_cut_from(const uint8_t *file, size_t file_len);

/* The reading of a day that a record file holds, at a quarter of the day, 0 to 95: as the file has it, so HP_MISSING where it is missing. HP_NOTHING for a
 * day that is not held, for another quarter, and for a file that is refused. */
int64_t hp_reading(const uint8_t *file, size_t file_len, uint32_t day, uint32_t quarter);

/* The mark of a day that a record file holds, as the file has it: 0 to 255. HP_NOTHING for a day that is not held, and for a file that is refused. */
int64_t hp_mark(const uint8_t *file, size_t file_len, uint32_t day);

/* What a day of the calendar is where no holiday was moved: the number of this name, HP_CALENDAR_.. HP_RESULT is always HP_ANSWERED; the rest is HP_NOTHING for
 * a day after HP_LAST_DAY. */
int64_t hp_calendar(uint32_t day, uint32_t name);

/* The listing of a record file, as honeyplank-list prints it: its length in bytes, with the text at the start of `out` and the rest kept. Where
 * out_len is below that length: -HP_NO_ROOM, and `out` is kept. A file that is refused has a listing too (`file refused OFFSET`). */
int64_t hp_listing(const uint8_t *file, size_t file_len, uint8_t *out, size_t out_len);

/* Writes a record file: its length in bytes, 8 or more, with the file at the start of `out` and the rest kept; or minus the number of a refusal, and
 * `out` is kept.
 *   participation_day, first_day   are days: P and F
 *   marks, readings                are those of a table in memory, one byte and 96 readings a day; marks_len is the number of days, and may be 0
 *   moves                          has two numbers for each moved holiday, as above; moves_len is how many numbers there are
 *   events                         has five numbers for each event: D, s, e, n and the method; events_len is how many numbers there are
 * The refusals, tested in this order:
 *   -HP_BAD_TABLE    there are more than 128 days, or not 96 readings a day
 *   -HP_UNWRITABLE   there are more than 64 events, or not five numbers for each; more than 16 moves, or not two numbers for each; P, a day that is
 *                    held, a day of a move or D is above 65535; s, e, n or a method is above 255; or there are no days, and first_day
 *                    is not 0
 *   -HP_NO_ROOM      out_len is below the file's length, which is 8 + 6 for each move + 390 for each day + 8 for each event; HP_MOST_FILE bytes are
 *                    enough for any
 * Nothing else is asked: marks and readings that mean nothing, days after HP_LAST_DAY, moves that mean nothing, events out of range and unknown
 * methods are written as they are, and the entries above refuse them when they read the file. What is written reads back as the same values, and a
 * file that was read is written again byte for byte.
 *
 *   uint32_t events[] = {6972, 152, 156, 148, HP_METHOD_HIGH, 6966, 152, 156, 148, HP_METHOD_AVERAGE};
 *   int64_t length = hp_write(6900, 77, 6951, marks, 22, readings, 22 * HP_QUARTERS, NULL, 0, events, 10, out, sizeof out);   8604, or below 0 */
int64_t hp_write(uint32_t participation_day, uint32_t portfolio, uint32_t first_day, const uint8_t *marks, size_t marks_len,
                 const uint32_t *readings, size_t readings_len, const uint32_t *moves, size_t moves_len, const uint32_t *events,
                 size_t events_len, uint8_t *out, size_t out_len);

/* The day number of a date, month and day counted from 1: hp_day(2024, 8, 28) is 9006. HP_NOTHING where there is no such date from 2000 to 2099. */
int64_t hp_day(uint32_t year, uint32_t month, uint32_t day);

/* The date of a day number, its digits as they are written: hp_date(9006) is 20240828. So date / 10000, date / 100 % 100 and date % 100 are its
 * year, month and day. HP_NOTHING for a day after HP_LAST_DAY. */
int64_t hp_date(uint32_t day);

/* The version of the library that is linked or loaded: HP_VERSION_NUMBER of its own header. */
uint32_t hp_version(void);

#ifdef __cplusplus
}
#endif

/* What HP_ANSWERED or a refusal means, in one sentence for people to read; what a refusal carries is not in it. */
static inline const char *hp_refusal_text(uint32_t number)
{
    switch (number) {
    case HP_ANSWERED:
        return "The event has a baseline.";
    case HP_BAD_TABLE:
        return "The table has no days, more than 128, days after 2099, or not 96 readings a day.";
    case HP_BAD_MARK:
        return "A day has a mark that means nothing.";
    case HP_BAD_READING:
        return "A reading is above 10,000,000 kW and is not the missing mark.";
    case HP_BAD_REQUEST:
        return "The request is out of range, or its method is unknown.";
    case HP_NOT_HELD:
        return "The event day is not held.";
    case HP_NOT_YET_PARTICIPATING:
        return "Participation starts after the event day.";
    case HP_NO_ROOM:
        return "The output is too short.";
    case HP_MARGIN_TOO_SHORT:
        return "The days held start too late before the event to tell its baseline.";
    case HP_TOO_FEW:
        return "There are too few days to choose from.";
    case HP_NO_ADJUSTMENT_WINDOW:
        return "No twelve quarters in a row up to the event have all their readings.";
    case HP_BAD_FILE:
        return "The file is not a record file, or a record of it is not as laid down.";
    case HP_NO_EVENT:
        return "The file has no event at that place.";
    case HP_UNWRITABLE:
        return "No record file can say this: over 64 events or not five numbers for each, over 16 moves or not two numbers for each, a number that its "
               "bytes can't hold, or a first day with no days.";
    case HP_BAD_MOVES:
        return "The list of moves has over 16 moves or not two numbers for each, a day after 2099, a first day that is no fixed-date holiday, or the "
               "same first day twice.";
    default:
        return "No result has this number.";
    }
}

#endif
