/* honeyplank pack: writes the record file that a text describes. docs/PACK.md lays the text down. */
#define _POSIX_C_SOURCE 200809L
#include <errno.h>
#include <inttypes.h>
#include <stdarg.h>
#include <stdio.h>
#include <string.h>
#include <unistd.h>

#include "pack.h"

#define MOST_LINE 4096
#define MOST_NAMED 50
#define BLANKS " \t\r"

const char pack_help[] =
    "usage: honeyplank pack [TEXT [FILE]]\n"
    "\n"
    "Writes FILE, the record file that TEXT describes; they are standard output and\n"
    "input where they are - or not given. One line a record:\n"
    "\n"
    "  " PORTFOLIO "            first; participation starts on DAY\n"
    "  " MOVE "                         a moved holiday, and its new DAY\n"
    "  " DAY_LINE "               a day held, 96 readings in kW\n"
    "  " ROW "                          or a row for each of its quarters\n"
    "  " MARK_LINE "                        the mark of a day that has rows\n"
    "  " EVENT "  an event\n"
    "\n"
    "A DAY is a date, 2024-08-28, or its number, 9006; each day is the one after the\n"
    "day before, and moves stand before the first. MARK is none, event, outage or\n"
    "both, or 0 to 3. A reading may be `missing`, in a row also nothing; 1300*56 is\n"
    "56 times 1300. A day's rows go from 01:00 to 00:45. START, END and NOTICE are\n"
    "clock times of the event's day, 15:00, where 00:00 to 00:45 are its last\n"
    "quarters; or moments by the calendar, 2024-08-27T14:00; or places on the ruler\n"
    "of two days, where 96 is 01:00 of the event's day. METHOD is high (or 0), for\n"
    "High X of Y, which it is where none is given, or average (or 1), for Average X\n"
    "of Y. What follows a # is a remark. docs/PACK.md says more.\n"
    "\n"
    "Exit status: 0 written; 2 bad lines, all of which are named, or a TEXT that\n"
    "can't be read, and nothing is written; 3 wrong use, or a write that failed.\n";

int bad_line(struct text *text, size_t line, const char *form, ...)
{
    va_list words;
    if (text->bad++ >= MOST_NAMED)
        return 0;
    fprintf(stderr, "honeyplank: %s: line %zu: ", text->name, line);
    va_start(words, form);
    vfprintf(stderr, form, words);
    va_end(words);
    fputc('\n', stderr);
    return 0;
}

static void take_portfolio(struct text *text, char **words, size_t count)
{
    if (text->has_portfolio)
        bad_line(text, text->line, "there is a portfolio line before it");
    else if (count != 4 || strcmp(words[2], "from") != 0)
        bad_line(text, text->line, "a portfolio line is: %s", PORTFOLIO);
    else if (take_number(text, words[1], UINT32_MAX, "portfolio", &text->portfolio))
        take_day(text, words[3], &text->participation);
    text->has_portfolio = 1;
}

static void take_move(struct text *text, char **words, size_t count)
{
    uint32_t from = 0, to = 0;
    if (count != 3)
        bad_line(text, text->line, "a move line is: %s", MOVE);
    else if (text->days + text->events_len > 0)
        bad_line(text, text->line, "there is a day or event line before it");
    else if (text->moves_len == 2 * HP_MOST_MOVES)
        bad_line(text, text->line, "a file has at most %d moves", HP_MOST_MOVES);
    else if (take_day(text, words[1], &from) && take_day(text, words[2], &to)) {
        text->moves[text->moves_len++] = from;
        text->moves[text->moves_len++] = to;
    }
}

static void take_event(struct text *text, char **words, size_t count)
{
    uint32_t own[EVENT_NUMBERS] = {0, 0, 0, 0, HP_METHOD_HIGH};
    if (count != 5 && count != 6) {
        bad_line(text, text->line, "an event line is: %s", EVENT);
        return;
    }
    if (text->events_len == EVENT_NUMBERS * HP_MOST_EVENTS) {
        bad_line(text, text->line, "a file has at most %d events", HP_MOST_EVENTS);
        return;
    }
    if (!take_day(text, words[1], &own[0]))
        return;
    for (size_t i = 2; i < 5; i++)
        if (!take_place(text, words[i], own[0], i == 3, &own[i - 1]))
            return;
    if (count == 6 && !take_method(text, words[5], &own[4]))
        return;
    memcpy(text->events + text->events_len, own, sizeof own);
    text->events_len += EVENT_NUMBERS;
}

struct record {
    const char *opens;
    void (*take)(struct text *text, char **words, size_t count);
};

static const struct record records[] = {
    {"portfolio", take_portfolio}, {"move", take_move}, {"day", take_day_line}, {"mark", take_mark_line}, {"event", take_event},
};

/* The record that this line opens, or NULL: a row, or nothing known. */
static const struct record *opened_by(const char *line)
{
    size_t length = strcspn(line, BLANKS);
    for (size_t i = 0; i < sizeof records / sizeof *records; i++)
        if (strlen(records[i].opens) == length && strncmp(line, records[i].opens, length) == 0)
            return &records[i];
    return NULL;
}

static void take_record(struct text *text, char *line)
{
    static char *words[MOST_LINE / 2];
    const struct record *record = opened_by(line);
    size_t count = 0;
    if (record == NULL && strchr(line, ',') == NULL) {
        bad_line(text, text->line, "'%.*s' opens no line: portfolio, move, day, mark and event do", (int)strcspn(line, BLANKS), line);
        return;
    }
    if (!text->opened && (record == NULL || record->take != take_portfolio))
        bad_line(text, text->line, "there is no portfolio line before it");
    text->opened = 1;
    if (record == NULL) {
        take_row(text, line);
        return;
    }
    end_rows(text);
    for (char *word = strtok(line, BLANKS); word != NULL; word = strtok(NULL, BLANKS))
        words[count++] = word;
    record->take(text, words, count);
}

/* Reads the next line without its end and its remark, which is empty where it is no text: gives 0 where there is none. */
static int next_line(struct text *text, char *line, FILE *from)
{
    size_t length = 0;
    int c, good = 1;
    text->line++;
    while ((c = getc(from)) != EOF && c != '\n') {
        if (good && length + 1 == MOST_LINE)
            good = bad_line(text, text->line, "it has more than %d characters", MOST_LINE - 1);
        else if (good && ((c < ' ' && c != '\t' && c != '\r') || c == 127 || (length > 0 && line[length - 1] == '\r')))
            good = bad_line(text, text->line, "it is no text at character %zu", length + 1);
        if (good)
            line[length++] = (char)c;
    }
    line[good ? length : 0] = '\0';
    if (text->line == 1 && strncmp(line, "\xEF\xBB\xBF", 3) == 0)
        memset(line, ' ', 3); /* some editors put this mark before a text */
    line[strcspn(line, "#")] = '\0';
    if (c != EOF || length > 0)
        return 1;
    text->line -= text->line > 1;
    return 0;
}

/* Reads a text whole: gives 0, or why it can't be read. */
static int read_text(struct text *text, FILE *from)
{
    static char line[MOST_LINE];
    errno = 0;
    while (next_line(text, line, from))
        if (line[strspn(line, BLANKS)] != '\0')
            take_record(text, line + strspn(line, BLANKS));
    if (ferror(from))
        return errno != 0 ? errno : EIO;
    end_rows(text);
    if (!text->opened && text->bad == 0)
        bad_line(text, text->line, "the text ends, and has no portfolio line");
    put_marks(text);
    return 0;
}

/* Reads the text of this name, NULL for standard input: an exit status. */
static int open_text(struct text *text, const char *name)
{
    FILE *from = name == NULL ? stdin : fopen(name, "r");
    text->name = name == NULL ? "standard input" : name;
    text->last = HP_NOTHING;
    text->row_next = HP_QUARTERS;
    if (from == NULL)
        return complain(STATUS_BAD_INPUT, text->name, "%s", strerror(errno));
    if (name == NULL && isatty(fileno(stdin)))
        fprintf(stderr, "honeyplank: standard input: reads a text from this terminal; Ctrl-D ends it (see honeyplank pack --help)\n");
    int why = read_text(text, from);
    if (name != NULL)
        fclose(from);
    if (why != 0)
        return complain(STATUS_BAD_INPUT, text->name, "%s", strerror(why));
    if (text->bad > MOST_NAMED)
        complain(0, text->name, "and %zu more", text->bad - MOST_NAMED);
    return text->bad == 0 ? STATUS_ANSWERED : STATUS_BAD_INPUT;
}

/* Writes the file of this name, NULL for standard output, which main closes: an exit status. */
static int write_file(const char *name, const uint8_t *bytes, size_t length)
{
    FILE *to = name == NULL ? stdout : fopen(name, "wb");
    if (to == NULL)
        return complain(STATUS_FAILED, name, "%s", strerror(errno));
    errno = 0;
    int whole = fwrite(bytes, 1, length, to) == length;
    if (name == NULL)
        return STATUS_ANSWERED;
    if (fclose(to) != 0 || !whole)
        return complain(STATUS_FAILED, name, "%s, and what is there is not whole", errno != 0 ? strerror(errno) : "a write failed");
    return STATUS_ANSWERED;
}

int pack_command(char **words, int count)
{
    static struct text text;
    static uint8_t out[HP_MOST_FILE];
    const char *name = count > 0 && strcmp(words[0], "-") != 0 ? words[0] : NULL, *file = count > 1 && strcmp(words[1], "-") != 0 ? words[1] : NULL;
    if (name != NULL && file != NULL && strcmp(name, file) == 0)
        return complain(STATUS_FAILED, file, "it is the text, and would be written over");
    if (file == NULL && isatty(fileno(stdout)))
        return complain(STATUS_FAILED, "standard output", "a record file is not for a terminal: name a FILE (see honeyplank pack --help)");
    int status = open_text(&text, name);
    if (status != STATUS_ANSWERED)
        return status;
    int64_t length = hp_write(text.participation, text.portfolio, text.days == 0 ? 0 : text.held[0], text.marks, text.days, text.readings,
                              HP_QUARTERS * text.days, text.moves, text.moves_len, text.events, text.events_len, out, sizeof out);
    if (length < 0)
        return complain(STATUS_BAD_INPUT, text.name, "refused %d: %s", (int)-length, hp_refusal_text((uint32_t)-length));
    return write_file(file, out, (size_t)length);
}
