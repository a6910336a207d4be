/* honeyplank COMMAND WORD..: the record files of the baseline, for people: lists, sheets, charts, and writing one. It lays out what the proved archive
 * answers; it is itself run and compared, and not proved. */
#define _POSIX_C_SOURCE 200809L
#include <errno.h>
#include <stdio.h>
#include <string.h>

#include "command.h"

static const char help[] =
    "usage: honeyplank COMMAND WORD..\n"
    "       honeyplank --help | --version\n"
    "\n"
    "The demand response baseline of the Greek transmission operator, for people:\n"
    "\n"
    "  list FILE            list every event of a record file, like honeyplank-list\n"
    "  sheet FILE [PLACE]   the working of an event, to be followed with a pencil\n"
    "  chart FILE PLACE     an event drawn, as SVG\n"
    "  overlap FILE         how many days each event needs before it\n"
    "  pack [TEXT [FILE]]   write a record file from a text\n"
    "  days FIRST LAST      the calendar: groups and holidays\n"
    "\n"
    "honeyplank COMMAND --help says more. FILE is a name, or - for standard input.\n"
    "PLACE is an event's, 0 for the first. This program lays out what the library\n"
    "answers; the library is proved, this program is not.\n"
    "\n"
    "Exit status: 0 every event asked for is answered; 1 some event is refused; 2 a\n"
    "file is refused or can't be read, or a text is bad; 3 wrong use, or a write that\n"
    "failed.\n";

struct command {
    const char *name, *help;
    int least, most; /* operands */
    int (*run)(char **words, int count);
};

static const struct command commands[] = {
    {"list", list_help, 1, 1, list_command},
    {"sheet", sheet_help, 1, 2, sheet_command},
    {"chart", chart_help, 2, 2, chart_command},
    {"overlap", overlap_help, 1, 1, overlap_command},
    {"pack", pack_help, 0, 2, pack_command},
    {"days", days_help, 2, 2, days_command},
};

static int asks_help(const char *word)
{
    return strcmp(word, "--help") == 0 || strcmp(word, "-h") == 0;
}

static int show(const char *text)
{
    fputs(text, stdout);
    return STATUS_ANSWERED;
}

static int version(void)
{
    if (hp_version() != HP_VERSION_NUMBER)
        return complain(STATUS_FAILED, "--version", "this program is of version %d, and its library of %lu", HP_VERSION_NUMBER, (unsigned long)hp_version());
    return show("honeyplank " HP_VERSION "\n");
}

/* Runs a command with its operands, from which the options have been taken. */
static int run(const struct command *command, char **words, int count)
{
    int kept = 0, ended = 0;
    for (int i = 0; i < count; i++) {
        if (ended || words[i][0] != '-' || words[i][1] == '\0')
            words[kept++] = words[i];
        else if (strcmp(words[i], "--") == 0)
            ended = 1;
        else if (asks_help(words[i]))
            return show(command->help);
        else
            return complain(STATUS_FAILED, words[i], "unknown option (see honeyplank %s --help)", command->name);
    }
    if (kept < command->least || kept > command->most)
        return complain(STATUS_FAILED, command->name, "too %s words (see honeyplank %s --help)", kept < command->least ? "few" : "many", command->name);
    return command->run(words, kept);
}

static int choose(char **words, int count)
{
    if (count == 0) {
        fputs("usage: honeyplank COMMAND WORD.. (see honeyplank --help)\n", stderr);
        return STATUS_FAILED;
    }
    if (asks_help(words[0]))
        return show(help);
    if (strcmp(words[0], "--version") == 0 || strcmp(words[0], "-V") == 0)
        return version();
    for (size_t i = 0; i < sizeof commands / sizeof *commands; i++)
        if (strcmp(words[0], commands[i].name) == 0)
            return run(&commands[i], words + 1, count - 1);
    return complain(STATUS_FAILED, words[0], "no such command (see honeyplank --help)");
}

int main(int argc, char **argv)
{
    int status = choose(argv + 1, argc > 0 ? argc - 1 : 0);
    int broken = ferror(stdout), why = errno;
    if (fclose(stdout) != 0 && !broken) {
        broken = 1;
        why = errno;
    }
    return broken ? complain(STATUS_FAILED, "standard output", "%s", strerror(why)) : status;
}
