/* honeyplank list: the listing of a record file. */
#include <stdio.h>

#include "command.h"

const char list_help[] =
    "usage: honeyplank list FILE\n"
    "\n"
    "Lists every event of FILE, a record file, or standard input by -: the bytes that\n"
    "honeyplank-list prints. man honeyplank-list explains the lines.\n"
    "\n"
    "Exit status: 0 every event is answered; 1 some event is refused; 2 the file is\n"
    "refused, which is listed too, or can't be read; 3 wrong use, or a write that\n"
    "failed.\n";

/* Whether some event of a file is refused. */
static int some_refused(const struct input *file)
{
    int64_t events = hp_file(file->bytes, file->length, HP_FILE_EVENTS);
    for (int64_t place = 0; place < events; place++)
        if (hp_told(file->bytes, file->length, (size_t)place, HP_RESULT) != HP_ANSWERED)
            return 1;
    return 0;
}

int list_command(char **words, int count)
{
    static struct input file;
    static uint8_t listing[HP_MOST_LISTING];
    int status = read_input(&file, words[count - 1]);
    if (status != STATUS_ANSWERED)
        return status;
    int64_t length = hp_listing(file.bytes, file.length, listing, sizeof listing);
    if (length > 0)
        fwrite(listing, 1, (size_t)length, stdout);
    if (refuse_file(&file) != STATUS_ANSWERED)
        return STATUS_BAD_INPUT;
    return some_refused(&file) ? STATUS_REFUSED : STATUS_ANSWERED;
}
