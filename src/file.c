/* Files: what is said of them, and reading a record file. */
#define _POSIX_C_SOURCE 200809L
#include <errno.h>
#include <inttypes.h>
#include <stdarg.h>
#include <stdio.h>
#include <string.h>

#include "command.h"

int complain(int status, const char *name, const char *form, ...)
{
    va_list words;
    fprintf(stderr, "honeyplank: %s: ", *name == '\0' ? "''" : name);
    va_start(words, form);
    vfprintf(stderr, form, words);
    va_end(words);
    fputc('\n', stderr);
    return status;
}

int read_input(struct input *file, const char *name)
{
    int own = strcmp(name, "-") == 0, why = 0;
    FILE *from = own ? stdin : fopen(name, "rb");
    file->name = own ? "standard input" : name;
    file->length = 0;
    if (from == NULL)
        return complain(STATUS_BAD_INPUT, file->name, "%s", strerror(errno));
    errno = 0;
    file->length = fread(file->bytes, 1, sizeof file->bytes, from);
    if (ferror(from))
        why = errno != 0 ? errno : EIO;
    if (!own)
        fclose(from);
    return why == 0 ? STATUS_ANSWERED : complain(STATUS_BAD_INPUT, file->name, "%s", strerror(why));
}

int refuse_file(const struct input *file)
{
    if (hp_file(file->bytes, file->length, HP_RESULT) == HP_ANSWERED)
        return STATUS_ANSWERED;
    return complain(STATUS_BAD_INPUT, file->name, "refused %d: %s It is the record that starts at byte %" PRId64 ".", HP_BAD_FILE,
                    hp_refusal_text(HP_BAD_FILE), hp_file(file->bytes, file->length, HP_CARRIED));
}

int read_record_file(struct input *file, const char *name)
{
    int status = read_input(file, name);
    return status == STATUS_ANSWERED ? refuse_file(file) : status;
}
