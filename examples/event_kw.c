/* event_kw FILE PLACE: the baseline of one event of a record file, in kW, a line a quarter.
 * cc event_kw.c $(pkg-config --cflags --libs honeyplank) -o event_kw */
#include <inttypes.h>
#include <stdio.h>
#include <stdlib.h>
#include <string.h>

#include "honeyplank.h"

/* One byte more than the longest record file, so that a longer one is refused. */
static uint8_t file[HP_MOST_FILE + 1];

/* Reads the file and gives 1, or says why it can't be read. */
static int read_file(const char *name, size_t *length)
{
    FILE *from = fopen(name, "rb");
    int good = 0;
    if (from != NULL) {
        *length = fread(file, 1, sizeof file, from);
        good = !ferror(from);
    }
    if (!good)
        perror(name);
    if (from != NULL)
        fclose(from);
    return good;
}

static void print_refusal(size_t length, size_t place, uint32_t number)
{
    fprintf(stderr, "refused %" PRIu32, number);
    for (uint32_t name = HP_CARRIED; name <= HP_CARRIED_SECOND; name++) {
        int64_t carried = hp_told(file, length, place, name);
        if (carried != HP_NOTHING)
            fprintf(stderr, " %" PRId64, carried);
    }
    fprintf(stderr, ": %s\n", hp_refusal_text(number));
}

static void print_quarters(size_t length, size_t place, const uint8_t *numerators)
{
    int64_t start = hp_event(file, length, place, HP_EVENT_START), end = hp_event(file, length, place, HP_EVENT_END);
    int64_t over = hp_told(file, length, place, HP_DENOMINATOR);
    for (int64_t t = start; t < end; t++) {
        const uint8_t *b = numerators + 4 * (t - start);
        int64_t numerator = b[0] | b[1] << 8 | b[2] << 16 | (int64_t)b[3] << 24;
        int64_t minute = 60 + 15 * (t - HP_QUARTERS); /* the event day starts at 96, and at 01:00 */
        printf("%02" PRId64 ":%02" PRId64 " %" PRId64 " kW\n", minute / 60 % 24, minute % 60, (2 * numerator + over) / (2 * over));
    }
}

int main(int argc, char **argv)
{
    uint8_t out[HP_MOST_BYTES];
    size_t length;
    if (argc != 3 || *argv[2] == '\0' || argv[2][strspn(argv[2], "0123456789")] != '\0') {
        fprintf(stderr, "usage: event_kw FILE PLACE\n");
        return 2;
    }
    if (!read_file(argv[1], &length))
        return 2;
    size_t place = strtoul(argv[2], NULL, 10); /* the highest there is where the number is above it: no event is there either */
    uint32_t number = hp_baseline(file, length, place, out, sizeof out);
    if (number != HP_ANSWERED) {
        print_refusal(length, place, number);
        return 1;
    }
    print_quarters(length, place, out);
    return 0;
}
