/* The listing of a record file (document 01), in plain C99: for the listing program, the measure for speed, and for the fuzzer. */
#ifndef PLAIN_LISTING_H
#define PLAIN_LISTING_H

#include "file.h"

#include <stdio.h>

static inline void plain_list_answer(FILE *to, const struct plain_event *event, const struct plain_answer *answer, const uint32_t *out)
{
    uint32_t i, t, half = answer->denominator / 2;
    fprintf(to, "%u %u %u days %u", event->d, event->s, event->e, answer->count);
    for (i = 0; i < answer->count; i++)
        fprintf(to, " %u", answer->days[i]);
    fprintf(to, " reach %u over %u adj %lld\n", answer->reach, answer->denominator, (long long)answer->adjustment);
    for (t = event->s; t < event->e; t++, out++)
        fprintf(to, "%u %u %u\n", t, *out, (*out + half) / answer->denominator);
}

static inline void plain_list_refusal(FILE *to, const struct plain_event *event, uint32_t number, const struct plain_answer *answer)
{
    uint32_t i;
    fprintf(to, "%u %u %u refused %u", event->d, event->s, event->e, number);
    for (i = 0; i < answer->carries; i++)
        fprintf(to, " %llu", (unsigned long long)answer->carried[i]);
    fprintf(to, "\n");
}

static inline void plain_list(FILE *to, const uint8_t *file, size_t length)
{
    uint8_t marks[128];
    uint32_t readings[128 * 96], moves[32], out[96], place;
    struct plain_file shape;
    struct plain_answer answer;
    size_t offset;

    if (plain_read(file, length, &shape, &offset)) {
        fprintf(to, "file refused %zu\n", offset);
        return;
    }
    fprintf(to, "portfolio %u from %u held %u %u\n", shape.portfolio, shape.p, shape.first, shape.days);
    plain_load_moves(file, &shape, moves);
    plain_load(file, &shape, marks, readings);
    for (place = 0; place < shape.events; place++) {
        struct plain_event event = plain_event_at(file, &shape, place);
        uint32_t number = plain_baseline(shape.first, marks, shape.days, readings, (size_t)96 * shape.days, moves,
                                         (size_t)2 * shape.moves, shape.p, event.d, event.s, event.e, event.n, event.method, out, 96,
                                         &answer);
        if (number)
            plain_list_refusal(to, &event, number, &answer);
        else
            plain_list_answer(to, &event, &answer, out);
    }
}

#endif
