/* The record file and the host entry (document 01, with order 2's moves and order 3's method) and the writer (order 1), in plain C99: the measure for
 * speed, and the fuzzer's second opinion. */
#ifndef PLAIN_FILE_H
#define PLAIN_FILE_H

#include "baseline.h"

/* What a file that is as laid down holds. */
struct plain_file {
    uint32_t p;
    uint32_t portfolio;
    uint32_t moves; /* pairs */
    uint32_t first; /* F, which counts as 0 when there is no DY */
    uint32_t days;
    uint32_t events;
};

/* An event of a file. */
struct plain_event {
    uint32_t d, s, e, n, method;
};

/* 0, or 11 and the offset of the record that is not as laid down. */
uint32_t plain_read(const uint8_t *file, size_t length, struct plain_file *shape, size_t *offset);

/* The event at a place of a file that is as laid down. */
struct plain_event plain_event_at(const uint8_t *file, const struct plain_file *shape, uint32_t place);

/* The moves of a file that is as laid down, two numbers for each. */
void plain_load_moves(const uint8_t *file, const struct plain_file *shape, uint32_t moves[32]);

/* The marks and readings of a file that is as laid down. */
void plain_load(const uint8_t *file, const struct plain_file *shape, uint8_t marks[128], uint32_t readings[128 * 96]);

/* Writes a record file: its length, with the file at the start of `out`, or minus the refusal number (1, 13, 7) and all of `out` is kept. `moves`
 * has two numbers for each moved holiday, `events` five for each event: D, s, e, n and the method. */
int64_t plain_write(uint32_t p, uint32_t portfolio, uint32_t first, const uint8_t *marks, size_t days, const uint32_t *readings, size_t count,
                    const uint32_t *moves, size_t moves_len, const uint32_t *events, size_t events_len, uint8_t *out, size_t room);

/* The host entry: 0 and the numerators, little-endian, at the start of `out`, or the refusal number (11, 12, then 1 to 10 or 14) and all of
 * `out` is kept. `answer` is overwritten. */
uint32_t plain_host(const uint8_t *file, size_t length, size_t place, uint8_t *out, size_t room, struct plain_answer *answer);

#endif
