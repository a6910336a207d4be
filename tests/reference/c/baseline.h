/* The call over a table (document 01, with order 2's list of moved holidays and order 3's method), in plain C99: the measure for speed. */
#ifndef PLAIN_BASELINE_H
#define PLAIN_BASELINE_H

#include <stddef.h>
#include <stdint.h>

struct plain_answer {
    uint32_t days[5];     /* answered: the chosen days in rank order */
    uint32_t count;       /* how many of them: N, 5 or 2; by method 1, 2 or 1 */
    uint32_t reach;       /* answered */
    uint32_t denominator; /* answered: 60 or 24; by method 1 the number of days */
    int64_t adjustment;   /* answered: N*A - B; by method 1, 0 */
    uint64_t carried[2];  /* refused: the numbers it carries */
    uint32_t carries;     /* how many of them */
};

/* 0 if answered: the first e-s of `out` are the numerators, the rest is kept.
 * Otherwise the refusal number, 1 to 10 or 14, and all of `out` is kept.
 * `moves` has two numbers for each moved holiday: the fixed-date holiday, and
 * the day that replaces it.
 * `method` is 0 for High X of Y, 1 for Average X of Y.
 * `answer` is overwritten; what does not apply is 0. */
uint32_t plain_baseline(uint32_t first, const uint8_t *marks, size_t days,
                        const uint32_t *readings, size_t count,
                        const uint32_t *moves, size_t moves_len, uint32_t p,
                        uint32_t d, uint32_t s, uint32_t e, uint32_t n,
                        uint32_t method, uint32_t *out, size_t room,
                        struct plain_answer *answer);

#endif
