/* A check that says where it failed, and buffers with guards on both sides. */
#ifndef CHECK_H
#define CHECK_H

#include <stddef.h>
#include <stdint.h>
#include <stdio.h>
#include <stdlib.h>
#include <string.h>
#include <sys/mman.h>

static int checks, failures;

#define CHECK(what) (checks++, (what) ? (void)0 : (failures++, (void)printf("%s:%d: %s\n", __FILE__, __LINE__, #what)))

/* What a program ends with. */
static inline int checked(const char *name)
{
    printf("%s: %d checks, %d failed\n", name, checks, failures);
    return failures != 0;
}

enum { PAGE = 4096, UNTOUCHED = 0xA5 };

/* `length` bytes between two pages that nobody may touch, against the one after or the one before; what is left between them is filled, and
 * looked at afterwards. */
struct lent {
    uint8_t *room;
    size_t size; /* of the room: whole pages, and at least one more than is lent */
    uint8_t *bytes;
    size_t length;
};

static inline struct lent lend(size_t length, int at_end)
{
    struct lent lent;
    size_t size = (length / PAGE + 2) * PAGE;
    uint8_t *all = mmap(NULL, size + 2 * PAGE, PROT_NONE, MAP_PRIVATE | MAP_ANONYMOUS, -1, 0);
    if (all == MAP_FAILED || mprotect(all + PAGE, size, PROT_READ | PROT_WRITE) != 0)
        abort();
    lent.room = all + PAGE;
    lent.size = size;
    lent.bytes = lent.room + (at_end ? size - length : 0);
    lent.length = length;
    memset(lent.room, UNTOUCHED, size);
    return lent;
}

/* Whether all of the room holds what it was filled with, but for `written` bytes at the start of what was lent. */
static inline int kept(const struct lent *lent, size_t written)
{
    size_t i;
    for (i = 0; i < lent->size; i++) {
        const uint8_t *byte = lent->room + i;
        if (*byte != UNTOUCHED && (byte < lent->bytes || byte >= lent->bytes + written))
            return 0;
    }
    return 1;
}

/* Lends bytes for reading only. */
static inline struct lent lend_copy(const void *bytes, size_t length, int at_end)
{
    struct lent lent = lend(length, at_end);
    if (length > 0)
        memcpy(lent.bytes, bytes, length);
    if (mprotect(lent.room, lent.size, PROT_READ) != 0)
        abort();
    return lent;
}

static inline void give_back(const struct lent *lent)
{
    munmap(lent->room - PAGE, lent->size + 2 * PAGE);
}

#endif
