/* What stands around the entries: the stack that they use, and threads that call them at once. */
#include <pthread.h>
#include <ucontext.h>

#include "check.h"
#include "honeyplank.h"
#include "record.h"
#include "told.h"
#include "values.h"

/* PLACES: the events of the largest file, and one place where there is none */
enum { DEEP = 1 << 20, THREADS = 4, CALLS = 650, PLACES = 65 };

static struct record_file file;
static struct values values; /* those of the file */
static ucontext_t home, away;
static size_t place, listing_room;

/* A file as large as there is: 16 moves, 128 days of about this load, each a thousandth higher, and 64 events by both methods, the last two over all
 * of their day. */
static void put_largest(struct record_file *largest, uint32_t load)
{
    uint32_t i;
    put_head(largest, 0, 1);
    put_far_moves(largest, HP_MOST_MOVES);
    for (i = 0; i < 128; i++)
        put_day(largest, 8879 + i, 0, load + load / 1000 * i);
    for (i = 0; i < 62; i++)
        put_event_by(largest, 9006 - i, 152, 156, 148, i % 2);
    put_event_by(largest, 9006, 96, 192, 96, HP_METHOD_AVERAGE);
    put_event_by(largest, 9006, 96, 192, 96, HP_METHOD_HIGH);
}

/* The working of an event by every name: of the day before it, of the first day of its look-back, and of a quarter of it. */
static void call_working(void)
{
    static const uint32_t ats[] = {1, HP_LOOK_BACK, 152};
    uint32_t name, i;
    for (name = 0; name <= LAST_NAME; name++)
        for (i = 0; i < sizeof ats / sizeof ats[0]; i++)
            hp_working(file.bytes, file.length, place, ats[i], name);
}

/* Every entry but hp_working and hp_listing, by every name; over a table by the one method or the other. */
static void call_all(void)
{
    static uint8_t out[HP_MOST_BYTES], written[HP_MOST_FILE], marks[128];
    static uint32_t readings[128 * QUARTERS], numerators[QUARTERS];
    const uint32_t *moves = values.moves, method = place % 2;
    uint32_t name;
    hp_baseline(file.bytes, file.length, place, out, sizeof out);
    hp_baseline_table(8879, marks, 128, readings, 128 * QUARTERS, moves, values.moved, 0, 9006, 96, 192, 96, method, numerators, QUARTERS);
    hp_day_part(8879, marks, 128, readings, 128 * QUARTERS, 9006);
    write_values(&values, written, sizeof written);
    hp_day(2024, 8, 28);
    hp_date(9006);
    hp_version();
    hp_cut_from(file.bytes, file.length);
    hp_reading(file.bytes, file.length, 9006, QUARTERS - 1);
    hp_mark(file.bytes, file.length, 9006);
    for (name = 0; name <= LAST_NAME; name++) {
        hp_told(file.bytes, file.length, place, name);
        hp_told_table(8879, marks, 128, readings, 128 * QUARTERS, moves, values.moved, 0, 9006, 96, 192, 96, method, name);
        hp_file(file.bytes, file.length, name);
        hp_event(file.bytes, file.length, place, name);
        hp_move(file.bytes, file.length, place, name);
        hp_overlap(file.bytes, file.length, place, name);
        hp_calendar(8891, name);
    }
}

static void call_listing(void)
{
    static uint8_t text[HP_MOST_LISTING];
    hp_listing(file.bytes, file.length, text, listing_room);
}

/* How deep a call goes on a stack that was filled before. */
static size_t depth(void (*call)(void))
{
    static uint8_t stack[DEEP];
    size_t i;
    memset(stack, UNTOUCHED, sizeof stack);
    getcontext(&away);
    away.uc_stack.ss_sp = stack;
    away.uc_stack.ss_size = sizeof stack;
    away.uc_link = &home;
    makecontext(&away, call, 0);
    swapcontext(&home, &away);
    for (i = 0; i < DEEP && stack[i] == UNTOUCHED; i++)
        ;
    return DEEP - i;
}

static size_t deeper(size_t one, size_t other)
{
    return one > other ? one : other;
}

static void check_stack(void)
{
    static const size_t rooms[] = {0, HP_MOST_LISTING - 1, HP_MOST_LISTING};
    size_t all = 0, working = 0, listing = 0, i;
    put_largest(&file, 1000);
    CHECK(file.length == HP_MOST_FILE);
    take_values(&values, &file);
    for (place = 0; place < PLACES; place++) {
        all = deeper(all, depth(call_all));
        working = deeper(working, depth(call_working));
    }
    for (i = 0; i < sizeof rooms / sizeof rooms[0]; i++) {
        listing_room = rooms[i];
        listing = deeper(listing, depth(call_listing));
    }
    printf("stack: %zu bytes; hp_working: %zu; hp_listing: %zu\n", all, working, listing);
    CHECK(all > 0 && all <= HP_STACK);
    CHECK(working > 0 && working <= HP_STACK_WORKING);
    CHECK(listing > 0 && listing <= HP_STACK_LISTING);
}

/* WORKED: the names of a working. */
enum { WORKED = HP_QUARTER_NUMERATOR - HP_WORKING_GROUP + 1 };

/* What a file's entries give at a place. */
struct given {
    int64_t number, told[HP_ADJUSTMENT + 1], worked[WORKED], overlap;
    uint8_t out[HP_MOST_BYTES];
};

/* One thread's file with its values, and what it gave before any thread ran. */
struct caller {
    struct record_file file;
    struct values values;
    struct given due[PLACES];
    uint8_t listing[HP_MOST_LISTING], again[HP_MOST_LISTING], written[HP_MOST_FILE];
    int64_t length;
    int wrong;
};

static struct given given_at(const struct record_file *its, size_t event)
{
    struct given given;
    uint32_t name;
    memset(&given, UNTOUCHED, sizeof given);
    given.number = hp_baseline(its->bytes, its->length, event, given.out, HP_MOST_BYTES);
    for (name = 0; name <= HP_ADJUSTMENT; name++)
        given.told[name] = hp_told(its->bytes, its->length, event, name);
    for (name = 0; name < WORKED; name++)
        given.worked[name] = hp_working(its->bytes, its->length, event, name + HP_WORKING_GROUP < HP_QUARTER_S ? 2 : 152, name + HP_WORKING_GROUP);
    given.overlap = hp_overlap(its->bytes, its->length, event, HP_OVERLAP_FROM);
    return given;
}

static int64_t list(const struct record_file *its, uint8_t *text)
{
    memset(text, UNTOUCHED, HP_MOST_LISTING);
    return hp_listing(its->bytes, its->length, text, HP_MOST_LISTING - 1);
}

static int same_listing(struct caller *caller)
{
    return list(&caller->file, caller->again) == caller->length && memcmp(caller->again, caller->listing, HP_MOST_LISTING) == 0;
}

/* Whether the values are written as the file that they are of. */
static int same_file(struct caller *caller)
{
    const struct record_file *due = &caller->file;
    uint8_t *out = caller->written;
    memset(out, UNTOUCHED, HP_MOST_FILE);
    return write_values(&caller->values, out, HP_MOST_FILE) == (int64_t)due->length && memcmp(out, due->bytes, due->length) == 0;
}

static void *call_often(void *passed)
{
    struct caller *caller = passed;
    int i;
    for (i = 0; i < CALLS; i++) {
        size_t event = (size_t)i % PLACES;
        struct given given = given_at(&caller->file, event);
        if (memcmp(&given, &caller->due[event], sizeof given) != 0)
            caller->wrong++;
        if (!same_file(caller))
            caller->wrong++;
        if (event == 0 && !same_listing(caller))
            caller->wrong++;
    }
    return NULL;
}

/* Threads that work on different files at once get what each file gives alone. */
static void check_threads(void)
{
    static struct caller callers[THREADS];
    pthread_t threads[THREADS];
    size_t event;
    uint32_t i;
    for (i = 0; i < THREADS; i++) {
        put_largest(&callers[i].file, 1000 * (i + 1));
        for (event = 0; event < PLACES; event++)
            callers[i].due[event] = given_at(&callers[i].file, event);
        callers[i].length = list(&callers[i].file, callers[i].listing);
        take_values(&callers[i].values, &callers[i].file);
        CHECK(callers[i].length > 0 && same_file(&callers[i]));
    }
    CHECK(memcmp(callers[0].due[63].out, callers[1].due[63].out, HP_MOST_BYTES) != 0);
    CHECK(callers[0].due[63].told[HP_ADJUSTMENT] != callers[1].due[63].told[HP_ADJUSTMENT]);
    CHECK(callers[0].due[63].worked[HP_WORKING_A - HP_WORKING_GROUP] != callers[1].due[63].worked[HP_WORKING_A - HP_WORKING_GROUP]);
    CHECK(memcmp(callers[0].listing, callers[1].listing, HP_MOST_LISTING) != 0);
    for (i = 0; i < THREADS; i++)
        CHECK(pthread_create(&threads[i], NULL, call_often, &callers[i]) == 0);
    for (i = 0; i < THREADS; i++)
        CHECK(pthread_join(threads[i], NULL) == 0 && callers[i].wrong == 0);
}

int main(void)
{
    check_stack();
    check_threads();
    return checked("around");
}
