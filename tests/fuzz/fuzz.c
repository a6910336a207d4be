/* libFuzzer's harness: the proved entries over a record file and over its table, and the writer, beside the plain C ones (tests/reference/c), which
 * are instrumented; and the working of an event, as far as those tell what it leads to. An input is one byte for the event's place, one for the room
 * of the output, and the file, whose bytes are also taken as values to write. */
#define _POSIX_C_SOURCE 200809L
#include <stdio.h>
#include <stdlib.h>
#include <string.h>

#include "honeyplank.h"
#include "../c/values.h"
#include "listing.h"

int LLVMFuzzerTestOneInput(const uint8_t *data, size_t size);
size_t LLVMFuzzerMutate(uint8_t *data, size_t size, size_t most);
size_t LLVMFuzzerCustomMutator(uint8_t *data, size_t size, size_t most, unsigned seed);

/* A fixed-date holiday of a year or, from 8 on, of the year before; 0, where that is not in the calendar. */
static uint32_t holiday(uint32_t year, uint32_t which)
{
    static const uint8_t dates[][2] = {{1, 1}, {1, 6}, {3, 25}, {5, 1}, {8, 15}, {10, 28}, {12, 25}, {12, 26}};
    return (uint32_t)hp_day(year - which / 8 % 2, dates[which % 8][0], dates[which % 8][1]);
}

static void put_move_at(uint8_t *at, uint32_t from, uint32_t to)
{
    memcpy(at, "MV", 2);
    at[2] = (uint8_t)from, at[3] = (uint8_t)(from >> 8);
    at[4] = (uint8_t)to, at[5] = (uint8_t)(to >> 8);
}

/* Puts a move before all others, sometimes 16 or 17: of holidays about the last event's day to days about it, seldom of days that are none; or takes
 * the first away. */
static size_t change_moves(uint8_t *data, size_t size, size_t most, unsigned seed)
{
    uint8_t *at = data + 10, *end = data + size;
    uint32_t day = end[-6] | (uint32_t)end[-5] << 8, kind = seed / 16384 % 8, count = kind == 1 ? 16 + seed / 16 % 2 : 1, i;
    if (kind == 0 && memcmp(at, "MV", 2) == 0) {
        memmove(at, at + MOVE_BYTES, (size_t)(end - at) - MOVE_BYTES);
        return size - MOVE_BYTES;
    }
    if (size + count * MOVE_BYTES > most)
        return size;
    memmove(at + count * MOVE_BYTES, at, (size_t)(end - at));
    for (i = 0; i < count; i++)
        put_move_at(at + i * MOVE_BYTES, holiday(2000 + day / 366, seed + i) + (seed / 1024 % 16 == 0), day + 8 - (seed / 16 + 5 * i) % 64);
    return size + count * MOVE_BYTES;
}

/* The event that is asked for gets a method, mostly one that there is; half the time P is put about seven days before it, where Average X of Y has an
 * edge. */
static size_t change_method(uint8_t *data, size_t size, unsigned seed)
{
    struct plain_file shape;
    size_t offset;
    uint8_t *event;
    uint32_t day;
    if (plain_read(data + 2, size - 2, &shape, &offset) || shape.events == 0)
        return size;
    data[0] = (uint8_t)(data[0] % shape.events);
    event = data + 2 + offset - EVENT_BYTES * (size_t)(shape.events - data[0]);
    event[7] = (uint8_t)(seed % 16 < 15 ? seed % 2 : seed / 16);
    day = (event[2] | (uint32_t)event[3] << 8) - 4 - seed / 32 % 6;
    if (seed / 256 % 2 == 0)
        data[4] = (uint8_t)day, data[5] = (uint8_t)(day >> 8);
    return size;
}

/* Three times in four a few bytes are changed where they stand, so that the file stays as laid down; half of these among the first records' heads or
 * the last events. Sometimes its moves or an event's method are changed instead. */
size_t LLVMFuzzerCustomMutator(uint8_t *data, size_t size, size_t most, unsigned seed)
{
    size_t at, length = 1 + seed / 8 % 4, turn = seed / 64;
    if (seed % 4 == 0 || size < 18)
        return LLVMFuzzerMutate(data, size, most);
    if (seed / 4 % 2 == 0 && seed / 32 % 2 == 0)
        return change_moves(data, size, most, seed / 64);
    if (seed >> 28 == 0)
        return change_method(data, size, seed / 64);
    at = seed % 4 == 1 ? turn % 16 : seed % 4 == 2 ? size - 1 - turn % 16 : turn % size;
    LLVMFuzzerMutate(data + at, length < size - at ? length : size - at, length < size - at ? length : size - at);
    return size;
}

enum { UNTOUCHED = 0xA5, MOST_ROOM = 1024 };

#define SAME(what) ((what) ? (void)0 : (fprintf(stderr, "they differ: %s\n", #what), abort()))

static size_t place_of(uint8_t byte)
{
    return byte < 250 ? byte : SIZE_MAX - byte;
}

/* 0: as many bytes as the event needs; 1: one fewer; otherwise four for each. */
static size_t room_of(uint8_t byte, uint32_t length)
{
    size_t need = 4 * (size_t)length;
    return byte == 0 ? need : byte == 1 ? need - (need > 0) : 4 * (size_t)byte - 5;
}

/* NAMES: one more than there are. TURNS: an input asks for every fourth name, because each costs a whole call. */
enum { NAMES = HP_EVENT_METHOD + 2, TURNS = 4 };

/* The numbers that are due by name: of a refusal, which the others add to. */
static void tell_refusal(int64_t told[NAMES], uint32_t number, const uint64_t *carried, uint32_t carries)
{
    uint32_t i;
    for (i = 0; i < NAMES; i++)
        told[i] = HP_NOTHING;
    told[HP_RESULT] = number;
    for (i = 0; i < carries; i++)
        told[HP_CARRIED + i] = (int64_t)carried[i];
}

static void same_file(const uint8_t *file, size_t length, uint32_t turn, const struct plain_file *shape, uint32_t refused, uint64_t offset)
{
    int64_t told[NAMES];
    uint32_t name;
    tell_refusal(told, refused, &offset, refused ? 1 : 0);
    if (!refused) {
        told[HP_FILE_PARTICIPATION] = shape->p;
        told[HP_FILE_PORTFOLIO] = shape->portfolio;
        told[HP_FILE_FIRST] = shape->first;
        told[HP_FILE_DAYS] = shape->days;
        told[HP_FILE_EVENTS] = shape->events;
        told[HP_FILE_MOVES] = shape->moves;
    }
    for (name = turn; name < NAMES; name += TURNS)
        SAME(hp_file(file, length, name) == told[name]);
}

static void same_event(const uint8_t *file, size_t length, size_t place, uint32_t turn, uint32_t number, uint64_t offset,
                       const struct plain_event *event)
{
    int64_t told[NAMES];
    uint32_t name;
    tell_refusal(told, number, &offset, number == HP_BAD_FILE ? 1 : 0);
    if (number == HP_ANSWERED) {
        told[HP_EVENT_DAY] = event->d;
        told[HP_EVENT_START] = event->s;
        told[HP_EVENT_END] = event->e;
        told[HP_EVENT_NOTICE] = event->n;
        told[HP_EVENT_METHOD] = event->method;
    }
    for (name = turn; name < NAMES; name += TURNS)
        SAME(hp_event(file, length, place, name) == told[name]);
}

/* Every move of the file, or one place where it has none. */
static void same_moves(const uint8_t *file, size_t length, size_t place, uint32_t turn, const struct plain_file *shape, uint32_t refused,
                       uint64_t offset)
{
    int64_t told[NAMES];
    uint32_t moves[32], i, name;
    tell_refusal(told, refused, &offset, refused ? 1 : 0);
    for (name = turn; name < NAMES && (refused || place >= shape->moves); name += TURNS)
        SAME(hp_move(file, length, place, name) == told[name]);
    if (refused)
        return;
    plain_load_moves(file, shape, moves);
    for (i = 0; i < shape->moves; i++) {
        told[HP_MOVE_FROM] = moves[2 * i];
        told[HP_MOVE_TO] = moves[2 * i + 1];
        for (name = turn; name < NAMES; name += TURNS)
            SAME(hp_move(file, length, i, name) == told[name]);
    }
}

static void tell(int64_t told[NAMES], uint32_t number, const struct plain_answer *answer)
{
    uint32_t i;
    tell_refusal(told, number, answer->carried, answer->carries);
    if (number != HP_ANSWERED)
        return;
    told[HP_COUNT] = answer->count;
    for (i = 0; i < answer->count; i++)
        told[HP_DAY_1 + i] = answer->days[i];
    told[HP_REACH] = answer->reach;
    told[HP_DENOMINATOR] = answer->denominator;
    told[HP_ADJUSTMENT] = answer->adjustment;
}

static void same_told(const uint8_t *file, size_t length, size_t place, uint32_t turn)
{
    uint8_t out[HP_MOST_BYTES];
    int64_t told[NAMES];
    struct plain_answer answer;
    uint32_t name;
    tell(told, plain_host(file, length, place, out, sizeof out, &answer), &answer);
    for (name = turn; name < NAMES; name += TURNS)
        SAME(hp_told(file, length, place, name) == told[name]);
}

static void same_baseline(const uint8_t *file, size_t length, size_t place, size_t room)
{
    uint8_t due[MOST_ROOM], out[MOST_ROOM];
    struct plain_answer answer;
    uint32_t number;
    memset(due, UNTOUCHED, sizeof due);
    memset(out, UNTOUCHED, sizeof out);
    number = plain_host(file, length, place, due, room, &answer);
    SAME(hp_baseline(file, length, place, out, room) == number);
    SAME(memcmp(out, due, sizeof out) == 0);
}

/* The day `back` days before the event is chosen exactly where its rank is one of those taken, and stands there in the answer. */
static void same_chosen(const uint8_t *file, size_t length, size_t place, uint32_t back, const struct plain_answer *answer)
{
    int64_t rank = hp_working(file, length, place, back, HP_BACK_RANK) - hp_working(file, length, place, 0, HP_WORKING_PASSED);
    int chosen = rank >= 1 && rank <= answer->count;
    SAME(hp_working(file, length, place, back, HP_BACK_CHOSEN) == chosen);
    SAME(!chosen || hp_working(file, length, place, back, HP_BACK_DAY) == answer->days[rank - 1]);
}

/* The working leads to the answer: how many days are chosen, the adjustment, and the numerator of one quarter. */
static void same_answer(const uint8_t *file, size_t length, size_t place, uint32_t mix, const uint8_t *numerators, const struct plain_answer *answer)
{
    int64_t taken = hp_working(file, length, place, 0, HP_WORKING_TAKEN), a = hp_working(file, length, place, 0, HP_WORKING_A);
    uint32_t s = (uint32_t)hp_event(file, length, place, HP_EVENT_START), e = (uint32_t)hp_event(file, length, place, HP_EVENT_END);
    uint32_t quarter = mix % (e - s);
    int64_t sum = hp_working(file, length, place, s + quarter, HP_QUARTER_S), parts = answer->denominator / answer->count;
    int64_t numerator = hp_working(file, length, place, s + quarter, HP_QUARTER_NUMERATOR);
    SAME(taken == answer->count);
    SAME((a == HP_NOTHING) == (parts == 1));
    SAME(a == HP_NOTHING || taken * a - hp_working(file, length, place, 0, HP_WORKING_B) == answer->adjustment);
    SAME(numerator == parts * sum + answer->adjustment);
    SAME((numerator < 0 ? 0 : numerator) == word_at(numerators + 4 * quarter));
    SAME(hp_working(file, length, place, e, HP_QUARTER_NUMERATOR) == HP_NOTHING);
    same_chosen(file, length, place, 1 + mix % HP_LOOK_BACK, answer);
}

/* As far as it goes: 8 tells no window, 9 its size and nothing chosen, 10 no adjustment; and an overlap that is long enough is never refused 8. */
static void same_refused(const uint8_t *file, size_t length, size_t place, uint32_t number, const struct plain_answer *answer)
{
    int64_t more = hp_overlap(file, length, place, HP_OVERLAP_MORE), size = hp_working(file, length, place, 0, HP_WORKING_SIZE);
    SAME(more >= 0 && (number != HP_MARGIN_TOO_SHORT || more > 0));
    SAME((size == HP_NOTHING) == (number == HP_MARGIN_TOO_SHORT));
    if (number == HP_MARGIN_TOO_SHORT)
        SAME(hp_overlap(file, length, place, HP_OVERLAP_SUFFICES) == (int64_t)answer->carried[0]);
    if (number == HP_TOO_FEW)
        SAME(size == (int64_t)answer->carried[0] && hp_working(file, length, place, 0, HP_WORKING_TAKEN) == 0);
    if (number != HP_ANSWERED)
        SAME(hp_working(file, length, place, 0, HP_WORKING_END) == HP_NOTHING);
    SAME((hp_working(file, length, place, 191, HP_QUARTER_S) == HP_NOTHING) == (number == HP_MARGIN_TOO_SHORT || number == HP_TOO_FEW));
}

/* Any name at any place, about the look-back and the ruler mostly; then what the plain C version tells of the same event. */
static void same_working(const uint8_t *file, size_t length, size_t place, uint32_t mix)
{
    uint8_t out[HP_MOST_BYTES];
    struct plain_answer answer;
    uint32_t number = plain_host(file, length, place, out, sizeof out, &answer), i;
    int64_t from = hp_overlap(file, length, place, HP_OVERLAP_FROM), cut = hp_cut_from(file, length);
    int is_shown = number == HP_ANSWERED || (number >= HP_MARGIN_TOO_SHORT && number <= HP_NO_ADJUSTMENT_WINDOW);
    for (i = 0; i < 4; i++) {
        hp_working(file, length, place, mix >> 28 == 0 ? mix : mix / 64 % 200, (mix + 13 * i) % 64);
        hp_overlap(file, length, place, (mix + 13 * i) % 64);
        hp_calendar(mix / 64 % (HP_LAST_DAY + 5), HP_CALENDAR_GROUP + i);
    }
    SAME(hp_working(file, length, place, mix, HP_RESULT) == (is_shown ? HP_ANSWERED : number));
    SAME(hp_working(file, length, place, mix, HP_CARRIED) == (!is_shown && answer.carries > 0 ? (int64_t)answer.carried[0] : HP_NOTHING));
    SAME(from == HP_NOTHING || (cut >= 0 && cut <= from));
    if (is_shown)
        same_refused(file, length, place, number, &answer);
    else
        SAME(hp_working(file, length, place, 1, HP_BACK_REASON) == HP_NOTHING);
    if (number == HP_ANSWERED)
        same_answer(file, length, place, mix, out, &answer);
}

/* A reading and a mark of the file, which the values hold. */
static void same_day(const uint8_t *file, size_t length, uint32_t mix, const struct values *due)
{
    uint32_t day = mix % (uint32_t)(due->days + 2), quarter = mix / 256 % (QUARTERS + 2);
    int held = day < due->days;
    SAME(hp_mark(file, length, due->first + day) == (held ? due->marks[day] : HP_NOTHING));
    SAME(hp_reading(file, length, due->first + day, quarter) == (held && quarter < QUARTERS ? (int64_t)due->readings[QUARTERS * day + quarter] : HP_NOTHING));
    SAME(hp_mark(file, length, due->first - 1) == HP_NOTHING);
}

/* With the room of the listing, a byte less or a byte more; by `turn`, seldom with room for any. */
static void same_listing(const uint8_t *file, size_t length, uint8_t turn)
{
    char *due = NULL;
    size_t size = 0, room;
    FILE *to = open_memstream(&due, &size);
    uint8_t *out;
    if (to == NULL)
        return;
    plain_list(to, file, length);
    fclose(to);
    room = turn % 32 == 7 ? HP_MOST_LISTING : size + turn % 3 - 1;
    out = malloc(room);
    if (out != NULL) {
        memset(out, UNTOUCHED, room);
        SAME(hp_listing(file, length, out, room) == (room < size ? -HP_NO_ROOM : (int64_t)size));
        if (room >= size) {
            SAME(memcmp(out, due, size) == 0);
            memset(out, UNTOUCHED, size);
        }
        while (room-- > 0)
            SAME(out[room] == UNTOUCHED);
    }
    free(out);
    free(due);
}

/* WRITE_ROOM: more than any file has, also one with a day, a move and an event too many. */
enum { WRITE_ROOM = HP_MOST_FILE + 2 * DAY_BYTES };

static struct values values;
static uint8_t written[WRITE_ROOM];

/* Both writers give this with so much room, and leave the same bytes; those of the proved one are in `written`. */
static int64_t same_write(size_t room)
{
    static uint8_t due[WRITE_ROOM];
    int64_t given;
    memset(due, UNTOUCHED, sizeof due);
    memset(written, UNTOUCHED, sizeof written);
    given = plain_write(values.p, values.portfolio, values.first, values.marks, values.days, values.readings, values.count, values.moves,
                        values.moved, values.events, values.numbers, due, room);
    SAME(write_values(&values, written, room) == given);
    SAME(memcmp(written, due, sizeof due) == 0);
    return given;
}

/* A file that is as laid down is written again byte for byte. */
static void same_again(const uint8_t *file, size_t length, const struct plain_file *shape)
{
    take_told(&values, file, length);
    plain_load(file, shape, values.marks, values.readings);
    SAME(same_write(length) == (int64_t)length);
    SAME(memcmp(written, file, length) == 0);
}

/* The call over the values' table, by their list. */
static void same_table(const struct plain_event *event, size_t room, uint32_t turn)
{
    const struct values *v = &values;
    uint32_t due[MOST_ROOM / 4], out[MOST_ROOM / 4], number, name;
    int64_t told[NAMES];
    struct plain_answer answer;
    memset(due, UNTOUCHED, sizeof due);
    memset(out, UNTOUCHED, sizeof out);
    number = plain_baseline(v->first, v->marks, v->days, v->readings, v->count, v->moves, v->moved, v->p, event->d, event->s, event->e, event->n,
                            event->method, due, room, &answer);
    SAME(hp_baseline_table(v->first, v->marks, v->days, v->readings, v->count, v->moves, v->moved, v->p, event->d, event->s, event->e, event->n,
                           event->method, out, room) == number);
    SAME(memcmp(out, due, sizeof out) == 0);
    tell(told, plain_baseline(v->first, v->marks, v->days, v->readings, v->count, v->moves, v->moved, v->p, event->d, event->s, event->e, event->n,
                              event->method, due, QUARTERS, &answer), &answer);
    for (name = turn; name < NAMES; name += TURNS)
        SAME(hp_told_table(v->first, v->marks, v->days, v->readings, v->count, v->moves, v->moved, v->p, event->d, event->s, event->e, event->n,
                           event->method, name) == told[name]);
}

/* The values' list with one number changed, or longer or shorter; the four bytes are the portfolio's number, which plays no other part. */
static void change_list(const uint8_t *from)
{
    static const uint32_t ends[] = {HP_LAST_DAY, HP_LAST_DAY + 1, 65536, UINT32_MAX};
    const uint32_t room = sizeof values.moves / sizeof values.moves[0], place = from[0] % room;
    uint32_t i;
    for (i = (uint32_t)values.moved; i < room; i++)
        values.moves[i] = far_holiday(i / 2) + i % 2;
    if (from[1] % 4 == 0)
        values.moved = place + from[2] % 2;
    else if (from[1] % 4 == 1)
        values.moves[place] = ends[from[2] % 4];
    else if (from[1] % 4 == 2)
        values.moves[place] = from[2] | (uint32_t)from[3] << 8;
    else
        values.moves[place] = values.moves[from[2] % room];
}

/* Another number for almost every input: its first and last bytes, mixed. */
static uint32_t mixed(const uint8_t *from, size_t size)
{
    uint32_t mix = 2166136261u;
    size_t i;
    for (i = 0; i < size && i < 64; i++)
        mix = ((mix ^ from[i]) * 16777619u ^ from[size - 1 - i]) * 16777619u;
    return mix;
}

/* The values' table elsewhere in the calendar, moves of holidays about the event there to days about it, P at the start or about seven days before the
 * event, and any method, mostly one that there is. */
static void change_place(struct plain_event *event, uint32_t mix)
{
    uint32_t place = event->d - values.first, i;
    values.first = mix % (HP_LAST_DAY + 1);
    values.moved = 2 * (mix / 65536 % (HP_MOST_MOVES + 1));
    event->d = values.first + place;
    event->method = mix >> 28 > 0 ? mix / 64 % 2 : mix;
    values.p = mix / 128 % 2 == 0 || event->d < 10 ? 0 : event->d - 4 - mix / 256 % 6;
    for (i = 0; i < values.moved / 2; i++) {
        values.moves[2 * i] = holiday((uint32_t)hp_date(event->d) / 10000, i + mix / 256);
        values.moves[2 * i + 1] = event->d - (mix / 4096 + 7 * i) % 64;
    }
}

/* Mostly the usual number; else, by the third byte, one about the highest that can be written, one about the end of 32 bits, or any. */
static uint32_t number_at(const uint8_t *from, uint32_t usual, uint32_t highest)
{
    if (from[2] < 200)
        return usual;
    return from[2] < 230 ? highest - 1 + from[0] % 3 : from[2] < 240 ? UINT32_MAX - from[0] : word_at(from);
}

/* So many numbers of events; one of them may not be the usual. */
static void take_events(const uint8_t *from, size_t size, size_t numbers)
{
    size_t i, place = from[16];
    values.numbers = numbers;
    for (i = 0; i < numbers; i++)
        values.events[i] = from[i % size] | (i % EVENT_NUMBERS == 0 ? (uint32_t)from[(i + 1) % size] << 8 : 0);
    if (place < numbers)
        values.events[place] = number_at(from + 12, values.events[place], place % EVENT_NUMBERS == 0 ? 65535 : 255);
}

/* So many numbers of moves; one of them may not be the usual. */
static void take_moves(const uint8_t *from, size_t size, size_t moved)
{
    size_t i, place = from[16];
    values.moved = moved;
    for (i = 0; i < moved; i++)
        values.moves[i] = from[2 * i % size] | (uint32_t)from[(2 * i + 1) % size] << 8;
    if (place < moved)
        values.moves[place] = number_at(from + 12, values.moves[place], 65535);
}

/* As many days as these bytes might be, with 96 readings a day, seldom with more or fewer. */
static void take_table(const uint8_t *from, size_t size)
{
    static const int off[] = {1, QUARTERS, -1, -QUARTERS};
    size_t days = size / DAY_BYTES % (HP_MOST_DAYS + 2), bytes;
    values.days = days;
    values.count = QUARTERS * days;
    if (from[17] >= 252 && (from[17] < 254 ? days <= HP_MOST_DAYS : days > 0))
        values.count += (size_t)off[from[17] - 252];
    bytes = 4 * values.count;
    memcpy(values.marks, from, days);
    memcpy(values.readings, from, bytes < size ? bytes : size);
}

/* Any bytes as values, mostly such that can be written: the first twenty say what they are, and all are taken again as marks, readings, moves and
 * events. */
static void same_values(const uint8_t *from, size_t size, uint8_t turn)
{
    if (size < 20)
        return;
    take_table(from, size);
    take_events(from, size, from[17] < 200 ? EVENT_NUMBERS * (from[18] % (HP_MOST_EVENTS + 2u)) : from[18]);
    take_moves(from, size, from[17] < 200 ? 2 * (from[19] % (HP_MOST_MOVES + 2u)) : from[19] % (2 * HP_MOST_MOVES + 3u));
    values.p = number_at(from, word_at(from) & 65535, 65535);
    values.portfolio = word_at(from + 4);
    values.first = values.days == 0 ? number_at(from + 8, 0, 0) : number_at(from + 8, word_at(from + 8) & 65535, 65536 - (uint32_t)values.days);
    same_write(8 + MOVE_BYTES * (values.moved / 2) + DAY_BYTES * values.days + EVENT_BYTES * (values.numbers / EVENT_NUMBERS) + turn % 3 - 1);
}

int LLVMFuzzerTestOneInput(const uint8_t *data, size_t size)
{
    struct plain_file shape;
    struct plain_event event = {0, 0, 0, 0, 0};
    size_t offset, place, length;
    uint32_t refused, number, turn;
    uint8_t *file;
    if (size < 2)
        return 0;
    place = place_of(data[0]);
    length = size - 2;
    file = malloc(length); /* of its own length, so that a sanitizer sees a step past its end */
    if (file == NULL)
        return 0;
    memcpy(file, data + 2, length);
    refused = plain_read(file, length, &shape, &offset);
    number = refused ? refused : place >= shape.events ? HP_NO_EVENT : HP_ANSWERED;
    if (number == HP_ANSWERED)
        event = plain_event_at(file, &shape, (uint32_t)place);
    turn = (uint32_t)(data[1] + length) % TURNS;
    same_file(file, length, turn, &shape, refused, offset);
    same_event(file, length, place, turn, number, offset, &event);
    same_moves(file, length, place, turn, &shape, refused, offset);
    same_told(file, length, place, turn);
    same_baseline(file, length, place, room_of(data[1], event.e > event.s ? event.e - event.s : 0));
    same_working(file, length, place, mixed(file, length));
    same_listing(file, length, data[1]);
    if (!refused) {
        same_again(file, length, &shape);
        same_day(file, length, mixed(file, length), &values);
    }
    if (number == HP_ANSWERED) {
        same_table(&event, data[1], turn);
        change_list(file + 4);
        same_table(&event, data[1], turn);
        change_place(&event, mixed(file, length));
        same_table(&event, data[1], turn);
    }
    same_values(file, length, data[1]);
    free(file);
    return 0;
}
