// The header from C++: every constant is this number, every entry has this type, and the entries link.
#include <string_view>
#include <type_traits>

#include "honeyplank.h"

// Every constant, in the header's order. The names' numbers are those of tests/compare/src/told.rs too.
static_assert(HP_VERSION_MAJOR == 0 && HP_VERSION_MINOR == 7 && HP_VERSION_PATCH == 0 && std::string_view(HP_VERSION) == "0.7.0");
static_assert(HP_VERSION_NUMBER == 700);
static_assert(HP_STACK == 28672);
static_assert(HP_STACK_WORKING == 61440);
static_assert(HP_STACK_LISTING == 327680);
static_assert(HP_ANSWERED == 0);
static_assert(HP_BAD_FILE == 11);
static_assert(HP_NO_EVENT == 12);
static_assert(HP_BAD_TABLE == 1);
static_assert(HP_BAD_MARK == 2);
static_assert(HP_BAD_READING == 3);
static_assert(HP_BAD_REQUEST == 4);
static_assert(HP_NOT_HELD == 5);
static_assert(HP_NOT_YET_PARTICIPATING == 6);
static_assert(HP_NO_ROOM == 7);
static_assert(HP_MARGIN_TOO_SHORT == 8);
static_assert(HP_TOO_FEW == 9);
static_assert(HP_NO_ADJUSTMENT_WINDOW == 10);
static_assert(HP_UNWRITABLE == 13);
static_assert(HP_BAD_MOVES == 14);
static_assert(HP_QUARTERS == 96);
static_assert(HP_LAST_DAY == 36524);
static_assert(HP_LOOK_BACK == 45);
static_assert(HP_MOST_DAYS == 128);
static_assert(HP_MOST_EVENTS == 64);
static_assert(HP_MOST_MOVES == 16);
static_assert(HP_HIGHEST == 10000000);
static_assert(HP_MISSING == 0xFFFFFFFF);
static_assert(HP_MARK_EVENT == 1);
static_assert(HP_MARK_OUTAGE == 2);
static_assert(HP_METHOD_HIGH == 0);
static_assert(HP_METHOD_AVERAGE == 1);
static_assert(HP_NOTHING == -0x7FFFFFFFFFFFFFFF - 1);
static_assert(HP_RESULT == 0);
static_assert(HP_CARRIED == 1);
static_assert(HP_CARRIED_SECOND == 2);
static_assert(HP_COUNT == 3);
static_assert(HP_DAY_1 == 4);
static_assert(HP_DAY_2 == 5);
static_assert(HP_DAY_3 == 6);
static_assert(HP_DAY_4 == 7);
static_assert(HP_DAY_5 == 8);
static_assert(HP_REACH == 9);
static_assert(HP_DENOMINATOR == 10);
static_assert(HP_ADJUSTMENT == 11);
static_assert(HP_FILE_PARTICIPATION == 12);
static_assert(HP_FILE_PORTFOLIO == 13);
static_assert(HP_FILE_FIRST == 14);
static_assert(HP_FILE_DAYS == 15);
static_assert(HP_FILE_EVENTS == 16);
static_assert(HP_FILE_MOVES == 21);
static_assert(HP_EVENT_DAY == 17);
static_assert(HP_EVENT_START == 18);
static_assert(HP_EVENT_END == 19);
static_assert(HP_EVENT_NOTICE == 20);
static_assert(HP_EVENT_METHOD == 24);
static_assert(HP_MOVE_FROM == 22);
static_assert(HP_MOVE_TO == 23);
static_assert(HP_WORKING_GROUP == 25);
static_assert(HP_WORKING_MOST == 26);
static_assert(HP_WORKING_SIZE == 27);
static_assert(HP_WORKING_PASSED == 28);
static_assert(HP_WORKING_TAKEN == 29);
static_assert(HP_WORKING_END == 30);
static_assert(HP_WORKING_A == 31);
static_assert(HP_WORKING_B == 32);
static_assert(HP_BACK_DAY == 33);
static_assert(HP_BACK_GROUP == 34);
static_assert(HP_BACK_REASON == 35);
static_assert(HP_BACK_SUM == 36);
static_assert(HP_BACK_RANK == 37);
static_assert(HP_BACK_CHOSEN == 38);
static_assert(HP_QUARTER_S == 39);
static_assert(HP_QUARTER_NUMERATOR == 40);
static_assert(HP_OVERLAP_HELD == 41);
static_assert(HP_OVERLAP_SUFFICES == 42);
static_assert(HP_OVERLAP_MORE == 43);
static_assert(HP_OVERLAP_FROM == 44);
static_assert(HP_CALENDAR_GROUP == 45);
static_assert(HP_CALENDAR_FIXED == 46);
static_assert(HP_CALENDAR_EASTER == 47);
static_assert(HP_GROUP_WEEKDAY == 0);
static_assert(HP_GROUP_SATURDAY == 1);
static_assert(HP_GROUP_HOLIDAY == 2);
static_assert(HP_TOO_EARLY == 1);
static_assert(HP_ANOTHER_GROUP == 2);
static_assert(HP_DAY_BEFORE == 3);
static_assert(HP_DAY_NOT_HELD == 4);
static_assert(HP_READING_MISSING == 5);
static_assert(HP_OUTAGE == 6);
static_assert(HP_EVENT_RECORDED == 7);
static_assert(HP_ELIGIBLE == 8);
static_assert(HP_MOST_BYTES == 384);
static_assert(HP_MOST_LISTING == 213194);
static_assert(HP_MOST_FILE == 50536);

// Every entry, in the header's order; with a narrower place or length a call from C would compile all the same.
#define HAS_TYPE(entry, ...) static_assert(std::is_same<decltype(&entry), __VA_ARGS__>::value)
HAS_TYPE(hp_baseline, uint32_t (*)(const uint8_t *, size_t, size_t, uint8_t *, size_t));
HAS_TYPE(hp_told, int64_t (*)(const uint8_t *, size_t, size_t, uint32_t));
HAS_TYPE(hp_baseline_table, uint32_t (*)(uint32_t, const uint8_t *, size_t, const uint32_t *, size_t, const uint32_t *, size_t, uint32_t, uint32_t,
                                         uint32_t, uint32_t, uint32_t, uint32_t, uint32_t *, size_t));
HAS_TYPE(hp_told_table, int64_t (*)(uint32_t, const uint8_t *, size_t, const uint32_t *, size_t, const uint32_t *, size_t, uint32_t, uint32_t,
                                    uint32_t, uint32_t, uint32_t, uint32_t, uint32_t));
HAS_TYPE(hp_day_part, int64_t (*)(uint32_t, const uint8_t *, size_t, const uint32_t *, size_t, uint32_t));
HAS_TYPE(hp_file, int64_t (*)(const uint8_t *, size_t, uint32_t));
HAS_TYPE(hp_event, int64_t (*)(const uint8_t *, size_t, size_t, uint32_t));
HAS_TYPE(hp_move, int64_t (*)(const uint8_t *, size_t, size_t, uint32_t));
HAS_TYPE(hp_working, int64_t (*)(const uint8_t *, size_t, size_t, uint32_t, uint32_t));
HAS_TYPE(hp_overlap, int64_t (*)(const uint8_t *, size_t, size_t, uint32_t));
HAS_TYPE(hp_cut_from, int64_t (*)(const uint8_t *, size_t));
HAS_TYPE(hp_reading, int64_t (*)(const uint8_t *, size_t, uint32_t, uint32_t));
HAS_TYPE(hp_mark, int64_t (*)(const uint8_t *, size_t, uint32_t));
HAS_TYPE(hp_calendar, int64_t (*)(uint32_t, uint32_t));
HAS_TYPE(hp_listing, int64_t (*)(const uint8_t *, size_t, uint8_t *, size_t));
HAS_TYPE(hp_write, int64_t (*)(uint32_t, uint32_t, uint32_t, const uint8_t *, size_t, const uint32_t *, size_t, const uint32_t *, size_t,
                               const uint32_t *, size_t, uint8_t *, size_t));
HAS_TYPE(hp_day, int64_t (*)(uint32_t, uint32_t, uint32_t));
HAS_TYPE(hp_date, int64_t (*)(uint32_t));
HAS_TYPE(hp_version, uint32_t (*)());
HAS_TYPE(hp_refusal_text, const char *(*)(uint32_t));

int main()
{
    return hp_baseline(nullptr, 0, 0, nullptr, 0) == HP_BAD_FILE && hp_told(nullptr, 0, 0, HP_RESULT) == HP_BAD_FILE &&
                   hp_baseline_table(0, nullptr, 0, nullptr, 0, nullptr, 0, 0, 0, 0, 0, 0, 0, nullptr, 0) == HP_BAD_TABLE &&
                   hp_told_table(0, nullptr, 0, nullptr, 0, nullptr, 0, 0, 0, 0, 0, 0, 0, HP_RESULT) == HP_BAD_TABLE &&
                   hp_day_part(0, nullptr, 0, nullptr, 0, 0) == HP_NOTHING && hp_file(nullptr, 0, HP_RESULT) == HP_BAD_FILE &&
                   hp_event(nullptr, 0, 0, HP_RESULT) == HP_BAD_FILE && hp_move(nullptr, 0, 0, HP_RESULT) == HP_BAD_FILE &&
                   hp_working(nullptr, 0, 0, 0, HP_RESULT) == HP_BAD_FILE && hp_overlap(nullptr, 0, 0, HP_RESULT) == HP_BAD_FILE &&
                   hp_cut_from(nullptr, 0) == HP_NOTHING && hp_reading(nullptr, 0, 0, 0) == HP_NOTHING && hp_mark(nullptr, 0, 0) == HP_NOTHING &&
                   hp_calendar(UINT32_MAX, HP_RESULT) == HP_ANSWERED && hp_listing(nullptr, 0, nullptr, 0) == -HP_NO_ROOM &&
                   hp_write(0, 0, 0, nullptr, 0, nullptr, 0, nullptr, 0, nullptr, 0, nullptr, 0) == -HP_NO_ROOM &&
                   hp_day(0, 0, 0) == HP_NOTHING && hp_date(UINT32_MAX) == HP_NOTHING && hp_version() == HP_VERSION_NUMBER &&
                   std::string_view(hp_refusal_text(HP_NO_ROOM)) == "The output is too short."
               ? 0
               : 1;
}
