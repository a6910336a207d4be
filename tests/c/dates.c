/* The entries that need no table and no file, and the texts of the refusals: every day of the calendar and both sides of its ends, dates that are
 * none, the version. */
#include "check.h"
#include "honeyplank.h"

static int is_leap(uint32_t year)
{
    return (year % 4 == 0 && year % 100 != 0) || year % 400 == 0;
}

static uint32_t month_length(uint32_t year, uint32_t month)
{
    return month == 2 ? 28u + (uint32_t)is_leap(year) : month == 4 || month == 6 || month == 9 || month == 11 ? 30 : 31;
}

/* Every date from 2000 to 2099, walked day by day, and what lies just past each month's ends. */
static void calendar(void)
{
    uint32_t year, month, day;
    int64_t number = 0;
    for (year = 2000; year <= 2099; year++)
        for (month = 1; month <= 12; month++) {
            CHECK(hp_day(year, month, 0) == HP_NOTHING);
            for (day = 1; day <= month_length(year, month); day++, number++) {
                CHECK(hp_day(year, month, day) == number);
                CHECK(hp_date((uint32_t)number) == 10000 * (int64_t)year + 100 * month + day);
            }
            CHECK(hp_day(year, month, day) == HP_NOTHING);
        }
    CHECK(number == HP_LAST_DAY + 1);
}

static void no_dates(void)
{
    static const uint32_t days[] = {HP_LAST_DAY + 1, 65535, 65536, 2147483648u, UINT32_MAX};
    size_t i;
    for (i = 0; i < sizeof days / sizeof days[0]; i++)
        CHECK(hp_date(days[i]) == HP_NOTHING);
    CHECK(hp_day(1999, 12, 31) == HP_NOTHING && hp_day(2100, 1, 1) == HP_NOTHING);
    CHECK(hp_day(2024, 0, 1) == HP_NOTHING && hp_day(2024, 13, 1) == HP_NOTHING);
    CHECK(hp_day(24, 8, 28) == HP_NOTHING && hp_day(28, 8, 2024) == HP_NOTHING);
    CHECK(hp_day(UINT32_MAX, UINT32_MAX, UINT32_MAX) == HP_NOTHING && hp_day(2024, 1, UINT32_MAX) == HP_NOTHING);
}

/* Each result has a sentence of its own, and every other number the one that says so. */
static void texts(void)
{
    static const uint32_t others[] = {15, 255, 256, 65536 + 8, UINT32_MAX};
    static const char none[] = "No result has this number.";
    uint32_t i, j;
    for (i = 0; i <= HP_BAD_MOVES; i++) {
        const char *text = hp_refusal_text(i);
        CHECK(strlen(text) > 10 && text[strlen(text) - 1] == '.' && strchr(text, '.') == text + strlen(text) - 1);
        CHECK(strcmp(text, none) != 0);
        for (j = 0; j < i; j++)
            CHECK(strcmp(text, hp_refusal_text(j)) != 0);
    }
    for (i = 0; i < sizeof others / sizeof others[0]; i++)
        CHECK(strcmp(hp_refusal_text(others[i]), none) == 0);
}

int main(void)
{
    calendar();
    no_dates();
    texts();
    CHECK(hp_version() == HP_VERSION_NUMBER);
    return checked("dates");
}
