/* The group of a day where no holiday is moved, by document 01 in plain C, to be timed: 0 weekday, 1 Saturday, 2 holiday group. */
#include <stdint.h>

/* Days from 1 March to Easter Sunday: d + e days from 22 March of the Julian calendar, which is thirteen days behind. */
static uint32_t easter_from_march(uint32_t year)
{
    uint32_t d = (19 * (year % 19) + 15) % 30, e = (2 * (year % 4) + 4 * (year % 7) + 34 - d) % 7;
    return 21 + 13 + d + e;
}

/* A day by the days of its year before it; `later` does not count a leap day. */
static int is_holiday(uint32_t year, uint32_t passed)
{
    uint32_t leap = year % 4 == 0, later = passed - leap, after;
    if (passed == 0 || passed == 5)
        return 1;
    if (later == 83 || later == 120 || later == 226 || later == 300 || later == 358 || later == 359)
        return 1;
    if (passed < 45 || passed > 178)
        return 0;
    after = passed - (59 + leap + easter_from_march(year) - 48); /* days after Clean Monday */
    return after == 0 || (after >= 46 && after <= 49) || after == 98;
}

uint32_t plain_group(uint32_t day)
{
    if (day % 7 == 1 || (day <= 36524 && is_holiday(2000 + 4 * day / 1461, 4 * day % 1461 / 4)))
        return 2;
    return day % 7 == 0;
}
