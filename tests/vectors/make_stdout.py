#!/usr/bin/env python3
"""Makes crates/program_vectors/stdout, which the program `program_vectors` has to write: make_stdout.py > crates/program_vectors/stdout

It shares nothing with the project's code. Weekdays, month lengths and dates are those of Python's datetime. The holidays
are listed by name, after section 2 of document 003. Easter is worked out as the Church does: the Sunday after the paschal
full moon of the Julian calendar, which the year's golden number gives by a table of nineteen dates. For 2000 to 2099 it
agrees with python-dateutil's easter(y, EASTER_ORTHODOX) and with Debian's `ncal -o y` in every year. The part of a day is
cut from a list, after document 01, "The lent table and the request". The same text comes out at each run.
"""
import argparse
from datetime import date, timedelta

# the paschal full moon (month, day) of the Julian calendar for the golden numbers 1 to 19
FULL_MOON = [
    (4, 5), (3, 25), (4, 13), (4, 2), (3, 22), (4, 10), (3, 30), (4, 18), (4, 7), (3, 27),
    (4, 15), (4, 4), (3, 24), (4, 12), (4, 1), (3, 21), (4, 9), (3, 29), (4, 17),
]
JULIAN_LAG = timedelta(13)  # from 1900 to 2099 the Julian calendar is thirteen days behind

FIXED = {
    "New Year's Day": (1, 1),
    "Epiphany": (1, 6),
    "Annunciation": (3, 25),
    "Labour Day": (5, 1),
    "Assumption": (8, 15),
    "Ochi Day": (10, 28),
    "Christmas Day": (12, 25),
    "Boxing Day": (12, 26),
}
FROM_EASTER = {
    "Clean Monday": -48,
    "Good Friday": -2,
    "Holy Saturday": -1,
    "Easter Sunday": 0,
    "Easter Monday": 1,
    "Whit Monday": 50,
}
WEEKDAYS = ["Monday", "Tuesday", "Wednesday", "Thursday", "Friday", "Saturday", "Sunday"]
LAST_DAY = (date(2099, 12, 31) - date(2000, 1, 1)).days
MONTHS = ["Jan", "Feb", "Mar", "Apr", "May", "Jun", "Jul", "Aug", "Sep", "Oct", "Nov", "Dec"]


def easter(year):
    moon = date(year, *FULL_MOON[year % 19]) + JULIAN_LAG
    return moon + timedelta(7 - (moon.weekday() + 1) % 7)


def holidays(year):
    fixed = {date(year, month, day) for month, day in FIXED.values()}
    return fixed | {easter(year) + timedelta(days) for days in FROM_EASTER.values()}


def letter(day):
    if WEEKDAYS[day.weekday()] == "Sunday" or day in holidays(day.year):
        return "H"
    return "S" if WEEKDAYS[day.weekday()] == "Saturday" else "W"


def days(first, last):
    return [first + timedelta(n) for n in range((last - first).days + 1)]


def groups(years):
    yield "Groups: W weekday, S Saturday, H holiday group"
    for year in years:
        whole = days(date(year, 1, 1), date(year, 12, 31))
        for month in range(1, 13):
            yield f"{year}-{month:02} " + "".join(letter(day) for day in whole if day.month == month)


def easters():
    yield "Orthodox Easter"
    for year in range(2000, 2100):
        yield easter(year).isoformat()


def table_3():
    yield "003, Table 3"
    yield "\t".join(WEEKDAYS)
    cells = [f"{day.day:02}-{MONTHS[day.month - 1]}" for day in days(date(2019, 1, 7), date(2019, 2, 2))]
    cells += [""] * (-len(cells) % 7)
    for week in range(0, len(cells), 7):
        yield "\t".join(cells[week:week + 7])


def part(first, days, readings, day):
    """The readings of a day of a table; none where it is not held, or refusal 1 turns the table away."""
    turned_away = days == 0 or days > 128 or len(readings) != 96 * days or first + days - 1 > LAST_DAY
    if turned_away or not first <= day < first + days:
        return []
    return readings[96 * (day - first):96 * (day - first + 1)]


def parts():
    yield "Readings of a day: how many, the first and the last"
    own = list(range(1000, 1384))
    tables = [
        (6951, 3, own[:288]), (36522, 3, own[:288]), (36523, 3, own[:288]), (6951, 3, own[:287]), (6951, 3, own[:289]),
        (6951, 0, []), (6951, 128, [7] * 12288), (6951, 129, [7] * 12384),
    ]
    for first, held, readings in tables:
        last = first + (held or 3) - 1
        for day in first - 1, first, first + 1, last, last + 1:
            if day > LAST_DAY:
                continue
            found = part(first, held, readings, day)
            ends = f" {found[0]:04} {found[-1]:04}" if found else ""
            yield f"{date(2000, 1, 1) + timedelta(day)} {len(found):02}{ends}"


def main():
    argparse.ArgumentParser(description=__doc__, formatter_class=argparse.RawDescriptionHelpFormatter).parse_args()
    for section in groups([2000, 2019, 2023, 2024, 2025, 2099]), easters(), table_3(), parts():
        for line in section:
            print(line)


main()
