"""The tabular Islamic calendar, as far as the first of Ramadan: months of 30 and 29 days in turn, a day more at a leap year's end."""
import datetime

ROWS = 30
MONTH = 9
LEAP_YEARS = (2, 5, 7, 10, 13, 16, 18, 21, 24, 26, 29)
SHIFTS = (-1, 0, 1)
# The years whose first of Ramadan an order can have: from 1900-01-03 to 2199-10-21. None of them is an order's Gregorian year too.
ISLAMIC_YEARS = range(1317, 1627)


def first_of_ramadan(year):
    """As Python counts days. 1-1-1 is Julian Day 1948439.5, which is Python's day 227015."""
    leap_days = (year - 1) // 30 * len(LEAP_YEARS) + sum(leap <= (year - 1) % 30 for leap in LEAP_YEARS)
    return 227015 + 354 * (year - 1) + leap_days + sum(30 if month % 2 else 29 for month in range(1, MONTH))


def opens_ramadan(day, shift):
    """Is the day, less the shift, the first of the month?"""
    wanted = day.toordinal() - shift
    year = (wanted - 227015) * 30 // 10631 + 1
    return any(first_of_ramadan(near) == wanted for near in range(max(1, year - 1), year + 2))


def first_days(year):
    """(Islamic year, shift, first day) for an Islamic year, or for each that has its tabular first of Ramadan in a Gregorian one."""
    for islamic in ISLAMIC_YEARS:
        day = first_of_ramadan(islamic)
        if year in (islamic, datetime.date.fromordinal(day).year):
            for shift in SHIFTS:
                yield islamic, shift, datetime.date.fromordinal(day + shift)
