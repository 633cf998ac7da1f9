"""The calendar by Python's datetime alone, and the rounding of times: what tests/calendar/run compares the library with."""
import datetime

FIRST, LAST, DAY = datetime.date(1899, 12, 31), datetime.date(2200, 1, 3), datetime.timedelta(days=1)
EPOCH = datetime.date(1970, 1, 1).toordinal()
NAMES = ("tomorrow", "next date", "previous date", "day of the year", "day", "date of the day", "date of the row", "weekday", "Julian Day")
# By the number of a rounding: to the nearest minute (up from second 30), up (a full minute at second 0), not at all. Python's remainder is
# never negative.
ROUNDINGS = [lambda t: t - t % 60 + (60 if t % 60 >= 30 else 0), lambda t: t - t % 60 + 60, lambda t: t]


def three(date):
    return date.year, date.month, date.day


def values(date):
    """Of each name its value. 1970-01-01 0h is the Julian Day 2440587.5."""
    after, before, day = three(date + DAY), three(date - DAY), date.toordinal() - EPOCH
    return after, after, before, date.timetuple().tm_yday, day, three(date), three(date), date.isoweekday() % 7, day + 2440587.5
