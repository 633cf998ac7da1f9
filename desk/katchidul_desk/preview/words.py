"""Dates and counts in the words of the preview. The names of days and months are English in every language of the system."""
from ..dates import MONTHS

WEEKDAYS = ("Mon", "Tue", "Wed", "Thu", "Fri", "Sat", "Sun")


def short_day(date):
    """Thu 1 Oct"""
    return "%s %d %s" % (WEEKDAYS[date.weekday()], date.day, MONTHS[date.month - 1][:3])


def long_day(date):
    return "%d %s %d" % (date.day, MONTHS[date.month - 1], date.year)


def span(first, last):
    """1 to 25 June 2026; 30 September to 2 October 2026; 20 December 2026 to 3 January 2027"""
    if first == last:
        return long_day(first)
    if (first.year, first.month) == (last.year, last.month):
        return "%d to %s" % (first.day, long_day(last))
    start = long_day(first) if first.year != last.year else "%d %s" % (first.day, MONTHS[first.month - 1])
    return "%s to %s" % (start, long_day(last))


def counted(number, thing):
    """1 page, 2,653 dots"""
    return "{:,} {}{}".format(number, thing, "" if number == 1 else "s")
