"""Dates as texts and orders have them."""
import datetime
import re
import struct

from .errors import Unreadable
from .numbers import signs

LAST_DAY = datetime.date(2199, 12, 31)
MONTHS = ("January", "February", "March", "April", "May", "June", "July", "August", "September", "October", "November", "December")


def date_of(value):
    year, month, day = struct.unpack(">HBB", value)
    try:
        return datetime.date(year, month, day)
    except ValueError:
        return None


def days_in(year, month):
    """Days of a month; `year` may be any that two bytes hold."""
    leap = year % 4 == 0 and (year % 100 != 0 or year % 400 == 0)
    return (31, 29 if leap else 28, 31, 30, 31, 30, 31, 31, 30, 31, 30, 31)[month - 1]


class Day:
    """A kind of value, as kinds.py has them."""
    takes = "a date from 1900-01-01 to 2199-12-31"

    def write(self, text, lengths):
        parts = re.fullmatch(r"(\d{1,5})-(\d{1,3})-(\d{1,3})", signs(text), re.ASCII)
        try:
            return struct.pack(">HBB", *map(int, parts.groups()))
        except (AttributeError, struct.error):
            raise Unreadable("takes a date as 2026-06-01") from None

    def words(self, value):
        return "%04d-%02d-%02d" % struct.unpack(">HBB", value)

    def fault(self, value, values):
        year, month, day = struct.unpack(">HBB", value)
        if not 1900 <= year <= 2199:
            return "%d is no year from 1900 to 2199" % year
        if not 1 <= month <= 12:
            return "there is no month %d" % month
        if not 1 <= day <= days_in(year, month):
            return "%s%s has %d days" % (MONTHS[month - 1], " %d" % year if month == 2 else "", days_in(year, month))
        return None
