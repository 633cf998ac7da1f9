"""The week's report by the order's clock."""
import datetime

from .errors import ProgramError
from .reading import clock, first_day, read, rows
from .sheets import accepted
from .wording import utc_offset

DAYS = 7


def report(order):
    """Each line of the program in dates and clock times."""
    lines = accepted("week", order).decode("ascii", "replace").splitlines()
    town = read(order).values[1].decode("ascii")
    heading = "%s: the earliest and the latest Fajr of every seven days, by the clock %s" % (town, utc_offset(clock(order)))
    if rows(order) < DAYS:
        return heading + "\nthe order has under seven rows, so there is nothing to report\n"
    columns = "%-27s%-22s%s" % ("days", "earliest", "latest")
    return "\n".join([heading, "", columns, *(window(order, line) for line in lines)]) + "\n"


def window(order, line):
    """0 -2 0 -1 2: the first row; the earliest Fajr, in minutes after its own row's 0h UTC, and its row; the latest and its row."""
    try:
        first, *numbers = line.split(" ")
        day = first_day(order) + datetime.timedelta(int(first))
        days = "%s to %s   " % (day, day + datetime.timedelta(DAYS - 1))
        if numbers == ["refused"]:
            return days + "a day of these has no times"
        earliest, its_row, latest, other_row = map(int, numbers)
    except ValueError:
        raise ProgramError("the program week printed what is no report") from None
    return (days + fajr(order, earliest, its_row).ljust(22) + fajr(order, latest, other_row)).rstrip()


def fajr(order, minutes, row):
    days, minute = divmod(minutes + clock(order), 1440)
    date = first_day(order) + datetime.timedelta(row)
    return "%02d:%02d%s on %s" % (minute // 60, minute % 60, "%+d" % days if days else "", date)
