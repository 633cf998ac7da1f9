"""The sheet by the order's clock: a table to read, and to compare with the braille page."""
import datetime

from .messages import refused_day
from .reading import clock
from .sheets import sheet
from .wording import utc_offset

WIDTH = 9


def table(order):
    """The table of an order by its one clock."""
    whole = sheet(order)
    return laid_out(whole, [clock(order)] * len(whole.rows))


def split_table(split):
    """The table of all rows of a split, each by its part's clock."""
    return laid_out(split.sheet, split.clocks, " (%s)" % split.zone)


def clock_time(instant, date, minutes):
    """An instant by a clock: hour and minute, seconds dropped as in the cells, and the days from the row's date to the time's own."""
    shown = instant + datetime.timedelta(minutes=minutes)
    return shown.strftime("%H:%M"), (shown.date() - date).days


def laid_out(whole, clocks, zone=""):
    """The lines of a table. The clock is said again when it changes."""
    first, last = whole.rows[0].date, whole.rows[-1].date
    lines = ["%s, %s to %s%s" % (whole.town, first, last, zone), "a time on another date than its row's has the days behind it, as 00:15+1",
             "", "".ljust(15) + "".join(column.ljust(WIDTH) for column in whole.columns).rstrip()]
    before = None
    for row, minutes in zip(whole.rows, clocks):
        if minutes != before:
            lines.append("clock: %s" % utc_offset(minutes))
            before = minutes
        lines.append(row_line(row, minutes))
    return "\n".join(lines) + "\n"


def row_line(row, minutes):
    date = row.date.strftime("%a %Y-%m-%d ")
    if row.refused:
        return date + "no times: %s" % refused_day(row.date, *row.refused)
    times = (clock_time(instant, row.date, minutes) for instant in row.times.values())
    return (date + "".join((time + ("%+d" % days if days else "")).ljust(WIDTH) for time, days in times)).rstrip()
