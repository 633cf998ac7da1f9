"""Every time of every row against a zone's clock: those on the pages, read from the cells themselves, and those of the sheet alone."""
import datetime
from typing import NamedTuple

from . import braille
from .clocks import local, minutes
from .errors import ZoneError
from .sheets import PRAYERS

NOON = "dhuhr"


class Wrong(NamedTuple):
    """A time that one clock for its row does not show right: what is shown, and what the zone's clock says. With the column "day" these are
    the row's date and the date there at noon: a zone across the date line is a day ahead of its place."""
    date: datetime.date
    column: str
    shown: str
    right: str


def check_pages(whole, parts, zone):
    """Compares each time in the cells of all parts with the zone's clock at the sheet's instant: how many there are, and the wrong ones."""
    cells = [row for part in parts for row in braille.rows(braille.cells(part.order))]
    if len(cells) != len(whole.rows):
        raise ZoneError("the pages have %d rows, and the sheet %d" % (len(cells), len(whole.rows)))
    wrong, count = [], 0
    for row, line in zip(whole.rows, cells):
        right = [local(row.times[prayer], zone) if row.times else "--:--" for prayer in PRAYERS]
        shown = braille.times(line)
        count += len(PRAYERS) if row.times else 0
        wrong += [Wrong(row.date, *cell) for cell in zip(PRAYERS, shown, right) if cell[1] != cell[2]]
        there = row.times[NOON].astimezone(zone).date() if row.times else row.date
        if (braille.number(line[:3]), row.date) != ("%02d" % there.day, there):
            wrong.append(Wrong(row.date, "day", str(row.date), str(there)))
    return count, wrong


def check_others(whole, clocks, zone):
    """The times of the sheet's other columns that the row's clock does not show right."""
    wrong = []
    for row, clock in zip(whole.rows, clocks):
        for column, instant in (row.times or {}).items():
            if column not in PRAYERS and minutes(instant, zone) != clock:
                shown = instant + datetime.timedelta(minutes=clock)
                wrong.append(Wrong(row.date, column, shown.strftime("%H:%M"), local(instant, zone)))
    return wrong
