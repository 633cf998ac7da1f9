"""What the preview shows of an order: its rows by the order's clock, each beside the cells that go to the embosser."""
import datetime
from typing import Dict, List, NamedTuple, Optional, Sequence, Tuple

from .. import braille, reading, sheets
from ..tables import clock_time


class Moment(NamedTuple):
    """A time of a row by the order's clock, HH:MM; the days from the row's date to its own; the hours from the row's midnight."""
    text: str
    days: int
    hours: float

    def __str__(self):
        return self.text + ("%+d" % self.days if self.days else "")


class Day(NamedTuple):
    """A row: its times by name, or its refusal (number, day); and its cells."""
    date: datetime.date
    clock: int
    moments: Dict[str, Moment]
    refused: Optional[Tuple[int, int]]
    cells: bytes


class Shown(NamedTuple):
    """An order. `pages` has the days of each braille page."""
    name: str
    order: bytes
    town: str
    columns: Sequence[str]
    clock: int
    pages: List[List[Day]]

    @property
    def days(self):
        return [day for page in self.pages for day in page]


def moment(instant, clock, date):
    midnight = datetime.datetime.combine(date, datetime.time(), datetime.timezone.utc) - datetime.timedelta(minutes=clock)
    return Moment(*clock_time(instant, date, clock), (instant - midnight).total_seconds() / 3600)


def shown_day(row, clock, cells):
    moments = {name: moment(instant, clock, row.date) for name, instant in (row.times or {}).items()}
    return Day(row.date, clock, moments, row.refused, cells)


def shown(name, order, sheet=None):
    """An order that the programs accept. Raises the desk's errors for any other. The rows are looked up in `sheet`, if one is given, by
    their dates."""
    sheet, clock = sheet or sheets.sheet(order), reading.clock(order)
    by_date = {row.date: row for row in sheet.rows}
    rows = (by_date[date] for date in reading.days(order))
    pages = [[shown_day(next(rows), clock, cells) for cells in page] for page in braille.pages(order)]
    return Shown(name, order, sheet.town, sheet.columns, clock, pages)
