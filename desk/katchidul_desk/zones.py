"""Orders by a town's own clock.

An order has one clock for all of its rows, and a town's clock changes twice a year. So the rows are split at each change, and each
part is an order of its own. Then every time on the pages is compared with the zone, as the system's time zone data has it."""
import datetime
import itertools
import struct
from typing import List, NamedTuple, Optional

from .clocks import find, minutes
from .fields import CLOCK
from .kinds import DATE_TAG, RAMADAN_TAG
from .numbers import whole_bytes
from .page_check import NOON, Wrong, check_others, check_pages
from .reading import changed, is_ramadan
from .sheets import PRAYERS, Sheet, sheet
from .wording import counted, listed, utc_offset

ROWS_TAG = 3
IN_WORDS = {"middle": "the middle of the night", "tomorrow": "tomorrow's fajr"}
# By a town's clock noon comes between these hours everywhere.
NOON_HOURS = range(10, 16)


class Part(NamedTuple):
    """An order of successive rows with one clock, in minutes from UTC."""
    order: bytes
    clock: int
    first: datetime.date
    last: datetime.date
    rows: int


class Split(NamedTuple):
    """`on_pages` are the wrong times of the six that the cells have, `elsewhere` those of the sheet's other columns.

    A Ramadan order can't be split: it has thirty rows from the 1st. If the clock changes within it, `ramadan` is that order, without a
    clock, for the sheet; and the parts are plain orders of the same rows, for the embosser. The cells have no imsak, so nothing is lost."""
    zone: str
    sheet: Sheet
    parts: List[Part]
    ramadan: Optional[bytes]
    times: int
    on_pages: List[Wrong]
    elsewhere: List[Wrong]

    @property
    def clocks(self):
        """Each row's clock."""
        return [part.clock for part in self.parts for _ in range(part.rows)]


def split(order, name):
    """The orders that a zone's clock changes need, with what is wrong in them. Raises Refused for an order that the programs refuse."""
    zone = find(name)
    whole = sheet(order)
    clocks = row_clocks(whole, zone)
    runs = [list(run) for _, run in itertools.groupby(range(len(clocks)), lambda row: clocks[row])]
    divided = len(runs) > 1
    parts = [part(order, whole, clocks, run, divided) for run in runs]
    own = changed(order, {CLOCK: None})
    ramadan = own if divided and is_ramadan(order) else None
    times, on_pages = check_pages(whole, parts, zone)
    return Split(name, whole, parts, ramadan, times, on_pages, check_others(whole, clocks, zone))


def row_clocks(whole, zone):
    """Each row's clock: the one that is right for most of its times on the page, or the later one if two are equally right. A refused row
    has no times, and gets the clock of the row before it."""
    clocks = [row_clock(row, zone) if row.times else None for row in whole.rows]
    noon = datetime.datetime.combine(whole.rows[0].date, datetime.time(12), datetime.timezone.utc)
    before = next((clock for clock in clocks if clock is not None), None)
    for at, clock in enumerate(clocks):
        before = clock if clock is not None else minutes(noon, zone) if before is None else before
        clocks[at] = before
    return clocks


def row_clock(row, zone):
    by_time = [minutes(row.times[prayer], zone) for prayer in PRAYERS]
    return max(reversed(by_time), key=by_time.count)


def part(order, whole, clocks, run, divided):
    """The order of a run of rows. Every other field stays, except tag 20 of an order that is divided."""
    first, last = whole.rows[run[0]].date, whole.rows[run[-1]].date
    values = {CLOCK: struct.pack(">h", clocks[run[0]])}
    if divided:
        values[DATE_TAG] = struct.pack(">HBB", first.year, first.month, first.day)
        values[ROWS_TAG] = whole_bytes(len(run), [1 if len(run) <= 250 else 2])
        values[RAMADAN_TAG] = None
    return Part(changed(order, values), clocks[run[0]], first, last, len(run))


# In words.


def lines(made, names):
    """What a split made, for the desk. `names` are the parts' files, and after them the Ramadan order's if it is written."""
    if len(made.parts) == 1:
        only = made.parts[0]
        yield "%s is %s for all rows, %s to %s" % (made.zone, utc_offset(only.clock), only.first, only.last)
    else:
        yield "%s changes its clock within these rows, so there are %d orders:" % (made.zone, len(made.parts))
        for name, one in zip(names, made.parts):
            yield "  %s: %s to %s, rows: %d, clock: %s" % (name, one.first, one.last, one.rows, utc_offset(one.clock))
    if made.ramadan and len(names) > len(made.parts):
        yield "A Ramadan order can't be split. %s is for the sheet, which is in UTC and has imsak." % names[-1]
        yield "%s are plain orders of the same rows, for the embosser: the cells have no imsak." % listed(names[:-1])
    yield from elsewhere_lines(made)
    if not made.on_pages:
        yield "checked: the %d times on the pages are right by the clocks of %s" % (made.times, made.zone)


def wrong_lines(made):
    """A line for each row that one clock can't be right for."""
    days = [one for one in made.on_pages if one.column == "day"]
    if days:
        yield "%s would have their times under the wrong day: by the clocks of %s the noon of row %s is on %s" % (
            counted(len(days), "row"), made.zone, days[0].shown, days[0].right)
    times = (one for one in made.on_pages if one.column != "day")
    for date, wrong in itertools.groupby(times, lambda one: one.date):
        told = ["%s is %s by the clocks there, and the page would show %s" % (one.column, one.right, one.shown) for one in wrong]
        yield "%s: one clock can't be right for all times of this row: %s" % (date, "; ".join(told))


def odd_noon_lines(made):
    """A line if noon is at night: then the place and the zone are not of one town."""
    for row, clock in zip(made.sheet.rows, made.clocks):
        noon = row.times[NOON] + datetime.timedelta(minutes=clock) if row.times else None
        if noon and noon.hour not in NOON_HOURS:
            yield "dhuhr of %s is at %s by the clocks of %s; do the place and the zone belong together?" % (
                row.date, noon.strftime("%H:%M"), made.zone)
            return


def elsewhere_lines(made):
    for date, wrong in itertools.groupby(made.elsewhere, lambda one: one.date):
        wrong = list(wrong)
        right = listed("%s is %s" % (IN_WORDS.get(one.column, one.column), one.right) for one in wrong)
        yield "%s, not on the pages: %s after the change, and the table shows %s" % (date, right, listed(one.shown for one in wrong))
