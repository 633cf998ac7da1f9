"""From an order or a text to a timetable: its orders by the town's clock, what is shown of them, and what the clerk has to know."""
import calendar
import re
from typing import List, NamedTuple, Optional, Tuple

from .. import orders, reading, zones
from ..errors import Refused
from ..making import numbered
from .shown import Shown, shown


class Timetable(NamedTuple):
    """`shown` are the orders for the embosser. `sheet_order` is a Ramadan order, (name, bytes), that could not be split and is for the
    sheet alone. `notes` are for the clerk to know; `wrong` is what should not be printed as it is, such as a row with a time that no
    single clock shows right."""
    base: str
    shown: List[Shown]
    sheet_order: Optional[Tuple[str, bytes]]
    notes: List[str]
    wrong: List[str]


def base_name(order):
    """leeds-2026-10 for a whole month, else leeds-2026-10-05, with nothing that a file's name should not have."""
    town = re.sub("[^a-z0-9]+", "-", orders.fields(order)["town"].lower()).strip("-") or "order"
    first, rows = reading.first_day(order), reading.rows(order)
    whole_month = first.day == 1 and rows == calendar.monthrange(first.year, first.month)[1]
    return "%s-%s" % (town, first.isoformat()[:7] if whole_month else first)


def timetable(order, zone, base=None):
    """The timetable of an order, by a zone's clock if there is one. Raises the desk's errors for an order that the programs refuse."""
    refusal = reading.read(order).refusal
    if refusal:
        raise Refused(refusal)
    base = base or base_name(order)
    if zone is None:
        return Timetable(base, [shown(base + ".order", order)], None, [], [])
    return by_zone(zones.split(order, zone), base)


def by_zone(split, base):
    """The timetable of orders that were split by a zone's clock. Their names are those that make gives them."""
    whole, several = base + ".order", len(split.parts) > 1
    names = [numbered(whole, at) for at in range(1, len(split.parts) + 1)] if several else [whole]
    # A divided Ramadan sheet keeps its imsak on the screen: its parts have the same rows without it.
    parts = [shown(name, part.order, split.sheet if split.ramadan else None) for name, part in zip(names, split.parts)]
    sheet_order = (whole, split.ramadan) if split.ramadan else None
    told = zones.lines(split, names + [whole] * bool(sheet_order))
    wrong = [*zones.odd_noon_lines(split), *zones.wrong_lines(split)]
    return Timetable(base, parts, sheet_order, [line.strip() for line in told], wrong)


class Group(NamedTuple):
    """Orders whose days follow one another, with the notes of their timetables."""
    orders: List[Shown]
    notes: List[str]
    wrong: List[str]

    @property
    def days(self):
        return [day for order in self.orders for day in order.days]


def follows(one, before):
    """Whether an order goes on with the timetable of the one before it, as when a clock changes within it."""
    return before.town == one.town and before.columns == one.columns and (one.days[0].date - before.days[-1].date).days == 1


def grouped(timetables):
    groups = []
    for table in timetables:
        if groups and follows(table.shown[0], groups[-1].orders[-1]):
            last = groups.pop()
            groups.append(Group(last.orders + table.shown, last.notes + table.notes, last.wrong + table.wrong))
        else:
            groups.append(Group(list(table.shown), table.notes, table.wrong))
    return groups
