"""A braille page as a table: each row's times by the clock, the same row drawn as dots, and what its cells say."""
from .. import braille, messages
from ..wording import utc_offset
from . import dots, words
from .markup import element


def mark(days):
    """What the days after a time mean."""
    near = {-1: "on the date before", 1: "on the next date"}
    return "%+d: %s." % (days, near.get(days, "%d dates %s" % (abs(days), "later" if days > 0 else "before")))


def time_cell(moment):
    """HH:MM, and after it the days from the row's date if there are any."""
    if not moment.days:
        return element("td", moment.text)
    return element("td", moment.text, element("span", "%+d" % moment.days, class_="days"))


def times(day, columns):
    if day.refused:
        return [element("td", "No times: %s." % messages.refused_day(day.date, *day.refused), colspan=len(columns), class_="refused")]
    return [time_cell(day.moments[column]) for column in columns]


def row(day, columns):
    says = braille.digits(day.cells)
    return element(
        "tr", element("th", words.short_day(day.date), scope="row"), times(day, columns),
        element("td", dots.drawn(day.cells, says), class_="paper"), element("td", says, class_="says"))


def caption(page, clock):
    offsets = {moment.days for day in page for moment in day.moments.values()} - {0}
    return " ".join(["Times by the clock %s." % utc_offset(clock), *map(mark, sorted(offsets))])


def table(page, columns, clock):
    """The days of one braille page."""
    names = ["Date", *(column.capitalize() for column in columns), "Braille", "The braille says"]
    head = element("tr", [element("th", name, scope="col") for name in names])
    rows = [row(day, columns) for day in page]
    return element("table", element("caption", caption(page, clock)), element("thead", head), element("tbody", rows))


def dots_of(page):
    return sum(braille.dots(day.cells) for day in page)
