"""The preview as HTML: one document, or the part of it that the desk's page shows."""
import itertools
import pathlib

from .. import messages
from ..wording import utc_offset
from . import chart, pages, words
from .dots import flat_dots
from .markup import Markup, element, joined

STYLE = pathlib.Path(__file__).with_name("style.css")
# A row needs its own sun and that of the two days after it.
LATER = ("on the day itself", "on the day after, which the row needs too", "two days after, which the row needs too")


def span(days):
    return words.span(days[0].date, days[-1].date)


def title_of(group):
    return "%s, %s" % (group.orders[0].town, span(group.days))


def refused_days(days):
    """Refused days in words; days that follow one another for the same reason are one line."""
    for refused, alike in itertools.groupby(days, key=lambda day: day.refused):
        if refused:
            number, later = refused
            yield "%s: there is no %s %s." % (span(list(alike)), messages.LACKS[number], LATER[later])


def listed(title, lines, level, about=None):
    """A section with a line for each, or nothing without lines."""
    if not lines:
        return None
    text = element("p", about) if about else None
    return element("section", element("h%d" % level, title), text, element("ul", [element("li", line) for line in lines]), class_="told")


def told(group, level):
    """What the clerk has to know before printing."""
    return joined(
        listed("Look at this before printing", group.wrong, level), listed("About the orders", group.notes, level),
        listed("Refused days", list(refused_days(group.days)), level, "These days have no times. Their braille rows show the day alone."))


def page_section(order, number, page, level):
    title = "%s, page %d of %d: %s" % (order.town, number, len(order.pages), span(page))
    count = "%s, %s, %s" % (order.name, words.counted(len(page), "row"), words.counted(pages.dots_of(page), "dot"))
    table = pages.table(page, order.columns, order.clock)
    scrolled = element("div", table, class_="scroll", tabindex=0, role="region", aria_label="Table of " + title)
    return element("section", element("h%d" % level, title), element("p", count, class_="count"), scrolled, class_="page")


def facts(order):
    """An order's file, days, clock, pages and dots, as a row of a table."""
    dots = "{:,}".format(sum(map(pages.dots_of, order.pages)))
    values = [span(order.days), len(order.days), utc_offset(order.clock), len(order.pages), dots]
    return element("tr", element("th", order.name, scope="row"), [element("td", value) for value in values])


def overview(orders):
    heads = [element("th", name, scope="col") for name in ("Order", "Days", "Rows", "Clock", "Pages", "Dots")]
    return element("table", element("thead", element("tr", heads)), element("tbody", list(map(facts, orders))), class_="overview")


def timetable(group, number, level, with_told):
    """The section of one timetable: its orders, what to know and its picture, then its pages."""
    title = title_of(group)
    sections = [page_section(order, at, page, level + 1) for order in group.orders for at, page in enumerate(order.pages, 1)]
    return element(
        "section", element("h%d" % level, title), overview(group.orders), told(group, level + 1) if with_told else None,
        chart.figure(group.days, "The times of " + title, number), sections, class_="timetable")


def fragment(groups, level, with_told):
    """The timetables, their headings of this level, with or without what the clerk has to know."""
    return joined(flat_dots(), [timetable(group, number, level, with_told) for number, group in enumerate(groups, 1)])


def document(groups):
    """A whole document, without scripts and without links to anything outside."""
    head = element(
        "head", element("meta", charset="utf-8"), element("meta", name="viewport", content="width=device-width, initial-scale=1"),
        element("title", "; ".join(map(title_of, groups)) + ": preview"), element("style", Markup(STYLE.read_text("utf-8"))))
    body = element("body", element("main", fragment(groups, 1, True), class_="preview"))
    return "<!DOCTYPE html>\n" + element("html", head, body, lang="en") + "\n"
