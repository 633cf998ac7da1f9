"""A picture of all rows: each time of the sheet over the days, by the clock of the order, with the night shaded.

A day is a column, and the hours go down from the row's own midnight, so a time of the next date is below 24:00. Each line has its name at
its end, so nothing is told by colour alone. A refused day is an empty column with a cross."""
import math

from ..wording import utc_offset
from . import words
from .markup import Markup, element, joined

WIDTH, HEIGHT = 1000, 450
LEFT, RIGHT, TOP, BOTTOM = 72, 86, 10, 34
LABEL = 14
# An hour without a line, for words in the picture.
MORNING = 10


class Scale:
    """Where days and hours are in the picture."""

    def __init__(self, days):
        hours = [hour for day in days for hour in hours_of(day).values()]
        self.first, self.last = math.floor(min(hours)), math.ceil(max(hours))
        self.column = (WIDTH - LEFT - RIGHT) / len(days)
        self.hour = (HEIGHT - TOP - BOTTOM) / max(1, self.last - self.first)

    def x(self, at):
        """The left edge of the column `at`; its middle is at a half more."""
        return round(LEFT + at * self.column, 1)

    def y(self, hour):
        return round(TOP + (hour - self.first) * self.hour, 1)


def hours_of(day):
    """The hours from the row's own midnight to each of its times; nothing for a refused day."""
    return {name: moment.hours for name, moment in day.moments.items()}


def stretches(days):
    """The places of days that follow one another with times and by one clock, as lists."""
    found = [[]]
    for at, day in enumerate(days):
        if not day.moments or at and day.clock != days[at - 1].clock:
            found.append([])
        if day.moments:
            found[-1].append(at)
    return [stretch for stretch in found if stretch]


def daylight(scale, days, stretch):
    """From sunrise to maghrib, a step for each day."""
    down = ["H%s" % scale.x(at) + "V%s" % scale.y(hours_of(days[at])["sunrise"]) for at in stretch]
    back = ["H%s" % scale.x(at + 1) + "V%s" % scale.y(hours_of(days[at])["maghrib"]) for at in reversed(stretch)]
    start = "M%s %s" % (scale.x(stretch[0]), scale.y(hours_of(days[stretch[0]])["sunrise"]))
    turn = "H%s" % scale.x(stretch[-1] + 1)
    return element("path", d=start + "".join(down) + turn + "".join(back) + "H%sZ" % scale.x(stretch[0]), class_="daylight")


def night(scale, stretch):
    return element(
        "rect", x=scale.x(stretch[0]), y=TOP, width=round(scale.x(stretch[-1] + 1) - scale.x(stretch[0]), 1),
        height=HEIGHT - TOP - BOTTOM, class_="night")


def line(scale, days, stretch, name):
    """A time's line through the middle of its days; a single day is a short line."""
    hours = [scale.y(hours_of(days[at])[name]) for at in stretch]
    if len(stretch) == 1:
        points = [(scale.x(stretch[0] + 0.25), hours[0]), (scale.x(stretch[0] + 0.75), hours[0])]
    else:
        points = list(zip((scale.x(at + 0.5) for at in stretch), hours))
    return element("polyline", points=" ".join("%s,%s" % point for point in points), class_="time " + name)


def crosses(scale, days):
    size = min(6, scale.column * 0.4)
    for at, day in enumerate(days):
        if not day.moments:
            middle = scale.x(at + 0.5)
            for y in (TOP + 14, HEIGHT - BOTTOM - 14):
                shape = "M{0} {2}L{1} {3}M{0} {3}L{1} {2}".format(middle - size, middle + size, y - size, y + size)
                yield element("path", d=shape, class_="cross")


def hour_lines(scale):
    """A line and its hour every three hours, by the clock; the date's own midnights say which date begins."""
    for hour in range(math.ceil(scale.first / 3) * 3, scale.last + 1, 3):
        y = scale.y(hour)
        days = hour // 24
        said = "%02d:00" % (hour % 24) + (" %+d" % days if days else "")
        yield element("path", d="M%d %sH%d" % (LEFT, y, WIDTH - RIGHT), class_="midnight" if hour % 24 == 0 else "hour")
        yield element("text", said, x=LEFT - 6, y=y + 4, text_anchor="end")


def date_marks(scale, days):
    """Dates below the columns, as many as there is room for; of a long sheet the first of each month."""
    step = max(1, math.ceil(44 / scale.column))
    firsts = len(days) > 62
    for at, day in enumerate(days):
        if (day.date.day == 1) if firsts else at % step == 0:
            x = scale.x(at + 0.5)
            name = words.MONTHS[day.date.month - 1][:3]
            said = "%s %d" % (name, day.date.year) if firsts and len(days) <= 200 else name if firsts else "%d %s" % (day.date.day, name)
            yield element("path", d="M%s %dv5" % (x, HEIGHT - BOTTOM), class_="tick")
            yield element("text", said, x=x, y=HEIGHT - BOTTOM + 19, text_anchor="middle")


def clock_changes(scale, days):
    """A line before the first day of another clock."""
    for at in range(1, len(days)):
        if days[at].clock != days[at - 1].clock:
            x, y = scale.x(at), min(max(scale.y(MORNING), TOP + LABEL), HEIGHT - BOTTOM)
            said = "clock " + utc_offset(days[at].clock)
            yield element("path", d="M%s %dV%d" % (x, TOP, HEIGHT - BOTTOM), class_="change")
            yield element("text", said, x=x + 4, y=y, class_="change")


def spread(wanted, low, high):
    """The places of labels, moved from these rising places so that none covers another."""
    placed = []
    for place in wanted:
        placed.append(max(place, placed[-1] + LABEL if placed else low))
    limit = high
    for at in range(len(placed) - 1, -1, -1):
        placed[at] = min(placed[at], limit)
        limit = placed[at] - LABEL
    return placed


def names(scale, days, last):
    """Each line's name at its end, with a thin line to it."""
    ends = sorted((scale.y(hour), name) for name, hour in hours_of(days[last]).items())
    places = spread([y for y, _ in ends], TOP + 4, HEIGHT - BOTTOM)
    start, edge = scale.x(last + 0.5), WIDTH - RIGHT
    for (y, name), place in zip(ends, places):
        yield element("path", d="M%s %sL%s %sL%s %s" % (start, y, edge, y, edge + 12, round(place, 1)), class_="leader")
        yield element("text", name, x=edge + 16, y=round(place + 4, 1), class_="name")


def ranges(days):
    """What the picture shows, in words: each time's earliest and latest clock time."""
    worked = [day for day in days if day.moments]
    for name in worked[0].moments:
        moments = [day.moments[name] for day in worked]
        hours = [hours_of(day)[name] for day in worked]
        least, most = moments[hours.index(min(hours))], moments[hours.index(max(hours))]
        yield "%s from %s to %s" % (name, least, most)


def described(days):
    refused = sum(not day.moments for day in days)
    said = "The hours of the day go down, the days go right, the night is shaded. " + "; ".join(ranges(days)) + "."
    return said + (" %s without times." % words.counted(refused, "refused day") if refused else "")


def figure(days, title, number):
    """The picture with its caption, or a sentence when no day has times."""
    parts = stretches(days)
    if not parts:
        return element("p", "No day of these rows has times, so there is no picture.")
    caption = element("figcaption", "The times of all rows by the clock. The night, from maghrib to sunrise, is shaded.")
    return element("figure", picture(days, parts, title, number), caption)


def picture(days, parts, title, number):
    """The picture of days that follow one another. `number` makes its ids its own."""
    scale = Scale(days)
    lines = [line(scale, days, stretch, name) for stretch in parts for name in days[stretch[0]].moments]
    drawn = joined(
        [night(scale, stretch) for stretch in parts], [daylight(scale, days, stretch) for stretch in parts], list(hour_lines(scale)),
        list(date_marks(scale, days)), list(crosses(scale, days)), list(clock_changes(scale, days)), lines,
        list(names(scale, days, parts[-1][-1])))
    ids = "picture-%d-title" % number, "picture-%d-words" % number
    return element(
        "svg", element("title", title, id=ids[0]), element("desc", described(days), id=ids[1]), Markup(drawn),
        viewBox="0 0 %d %d" % (WIDTH, HEIGHT), class_="chart", role="img", aria_labelledby=ids[0], aria_describedby=ids[1])
