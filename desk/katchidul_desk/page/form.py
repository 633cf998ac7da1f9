"""The form for an order: its fields, how a request fills them, and the text that they make."""
import re
from typing import NamedTuple, Optional, Sequence, Tuple
from urllib.parse import parse_qsl

from ..fields import BY_NAME
from ..wording import plain
from . import safety

MOST_FIELDS = 60


class Field(NamedTuple):
    """`name` is the one that a text has; `choices` are the values of a list with their labels. What a blank means comes first."""
    name: str
    label: str
    hint: str
    choices: Optional[Sequence[Tuple[str, str]]] = None

    @property
    def id(self):
        return self.name.replace(" ", "-")


def choices(name, blank):
    """The values of a field that is a choice. MuslimWorldLeague is shown as Muslim World League."""
    names = BY_NAME[plain(name)].kind.names.values()
    return [("", blank)] + [(value, re.sub("(?<=[a-z])(?=[A-Z])", " ", value)) for value in names]


class Group(NamedTuple):
    title: str
    hint: str
    fields: Sequence[Field]


MAIN = [
    Group("Town and place", "", [
        Field("town", "Town", "Up to 40 letters of a to z, as Leeds."),
        Field("place", "Place", "Latitude and longitude as a map gives them: 53.8008, -1.5491, or 53 48 3 N, 1 32 57 W."),
    ]),
    Group("Days", "Give a month, or else a first and a last day.", [
        Field("month", "Month", "As 2026-10 or October 2026."),
        Field("from", "First day", "As 2026-09-01."),
        Field("to", "Last day", "As 2027-07-16; 400 days at most."),
    ]),
    Group("How the times are worked out", "", [
        Field("method", "Method", "", choices("method", "Choose a method")),
        Field("madhab", "Asr", "", choices("madhab", "Shafi, if nothing is chosen")),
    ]),
    Group("Clock", "Give the time zone of the town, or else its clock. Without either the times are in UTC.", [
        Field("zone", "Time zone", "As Europe/London. When its clocks change within the days, each clock has an order of its own."),
        Field("clock", "Clock", "As +01:00, the same on every day."),
    ]),
]
MORE = [
    Group("Choices that may be left blank", "", [
        Field("high latitude rule", "High latitude rule", "", choices("high latitude rule", "Middle Of The Night, if nothing is chosen")),
        Field("minutes", "Minutes to add", "By name, as dhuhr 5, isha -3."),
        Field("fajr angle", "Fajr angle", "Degrees, as 18.5."),
        Field("isha angle", "Isha angle", "Degrees, as 17."),
        Field("isha interval", "Isha interval", "Minutes after sunset, in place of the angle."),
        Field("rounding", "Rounding", "", choices("rounding", "As the method has it")),
        Field("shafaq", "Shafaq", "Only for the Moonsighting Committee's method.", choices("shafaq", "General, if nothing is chosen")),
        Field("carry", "Times at midnight UTC", "Carries keeps a day whose sunset rounds to 24:00 UTC.",
              choices("carry", "Stops, if nothing is chosen")),
        Field("southern", "Southern season", "Only for the Moonsighting Committee's method, south of the equator.",
              choices("southern", "Unreduced, if nothing is chosen")),
        Field("ramadan", "Ramadan sheet", "As imsak 10, shift 0. The days are then 30, from the 1st of Ramadan."),
    ]),
]
FIELDS = [field for group in MAIN + MORE for field in group.fields]
BY_PLAIN = {plain(field.name): field for field in FIELDS}


def pairs(body):
    """The names and values of a request's body. Raises Refused for a body that is no form."""
    try:
        return parse_qsl(body.decode("ascii"), keep_blank_values=True, errors="strict", max_num_fields=MOST_FIELDS)
    except ValueError:
        raise safety.Refused(400, "The body is not a form in UTF-8 of at most %d fields." % MOST_FIELDS) from None


def one_line(value):
    """A value as a text's line can have it: without control characters, and without the blanks around it."""
    return re.sub("[\\x00-\\x1f\\x7f]+", " ", value).strip()


def value(field, sent):
    """A field's value. The desk's sentences say what to write as a text has it, clock: +01:00, so that is understood too."""
    return re.sub("^%s ?: ?" % field.name, "", one_line(sent.get(field.id, "")), flags=re.IGNORECASE)


def values(sent):
    """The form's values by field."""
    return {field.name: value(field, sent) for field in FIELDS}


def options(filled):
    """The fields that are filled in, as pairs of a name and a value."""
    return [(name, value) for name, value in filled.items() if value]


def text(filled):
    """The text of an order, a line for each field that is filled in."""
    return "".join("%s: %s\n" % pair for pair in options(filled))


def sent_text(sent):
    """The text that a page sent back. A browser ends its lines by carriage return and newline, as HTML asks it to."""
    return sent.get("text", "").replace("\r\n", "\n")


def from_text(written):
    """The form's values for a text that `text` made; what has no field is left out."""
    lines = dict(line.partition(": ")[::2] for line in written.split("\n"))
    return {field.name: one_line(lines.get(field.name, "")) for field in FIELDS}
