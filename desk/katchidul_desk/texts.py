"""From a text's lines and the options of a command to the parts of an order."""
import datetime
import re
from typing import NamedTuple, Optional

from .dates import MONTHS, Day, date_of, days_in
from .errors import Unreadable
from .fields import AXES, BY_NAME, CLOCK, FLOATS, TAGS
from .kinds import DATE_TAG
from .numbers import hexadecimal, signs, whole_bytes
from .places import coordinate, place
from .reading import coded
from .wording import BLANKS, as_bytes, did_you_mean, plain, quoted

# Longer than any value in words. It keeps a pasted file from being worked on as one.
LONGEST_VALUE = 400
ROWS_TAG = 3
# Bytes at the end sort after every tag; the zone is no part of the order's bytes.
END, ZONE = 256, 257
# Names that are not a field's own: each gives one field or two.
OTHERS = ("place", "month", "from", "to", "zone")


class Part(NamedTuple):
    """A part of an order in the making. `given` is the name that a line or an option had, `last` the date that decides the rows."""
    tag: int
    value: bytes
    given: str
    last: Optional[datetime.date] = None
    line: Optional[int] = None

    @property
    def field(self):
        """The tag that all ways to give this field have in common."""
        return CLOCK if self.tag == ZONE else FLOATS.get(self.tag, self.tag)


def names():
    """Every name that a line or an option may have."""
    return [tag.name for tag in TAGS.values() if tag.number not in FLOATS] + list(OTHERS)


def parts_of(name, text):
    """The parts that a name and a value give."""
    by_tag = re.fullmatch(r"field([0-9]{1,3})", plain(name))
    if by_tag:
        return [raw(int(by_tag[1]), hexadecimal(text), name)]
    if plain(name) == "bytes":
        return [Part(END, hexadecimal(text), name)]
    if len(text) > LONGEST_VALUE:
        raise Unreadable("%s is too long for a value" % quoted(text))
    if plain(name) in WAYS:
        return WAYS[plain(name)](text)
    tag = BY_NAME.get(plain(name))
    if tag is None:
        raise Unreadable("no field has the name %s%s" % (quoted(name), did_you_mean(name, names())))
    if tag.number in AXES:
        return [Part(*coordinate(text, AXES[tag.number]), tag.name)]
    return [Part(tag.number, tag.kind.write(text, tag.lengths), tag.name)]


def raw(number, value, name):
    if number > 255 or len(value) > 65535:
        raise Unreadable("a tag is at most 255, and a value has at most 65,535 bytes")
    return Part(number, value, name)


# The other names.


def from_place(text):
    latitude, longitude = place(text)
    return [Part(*latitude, "place"), Part(*longitude, "place")]


def rows_part(rows, given):
    return Part(ROWS_TAG, whole_bytes(rows, [1 if rows <= 250 else 2]), given)


def from_month(text):
    """2026-12, or December 2026."""
    parts = re.fullmatch(r"(\d{4})-(\d{1,2})", signs(text), re.ASCII)
    if parts:
        year, month = int(parts[1]), int(parts[2])
    else:
        parts = re.fullmatch(r"([A-Za-z]+) +(\d{4})", text, re.ASCII)
        month = next((at for at, name in enumerate(MONTHS, 1) if parts and parts[1].lower() in (name.lower(), name[:3].lower())), None)
        if month is None:
            raise Unreadable("takes a month as 2026-12 or December 2026")
        year = int(parts[2])
    if not 1 <= month <= 12:
        raise Unreadable("there is no month %d" % month)
    first = Day().write("%d-%d-1" % (year, month), [4])
    return [Part(DATE_TAG, first, "month"), rows_part(days_in(year, month), "month")]


def from_first(text):
    """A date, or the line of both: 2026-09-01 to: 2027-07-31."""
    both = re.fullmatch(r"(\S+) +to:? +(\S+)", text, re.IGNORECASE)
    first = Part(DATE_TAG, Day().write(both[1] if both else text, [4]), "from")
    return [first] + (to_last(both[2]) if both else [])


def to_last(text):
    value = Day().write(text, [4])
    last = date_of(value)
    if last is None:
        raise Unreadable(Day().fault(value, {}) or "takes a date as 2026-06-01")
    return [Part(ROWS_TAG, b"", "to", last)]


def from_zone(text):
    return [Part(ZONE, as_bytes(text), "zone")]


WAYS = {"place": from_place, "month": from_month, "from": from_first, "to": to_last, "zone": from_zone, "timezone": from_zone}


# Texts and options.


def text_parts(text):
    """The parts that a text gives, and whether they keep their order."""
    parts, as_listed = [], False
    # Only a newline ends a line. A town may have another of Unicode's line ends; then the clerk is told of it.
    for number, line in enumerate(text.lstrip("\ufeff").split("\n"), 1):
        line = line.strip(BLANKS)
        if not line or line.startswith("#"):
            continue
        name, colon, value = line.partition(":")
        try:
            if not colon:
                raise Unreadable("a line has a name, a colon and a value")
            if (plain(name), plain(value)) == ("fields", "aslisted"):
                as_listed = True
            else:
                parts += [part._replace(line=number) for part in parts_of(name, value.strip(BLANKS))]
        except Unreadable as why:
            raise Unreadable("line %d, %s: %s" % (number, quoted(line), why), plain(name), number) from None
    say_what_is_given_twice(parts)
    return parts, as_listed


def option_parts(name, value):
    try:
        if plain(name) == "field":
            number, _, value = value.partition(":")
            name = "field " + number
        return parts_of(name, value.strip(BLANKS))
    except Unreadable as why:
        raise Unreadable("--%s: %s" % (quoted(name)[1:-1], why), plain(name)) from None


def say_what_is_given_twice(parts):
    """Two names for one field are a mistake of the text or of the options. (One name twice is the order's: it is refused by 3.)"""
    seen = {}
    for part in parts:
        if part.given in (TAGS[part.field].name if part.field in TAGS else None, *OTHERS):
            other = seen.setdefault(part.field, part)
            if other.given != part.given:
                lines = "lines %d and %d: " % (other.line, part.line) if part.line else ""
                raise Unreadable("%s%s and %s both give the %s; leave one out" % (lines, other.given, part.given, TAGS[part.field].name),
                                 part.given, part.line)


def with_options(parts, from_options):
    """An option replaces all of the text's parts of its field, at the first one's place."""
    for asked in dict.fromkeys(part.field for part in from_options):
        at = next((at for at, part in enumerate(parts) if part.field == asked), len(parts))
        parts = [part for part in parts if part.field != asked]
        parts[at:at] = [part for part in from_options if part.field == asked]
    return parts


def with_rows(parts):
    """The parts with the rows that a last day gives."""
    if not any(part.last for part in parts):
        return parts
    first = next((part for part in parts if part.tag == DATE_TAG and len(part.value) == 4), None)
    if first is None:
        raise Unreadable("to: needs the first day; write from: 2026-09-01 too", "to")
    if date_of(first.value) is None:
        raise Unreadable("%s: %s" % (first.given, Day().fault(first.value, {})), plain(first.given))
    return [counted_rows(part, date_of(first.value)) if part.last else part for part in parts]


def counted_rows(part, first):
    rows = (part.last - first).days + 1
    if not 1 <= rows <= 400:
        raise Unreadable("%s to %s are %d days, and an order has 1 to 400 rows" % (first, part.last, max(rows, 0)), "to")
    return rows_part(rows, "to")


def joined(parts, as_listed):
    """The order's bytes."""
    parts = [part for part in with_rows(parts) if part.tag != ZONE]
    if not as_listed:
        parts = sorted(parts, key=lambda part: part.tag)
    return b"".join(part.value if part.tag == END else coded(part.tag, part.value) for part in parts)


def zone_of(parts):
    """The zone's name, or None. The last one counts."""
    return next((part.value.decode("utf-8", "surrogateescape") for part in reversed(parts) if part.tag == ZONE), None)
