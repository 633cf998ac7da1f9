"""Reads an order as document 01 says: its fields, and its refusal with the reason in words."""
import datetime
import struct
from typing import List, NamedTuple, Optional, Tuple

from .dates import date_of
from .fields import CLOCK, FLOATS, MAPS, REFUSED, TAGS, Tag
from .kinds import DATE_TAG, RAMADAN_TAG
from .messages import Refusal
from .numbers import byte_count
from .ramadan import opens_ramadan

LONGEST = 1024
HEADER = 3


class Reading(NamedTuple):
    """The fields as (offset, tag, value), and then what is left from the first field whose form is broken."""
    fields: List[Tuple[int, Tag, bytes]]
    rest: bytes
    refusal: Optional[Refusal]

    @property
    def values(self):
        return {tag.number: value for _, tag, value in self.fields}


def broken_form(order, at, seen):
    """What is wrong with the form of the field at an offset: a number and why, or None. The checks come in document 01's order."""
    if len(order) - at < HEADER:
        return 1, "the order ends inside a field's header"
    number, length = order[at], int.from_bytes(order[at + 1:at + HEADER], "big")
    if number not in TAGS:
        return 2, "tag %d is unknown" % number
    tag = TAGS[number]
    if number in seen:
        return 3, "%s (tag %d) is there a second time" % (tag.name, number)
    if length not in tag.lengths:
        return 2, "%s (tag %d) has %d bytes, and takes %s" % (tag.name, number, length, byte_count(tag.lengths))
    left = len(order) - at - HEADER
    if left < length:
        return 1, "the order ends inside %s (tag %d), after %d of %d bytes" % (tag.name, number, left, length)
    return None


def broken_values(fields):
    """The refusal for the first tag that is missing, else for a coordinate in both forms, else for the first value out of range, else for
    the first day of a Ramadan sheet."""
    values = {tag.number: value for _, tag, value in fields}
    for tag in TAGS.values():
        if tag.missing is REFUSED and tag.number not in values and MAPS.get(tag.number) not in values:
            return Refusal(4, tag.number, "%s is missing" % tag.name)
    for number, other in MAPS.items():
        if number in values and other in values:
            return Refusal(15, other, "%s is given both in degrees and as on the map" % TAGS[number].name)
    for number in sorted(values):
        fault = TAGS[number].kind.fault(values[number], values)
        if fault:
            return Refusal(5, number, "%s: %s" % (TAGS[FLOATS.get(number, number)].name, fault))
    return wrong_start(values)


def wrong_start(values):
    if RAMADAN_TAG not in values:
        return None
    day, shift = date_of(values[DATE_TAG]), values[RAMADAN_TAG][1] - 1
    if opens_ramadan(day, shift):
        return None
    return Refusal(18, 2, "%s is no first of Ramadan with shift %d; katchidul ramadan %d prints those that are" % (day, shift, day.year))


def read(order):
    if len(order) > LONGEST:
        return Reading([], order, Refusal(1, 0, "the order has more than 1,024 bytes"))
    fields, at = [], 0
    while at < len(order):
        broken = broken_form(order, at, {tag.number for _, tag, _ in fields})
        if broken:
            number, why = broken
            return Reading(fields, order[at:], Refusal(number, at, "at byte %d, %s" % (at, why)))
        end = at + HEADER + int.from_bytes(order[at + 1:at + HEADER], "big")
        fields.append((at, TAGS[order[at]], order[at + HEADER:end]))
        at = end
    return Reading(fields, b"", broken_values(fields))


def coded(number, value):
    """A field's bytes."""
    return bytes([number]) + len(value).to_bytes(2, "big") + value


def changed(order, values):
    """The order with these values by tag, None for a tag to leave out; every other field stays, byte for byte. The order is one that is
    read to its end."""
    kept = [(tag.number, value) for _, tag, value in read(order).fields]
    for number, value in values.items():
        at = next((at for at, field in enumerate(kept) if field[0] == number), None)
        if at is not None:
            kept[at:at + 1] = [] if value is None else [(number, value)]
        elif value is not None:
            at = next((at for at, field in enumerate(kept) if field[0] > number), len(kept))
            kept.insert(at, (number, value))
    return b"".join(coded(*field) for field in kept)


# What the desk asks of an order that is accepted.


def clock(order):
    """Minutes from UTC to the clock of its cells."""
    return struct.unpack(">h", read(order).values.get(CLOCK, bytes(2)))[0]


def first_day(order):
    return date_of(read(order).values[DATE_TAG])


def rows(order):
    return int.from_bytes(read(order).values[3], "big")


def days(order):
    """The date of each row."""
    return [first_day(order) + datetime.timedelta(row) for row in range(rows(order))]


def is_ramadan(order):
    return RAMADAN_TAG in read(order).values
