"""Orders from texts, and texts from orders."""
import struct
from typing import List, NamedTuple, Optional

from . import texts
from .errors import Unreadable
from .fields import AXES, CLOCK, FLOATS, MAPS, METHOD, NAMES, NONE, PRESETS, REFUSED, TAGS, THE_METHODS
from .messages import Refusal, sentence
from .places import in_words
from .reading import LONGEST, clock, read
from .wording import plain, utc_offset


class Made(NamedTuple):
    """`zone` is the text's, and the order then has no clock: zones.split makes the orders that have one."""
    order: bytes
    warnings: List[str]
    zone: Optional[str]
    refusal: Optional[Refusal]


def make(text, options=()):
    """The order of a text and of options, pairs of a name and a value, which replace the text's. Raises Unreadable for what is not
    understood. An order that the programs refuse is made too, and `warnings` say why they refuse it."""
    from_options = [part for name, value in options for part in texts.option_parts(name, value)]
    texts.say_what_is_given_twice(from_options)
    parts, as_listed = texts.text_parts(text)
    parts = texts.with_options(parts, from_options)
    order, zone = texts.joined(parts, as_listed), texts.zone_of(parts)
    refusal = read(order).refusal
    return Made(order, refusal_lines(refusal) if refusal else [], zone, refusal)


def faults(options):
    """A sentence for each field that is wrong, by its name, for a form that shows it at the field. A fault of no field has the name ''."""
    wrong = {}
    for name, value in options:
        try:
            texts.option_parts(name, value)
        except Unreadable as why:
            wrong[plain(name)] = str(why).partition(": ")[2]
    if wrong:
        return wrong
    try:
        refusal = make("", options).refusal
    except Unreadable as why:
        return {why.field or "": str(why)}
    if refusal is None:
        return {}
    place = FLOATS.get(refusal.place, refusal.place)
    return {plain(NAMES[place]) if refusal.number in (4, 5, 15, 18) else "": refusal.why}


def refusal_lines(refusal):
    return [refusal.why, sentence(refusal.number, refusal.place, NAMES)]


def refused_lines(refusal, name):
    """The same for a person at a terminal."""
    return ["%s is refused: %s" % (name, refusal.why), refusal_lines(refusal)[1]]


def fields(order):
    """The fields that an order has, in its words by their names; a coordinate has one name in either form."""
    return {TAGS[FLOATS.get(tag.number, tag.number)].name: tag.kind.words(value) for _, tag, value in read(order).fields}


# show


def field_line(tag, value):
    """A field as make reads it. It is given by its bytes if words would not give the same bytes back, as for a NaN of another pattern."""
    name, words = TAGS[FLOATS.get(tag.number, tag.number)].name, tag.kind.words(value)
    try:
        same = [(part.tag, part.value) for part in texts.parts_of(name, words)] == [(tag.number, value)]
    except Unreadable:
        same = False
    return "%s: %s" % (name, words) if same else "field %d: %s" % (tag.number, value.hex())


def missing_line(tag, preset):
    if tag.missing is REFUSED:
        return "# not given: %s, which an order must have" % tag.name
    if tag.missing is NONE:
        return "# not given: %s, so a sheet without imsak" % tag.name
    if tag.missing is not THE_METHODS:
        return "# not given: %s, so %s" % (tag.name, tag.kind.words(tag.kind.write(tag.missing, tag.lengths)))
    if preset is None:
        return "# not given: %s, so the method's" % tag.name
    brought = "%s" % getattr(preset, tag.name.replace(" ", "_"))
    return "# not given: %s, so the method's, %s" % (tag.name, tag.kind.words(tag.kind.write(brought, tag.lengths)))


def place_lines(values):
    """Each coordinate with its hemisphere, in degrees and as on the map."""
    for number, axis in AXES.items():
        value = values.get(number, values.get(MAPS[number]))
        if value is None or number in values and MAPS[number] in values:
            continue
        if number in values:
            degrees, exact = struct.unpack(">d", value)[0], "nearest to "
            on_map = axis.on_map.nearest(degrees)
        elif axis.on_map.fault(value, {}):
            continue
        else:
            degrees, exact, on_map = axis.on_map.degrees(value), "", value
        if on_map:
            yield "# %s: %s, %s%s on the map" % (axis.name, in_words(degrees, axis), exact, axis.on_map.words(on_map))


def show(order):
    """A text that makes the order again, byte for byte, with comments that say what it means; an order over 1,024 bytes has comments
    alone."""
    reading = read(order)
    values = reading.values
    lines = [field_line(tag, value) for _, tag, value in reading.fields]
    if list(values) != sorted(values):
        lines.insert(0, "fields: as listed")
    if reading.rest and len(order) <= LONGEST:
        lines.append("bytes: " + reading.rest.hex())
    elif len(order) <= LONGEST:
        lines += comments(order, values)
    if reading.refusal:
        lines += ["# " + line for line in refusal_lines(reading.refusal)]
    return "\n".join(lines) + "\n"


def comments(order, values):
    method = values.get(METHOD, b"\xff")[0]
    preset = PRESETS[method] if method < len(PRESETS) else None
    given = {*values, *(FLOATS[number] for number in values if number in FLOATS), *FLOATS}
    yield from (missing_line(tag, preset) for tag in TAGS.values() if tag.number not in given)
    yield from place_lines(values)
    if CLOCK in values:
        yield "# clock: %s" % utc_offset(clock(order))
