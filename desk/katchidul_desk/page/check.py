"""What is wrong with a filled form: a sentence for each field, also while others are still blank."""
import functools
import zoneinfo

from .. import orders, texts, zones
from ..errors import DeskError, Unreadable
from ..fields import TAGS
from ..wording import plain
from . import form

# What an order must have, by the field that asks for it.
NEEDED = {"town": "Write the town's name.", "place": "Write the place's latitude and longitude.", "method": "Choose a method."}
# The form's field in place of an order's field that the form does not have.
FIELD = {"firstday": "from", "rows": "to", "latitude": "place", "longitude": "place"}


def as_sentence(why):
    """With a capital, unless it begins with the name of a file, and with a full stop."""
    text = str(why)
    start = text[:1].upper() if text.split(" ")[0].isalpha() else text[:1]
    return start + text[1:] + ("" if text.endswith((".", "?")) else ".")


def value_fault(name, value):
    """What is wrong with one value by itself, or None."""
    try:
        parts = texts.option_parts(name, value)
    except Unreadable as why:
        # The desk's sentence begins with the option's name.
        return str(why).partition(": ")[2]
    # The rows are counted from both days, and belong to the whole form.
    for part in (part for part in parts if part.tag in TAGS and part.tag != texts.ROWS_TAG):
        kind = TAGS[part.tag].kind
        fault = kind.fault(part.value, {}) if len(part.value) in TAGS[part.tag].lengths else "takes " + kind.takes
        if fault:
            return fault
    return None


def single(filled):
    """Each field by itself."""
    found = {name: value_fault(name, value) for name, value in form.options(filled)}
    return {name: as_sentence(fault) for name, fault in found.items() if fault}


@functools.lru_cache(maxsize=None)
def known_zones():
    """Kept, since reading the system's list takes longer than typing a name."""
    return zoneinfo.available_timezones()


def wrong_zone(filled):
    try:
        if filled["zone"] and filled["zone"] not in known_zones():
            zones.find(filled["zone"])
    except DeskError as why:
        return {"zone": as_sentence(why)}
    return {}


def missing(filled):
    said = {name: sentence for name, sentence in NEEDED.items() if not filled[name]}
    if filled["month"]:
        return said
    if not filled["from"] and not filled["to"]:
        said["month"] = "Write a month, or a first and a last day."
    elif not filled["to"]:
        said["to"] = "Write the last day too."
    elif not filled["from"]:
        said["from"] = "Write the first day too."
    return said


def twice(filled):
    """Two ways to say one thing."""
    said = {}
    if filled["month"] and (filled["from"] or filled["to"]):
        said["month"] = "Give the month, or the first and last day, and not both."
    if filled["zone"] and filled["clock"]:
        said["clock"] = "Give the time zone or the clock, and not both."
    return said


def field_of(name, filled):
    """The form's field for the name in a fault. A fault of no field is shown at the town, since a sentence needs a place."""
    name = FIELD.get(plain(name), plain(name))
    if name in ("from", "to") and filled["month"]:
        name = "month"
    return form.BY_PLAIN[name].name if name in form.BY_PLAIN else "town"


def whole(filled):
    """The fault of a form whose fields are each right, as when there are too many rows."""
    return {field_of(name, filled): as_sentence(fault) for name, fault in orders.faults(form.options(filled)).items()}


def faults(filled):
    """A sentence for each field that is wrong, by the field's name. Without any, the programs accept the order."""
    said = {**single(filled), **wrong_zone(filled), **missing(filled), **twice(filled)} or whole(filled)
    return {field.name: said[field.name] for field in form.FIELDS if field.name in said}
