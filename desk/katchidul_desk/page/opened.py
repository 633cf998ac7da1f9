"""A text or an order of the folder, put into the form's fields."""
import re

from .. import orders, reading
from ..errors import DeskError
from ..fields import TAGS
from ..kinds import Choice
from . import files, form


def choice(tag, words):
    """The value in a list: MuslimWorldLeague for 0 MuslimWorldLeague."""
    return re.sub("^[0-9]+ ", "", words) if isinstance(tag.kind, Choice) else words


def filled(text):
    """The form's values for a text. The order is made and read again, so that every way to write a text is understood. Raises the desk's
    errors for a text that the form can't show."""
    made = orders.make(text)
    if made.refusal:
        raise DeskError(made.refusal.why)
    given = orders.fields(made.order)
    found = dict.fromkeys((field.name for field in form.FIELDS), "")
    found.update({tag.name: choice(tag, given[tag.name]) for tag in TAGS.values() if tag.name in given and tag.name in found})
    days = reading.days(made.order)
    place = "%s, %s" % (given["latitude"], given["longitude"])
    return {**found, "place": place, "zone": made.zone or "", "from": days[0].isoformat(), "to": days[-1].isoformat()}


def values(folder, name):
    """The form's values for a file of the folder."""
    text = files.opened(folder, name)
    try:
        return filled(text)
    except DeskError as why:
        raise DeskError("%s can't be put into the form: %s" % (name, why)) from None
