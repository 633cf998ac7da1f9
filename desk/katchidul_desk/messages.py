"""Refusals in words. The sentences are the library's own; tests/order_document compares them."""
import datetime
from typing import NamedTuple


class Refusal(NamedTuple):
    """`why` is the reason in the desk's words, empty when only number and place are known."""
    number: int
    place: int
    why: str = ""


# The tag's name follows a colon.
WORDS = {
    1: "over 1,024 bytes, or cut in the field at byte",
    2: "unknown tag or wrong length in the field at byte",
    3: "a tag stands a second time in the field at byte",
    4: "the order lacks a field:",
    5: "a value is out of range, or the month lacks the day:",
    6: "the sun has no transit (day 0 is the row's date), day",
    7: "the sun does not rise (day 0 is the row's date), day",
    8: "the sun does not set (day 0 is the row's date), day",
    15: "a coordinate is given in both forms:",
    18: "the sheet does not begin on the 1st of Ramadan:",
}
# What a refused day lacks, by the refusal's number.
LACKS = {6: "transit of the sun", 7: "sunrise", 8: "sunset"}


def sentence(number, place, names):
    """The library's sentence. `names` are the fields' names by tag."""
    words = WORDS.get(number, "place")
    if words.endswith(":"):
        words += " %s, tag" % names[place] if place in names else " tag"
    return "Refusal %d: %s %d" % (number, words, place)


def refused_day(date, number, day):
    """Why a row has no times. A row needs the sun of its own date, day 0, and of the two days after it."""
    needed = ", which this row needs too" if day else ""
    return "there is no %s on %s%s" % (LACKS[number], date + datetime.timedelta(day), needed)
