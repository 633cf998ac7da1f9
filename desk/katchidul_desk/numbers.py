"""Numbers as texts have them, and as the bytes of an order."""
import re

from .errors import Unreadable
from .wording import quoted

REAL = re.compile(r"[+-]?((\d+\.?\d*|\.\d+)(e[+-]?\d+)?|nan|inf(inity)?)", re.ASCII | re.IGNORECASE)
WHOLE = re.compile(r"[+-]?\d+", re.ASCII)
# A float's shortest digits are 17 and an exponent. The limit keeps a pasted file from being worked on as a number.
LONGEST = 60


def signs(text):
    """The text with the minus sign of books, and the dash that writing programs put in its place, as a hyphen."""
    return text.replace("\u2212", "-").replace("\u2013", "-")


def whole(text):
    text = signs(text)
    if not WHOLE.fullmatch(text) or len(text) > 20:
        raise Unreadable("%s is no whole number that an order can hold" % quoted(text))
    return int(text)


def whole_bytes(number, lengths, signed=False):
    """A number in the shortest of the lengths that holds it."""
    for length in lengths:
        try:
            return number.to_bytes(length, "big", signed=signed)
        except OverflowError:
            pass
    raise Unreadable("%d does not fit in %s" % (number, byte_count(lengths)))


def byte_count(lengths):
    shortest, longest = min(lengths), max(lengths)
    words = "%d" % longest if shortest == longest else "%d %s %d" % (shortest, "or" if len(lengths) == 2 else "to", longest)
    return words + (" byte" if longest == 1 else " bytes")


def is_real(text):
    return len(text) <= LONGEST and REAL.fullmatch(text) is not None


def hexadecimal(text):
    try:
        return bytes.fromhex(text)
    except ValueError:
        raise Unreadable("takes bytes in hexadecimal, two digits each") from None
