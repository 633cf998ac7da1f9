"""The kinds of value that an order's fields have. Each has `takes`, its range in words, and

    write(text, lengths)     the bytes that a text gives, in range or not
    words(value)             the text that gives them, when there is one
    fault(value, values)     why the programs refuse them, or None; `values` are the order's, by tag"""
import re
import struct

from .dates import LAST_DAY, date_of
from .errors import Unreadable
from .numbers import is_real, signs, whole, whole_bytes
from .ramadan import ROWS as RAMADAN_ROWS
from .wording import BLANKS, did_you_mean, plain, quoted

PRAYERS = ("fajr", "sunrise", "dhuhr", "asr", "maghrib", "isha")
DATE_TAG, RAMADAN_TAG = 2, 20


class Whole:
    def __init__(self, low, high, unit=""):
        self.low, self.high = low, high
        self.takes = "%d to %d%s" % (low, high, unit)

    def write(self, text, lengths):
        return whole_bytes(whole(text), lengths, self.low < 0)

    def words(self, value):
        return "%d" % self.number(value)

    def number(self, value):
        return int.from_bytes(value, "big", signed=self.low < 0)

    def fault(self, value, values):
        number = self.number(value)
        return None if self.low <= number <= self.high else "%d is out of range, which is %s" % (number, self.takes)


class Clock(Whole):
    """Minutes from UTC. A small number is asked for in words, since +1 is more often meant as an hour."""
    least = 15

    def __init__(self):
        super().__init__(-840, 840, " minutes from UTC to the clock that the cells show, or as +01:00")

    def write(self, text, lengths):
        text = signs(text)
        hours = re.fullmatch(r"([+-]?)(\d{1,2}):(\d{2})", text, re.ASCII)
        if hours:
            return self.from_hours(*hours.groups())
        named = re.fullmatch(r"([+-]?\d+) *(minutes?|hours?)", text, re.ASCII | re.IGNORECASE)
        if named:
            return whole_bytes(whole(named[1]) * (60 if named[2][0] in "hH" else 1), [2], signed=True)
        number = whole(text)
        if 0 < abs(number) < self.least:
            raise Unreadable("%d is a number of minutes. For hours write clock: %s%02d:00; for minutes write clock: %d minutes"
                             % (number, "-" if number < 0 else "+", abs(number), number))
        return whole_bytes(number, [2], signed=True)

    def from_hours(self, sign, hours, minutes):
        if not sign and (int(hours) or int(minutes)):
            raise Unreadable("lacks its sign: write +%s:%s east of Greenwich, -%s:%s west of it" % (2 * (hours, minutes)))
        if int(minutes) > 59:
            raise Unreadable("%s:%s has minutes over 59" % (hours, minutes))
        number = int(hours) * 60 + int(minutes)
        return whole_bytes(-number if sign == "-" else number, [2], signed=True)

    def words(self, value):
        number = self.number(value)
        return "%d minutes" % number if 0 < abs(number) < self.least else "%d" % number


class Rows:
    """One byte up to 250 and two above it, unless the text says which; one byte says no more than 250."""
    most = {1: 250, 2: 400}
    sizes = {1: ", in one byte", 2: ", in two bytes"}
    takes = ("1 to 400, the last by %s; written in one byte up to 250, in two above it or if the text says so (30, in two bytes)"
             % LAST_DAY)

    def usual(self, number):
        return 1 if number <= self.most[1] else 2

    def write(self, text, lengths):
        digits, said = re.fullmatch(r"([^,]*)(.*)", text, re.DOTALL).groups()
        number = whole(digits.strip(BLANKS))
        named = next((size for size, words in self.sizes.items() if plain(words) == plain(said)), None)
        if said and named is None:
            raise Unreadable("takes " + self.takes)
        return whole_bytes(number, [named or self.usual(number)])

    def words(self, value):
        number = int.from_bytes(value, "big")
        return "%d%s" % (number, "" if len(value) == self.usual(number) else self.sizes[len(value)])

    def fault(self, value, values):
        """The first day is judged before the rows, so here it is a date."""
        rows, most = int.from_bytes(value, "big"), self.most[len(value)]
        if RAMADAN_TAG in values and rows != RAMADAN_ROWS:
            return "a Ramadan sheet has 30 rows, and this one has %d" % rows
        if not 1 <= rows <= most:
            return "%d rows are not 1 to %d%s" % (rows, most, " in one byte" if len(value) == 1 else "")
        room = (LAST_DAY - date_of(values[DATE_TAG])).days + 1
        if room < rows:
            return "%d rows from %s end after %s; there is room for %d" % (rows, date_of(values[DATE_TAG]), LAST_DAY, room)
        return None


class Degrees:
    def __init__(self, low, high):
        self.low, self.high = low, high
        self.takes = "%d to %d degrees" % (low, high)

    def write(self, text, lengths):
        number = re.sub(r" *(°|degrees)$", "", signs(text), flags=re.IGNORECASE)
        if not is_real(number):
            raise Unreadable("takes a number of degrees as 18.5")
        return struct.pack(">d", float(number))

    def words(self, value):
        return repr(struct.unpack(">d", value)[0])

    def fault(self, value, values):
        return None if self.low <= float(self.words(value)) <= self.high else "%s is not %s" % (self.words(value), self.takes)


class Choice:
    """A number with a name; the text may have either, or both. `short` are other names with the one they mean."""

    def __init__(self, *names, first=0, short=None):
        self.names = dict(enumerate(names, first))
        self.takes = ", ".join("%d %s" % pair for pair in self.names.items())
        self.numbers = {plain(name): number for number, name in self.names.items()}
        self.numbers.update({plain(other): self.numbers[plain(name)] for other, name in (short or {}).items()})
        self.known = [*names, *(short or {})]

    def write(self, text, lengths):
        digits, name = re.fullmatch(r"([0-9]*)(.*)", text, re.DOTALL).groups()
        named = self.numbers.get(plain(name))
        if not text or name and named is None:
            raise Unreadable("takes %s%s" % (self.takes, did_you_mean(name, self.known)))
        number = whole(digits) if digits else named
        if name and number != named:
            raise Unreadable("%s is %d" % (self.names[named], named))
        return whole_bytes(number, lengths)

    def words(self, value):
        number = int.from_bytes(value, "big")
        return ("%d %s" % (number, self.names.get(number, ""))).rstrip()

    def fault(self, value, values):
        number = int.from_bytes(value, "big")
        return None if number in self.names else "%d is none of %s" % (number, self.takes)


class Minutes:
    takes = "six whole numbers, fajr to isha, -720 to 720; or some by name (dhuhr 5, isha -3)"

    def write(self, text, lengths):
        words = signs(text).replace(",", " ").lower().split()
        if words and words[0].isalpha():
            words = self.by_name(words)
        if len(words) != len(PRAYERS):
            raise Unreadable("takes " + self.takes)
        return b"".join(whole_bytes(whole(word), [2], signed=True) for word in words)

    def by_name(self, words):
        given = dict(zip(words[::2], words[1::2]))
        unknown = next((name for name in words[::2] if name not in PRAYERS), None)
        if unknown is not None:
            raise Unreadable("%s is none of %s%s" % (quoted(unknown), ", ".join(PRAYERS), did_you_mean(unknown, PRAYERS)))
        if len(words) != 2 * len(given):
            raise Unreadable("takes " + self.takes)
        return [given.get(prayer, "0") for prayer in PRAYERS]

    def words(self, value):
        return ", ".join("%s %d" % pair for pair in zip(PRAYERS, struct.unpack(">6h", value)))

    def fault(self, value, values):
        wrong = [pair for pair in zip(PRAYERS, struct.unpack(">6h", value)) if not -720 <= pair[1] <= 720]
        return "%s has %d minutes, which are not -720 to 720" % wrong[0] if wrong else None


class Ramadan:
    takes = "imsak 0 to 30 minutes before fajr, shift -1 to 1 days (imsak 10, shift 0); the rows are then 30, from the first of Ramadan on"

    def write(self, text, lengths):
        parts = re.fullmatch(r"imsak +(\S+?) *[, ] *shift +(\S+)", signs(text), re.ASCII | re.IGNORECASE)
        if not parts:
            raise Unreadable("takes " + self.takes)
        return whole_bytes(whole(parts[1]), [1]) + whole_bytes(whole(parts[2]) + 1, [1])

    def words(self, value):
        return "imsak %d, shift %d" % (value[0], value[1] - 1)

    def fault(self, value, values):
        if value[0] > 30:
            return "imsak is %d minutes before fajr, and takes 0 to 30" % value[0]
        return None if value[1] <= 2 else "the shift is %d days, and takes -1 to 1" % (value[1] - 1)
