"""Coordinates: degrees as a number, or degrees, minutes, seconds and hundredths as on the map."""
import fractions
import math
import re
import struct
from typing import NamedTuple

from .errors import Unreadable
from .numbers import LONGEST, is_real, signs, whole_bytes
from .wording import quoted

IN_DEGREE = 360000
MARKS = str.maketrans({"\u00ba": "°", "\u02da": "°", "′": "'", "\u2019": "'", "″": '"', "\u201d": '"', "\u00a0": " ", "\u202f": " "})
ON_MAP = re.compile(r"""(\d{1,3})[° ] *(\d{1,3})(?:['] *| +(?=\d)| *(?=[NSEW]))(?:(\d{1,3})(?:\.(\d{1,2}))? *"? *)?([NSEW])""", re.ASCII)
WITH_LETTER = re.compile(r"([+-]?[\d.]+) *°? *([NSEW])", re.ASCII)
DIRECTIONS = re.compile(r"\b(north|south|east|west)\b", re.IGNORECASE)


class OnMap:
    """The map form: five bytes, sign, degrees, minutes, seconds and hundredths."""

    def __init__(self, most, letters):
        self.most, self.letters = most, letters
        self.takes = "up to %d degrees as on the map, 54 46 31.08 %s" % (most, " or ".join(letters))

    def write(self, text, lengths):
        parts = ON_MAP.fullmatch(tidied(text))
        if not parts or parts[5] not in self.letters:
            raise Unreadable("takes " + self.takes)
        hundredths = int((parts[4] or "").ljust(2, "0"))
        numbers = [self.letters.index(parts[5]), int(parts[1]), int(parts[2]), int(parts[3] or 0), hundredths]
        return b"".join(whole_bytes(number, [1]) for number in numbers)

    def words(self, value):
        sign, degrees, minutes, seconds, hundredths = value
        return "%d %d %d.%02d %s" % (degrees, minutes, seconds, hundredths, self.letters[sign] if sign < 2 else "sign %d" % sign)

    def fault(self, value, values):
        sign, _, minutes, seconds, hundredths = value
        if sign > 1:
            return "its sign is %d, and takes 0 or 1" % sign
        if minutes > 59 or seconds > 59 or hundredths > 99:
            return "%s has minutes or seconds over 59" % self.words(value)
        if abs(self.degrees(value)) > self.most:
            return "%s is over %d degrees" % (self.words(value), self.most)
        return None

    def degrees(self, value):
        """The float that is read: one rounding, and a zero without a sign."""
        sign, degrees, minutes, seconds, hundredths = value
        count = ((degrees * 60 + minutes) * 60 + seconds) * 100 + hundredths
        return (-count if sign == 1 else count) / IN_DEGREE

    def nearest(self, degrees):
        """The five bytes nearest to a float's exact value, a half away from zero; None out of range. This is the library's rule."""
        if not abs(degrees) <= self.most:
            return None
        count = math.floor(abs(fractions.Fraction(degrees)) * IN_DEGREE + fractions.Fraction(1, 2))
        seconds, hundredths = divmod(count, 100)
        return bytes([degrees < 0 < count, seconds // 3600, seconds // 60 % 60, seconds % 60, hundredths])


class Axis(NamedTuple):
    name: str
    degrees_tag: int
    map_tag: int
    on_map: OnMap


LATITUDE = Axis("latitude", 4, 18, OnMap(90, "NS"))
LONGITUDE = Axis("longitude", 5, 19, OnMap(180, "EW"))


def tidied(text):
    """The text with one mark for each meaning, and the letter of the direction after the numbers."""
    text = DIRECTIONS.sub(lambda word: word[0][0], signs(text).translate(MARKS)).strip().upper()
    front = re.fullmatch(r"([NSEW]) *(\d.*)", text, re.DOTALL)
    return "%s %s" % (front[2], front[1]) if front else text


def coordinate(text, axis):
    """The tag and the value of a coordinate as people write it."""
    if len(text) > LONGEST:
        raise Unreadable("%s is too long for a coordinate" % quoted(text))
    tidy = tidied(text)
    number = tidy[:-1].rstrip() if tidy.endswith("°") else tidy
    if is_real(number):
        return axis.degrees_tag, struct.pack(">d", float(number))
    parts = WITH_LETTER.fullmatch(tidy)
    if parts and is_real(parts[1]) and parts[1][0] not in "+-" and parts[2] in axis.on_map.letters:
        sign = "-" if parts[2] == axis.on_map.letters[1] else ""
        return axis.degrees_tag, struct.pack(">d", float(sign + parts[1]))
    parts = ON_MAP.fullmatch(tidy)
    if parts and parts[5] in axis.on_map.letters:
        return axis.map_tag, axis.on_map.write(tidy, [5])
    raise Unreadable(why_no_coordinate(tidy, axis))


def why_no_coordinate(tidy, axis):
    """What is wrong with a coordinate that is not understood, and what to write."""
    letters = " or ".join(axis.on_map.letters)
    if re.fullmatch(r"[^,;]*[,;] *[+-]?\d.*", tidy) and not re.fullmatch(r"[+-]?\d+,\d+ *°? *[NSEW]?", tidy):
        return "these are two numbers; write them as one place, place: %s" % tidy
    if re.fullmatch(r"[+-]?\d+,\d+ *°? *[NSEW]?", tidy):
        return "decimals are written behind a point: write %s" % tidy.replace(",", ".")
    if re.fullmatch(r".*[NSEW]", tidy) and tidy[-1] not in axis.on_map.letters:
        return "a %s takes %s, and %s is the other coordinate's" % (axis.name, letters, tidy[-1])
    if re.fullmatch(r"[+-].*[NSEW]", tidy):
        return "takes a sign or a letter, and not both: write %s" % tidy[1:]
    if re.fullmatch(r"[+-]?\d+[° ] *\d+[' .\d\"]*", tidy):
        return "lacks its letter, %s: write %s %s" % (letters, tidy.lstrip("+-"), axis.on_map.letters[tidy.startswith("-")])
    if re.fullmatch(r"\d+[° ] *\d+[' ] *\d+\.\d{3,} *\"? *[NSEW]", tidy):
        return "an order holds hundredths of a second, so two digits behind the point"
    decimals = re.fullmatch(r"(\d{1,3})[° ] *(\d{1,2})\.(\d{1,9})'? *([NSEW])", tidy, re.ASCII)
    if decimals:
        return "decimals of a minute are written as seconds: write %s" % with_seconds(*decimals.groups())
    return "takes a number of degrees as 54.7753 or 54.7753 %s, or as on the map, 54 46 31.08 %s" % ((axis.on_map.letters[0],) * 2)


def with_seconds(degrees, minutes, decimals, letter):
    """53 48.048 N as 53 48 2.88 N; to the nearest hundredth of a second, a half up."""
    hundredths = 6000 * (60 * int(degrees) + int(minutes)) + (12000 * int(decimals) // 10 ** len(decimals) + 1) // 2
    return "%d %d %d.%02d %s" % (hundredths // IN_DEGREE, hundredths // 6000 % 60, hundredths // 100 % 60, hundredths % 100, letter)


def place(text):
    """The (tag, value) of latitude and longitude from one text, as a map's page gives it."""
    if len(text) > 2 * LONGEST:
        raise Unreadable("%s is too long for a place" % quoted(text))
    first, second = halves(signs(text).translate(MARKS).strip(" \t()"))
    if re.search("[EW]", tidied(first)) and re.search("[NS]", tidied(second)):
        first, second = second, first
    return coordinate(first, LATITUDE), coordinate(second, LONGITUDE)


def halves(text):
    """A place's two texts: split at a comma, else after the letter of the first, else at the blank between two numbers."""
    parts = re.split("[,;]", text)
    with_commas = re.fullmatch(r"([+-]?\d+),(\d+) *[,; ] *([+-]?\d+),(\d+)", text)
    if with_commas:
        raise Unreadable("decimals are written behind a point: write %s.%s, %s.%s" % with_commas.groups())
    if len(parts) == 1:
        letters = re.fullmatch(r"(\S.*?[NSEW]) *([^NSEW]+[NSEW])", text, re.IGNORECASE) or \
            re.fullmatch(r"([NSEW][^NSEW]+) *([NSEW][^NSEW]+)", text, re.IGNORECASE)
        parts = letters.groups() if letters else text.split()
    if len(parts) != 2 or not all(re.search(r"\d", part) for part in parts):
        raise Unreadable("takes latitude and longitude with a comma between, as 53.8008, -1.5491")
    return [part.strip() for part in parts]


def in_words(degrees, axis):
    """53.8008 degrees north."""
    letter = axis.on_map.letters[degrees < 0]
    return "%r degrees %s" % (abs(degrees), {"N": "north", "S": "south", "E": "east", "W": "west"}[letter])
