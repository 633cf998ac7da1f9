"""The fields of an order. docs/ORDERS.md has the same tables, and tests/order_document compares both with the library."""
from typing import Any, NamedTuple, Sequence

from .dates import Day
from .kinds import Choice, Clock, Degrees, Minutes, Ramadan, Rows, Whole
from .places import LATITUDE, LONGITUDE
from .towns import Town
from .wording import plain


class Preset(NamedTuple):
    """What a method brings that an order may leave out. The names are those of the tags."""
    name: str
    fajr_angle: float
    isha_angle: float
    isha_interval: int
    rounding: str


PRESETS = [
    Preset("MuslimWorldLeague", 18.0, 17.0, 0, "Nearest"),
    Preset("Egyptian", 19.5, 17.5, 0, "Nearest"),
    Preset("Karachi", 18.0, 18.0, 0, "Nearest"),
    Preset("UmmAlQura", 18.5, 0.0, 90, "Nearest"),
    Preset("Dubai", 18.2, 18.2, 0, "Nearest"),
    Preset("MoonsightingCommittee", 18.0, 18.0, 0, "Nearest"),
    Preset("NorthAmerica", 15.0, 15.0, 0, "Nearest"),
    Preset("Kuwait", 18.0, 17.5, 0, "Nearest"),
    Preset("Qatar", 18.0, 0.0, 90, "Nearest"),
    Preset("Singapore", 20.0, 18.0, 0, "Up"),
    Preset("Tehran", 17.7, 14.0, 0, "Nearest"),
    Preset("Turkey", 18.0, 17.0, 0, "Nearest"),
    Preset("Other", 0.0, 0.0, 0, "Nearest"),
]
# The usual short names of methods. A name that means other angles elsewhere is not among them.
SHORT = {"MWL": "MuslimWorldLeague", "Egypt": "Egyptian", "EGAS": "Egyptian", "UISK": "Karachi", "Makkah": "UmmAlQura",
         "Mecca": "UmmAlQura", "UQU": "UmmAlQura", "MCW": "MoonsightingCommittee", "Moonsighting": "MoonsightingCommittee",
         "ISNA": "NorthAmerica", "MUIS": "Singapore", "Diyanet": "Turkey"}

# The value of a missing tag: a text, or one of these four.
REFUSED, THE_METHODS, THE_OTHERS, NONE = object(), object(), object(), object()
METHOD, CLOCK = 6, 16


class Tag(NamedTuple):
    number: int
    name: str
    lengths: Sequence[int]
    kind: Any
    missing: Any


TAGS = {tag.number: tag for tag in [
    Tag(1, "town", range(1, 41), Town(), REFUSED),
    Tag(2, "first day", [4], Day(), REFUSED),
    Tag(3, "rows", [1, 2], Rows(), REFUSED),
    Tag(4, "latitude", [8], Degrees(-90, 90), REFUSED),
    Tag(5, "longitude", [8], Degrees(-180, 180), REFUSED),
    Tag(METHOD, "method", [1], Choice(*(preset.name for preset in PRESETS), short=SHORT), REFUSED),
    Tag(7, "madhab", [1], Choice("Shafi", "Hanafi", first=1), "Shafi"),
    Tag(8, "high latitude rule", [1], Choice("MiddleOfTheNight", "SeventhOfTheNight", "TwilightAngle"), "MiddleOfTheNight"),
    Tag(9, "rounding", [1], Choice("Nearest", "Up", "None"), THE_METHODS),
    Tag(10, "shafaq", [1], Choice("General", "Ahmer", "Abyad"), "General"),
    Tag(11, "minutes", [12], Minutes(), "0 0 0 0 0 0"),
    Tag(12, "fajr angle", [8], Degrees(0, 30), THE_METHODS),
    Tag(13, "isha angle", [8], Degrees(0, 30), THE_METHODS),
    Tag(14, "isha interval", [2], Whole(0, 1440, " minutes"), THE_METHODS),
    Tag(15, "carry", [1], Choice("Stops", "Carries"), "Stops"),
    Tag(CLOCK, "clock", [2], Clock(), "0"),
    Tag(17, "southern", [1], Choice("Unreduced", "StartsAgain"), "Unreduced"),
    Tag(18, "map latitude", [5], LATITUDE.on_map, THE_OTHERS),
    Tag(19, "map longitude", [5], LONGITUDE.on_map, THE_OTHERS),
    Tag(20, "ramadan", [2], Ramadan(), NONE),
]}
NAMES = {number: tag.name for number, tag in TAGS.items()}
BY_NAME = {plain(tag.name): tag for tag in TAGS.values()}
AXES = {axis.degrees_tag: axis for axis in (LATITUDE, LONGITUDE)}
# The two tags of a coordinate, in degrees and as on the map; of every other field the one tag.
MAPS = {axis.degrees_tag: axis.map_tag for axis in AXES.values()}
FLOATS = {axis.map_tag: axis.degrees_tag for axis in AXES.values()}
