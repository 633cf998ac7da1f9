"""What a clerk may write, what it means to the last bit, and what is said of the rest."""
import struct

from katchidul_desk import orders, texts
from katchidul_desk.errors import Unreadable
from katchidul_desk.fields import PRESETS, SHORT

from . import checks
from .checks import cases, check

BASE = [("town", "Leeds"), ("month", "2026-10"), ("place", "53.8008, -1.5491"), ("method", "MWL")]


def tags(name, text):
    """The (tag, value) pairs that a line gives, or the sentence that refuses it."""
    try:
        return [(part.tag, part.value) for part in texts.parts_of(name, text)]
    except Unreadable as why:
        return str(why)


def degrees(tag, number):
    return [(tag, struct.pack(">d", number))]


def on_map(tag, *numbers):
    return [(tag, bytes(numbers))]


def why(name, text, *parts):
    """A value that is not understood, with what its sentence must have."""
    said = tags(name, text)
    for part in parts:
        check("what is said of %s: %s" % (name, text), (isinstance(said, str) and part in said) or said, True)


def coordinates():
    north = degrees(4, 53.8008)
    for text in ["53.8008", "+53.8008", "53.8008 N", "53.8008N", "53.8008 n", "53.8008°", "53.8008 °", "53.8008° N", "53.8008°N",
                 "N 53.8008", "N53.8008°",
                 "53.8008 north", "53.8008 degrees north".replace("degrees ", ""), "53.8008\u00ba N"]:
        check("latitude: " + text, tags("latitude", text), north)
    for text in ["-1.5491", "\u22121.5491", "\u20131.5491", "1.5491 W", "1.5491°W", "W 1.5491", "1.5491 west"]:
        check("longitude: " + text, tags("longitude", text), degrees(5, -1.5491))
    check("south", tags("latitude", "33.8688 S"), degrees(4, -33.8688))
    check("degrees and minutes", tags("latitude", "53 48 N"), on_map(18, 0, 53, 48, 0, 0))
    check("with their marks", tags("latitude", "53°48'N"), on_map(18, 0, 53, 48, 0, 0))
    check("west", tags("longitude", "1°32′57″W"), on_map(19, 1, 1, 32, 57, 0))
    check("the letter first", tags("longitude", "W 1 32 56.76"), on_map(19, 1, 1, 32, 56, 76))
    check("a tenth of a second", tags("latitude", "53°48'02.9\"N"), on_map(18, 0, 53, 48, 2, 90))
    # The float of the letter's form is that of the sign's, for every digit.
    for text in ["0.1", "89.99999999999999", "1e-5"[:1] + ".00001", "45.123456789012345"]:
        check("%s S" % text, tags("latitude", text + " S"), degrees(4, -float(text)))


def refused_coordinates():
    why("latitude", "53.8008, -1.5491", "place: 53.8008, -1.5491")
    why("latitude", "53,8008", "write 53.8008")
    why("latitude", "53.8008 E", "takes N or S", "other coordinate")
    why("longitude", "1.5491 N", "takes E or W")
    why("latitude", "-53.8008 S", "sign or a letter", "write 53.8008 S")
    why("latitude", "53 48 2.88", "lacks its letter, N or S", "write 53 48 2.88 N")
    why("longitude", "-1 32 56", "lacks its letter, E or W", "write 1 32 56 W")
    why("latitude", "54 46 31.080 N", "hundredths")
    for text, seconds in [("53° 48.048' N", "53 48 2.88 N"), ("53 48.048 N", "53 48 2.88 N"), ("53°48.5'N", "53 48 30.00 N"),
                          ("53 59.99999 N", "54 0 0.00 N"), ("53 48.123456 N", "53 48 7.41 N")]:
        why("latitude", text, "decimals of a minute are written as seconds: write " + seconds)
    why("latitude", "north", "54.7753 N", "54 46 31.08 N")
    why("latitude", "9" * 300000, "too long")
    why("fajr angle", "9" * 300000, "too long")
    why("place", "9" * 300000, "too long")


def places():
    both = degrees(4, 53.8008) + degrees(5, -1.5491)
    for text in ["53.8008, -1.5491", "53.8008,-1.5491", "53.8008; \u22121.5491", "(53.8008, -1.5491)", "53.8008 -1.5491",
                 "53.8008 N, 1.5491 W",
                 "53.8008° N, 1.5491° W", "1.5491 W, 53.8008 N", "53.8008N 1.5491W", "N53.8008 W1.5491"]:
        check("place: " + text, tags("place", text), both)
    wiki = on_map(18, 0, 53, 47, 51, 0) + on_map(19, 1, 1, 32, 37, 0)
    for text in ["53°47′51″N 1°32′37″W", "53°47'51\"N, 1°32'37\"W", "53 47 51 N 1 32 37 W", "1°32′37″W 53°47′51″N"]:
        check("place: " + text, tags("place", text), wiki)
    why("place", "53.8008", "with a comma between")
    why("place", "53.8008, -1.5491, 30", "with a comma between")
    for text in ("53,8008, -1,5491", "53,8008; -1,5491", "53,8008 -1,5491", "53,8008,-1,5491"):
        why("place", text, "decimals are written behind a point: write 53.8008, -1.5491")
    why("place", "Leeds", "with a comma between")
    why("place", "53.8008, 1.5491 N", "takes E or W")
    why("place", "", "with a comma between")


def methods():
    names = [preset.name for preset in PRESETS]
    for short, name in SHORT.items():
        for text in (short, short.lower()):
            check("method: " + text, tags("method", text), [(6, bytes([names.index(name)]))])
    for text, name in [("MWL", "MuslimWorldLeague"), ("ISNA", "NorthAmerica"), ("Umm al-Qura", "UmmAlQura"),
                       ("Muslim World League", "MuslimWorldLeague")]:
        check("method: " + text, tags("method", text), [(6, bytes([names.index(name)]))])
    why("method", "Muslim World Leage", "did you mean MuslimWorldLeague?")
    why("method", "MLW", "did you mean MWL?")
    why("method", "Karachhi", "did you mean Karachi?")
    why("madhab", "Hanfi", "did you mean Hanafi?")
    why("minutes", "magrib 3", "did you mean maghrib?")
    why("lattitude", "1", "did you mean latitude?")
    check("time zone: Europe/London", tags("time zone", "Europe/London"), tags("zone", "Europe/London"))
    check("far from any", "did you mean" in tags("method", "xyzzy"), False)


def days():
    first = lambda year, month, day: (2, struct.pack(">HBB", year, month, day))
    check("month: 2026-12", tags("month", "2026-12"), [first(2026, 12, 1), (3, b"\x1f")])
    check("month: February 2028", tags("month", "February 2028"), [first(2028, 2, 1), (3, b"\x1d")])
    check("month: feb 2027", tags("month", "feb 2027"), [first(2027, 2, 1), (3, b"\x1c")])
    why("month", "2026-13", "there is no month 13")
    why("month", "Decembre 2026", "2026-12 or December 2026")
    year = orders.make("from: 2026-09-01\nto: 2027-07-31\n", BASE[:1] + BASE[2:]).order
    check("from and to", orders.fields(year)["rows"], "334")
    check("in one line", orders.make("from: 2026-09-01 to: 2027-07-31", BASE[:1] + BASE[2:]).order, year)
    check("a first day and to", orders.make("first day: 2026-09-01\nto: 2027-07-31\n", BASE[:1] + BASE[2:]).order, year)
    check("an option over a month", orders.fields(orders.make("month: 2026-10", BASE[:1] + BASE[2:] + [("rows", "7")]).order)["rows"], "7")
    check("a month over a first day", orders.make("first day: 2026-01-01\nrows: 3\n", BASE).order, orders.make("", BASE).order)
    for text, part in [("to: 2026-10-31", "needs the first day"), ("from: 2026-10-02\nto: 2026-10-01", "are 0 days"),
                       ("from: 2025-01-01\nto: 2026-10-01", "are 639 days"),
                       ("to: 2026-06-31", "June has 30 days"), ("from: 2026-06-31\nto: 2026-07-01", "from: June has 30 days"),
                       ("from: 0000-01-01\nto: 2026-07-01", "0 is no year"),
                       ("month: 2026-10\nrows: 3", "month and rows both give the rows; leave one out"),
                       ("from: 2026-10-01\nfirst day: 2026-10-01", "from and first day both give the first day"),
                       ("rows: 3\nto: 2026-10-31", "rows and to both"),
                       ("place: 1, 2\nlatitude: 1", "place and latitude both give the latitude"),
                       ("clock: 60\nzone: Europe/London", "clock and zone both give the clock")]:
        try:
            said = str(orders.make(text))
        except Unreadable as told:
            said = str(told)
        check(text, part in said or said, True)


def clocks():
    for text, minutes in [("60", 60), ("+01:00", 60), ("-05:00", -300), ("\u221205:00", -300), ("+5:45", 345), ("00:00", 0), ("0", 0),
                          ("+0", 0), ("15", 15), ("-15", -15),
                          ("1 minutes", 1), ("1 minute", 1), ("-14 minutes", -14), ("+1 hour", 60), ("2 hours", 120), ("840", 840)]:
        check("clock: " + text, tags("clock", text), [(16, struct.pack(">h", minutes))])
    for number in [*range(-14, 0), *range(1, 15)]:
        why("clock", "%d" % number, "clock: %d minutes" % number, "clock: %s%02d:00" % ("-" if number < 0 else "+", abs(number)))
        order = orders.make("", BASE + [("clock", "%d minutes" % number)]).order
        check("shown and made again", orders.make(orders.show(order)).order, order)
    why("clock", "+1", "clock: +01:00", "clock: 1 minutes")
    why("clock", "1:00", "lacks its sign")
    why("clock", "+01:60", "minutes over 59")
    why("clock", "Europe/London", "no whole number")


def at(latitude, longitude):
    return BASE[:2] + [("latitude", latitude), ("longitude", longitude), BASE[3]]


def reasons():
    """The true reason of a refusal, by the field that is wrong."""
    fast = [("town", "Leeds"), ("first day", "2026-02-18"), ("place", "1, 2"), ("method", "0"), ("ramadan", "imsak 10, shift 0")]
    for options, part in [
            (fast + [("rows", "29")], "a Ramadan sheet has 30 rows"),
            ([("town", "Leeds"), ("first day", "2026-06-31"), ("rows", "3"), *BASE[2:]], "June has 30 days"),
            ([("town", "Leeds"), ("first day", "2026-02-29"), ("rows", "3"), *BASE[2:]], "February 2026 has 28 days"),
            ([("town", "Leeds"), ("first day", "2026-13-01"), ("rows", "3"), *BASE[2:]], "there is no month 13"),
            ([("town", "Leeds"), ("first day", "1899-12-31"), ("rows", "3"), *BASE[2:]], "1899 is no year from 1900 to 2199"),
            ([("town", "Leeds"), ("first day", "2199-12-30"), ("rows", "3"), *BASE[2:]], "there is room for 2"),
            ([("town", "Leeds"), ("first day", "2026-06-01"), ("rows", "401"), *BASE[2:]], "401 rows are not 1 to 400"),
            ([("town", "Leeds"), ("first day", "2026-06-01"), ("rows", "251, in one byte"), *BASE[2:]],
             "251 rows are not 1 to 250 in one byte"),
            (fast + [("rows", "30"), ("ramadan", "imsak 31, shift 0")][:1] + [("minutes", "fajr 721")], "fajr has 721 minutes"),
            (at("91", "0"), "91.0 is not -90 to 90 degrees"), (at("0", "181 0 0 W"), "181 0 0.00 W is over 180 degrees"),
            (at("10 99 0 N", "0"), "minutes or seconds over 59"), (BASE + [("clock", "841")], "841 is out of range"),
            (BASE + [("madhab", "3")], "3 is none of 1 Shafi, 2 Hanafi"), (BASE[:3], "method is missing"),
            (BASE[:2] + BASE[3:], "latitude is missing"),
            ([("town", "Leeds"), ("month", "2026-11"), *BASE[2:], ("ramadan", "imsak 10, shift 0")], "no first of Ramadan")]:
        made = orders.make("", options)
        check("%s: %s" % (options[1:], part), part in made.refusal.why if made.refusal else made, True)


def towns():
    for town, part in [("Tromsø", "so write Tromso"), ("Malmö", "so write Malmo"), ("Łódź", "so write Lodz"),
                       ("Şanlıurfa", "so write Sanliurfa"), ("Weißenburg", "so write Weissenburg"),
                       ("O\u2019Fallon", "so write O'Fallon"), ("São Paulo", "so write Sao Paulo"),
                       ("مكة", "write its name in the letters a to z"), ("Leeds\u200b", "control"),
                       ("Le\x07eds", "control")]:
        made = orders.make("", [("town", town), *BASE[1:]])
        check("town: " + town, made.refusal and part in made.refusal.why or made.refusal, True)
    check("half a pair", orders.make("", [("town", "\ud800"), *BASE[1:], ("zone", "\ud800")]).refusal.place, 1)
    made = orders.make("town: Leeds\udcff", BASE[1:])
    check("a town that is not UTF-8", "no letters" in made.refusal.why, True)


def forms():
    """A sentence at each field that is wrong, for a form."""
    check("no fault", orders.faults(BASE), {})
    wrong = orders.faults(BASE[:2] + [("place", "53,8, 1"), ("method", "MWX")])
    check("two faults", (sorted(wrong), wrong["method"].endswith("did you mean MWL?")), (["method", "place"], True))
    check("one field by two names", orders.faults(BASE + [("latitude", "91")]),
          {"latitude": "place and latitude both give the latitude; leave one out"})
    check("a fault of the order", orders.faults(at("91", "0")), {"latitude": "latitude: 91.0 is not -90 to 90 degrees"})
    check("a field that is missing", orders.faults(BASE[1:]), {"town": "town is missing"})
    check("days that end before they begin", list(orders.faults(BASE[:1] + [("from", "2026-10-02"), ("to", "2026-10-01")] + BASE[2:])),
          ["to"])


def both_ways():
    """Texts drawn from what a clerk may write give the order that the second reader accepts, and show gives its bytes back."""
    draw = checks.draw(40)
    for _ in range(5000 if checks.is_long else 300):
        latitude, longitude = round(draw.uniform(-90, 90), draw.randrange(8)), round(draw.uniform(-180, 180), draw.randrange(8))
        lines = ["town: Leeds",
                 draw.choice(["month: %d-%02d" % (draw.randint(1900, 2199), draw.randint(1, 12)),
                              "from: 2026-09-01\nto: 2027-07-%02d" % draw.randint(1, 31)]),
                 draw.choice(["place: %r, %r" % (latitude, longitude), "latitude: %r\nlongitude: %r°" % (latitude, longitude),
                              "place: %s %s, %s %s" % (fixed(latitude), "SN"[latitude >= 0], fixed(longitude), "WE"[longitude >= 0])]),
                 "method: " + draw.choice(list(SHORT)), "clock: " + draw.choice(["+01:00", "-330", "7 minutes", "0"])]
        draw.shuffle(lines)
        made = orders.make("\n".join(lines))
        check("accepted: %s" % lines, cases.refused_by(made.order), (0, 0))
        check("shown and made again: %s" % lines, orders.make(orders.show(made.order)).order, made.order)
        values, _ = cases.fields_of(made.order)
        check("the place of %s" % lines, (struct.unpack(">d", values[4])[0], struct.unpack(">d", values[5])[0]), (latitude, longitude))


def fixed(number):
    """A number's size without an exponent, which the letter's form does not have."""
    return ("%.9f" % abs(number)).rstrip("0") + "0"


TESTS = [coordinates, refused_coordinates, places, methods, days, clocks, reasons, towns, forms, both_ways]
