"""Orders by a zone's clock, compared with a second reading of the time zone files."""
import calendar
import datetime
import os
import re
import struct
import subprocess
import tempfile
import zoneinfo

from katchidul_desk import orders, reading, zones
from katchidul_desk.errors import ZoneError

from . import almanac, checks
from .checks import cases, check, program, run
from .tzif import Zone

# Fifty zones with a town's place, and four whose clocks are across the date line from their place.
TOWNS = """Europe/London 51.5 -0.12, Europe/Dublin 53.33 -6.25, Europe/Lisbon 38.72 -9.13, Europe/Paris 48.87 2.33,
Europe/Berlin 52.5 13.37, Europe/Rome 41.9 12.48, Europe/Athens 37.97 23.72, Europe/Istanbul 41.02 28.97, Europe/Moscow 55.75 37.62, Europe/Helsinki 60.17 24.97,
Europe/Chisinau 47.0 28.83, Atlantic/Azores 37.73 -25.67, Africa/Casablanca 33.65 -7.58, Africa/Cairo 30.05 31.25, Africa/Lagos 6.45 3.4,
Africa/Nairobi -1.28 36.82, Africa/Johannesburg -26.25 28.0, Africa/Tunis 36.8 10.18, Africa/Juba 4.85 31.62, Asia/Riyadh 24.63 46.72,
Asia/Dubai 25.3 55.3, Asia/Tehran 35.67 51.43, Asia/Karachi 24.87 67.05, Asia/Kolkata 22.53 88.37, Asia/Kathmandu 27.72 85.32,
Asia/Dhaka 23.72 90.42, Asia/Yangon 16.78 96.17, Asia/Jakarta -6.17 106.8, Asia/Singapore 1.28 103.85, Asia/Manila 14.58 120.97,
Asia/Tokyo 35.65 139.73, Asia/Jerusalem 31.77 35.22, Asia/Gaza 31.5 34.47, Asia/Beirut 33.88 35.5, Asia/Amman 31.95 35.93,
Asia/Almaty 43.25 76.95, Australia/Sydney -33.87 151.22, Australia/Adelaide -34.92 138.58, Australia/Lord_Howe -31.55 159.08,
Pacific/Auckland -36.87 174.77, America/New_York 40.7 -74.0, America/Chicago 41.85 -87.65, America/Denver 39.73 -104.98,
America/Los_Angeles 34.05 -118.23, America/Halifax 44.65 -63.6, America/St_Johns 47.57 -52.72, America/Sao_Paulo -23.53 -46.62,
America/Santiago -33.45 -70.67, America/Havana 23.13 -82.37, America/Nuuk 64.18 -51.73"""
ACROSS = "Pacific/Chatham -43.95 -176.55, Pacific/Kiritimati 1.87 -157.33, Pacific/Apia -13.83 -171.73, Pacific/Tongatapu -21.13 -175.2"
YEARS = range(2020, 2038)
DIGITS = {0x1a: 0, 0x01: 1, 0x03: 2, 0x09: 3, 0x19: 4, 0x11: 5, 0x0b: 6, 0x1b: 7, 0x13: 8, 0x0a: 9}
LEEDS = [("town", "Leeds"), ("month", "2026-10"), ("place", "53.8008, -1.5491"), ("method", "MWL"), ("zone", "Europe/London")]


def towns(text):
    return [(name, latitude, longitude) for name, latitude, longitude in (town.split() for town in text.split(","))]


def instants(zone):
    """Every 47 hours of the years, so that each hour of a day is met, and the seconds on both sides of each change."""
    first, last = calendar.timegm((YEARS[0], 1, 1, 0, 0, 0)), calendar.timegm((YEARS[-1] + 1, 1, 1, 0, 0, 0))
    yield from range(first, last, 47 * 3600)
    for change in zone.changes(first, last):
        yield from (change - 1, change)


def clocks():
    """The clock of fifty zones through eighteen years, and around every change."""
    check("fifty zones", len(set(towns(TOWNS))), 50)
    for name, _, _ in towns(TOWNS) + towns(ACROSS):
        second, own = Zone(name), zones.find(name)
        wrong = [at for at in instants(second)
                 if zones.minutes(datetime.datetime.fromtimestamp(at, datetime.timezone.utc), own) * 60 != second.offset(at)]
        check("clocks of " + name, wrong, [])


# The second split: from the program's own text, by the second reading of the zone.


def sheet_rows(order):
    """(date, the six instants or None) of each row of the sheet."""
    for line in program("sheet", order).decode().splitlines()[2:]:
        date, *times = line.split(" ")
        midnight = calendar.timegm(datetime.date.fromisoformat(date).timetuple())
        six = times[-9:-3] if times[0] != "refused" else None
        yield date, six and [midnight + instant(time) for time in six]


def instant(time):
    days, hour, minute, second = map(int, re.fullmatch(r"([+-]\d)T(\d\d):(\d\d):(\d\d)", time).groups())
    return days * 86400 + hour * 3600 + minute * 60 + second


def cell_times(cells):
    """(the day, the six times as (hour, minute) or None) of each row of cells."""
    for at in range(0, len(cells), 39):
        row = cells[at:at + 39]
        day = DIGITS[row[1]] * 10 + DIGITS[row[2]]
        six = [row[at + 2:at + 6] for at in range(3, 39, 6)] if any(row[3:]) else None
        yield day, six and [(DIGITS[a] * 10 + DIGITS[b], DIGITS[c] * 10 + DIGITS[d]) for a, b, c, d in six]


def local(at, zone):
    minute = (at + zone.offset(at)) // 60 % 1440
    return minute // 60, minute % 60


def compare(name, order, zone):
    """The parts of a split against the sheet's rows: exactly the named rows are wrong. Returns how many parts there are."""
    made = zones.split(order, name)
    values = [cases.fields_of(part.order)[0] for part in made.parts]
    pages = [row for part in made.parts for row in cell_times(program("cells", part.order))]
    rows, named = list(sheet_rows(order)), {str(one.date) for one in made.on_pages}
    check("rows of " + name, (len(pages), sum(part.rows for part in made.parts)), (len(rows), len(rows)))
    wrong = set()
    for (date, six), (day, shown) in zip(rows, pages):
        if day != int(date[8:]) or (shown and [local(at, zone) for at in six]) != shown:
            wrong.add(date)
    check("rows that are wrong in " + name, wrong, named)
    offsets = [{zone.offset(at) // 60 for at in six or ()} for _, six in rows]
    starts = [sum(part.rows for part in made.parts[:at]) for at in range(len(made.parts))]
    for part, given, start in zip(made.parts, values, starts):
        own = offsets[start:start + part.rows]
        clock, = struct.unpack(">h", given[16])
        check("a clock of " + name, all(not row or clock in row for row in own), True)
        check("the first day of a part", cases.date_of(given[2]), datetime.date.fromisoformat(rows[start][0]))
    clocks = [struct.unpack(">h", given[16])[0] for given in values]
    check("neighbours of %s differ" % name, all(one != other for one, other in zip(clocks, clocks[1:])), True)
    return len(made.parts)


def an_order(latitude, longitude, *more):
    return orders.make("", [("town", "Town"), ("latitude", latitude), ("longitude", longitude), ("method", "MWL"), *more]).order


def splits():
    """A school year in each zone; with --long each of the years."""
    draw, parts = checks.draw(41), set()
    for name, latitude, longitude in towns(TOWNS):
        zone = Zone(name)
        for year in YEARS if checks.is_long else [draw.choice(YEARS)]:
            order = an_order(latitude, longitude, ("from", "%d-09-01" % year),
                             ("to", "%d-%s" % (year + 1, "07-31" if checks.is_long else "04-15")))
            parts.add(compare(name, order, zone))
    check("years with one clock, and with several", {1, 3} <= parts, True)
    name, latitude, longitude = "Europe/Oslo", "69.6492", "18.9553"
    order = an_order(latitude, longitude, ("from", "2026-03-20"), ("to", "2026-06-20"))
    compare(name, order, Zone(name))
    made = zones.split(order, name)
    check("refused days go with the days before them", [part.rows for part in made.parts], [9, 84])


def date_line():
    for name, latitude, longitude in towns(ACROSS):
        made = zones.split(an_order(latitude, longitude, ("month", "2026-06")), name)
        lines = list(zones.wrong_lines(made))
        check("%s is a day ahead" % name, (len(lines), lines[0]), (1, "30 rows would have their times under the wrong day: by the clocks "
                                                          "of %s the noon of row 2026-06-01 is on 2026-06-02" % name))


def leeds():
    """October in Leeds from nothing, in one command. The days around the change are compared with other sources: the sun with the
    Astronomical Almanac's formulas, the clock with the command date."""
    with tempfile.TemporaryDirectory() as folder:
        out = os.path.join(folder, "leeds.order")
        status, printed, said = run("make", *[word for name, value in LEEDS for word in ("--" + name, value)], "--out", out)
        check("leeds", (status, printed, sorted(os.listdir(folder))), (0, b"", ["leeds-1.order", "leeds-2.order"]))
        for line in ["Europe/London changes its clock within these rows, so there are 2 orders:",
                     "leeds-1.order: 2026-10-01 to 2026-10-24, rows: 24, clock: UTC+01:00",
                     "leeds-2.order: 2026-10-25 to 2026-10-31, rows: 7, clock: UTC+00:00",
                     "checked: the 186 times on the pages are right by the clocks of Europe/London"]:
            check("it says: " + line, line in said or said, True)
        written = [open(os.path.join(folder, "leeds-%d.order" % number), "rb").read() for number in (1, 2)]
        whole = orders.make("", LEEDS).order
        rows, pages = list(sheet_rows(whole)), [row for order in written for row in cell_times(program("cells", order))]
        for row in range(23, 27):
            by_date = [by_the_command_date(at) for at in rows[row][1]]
            check("%s in Leeds" % rows[row][0], pages[row], (row + 1, by_date))
            by_almanac = almanac.six_times(datetime.date.fromisoformat(rows[row][0]), 53.8008, -1.5491)
            apart = [abs(at - second.timestamp()) for at, second in zip(rows[row][1], by_almanac)]
            check("the sun of %s by the almanac, to half a minute and some seconds" % rows[row][0], [some for some in apart if some > 36],
                  [])
        check("Fajr before the change and after it", (pages[23][1][0], pages[24][1][0]), ((5, 52), (4, 54)))
        status, _, said = run("make", *[word for name, value in LEEDS for word in ("--" + name, value)])
        check("several orders need a name", (status, "give a name for them with --out" in said), (2, True))


def by_the_command_date(at):
    said = subprocess.run(["date", "-d", "@%d" % at, "+%H %M"], env={"TZ": "Europe/London", "PATH": os.environ["PATH"]},
                          capture_output=True, check=True)
    return tuple(map(int, said.stdout.split()))


def one_clock():
    """Without a change there is one order, under the name that was given, and on standard output too."""
    options = [("month", "2026-06") if name == "month" else (name, value) for name, value in LEEDS]
    words = [word for name, value in options for word in ("--" + name, value)]
    wanted = orders.make("", [*options[:-1], ("clock", "+01:00")]).order
    status, printed, said = run("make", *words)
    check("June in Leeds", (status, printed), (0, wanted))
    check("what is said", said,
          "Europe/London is UTC+01:00 for all rows, 2026-06-01 to 2026-06-30\n"
          "checked: the 180 times on the pages are right by the clocks of Europe/London\n")
    with tempfile.TemporaryDirectory() as folder:
        open(os.path.join(folder, "leeds-1.order"), "w").close()
        status, _, said = run("make", *words, "--out", os.path.join(folder, "leeds.order"))
        check("its file", (status, sorted(os.listdir(folder))), (0, ["leeds-1.order", "leeds.order"]))
        check("an order of an earlier run is told", "leeds-1.order is there from an earlier run" in said, True)


def ramadan():
    """Chicago's clocks change inside Ramadan 1447."""
    text = (b"town: Chicago\nfirst day: 2026-02-18\nrows: 30\nplace: 41.8781, -87.6298\nmethod: ISNA\nzone: America/Chicago\n"
            b"ramadan: imsak 10, shift 0\n")
    with tempfile.TemporaryDirectory() as folder:
        status, _, said = run("make", "-", "--out", os.path.join(folder, "fast.order"), given=text)
        check("three orders", (status, sorted(os.listdir(folder))), (0, ["fast-1.order", "fast-2.order", "fast.order"]))
        made = {name: open(os.path.join(folder, name), "rb").read() for name in os.listdir(folder)}
    for line in ["A Ramadan order can't be split. fast.order is for the sheet, which is in UTC and has imsak.",
                 "fast-1.order and fast-2.order are plain orders of the same rows, for the embosser: the cells have no imsak."]:
        check("it says: " + line, line in said or said, True)
    check("the Ramadan order has imsak and no clock",
          (20 in cases.fields_of(made["fast.order"])[0], 16 in cases.fields_of(made["fast.order"])[0]), (True, False))
    check("its sheet", b"date imsak fajr" in program("sheet", made["fast.order"]), True)
    plain = [cases.fields_of(made["fast-%d.order" % number])[0] for number in (1, 2)]
    check("the plain ones have a clock and no imsak", [(20 in values, struct.unpack(">h", values[16])[0], values[3]) for values in plain],
          [(False, -360, b"\x12"), (False, -300, b"\x0c")])
    zone = Zone("America/Chicago")
    pages = [row[1] for number in (1, 2) for row in cell_times(program("cells", made["fast-%d.order" % number]))]
    check("every time", pages, [[local(at, zone) for at in six] for _, six in sheet_rows(made["fast.order"])])
    status, printed, _ = run("table", "-", given=text)
    check("the table has imsak by the clocks there", (status, b"Sun 2026-03-08 05:48    05:58 " in printed), (0, True))
    status, printed, said = run("make", "-", "--zone", "Asia/Karachi", given=text)
    check("without a change it is one order", (status, cases.fields_of(printed)[0][20], reading.clock(printed)), (0, b"\x0a\1", 300))


def wrong_rows():
    """A Fajr before the change of its night: no clock is right for that row, and it is named."""
    words = ["--town", "Tromso", "--month", "2026-03", "--place", "69.6492, 18.9553", "--method", "MWL", "--zone", "Europe/Oslo"]
    with tempfile.TemporaryDirectory() as folder:
        out = os.path.join(folder, "tromso.order")
        status, printed, said = run("make", *words, "--out", out)
        check("nothing is written", (status, printed, os.listdir(folder)), (1, b"", []))
        check("the row is named",
              "2026-03-29: one clock can't be right for all times of this row: fajr is 23:53 by the clocks there, "
              "and the page would show 00:53" in said, True)
        check("--anyway writes it", (run("make", *words, "--anyway", "--out", out)[0], sorted(os.listdir(folder))),
              (0, ["tromso-1.order", "tromso-2.order"]))
    check("no BRF", run("brf", *words)[:2], (1, b""))
    check("--anyway has it", run("brf", *words, "--anyway")[1].count(b"\r\n"), 31)


def names():
    for name, part in [("Europe/Londn", "did you mean Europe/London?"), ("europe/london", "did you mean Europe/London?"),
                       ("London", "did you mean Europe/London?"), ("Chicago", "did you mean America/Chicago?"),
                       ("Leeds", "as Europe/London"), ("", "as Europe/London"),
                       ("../../etc/passwd", "is no time zone"), ("Europe", "is no time zone"), ("right/Europe/London", "is no time zone"),
                       ("zone.tab", "is no time zone"), ("/etc/localtime", "is no time zone"), ("a" * 300, "is no time zone"),
                       ("Eur\0ope", "is no time zone"), ("\udcff", "is no time zone")]:
        try:
            said = str(zones.find(name))
        except ZoneError as told:
            said = str(told)
        check("zone: %.40r" % name, part in said or said, True)
    known, zoneinfo.available_timezones = zoneinfo.available_timezones, set
    zoneinfo.reset_tzpath(to=[])
    zoneinfo.ZoneInfo.clear_cache()
    try:
        zones.find("Europe/London")
    except ZoneError as told:
        check("no time zone data", str(told),
              "this computer has no time zone data; install the package tzdata (on Debian: apt install tzdata)")
    zoneinfo.available_timezones = known
    zoneinfo.reset_tzpath()
    order = an_order("6.3", "-10.78", ("month", "1950-06"))
    try:
        check("clocks with seconds", zones.split(order, "Africa/Monrovia").parts, "a fault")
    except ZoneError as told:
        check("clocks with seconds", "whole minutes" in str(told), True)
    status, _, said = run("make", "--zone", "Europe/Oslo", "-",
                          given="\n".join("%s: %s" % pair for pair in LEEDS[:-1]).encode() + b"\nclock: 60\n")
    check("a zone as an option replaces the text's clock", status, 2 if "--out" in said else 0)
    far = [("place", "53.8008, 91.5491") if name == "place" else (name, value) for name,
           value in LEEDS if name != "month"] + [("month", "2026-06")]
    status, _, said = run("make", *[word for name, value in far for word in ("--" + name, value)])
    check("a noon at night", (status, "do the place and the zone belong together?" in said), (0, True))


TESTS = [clocks, splits, date_line, leeds, one_clock, ramadan, wrong_rows, names]
