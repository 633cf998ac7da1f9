"""Orders made, shown and made again; what is said of damaged ones against the reader of tests/orders/cases.py; options over the text;
what is not understood."""
import os
import random
import re
import struct
import tempfile

from katchidul_desk import orders, reading
from katchidul_desk.errors import Unreadable
from katchidul_desk.fields import PRESETS, TAGS
from katchidul_desk.numbers import whole_bytes
from katchidul_desk.ramadan import first_days

from . import checks
from .checks import ROOT, cases, check, run

POLE = b"town: Pole\nfirst day: 2026-06-21\nrows: 1\nlatitude: 90\nlongitude: 0\nmethod: 0\n"
NOTE = "katchidul: note: there is no zone and no clock, so the pages show UTC; write zone: Europe/London or its like, or clock: 0\n"
POLE_ORDER = bytes.fromhex("01 0004 506f6c65 02 0004 07ea 06 15 03 0001 01 04 0008 4056800000000000 05 0008 0000000000000000 06 0001 00")


def made(text):
    return orders.make(text.decode("utf-8-sig", "surrogateescape")).order


def shown(order):
    """The lines that show an order, and its refusal or None."""
    return orders.show(order).splitlines(), reading.read(order).refusal


def by_the_paper(order):
    """Number and place by the other reader; 0 and 0 if it accepts the order."""
    return cases.refused_by(order)


def check_order(order):
    lines, refusal = shown(order)
    text = orders.show(order)
    check("number and place of %s" % order.hex(), (refusal.number, refusal.place) if refusal else (0, 0), by_the_paper(order))
    check("bytes that a terminal may take of %s" % order.hex(), all(32 <= ord(c) <= 126 or c == "\n" for c in text), True)
    if len(order) <= 1024:
        check("made again: %s" % order.hex(), made(text.encode()), order)


def random_orders():
    draw = random.Random(20260621)
    for order in cases.marked()[::1 if checks.is_long else 3]:
        check_order(order)
    for _ in range(5000 if checks.is_long else 500):
        check_order(cases.join(cases.good(draw)))
        check_order(cases.damaged(draw))


def random_texts():
    """Fields written by hand in rising order, with names in odd capitals: each order that the sheet reads can be made in words."""
    draw = random.Random(7)
    for _ in range(5000 if checks.is_long else 200):
        fields = sorted(cases.good(draw))
        lines = []
        for tag, value in fields:
            row = TAGS[tag]
            name = "".join(draw.choice([c.upper(), c.lower()]) for c in row.name).replace(" ", draw.choice([" ", "-", "_", ""]))
            lines.append("%s:%s%s" % (name, draw.choice(["", " ", "\t "]), row.kind.words(value)))
        draw.shuffle(lines)
        check("in words: %r" % lines, made("\r\n".join(lines).encode()), cases.join(fields))


def value(line):
    """The one field's value."""
    return made(line.encode())[3:]


def written():
    check("the Pole", made(POLE), POLE_ORDER)
    for text in ["54.7753", "-1.5849", "5e-324", "-0.0", "1.7976931348623157e308", "nan", "inf", "-inf", ".5", "5.", "+1E2", "0.1"]:
        check(text, value("latitude: " + text), struct.pack(">d", float(text)))
    for text in ["9", "singapore", "SINGAPORE", "9 Singapore"]:
        check(text, value("method: " + text), b"\x09")
    check("a name with blanks", value("method: muslim world-league"), b"\0")
    check("None is a rounding", value("rounding: none"), b"\2")
    check("a madhab from 1", value("madhab: Hanafi"), b"\2")
    check("a choice out of range", value("method: 200"), b"\xc8")
    check("minutes in order", value("minutes: 0 -3 5 0 0 720"), struct.pack(">6h", 0, -3, 5, 0, 0, 720))
    check("minutes by name", value("minutes: isha -3, Dhuhr 5"), struct.pack(">6h", 0, 0, 5, 0, 0, -3))
    check("an interval", value("isha interval: 1440"), b"\x05\xa0")
    for minutes, wanted in [(-840, None), (840, None), (-841, (5, 16)), (841, (5, 16))]:
        order = made(POLE + b"clock: %d" % minutes)
        lines, refusal = shown(order)
        check("clock: %d" % minutes, (order[-5:], lines[6]), (b"\x10\0\2" + struct.pack(">h", minutes), "clock: %d" % minutes))
        check("its refusal", refusal and (refusal.number, refusal.place), wanted)
    check("a town with a number sign", value("town: Hall #3: west"), b"Hall #3: west")
    check("a town with escapes", value(r"town: \x20a\\b\xff\x20"), b" a\\b\xff ")
    check("a town that is not ASCII", value("town: Troms\u00f8"), "Troms\u00f8".encode())
    check("a town that is not UTF-8", made(b"town: \xff\x85\x0b")[3:], b"\xff\x85\x0b")
    check("an empty town", made(b"town:"), b"\1\0\0")
    check("fields twice", made(b"field 99: 00 ff\nfield 99:\nrows: 1"), b"\3\0\1\1\x63\0\2\0\xff\x63\0\0")
    for text, coded in [("250", b"\xfa"), ("251", b"\0\xfb"), ("400", b"\1\x90"), ("30, in two bytes", b"\0\x1e"),
                        ("251, in one byte", b"\xfb")]:
        check("rows: " + text, made(b"rows: " + text.encode()), b"\3\0" + bytes([len(coded)]) + coded)
        check("shown", TAGS[3].kind.words(coded), text)
    for text in ["54 46 31.08 N", "54°46'31.08\"N", "54° 46' 31.08\" n", "54°46′31.08″N", "054 046 31.08N"]:
        check(text, made(("latitude: " + text).encode()), b"\x12\0\5\0\x36\x2e\x1f\x08")
    for text, coded in [("1 35 5.64 W", b"\1\1\x23\5\x40"), ("0 0 0 E", bytes(5)), ("180 0 0.5 e", b"\0\xb4\0\0\x32"),
                        ("200 99 99.99 W", b"\1\xc8ccc")]:
        check(text, made(b"longitude: " + text.encode()), b"\x13\0\5" + coded)
    for text, coded in [("imsak 10, shift 0", b"\x0a\1"), ("Imsak 0 Shift -1", b"\0\0"), ("imsak 30,shift 1", b"\x1e\2"),
                        ("imsak 255, shift 254", b"\xff\xff")]:
        check("ramadan: " + text, made(b"ramadan: " + text.encode()), b"\x14\0\2" + coded)
    check("as listed", made(b"fields: as listed\nbytes: 09\nrows: 1\nfield 2: 00\n"), b"\x09\3\0\1\1\2\0\1\0")
    check("comments and a byte order mark", made(b"\xef\xbb\xbf# June\r\n\r\n  # rows: 2\r\n rows : 1 \r\n"), b"\3\0\1\1")
    check("two lengths, the shorter first", whole_bytes(255, [1, 2]) + whole_bytes(256, [1, 2]), b"\xff\1\0")


def names_in(source):
    """A choice's names by their numbers, from its enum: a case that says no number has the one after the case before it."""
    names, number = {}, 0
    for name, said in re.findall(r"^    (\w+)(?: = (\d+))?,$", re.search(r"^pub enum \w+ \{\n(.*?)^\}", source, re.M | re.S)[1], re.M):
        number = int(said) if said else number
        names[number] = name
        number += 1
    return names


def tables():
    """The desk has the names and presets once more; here they are compared with the port's and the other reader's."""
    for tag, name in [(6, "method"), (7, "madhab"), (8, "high_altitude_rule"), (9, "rounding"), (10, "shafaq")]:
        with open(os.path.join(ROOT, "crates", "models", "src", name + ".rt")) as file:
            check("names of " + name, TAGS[tag].kind.names, names_in(file.read()))
    check("as many methods", len(PRESETS), len(cases.METHODS))
    for preset, (fajr, isha, _, interval, rounding, _) in zip(PRESETS, cases.METHODS):
        names = TAGS[9].kind.names
        check(preset.name, preset[1:], (fajr, isha, interval, names[rounding]))
    check("lengths", {tag: list(row.lengths) for tag, row in TAGS.items()}, {tag: list(lengths) for tag, lengths in cases.LENGTHS.items()})


def in_words():
    lines, _ = shown(made(POLE.replace(b"method: 0", b"method: 9")))
    check("a value with its name", lines[5], "method: 9 Singapore")
    check("the table's value", "# not given: madhab, so 1 Shafi" in lines, True)
    check("the method's value", "# not given: rounding, so the method's, 1 Up" in lines, True)
    on_map = made(POLE.replace(b"latitude: 90", b"latitude: 89 59 59.99 S"))
    lines, _ = shown(on_map)
    check("a coordinate as on the map", (lines[5], lines[-2:]), ("latitude: 89 59 59.99 S", [
        "# latitude: 89.99999722222222 degrees south, 89 59 59.99 S on the map",
        "# longitude: 0.0 degrees east, nearest to 0 0 0.00 E on the map"]))
    check("which lacks nothing", [line for line in lines if "itude, which" in line or "not given: map" in line], [])
    lines, refusal = shown(on_map + made(b"latitude: 1"))
    check("both forms", (lines[-2:], refusal.number), (["# latitude is given both in degrees and as on the map",
                                                        "# Refusal 15: a coordinate is given in both forms: map latitude, tag 18"], 15))
    lines, _ = shown(POLE_ORDER[:-1])
    check("fields up to the damage", lines[4:], ["longitude: 0.0", "bytes: 060001",
                                                  "# at byte 40, the order ends inside method (tag 6), after 0 of 1 bytes",
                                                  "# Refusal 1: over 1,024 bytes, or cut in the field at byte 40"])
    lines, _ = shown(POLE_ORDER[:7] + bytes.fromhex("63 0000"))
    check("an unknown tag", lines[1:], ["bytes: 630000", "# at byte 7, tag 99 is unknown",
                                        "# Refusal 2: unknown tag or wrong length in the field at byte 7"])
    check("a clock", shown(POLE_ORDER + b"\x10\0\2\xff\x88")[0][-1], "# clock: UTC-02:00")
    status, _, said = run("show", "-", given=POLE_ORDER)
    check("a good order's status", (status, said), (0, ""))
    status, printed, _ = run("show", "-", given=POLE_ORDER + bytes(2000))
    check("an order too long", (status, printed), (1, b"# the order has more than 1,024 bytes\n"
                                                      b"# Refusal 1: over 1,024 bytes, or cut in the field at byte 0\n"))
    check("a text is shown too", run("show", "-", given=POLE)[:2], (0, orders.show(POLE_ORDER).encode()))
    check("fields by name", orders.fields(POLE_ORDER), {"town": "Pole", "first day": "2026-06-21", "rows": "1", "latitude": "90.0",
                                                        "longitude": "0.0", "method": "0 MuslimWorldLeague"})


def unread_lines():
    """Each must be refused with its line's number, and nothing written."""
    for line in ["town Durham", "villages: 3", "first day: 1 June 2026", "first day: 2026-06", "first day: 70000-01-01",
                 "first day: 2026-256-01", "rows: many",
                 "rows: 65536", "rows: 256, in one byte", "rows: 3, in three bytes", "rows: -1", "rows: 1.0", "latitude: 54,7",
                 "latitude: north", "latitude: 1_0", "latitude:", "latitude: 54 46 31.08", "latitude: 54 46 31.08 E",
                 "latitude: 54 46 31.080 N", "longitude: 1 35 N", "latitude: 256 0 0 N", "fajr angle: 18 0 0 N", "method: Durham",
                 "method:",
                 "method: 1 Karachi", "method: 256", "minutes: 1 2 3 4 5", "minutes: noon 5", "minutes: dhuhr", "minutes: isha 1 isha 2",
                 "minutes: 0 0 0 0 0 32768",
                 "isha interval: 65536", "ramadan: 10 0", "ramadan: imsak 10", "ramadan: imsak 256, shift 0", "ramadan: imsak 10, shift -2",
                 "ramadan: imsak 10, shift 255",
                 r"town: a\b", r"town: \x4", "field 256: 00", "field 9: 0", "field: 00", "bytes: xy", "fields: sorted", "rows: \u0663",
                 "rows: " + "9" * 5000]:
        try:
            got = made(b"# first\n" + line.encode())
        except Unreadable as why:
            got = str(why)[:6]
        check("a line not understood: " + line[:40], got, "line 2")


def commands():
    with tempfile.TemporaryDirectory() as folder:
        text, out = os.path.join(folder, "pole.text"), os.path.join(folder, "pole.order")
        with open(text, "wb") as file:
            file.write(POLE)
        check("make to standard output", run("make", text), (0, POLE_ORDER, NOTE))
        check("make from standard input", run("make", "-", given=POLE), (0, POLE_ORDER, NOTE))
        check("and without a word", run("make", given=POLE), (0, POLE_ORDER, NOTE))
        check("make to a file", run("make", text, "--out", out), (0, b"", NOTE))
        check("without the note", run("make", text, "--clock", "0"), (0, POLE_ORDER + b"\x10\0\2\0\0", ""))
        with open(out, "rb") as file:
            check("what the file holds", file.read(), POLE_ORDER)
        status, printed, said = run("make", "-", "--out", out + "2", given=b"rows: 1\nrow: 2\n")
        check("a line not understood writes nothing", (status, printed, os.path.exists(out + "2")), (2, b"", False))
        check("and is told", said, "katchidul: standard input: line 2, 'row: 2': no field has the name 'row'; did you mean rows?\n")
        options(text)
        refused(text, out)
        check("help", run("--help")[0], 0)
        for words in [[], ["show", out + "3"], ["print", text], ["make", text, text], ["make", text, "--rows"],
                      ["make", text, "--row", "2"],
                      ["make", text, "--out"], ["make", text, "--rows", "--anyway"], ["show", "--anyway", out], ["show", "-x"], ["make"],
                      ["show"]]:
            status, printed, said = run(*words)
            check("usage %s" % words, (status, printed, said.count("\n")), (2, b"", 1))


def options(text):
    changed = POLE.replace(b"rows: 1", b"rows: 7").replace(b"longitude: 0", b"longitude: -1e-5")
    check("options over the text", run("make", "--rows", "7", text, "--longitude", "-1e-5"), (0, made(changed), NOTE))
    check("an option with its sign", run("make", "--anyway", text, "--latitude=-inf")[1], made(POLE.replace(b"90", b"-inf")))
    check("options alone",
          run("make", "--town", "Pole", "--method", "0", "--rows", "1", "--first-day", "2026-06-21", "--latitude", "90", "--longitude",
              "0"),
          (0, POLE_ORDER, NOTE))
    listed = b"fields: as listed\nmethod: 0\nrows: 1\nfield 3:\ntown: A"
    check("an option in the place of a field as listed", run("make", "--anyway", "-", "--rows=2", given=listed)[1],
          b"\6\0\1\0" b"\3\0\1\2" b"\1\0\1A")
    check("one form as an option over the other", run("make", text, "--latitude", "90 0 0 N")[1],
          made(POLE.replace(b"latitude: 90", b"latitude: 90 0 0 N")))
    check("and back", run("make", "-", "--latitude", "90", given=POLE.replace(b"latitude: 90", b"latitude: 1 2 3.04 S")),
          (0, POLE_ORDER, NOTE))
    check("fields by tag as options", run("make", "--anyway", "--field", "99:00ff", "--field", "99:")[1], b"\x63\0\2\0\xff\x63\0\0")
    check("options over an order", run("make", "-", "--rows", "7", given=POLE_ORDER)[1], made(POLE.replace(b"rows: 1", b"rows: 7")))


def refused(text, out):
    """An order that the programs would refuse is not written, unless that is asked for."""
    os.unlink(out)
    status, printed, said = run("make", text, "--first-day", "2026-13-01", "--out", out)
    check("what the sheet refuses is not written", (status, printed, os.path.exists(out)), (1, b"", False))
    check("and the reason told", said, "katchidul: pole.text is refused: first day: there is no month 13\n"
          "katchidul: Refusal 5: a value is out of range, or the month lacks the day: first day, tag 2\n")
    check("nor printed", run("make", text, "--first-day", "2026-13-01")[:2], (1, b""))
    status, printed, said = run("make", text, "--first-day", "2026-13-01", "--anyway", "--out", out)
    with open(out, "rb") as file:
        check("with --anyway it is", (status, printed, file.read()), (0, b"", made(POLE.replace(b"06-21", b"13-01"))))
    check("and told as a warning", said.startswith("katchidul: warning: pole.text is refused: first day: there is no month 13\n"), True)


FAST = POLE.replace(b"2026-06-21", b"2026-02-18").replace(b"rows: 1", b"rows: 30") + b"ramadan: imsak 10, shift 0\n"


def ramadan():
    """The first days that are printed are exactly those that an order may have."""
    printed = {}
    for year in range(1900, 2200):
        for islamic, shift, day in first_days(year):
            check("the year of %s" % day, islamic in range(1317, 1627), True)
            printed.setdefault(shift, []).append(str(day))
    check("first days", printed[0], ["%s" % day for day in cases.FIRST_DAYS])
    check("how many", {shift: len(days) for shift, days in printed.items()}, {-1: 310, 0: 310, 1: 310})
    for shift, days in printed.items():
        for day in days:
            text = FAST.replace(b"2026-02-18", day.encode()).replace(b"shift 0", b"shift %d" % shift)
            check("read: %s with shift %d" % (day, shift), reading.read(made(text)).refusal, None)
    check("an Islamic year", run("ramadan", "1447"),
          (0, b"Ramadan 1447, shift -1: first day 2026-02-17\nRamadan 1447, shift  0: first day 2026-02-18\n"
                                                         b"Ramadan 1447, shift  1: first day 2026-02-19\n", ""))
    check("the year it begins in", run("ramadan", "2026"), run("ramadan", "1447"))
    check("a year with two", run("ramadan", "2030")[1].count(b"\n"), 6)
    for words in [["ramadan"], ["ramadan", "x"], ["ramadan", "1316"], ["ramadan", "1627"], ["ramadan", "1899"], ["ramadan", "2200"],
                  ["ramadan", "1447", "2026"]]:
        status, printed, said = run(*words)
        check("usage %s" % words, (status, printed, said.count("\n")), (2, b"", 1))
    lines, refusal = shown(made(FAST.replace(b"02-18", b"02-17")))
    check("another day", (lines[-2:], refusal[:2]),
          (["# 2026-02-17 is no first of Ramadan with shift 0; katchidul ramadan 2026 prints those that are",
          "# Refusal 18: the sheet does not begin on the 1st of Ramadan: first day, tag 2"], (18, 2)))
    lines, refusal = shown(made(FAST))
    check("a Ramadan sheet", (lines[6], refusal), ("ramadan: imsak 10, shift 0", None))
    check("and none", "# not given: ramadan, so a sheet without imsak" in shown(POLE_ORDER)[0], True)


TESTS = [tables, written, in_words, unread_lines, random_texts, random_orders, commands, ramadan]
