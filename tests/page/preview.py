"""Compares the preview with the programs: its dots with the cells, its table with the sheet and the clock, its counts with wear."""
import datetime
import functools
import os
import pathlib
import random
import re
import struct
import subprocess

import document
from shared.orders import join

ROOT = pathlib.Path(__file__).resolve().parent.parent.parent
EXAMPLES = ROOT / "examples"
# By their raised dots: 0 and 1 to 9 are the letters j and a to i.
DIGITS = ["245", "1", "12", "14", "145", "15", "124", "1245", "125", "24"]
CELLS = {sum(1 << int(dot) - 1 for dot in dots): str(digit) for digit, dots in enumerate(DIGITS)}
LACKS = {6: "transit of the sun", 7: "sunrise", 8: "sunset"}


@functools.lru_cache(maxsize=None)
def program(name, order):
    folder = os.environ.get("PROGRAMS", ROOT / "target" / "bin")
    return subprocess.run([pathlib.Path(folder) / name], input=order, stdout=subprocess.PIPE, check=True).stdout


def clock_of(order):
    """Tag 16 of an order, read by hand."""
    at = 0
    while at < len(order):
        length = int.from_bytes(order[at + 1:at + 3], "big")
        if order[at] == 16:
            return struct.unpack(">h", order[at + 3:at + 3 + length])[0]
        at += 3 + length
    return 0


def wanted_rows(order):
    """Each row as the table should have it: the date and the times by the clock, or why there are none."""
    _, _, *lines = program("sheet", order).decode("ascii").split("\n")[:-1]
    return [wanted_row(line, clock_of(order)) for line in lines]


def wanted_row(line, clock):
    date, *rest = line.split(" ")
    date = datetime.date.fromisoformat(date)
    if rest[0] == "refused":
        day = date + datetime.timedelta(int(rest[3]))
        later = ", which this row needs too" if day != date else ""
        return [date.strftime("%a %-d %b"), "No times: there is no %s on %s%s." % (LACKS[int(rest[1])], day, later)]
    times = []
    for text in rest:
        days, hour, minute = map(int, re.fullmatch(r"([+-]\d)T(\d\d):(\d\d):\d\d", text).groups())
        days, minutes = divmod((days * 24 + hour) * 60 + minute + clock, 1440)
        times.append("%02d:%02d%s" % (*divmod(minutes, 60), "%+d" % days if days else ""))
    return [date.strftime("%a %-d %b"), *times]


def drawn_cells(picture):
    """The cells that a row's path draws, worked back from the places of its dots."""
    cells = bytearray(39)
    path = picture.one("path", class_="raised").attributes["d"]
    assert re.fullmatch(r"(M\d+ \d+h0)*", path), path
    for x, y in re.findall(r"M(\d+) (\d+)h0", path):
        cell, across = divmod(int(x), 12)
        dot = {3: 0, 8: 3}[across] + {5: 0, 10: 1, 15: 2}[int(y)]
        assert not cells[cell] >> dot & 1, "a dot twice"
        cells[cell] |= 1 << dot
    return bytes(cells)


def said(row):
    """What 39 cells say in digits."""
    def number(cells):
        return "".join(CELLS[cell] for cell in cells)
    times = [row[at:at + 6] for at in range(3, 39, 6)]
    return number(row[1:3]) + "  " + " ".join(number(time[2:4]) + ":" + number(time[4:]) if any(time) else "--:--" for time in times)


def check_orders(check, name, page, orders):
    """Compares a preview's tables with the programs. `page` is the element that has them."""
    cells = [program("cells", order) for order in orders]
    rows = [one[at:at + 39] for one in cells for at in range(0, len(one), 39)]
    sections = list(page.all("section", class_="page"))
    lines = [line for section in sections for line in section.one("tbody").all("tr")]
    check(name + ": rows", len(lines), len(rows))
    check(name + ": the dots are the cells", [drawn_cells(line.one("svg")) for line in lines], rows)
    check(name + ": what the braille says", [line.one("td", class_="says").text for line in lines], [said(row) for row in rows])
    table = [[cell.text for cell in line.all() if cell.name in ("td", "th")][:-2] for line in lines]
    check(name + ": the table is the sheet by the clock", table, [row for order in orders for row in wanted_rows(order)])
    punched = [re.search(r"([\d,]+) dots?$", section.one("p", class_="count").text)[1].replace(",", "") for section in sections]
    pages = [one[at:at + 975] for one in cells for at in range(0, len(one), 975)]
    check(name + ": the dots of each page", [int(dots) for dots in punched], [sum(bin(cell).count("1") for cell in page) for page in pages])
    facts = [row for table in page.all("table", class_="overview") for row in table.one("tbody").all("tr")]
    total = [list(row.all("td"))[-1].text.replace(",", "") for row in facts]
    check(name + ": the dots of each order", ["dots %s\n" % dots for dots in total], [program("wear", order).decode() for order in orders])


def check_picture(check, name, page, orders):
    """The picture has a line for each time of each stretch of days, and a cross at each end of a refused day."""
    chart = page.one("svg", class_="chart")
    rows = [row for order in orders for row in wanted_rows(order)]
    refused = sum(len(row) == 2 for row in rows)
    check(name + ": crosses for refused days", len(list(chart.all("path", class_="cross"))), 2 * refused)
    points = sum(len(line.attributes["points"].split()) for line in chart.all("polyline"))
    times = sum(len(row) - 1 for row in rows if len(row) > 2)
    single = sum(len(line.attributes["points"].split()) == 2 for line in chart.all("polyline"))
    check(name + ": a point for each time", times <= points <= times + single, True)
    check(name + ": the picture in words", bool(re.search(r"fajr from \d\d:\d\d", chart.one("desc").text)), True)


def random_order(dice):
    """An order that the programs accept, far places and odd clocks among them, made by hand."""
    day = datetime.date(1900, 1, 1) + datetime.timedelta(dice.randrange(109000))
    rows = dice.choice([1, 2, 24, 25, 26, 50, 60])
    town = bytes(dice.choice(b"<>&\"' abcXYZ;{}") for _ in range(dice.randint(1, 40)))
    values = {1: town, 2: struct.pack(">HBB", day.year, day.month, day.day), 3: bytes([rows]), 4: struct.pack(">d", dice.uniform(-75, 75)),
              5: struct.pack(">d", dice.uniform(-180, 180)), 6: bytes([dice.randrange(13)]), 15: bytes([dice.randrange(2)]),
              16: struct.pack(">h", dice.choice([0, 60, -840, 840, dice.randint(-840, 840)]))}
    return join(values.items())


def check_opened(check, name, order, again):
    """An order that is opened in the form and made again from it prints the same. `again` does both."""
    made = again(order)
    for one in ("sheet", "cells"):
        check("%s: %s of the order opened in the form" % (name, one), program(one, made), program(one, order))


def check_document(check, name, text, orders):
    root, faults = document.read(text)
    check(name + ": well formed", faults, [])
    check(name + ": nothing from outside", document.outside(root), [])
    check(name + ": for a screen reader", document.form_faults(root), [])
    check_orders(check, name, root, orders)
    return root


def examples(check, desk, document_of, again, folder):
    """Every example, and the command on three of them."""
    for path in sorted(EXAMPLES.glob("*.order")):
        order = path.read_bytes()
        if program("sheet", order).startswith(b"order refused"):
            out = folder / "refused.html"
            ended = desk("preview", path, "--out", out)
            check(path.name + ": a refused order has no page", (ended.returncode, out.exists()), (1, False))
            check(path.name + ": it is named", ended.stderr.decode().startswith("katchidul: %s is refused: " % path.name), True)
            continue
        text = document_of(order, path.stem)
        check_opened(check, path.name, order, again)
        root = check_document(check, path.name, text, [order])
        if any(len(row) > 2 for row in wanted_rows(order)):
            check_picture(check, path.name, root, [order])
        if path.stem in ("durham-clock", "tromso", "pontianak-ramadan"):
            out = folder / (path.stem + ".html")
            check(path.name + ": the command", (desk("preview", path, "--out", out).returncode, out.read_text("utf-8") == text), (0, True))


def by_zone(check, desk, folder):
    text = folder / "leeds.text"
    text.write_text("town: Leeds\nmonth: 2026-10\nplace: 53.8008, -1.5491\nmethod: MWL\nzone: Europe/London\n")
    desk("make", text, "--out", folder / "leeds.order")
    orders = [(folder / ("leeds-%d.order" % at)).read_bytes() for at in (1, 2)]
    check("leeds: status", desk("preview", text, "--out", folder / "leeds.html").returncode, 0)
    root = check_document(check, "leeds", (folder / "leeds.html").read_text("utf-8"), orders)
    check("leeds: one timetable", len(list(root.all("section", class_="timetable"))), 1)
    check("leeds: the clock changes in the picture", len(list(root.all("path", class_="change"))), 1)
    check("leeds: what was checked is told", "right by the clocks of Europe/London" in root.text, True)
    several = desk("preview", folder / "leeds-1.order", folder / "leeds-2.order", EXAMPLES / "tromso.order")
    root = check_document(check, "three orders", several.stdout.decode("utf-8"), orders + [(EXAMPLES / "tromso.order").read_bytes()])
    check("three orders: two timetables", len(list(root.all("section", class_="timetable"))), 2)
    check("three orders: refused days in words", "19 to 24 May 2026: there is no sunrise on the day itself." in root.text, True)


def ramadan(check, desk, folder):
    """A Ramadan sheet that a change of the clock divides keeps its imsak in the table, and its cells are those of plain orders."""
    text = folder / "chicago.text"
    text.write_text("town: Chicago\nfirst day: 2026-02-18\nrows: 30\nplace: 41.8781, -87.6298\nmethod: ISNA\nzone: America/Chicago\n"
                    "ramadan: imsak 10, shift 0\n")
    root, faults = document.read(desk("preview", text).stdout.decode("utf-8"))
    check("chicago: well formed", faults, [])
    rows = [row for section in root.all("section", class_="page") for row in section.one("tbody").all("tr")]
    lines = [[cell.text for cell in row.all("td")] for row in rows]
    check("chicago: rows", len(lines), 30)
    check("chicago: imsak is ten minutes before fajr", [minutes(line[1]) - minutes(line[0]) for line in lines], [10] * 30)
    check("chicago: the clock goes forward", (lines[17][3], lines[18][3]), ("12:02", "13:02"))


def minutes(text):
    return int(text[:2]) * 60 + int(text[3:5])


def random_orders(check, document_of, again, count, seed):
    dice = random.Random(seed)
    for at in range(count):
        order = random_order(dice)
        if program("sheet", order).startswith(b"order refused"):
            continue
        name = "random order %d of seed %s" % (at, seed)
        check_document(check, name, document_of(order, None), [order])
        check_opened(check, name, order, again)
