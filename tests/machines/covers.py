"""Covers, headings and paper sizes. What a cover must say is set by lou_translate, liblouis' own program, and compared word by word."""
import subprocess

import library
from driver import Driver
from host import Host, Job
from sinks import Port, Terminal

TABLES = "en-us-brf.dis,en-ueb-g1.ctb"


def in_braille(text, tables=TABLES):
    said = subprocess.run(["lou_translate", "--forward", tables], input=text + "\n", capture_output=True, text=True, check=True)
    return said.stdout.rstrip("\n").upper()


def print_one(place, name, order, *options, file="durham.order", job=7):
    """What arrives of an order, a list of pages' bytes."""
    port = Port()
    driver = Driver(place.port, place.folder / name, "127.0.0.1:%d" % port.number, *options)
    host = Host(driver.socket, [Job(job, file, order, place.lib.pages(order))])
    host.start()
    host.join(30)
    driver.end()
    port.end()
    return port.arrived


def lines_of(page):
    return page.decode("ascii").rstrip("\f").split("\r\n")[:-1]


def check_cover(check, place):
    order = library.order("Durham", 60, clock=90)
    cover, first = [page for page in print_one(place, "cover", order)[0].split(b"\f")][:2]
    lines = lines_of(cover)
    wanted = ["Prayer times for Durham", "1 June 2026 to 30 July 2026",
              "A line is a day. Columns: day of the month, Fajr, sunrise, Dhuhr, Asr, Maghrib, Isha.",
              "A time is two digits of the hour and two of the minute.", "Clock: 1 hour 30 minutes ahead of UTC, the same on every day.",
              "Pages: 3", "Job 7, order durham.order"]
    check("cover: its words", " ".join(lines).split(), " ".join(in_braille(text) for text in wanted).split())
    check("cover: no line is wider than the paper", max(map(len, lines)) <= 40, True)
    check("cover: no more lines than the paper has", len(lines) <= 25, True)
    check("cover: page 1 behind it is the library's", first + b"\f", library.brf(place.lib.pages(order)[0]))


def check_clocks(check, place):
    for clock, words in ((0, "UTC"), (-210, "3 hours 30 minutes behind UTC"), (1, "1 minute ahead of UTC"), (840, "14 hours ahead of UTC")):
        cover = print_one(place, "clock%d" % clock, library.order("Leeds", 1, clock=clock))[0].split(b"\f")[0]
        check("cover: clock %d" % clock, in_braille("Clock: %s, the same on every day." % words) in " ".join(lines_of(cover)), True)
        check("cover: one day is one date", in_braille("1 June 2026") in lines_of(cover), True)


def check_headings(check, place):
    order = library.order("Durham", 60)
    arrived = print_one(place, "heading", order, "--height", "27", "--width", "42")
    tops = ["Durham June, page 1 of 3", "Durham Jun-Jul, page 2 of 3", "Durham July, page 3 of 3"]
    for page, (bytes, top) in enumerate(zip(arrived, tops, strict=True), 1):
        lines = lines_of(bytes.split(b"\f")[-2])
        check("heading of page %d" % page, lines[:2], [in_braille(top), ""])
        check("rows of page %d below it" % page, lines[2:], lines_of(library.brf(place.lib.pages(order)[page - 1])))
    long = library.order("W" * 40, 30)
    top = lines_of(print_one(place, "long", long, "--height", "27", "--width", "39")[1].split(b"\f")[-2])[0]
    check("heading: a long town is cut", len(top) <= 39, True)
    check("heading: the page is not", top.endswith(in_braille("a June, page 2 of 2")[1:]), True)
    plain = print_one(place, "plain", order, "--height", "26")[1]
    check("heading: none if the paper has 26 lines", plain, library.brf(place.lib.pages(order)[1]))


def check_cells(check, place):
    order, line = library.order("Durham", 30), Terminal()
    driver = Driver(place.port, place.folder / "cells", line.name, "--cells")
    pages = place.lib.pages(order)
    host = Host(driver.socket, [Job(1, "durham.order", order, pages)])
    host.start()
    host.join(30)
    driver.end()
    check("--cells: a cover of a page's size, and the library's bytes behind it", line.came[39 * 25:], b"".join(pages))
    first = "".join(library.BRF[cell] for cell in line.came[:39]).rstrip()
    check("--cells: the cover's first line", first, in_braille("Prayer times for Durham"))
    line.end()


def check_refused(check, place):
    rest = [str(place.folder / "refused.socket"), str(place.folder / "refused.state"), "127.0.0.1:9"]
    for words, part in ((["--width", "38"], "39"), (["--height", "24"], "25"), (["--width", "4x"], "39"), (["--width", "101"], "100"),
                        (["--width", "4294967335"], "39"), (["--table", "no-such.ctb"], "no-such.ctb"),
                        (["--table", "en-us-comp8.ctb"], "six dots")):
        done = subprocess.run([place.port, *words, *rest], capture_output=True, text=True, timeout=20)
        check("refused: %s" % words, (done.returncode in (1, 2), part in done.stderr), (True, True))


def run(check, place):
    for part in (check_cover, check_clocks, check_headings, check_cells, check_refused):
        part(check, place)
