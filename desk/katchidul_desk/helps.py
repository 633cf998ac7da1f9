"""The help of each command."""
import textwrap

from .fields import FLOATS, REFUSED, SHORT, TAGS

TOP = """katchidul: from a town to timetables in braille that can be checked.

    katchidul make TEXT --out ORDER    makes the order of a text
    katchidul table ORDER              the times by the order's clock
    katchidul brf ORDER --out PAGES    the braille pages, for an embosser

    make       make an order from a text          cells    show the braille pages
    show       say in words what an order asks    brf      write the pages as BRF
    table      the times, by the order's clock    wear     count the dots of the pages
    sheet      the times in UTC, with seconds     week     the earliest and latest Fajr of seven days
    preview    a page to look at and to print     desk     all of this on a page in the browser
    spool      the print room's jobs              ramadan  the first days of a Ramadan sheet

katchidul COMMAND --help says more. katchidul --version prints the version.

Exit status: 0 done; 1 the order is refused, or a time on its pages would be wrong; 2 nothing was done, and a line says why."""

INPUT = """ORDER is a file that make wrote, or a text, from which the order is made first. It may be left out if there is an option for each
field, as --town Leeds. With an order or a text, an option replaces its field. - is standard input."""

MAKE = """katchidul make TEXT [--NAME VALUE ...] [--out ORDER] [--anyway]
katchidul make --NAME VALUE ... [--out ORDER] [--anyway]

Makes the order of a text. A text has a line for each field, NAME: VALUE, as in

    # what Leeds asks for in October
    town: Leeds
    month: 2026-10
    place: 53.8008, -1.5491
    method: MWL
    zone: Europe/London

Names are read in capitals or small letters, with or without blanks. An option, as --month 2026-11, replaces the text's line.
Without --out the order goes to standard output. An order that the programs would refuse is not written; --anyway writes it.

Days     first day: 2026-10-01 and rows: 31; or month: 2026-10; or from: 2026-09-01 and to: 2027-07-31
Place    latitude: 53.8008 and longitude: -1.5491, in degrees, as 53.8008 N, or as on the map, 53 48 2.88 N or 53°48'2.88"N;
         or place: with both of them, as a map's page shows them
Clock    zone: Europe/London, the clocks of the place. If they change within the rows, there are several orders:
         --out leeds.order writes leeds-1.order, leeds-2.order and so on. Every time on the pages is compared with the zone.
         Or clock: +01:00, one clock for all rows; a plain number is in minutes.

The fields:

%(fields)s

Short names of methods: %(short)s.

For tests, and for an order that is damaged:

  field 99: 00ff        a field by its tag, its value in hexadecimal (as an option: --field 99:00ff)
  bytes: 0100           bytes with no header put before them; by rising tag they are last
  fields: as listed     keeps the fields as they are listed; else they are written by rising tag"""

SHOW = """katchidul show ORDER...

Says in words what an order asks for, what is used for the fields that it leaves out, and what is broken in a damaged one. It prints
a text that makes the same order again, unless the order has over 1,024 bytes. The status is 1 if the programs refuse the order."""

TABLE = """katchidul table ORDER... [--out FILE]

The times of each row by the order's clock, hour and minute as on the braille page. A time on another date than its row's has the
days behind it, as 00:15+1. A day without a sunrise or a sunset says so.

""" + INPUT

SHEET = """katchidul sheet ORDER... [--out FILE]

The sheet as the proved program prints it: a line for each day, with its date and nine times in UTC, as +0T05:12:00: days from the
line's date, hour, minute and second. A Ramadan sheet has imsak before Fajr. Of a refused order it is the refusal's line.

""" + INPUT

CELLS = """katchidul cells ORDER... [--plain] [--out FILE] [--anyway]

Shows the braille pages, each row with its digits beside it, and the dots of all. --plain writes the bytes for the embosser as the
proved program does: a byte a cell, 39 a row, 25 rows a page, nothing between. A text whose pages would show a wrong time has no
pages; --anyway writes them.

""" + INPUT

BRF = """katchidul brf ORDER... [--out FILE] [--anyway]

Writes the pages as BRF, for an embosser that takes North American ASCII braille: a row is a line, and a form feed ends a page. A text
whose pages would show a wrong time has no pages; --anyway writes them.

""" + INPUT

WEAR = """katchidul wear ORDER... [--out FILE]

Prints how many dots the pages punch, a measure of the embosser's wear: a line for each order, as the proved program has it.

""" + INPUT

WEEK = """katchidul week ORDER... [--plain] [--out FILE]

The earliest and the latest Fajr of every seven successive days, by the order's clock. --plain prints the program's own lines: the
first row; the earliest, in minutes after its row's 0h UTC, and its row; the latest and its row. If the clocks of a zone change within the
rows, each order has its own report, and seven days with the change among them are in none.

""" + INPUT

RAMADAN = """katchidul ramadan YEAR

Prints the first day of a Ramadan sheet for each shift. YEAR is an Islamic year, as 1447, or a year, as 2026: then each
Ramadan that begins in it is printed."""


def field_lines():
    for tag in TAGS.values():
        if tag.number not in FLOATS:
            line = "%-20s  %s%s" % (tag.name, tag.kind.takes, "" if tag.missing is REFUSED else "; may be left out")
            yield textwrap.fill(line, 124, initial_indent="  ", subsequent_indent=24 * " ")


def make_help():
    short = ", ".join("%s %s" % pair for pair in SHORT.items())
    return MAKE % {"fields": "\n".join(field_lines()), "short": textwrap.fill(short, 100, subsequent_indent="  ")}


def help_of(command):
    if command == "make":
        return make_help()
    return {None: TOP, "show": SHOW, "table": TABLE, "sheet": SHEET, "cells": CELLS, "brf": BRF, "wear": WEAR, "week": WEEK,
            "ramadan": RAMADAN}[command]
