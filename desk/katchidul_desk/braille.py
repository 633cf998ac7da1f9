"""The cells of an order's pages: as rows and pages, in Unicode braille, in digits and as BRF.

A cell is a byte whose bit 0 is dot 1 and bit 5 dot 6; a row has 39 cells and a page 25 rows, the last one those left."""
from typing import List

from .errors import DeskError
from .sheets import accepted

ROW = 39
PAGE = 25
Page = List[bytes]
# The digits' letters, a to j, by their cells.
DIGITS = {0x01: "1", 0x03: "2", 0x09: "3", 0x19: "4", 0x11: "5", 0x0b: "6", 0x1b: "7", 0x13: "8", 0x0a: "9", 0x1a: "0"}
NUMBER_SIGN = 0x3c
# North American ASCII braille, by the cell's byte.
BRF = " A1B'K2L@CIF/MSP\"E3H9O6R^DJG>NTQ,*5<-U8V.%[$+X!&;:4\\0Z7(_?W]#Y)="


class NoCells(DeskError):
    """Bytes that are no cells."""
    status = 1


def cells(order):
    """The bytes that the program cells writes."""
    written = accepted("cells", order)
    rows(written)
    return written


def pages(order):
    return paged(rows(cells(order)))


def rows(cells):
    """The rows of all pages."""
    wrong = next((at for at, cell in enumerate(cells) if cell > 0x3f), None)
    if wrong is not None:
        raise NoCells("byte %d is %d, and a cell has six dots" % (wrong, cells[wrong]))
    if not cells or len(cells) % ROW:
        raise NoCells("%d bytes are no rows of %d cells" % (len(cells), ROW))
    return [bytes(cells[at:at + ROW]) for at in range(0, len(cells), ROW)]


def paged(rows):
    return [rows[at:at + PAGE] for at in range(0, len(rows), PAGE)]


def dots(cells):
    return sum(bin(cell).count("1") for cell in cells)


def number(cells):
    """The digits after a number sign; a question mark for a cell that is no digit, and nothing for blanks."""
    if not any(cells):
        return ""
    digits = "".join(DIGITS.get(cell, "?") for cell in cells[1:])
    return digits if cells[0] == NUMBER_SIGN else "?" + digits


def time(cells):
    """A blank, the number sign, hour and minute; with a question mark before it if the first two cells are others."""
    if not any(cells):
        return "--:--"
    digits = number(bytes([NUMBER_SIGN]) + cells[2:])
    return ("" if cells[:2] == bytes([0, NUMBER_SIGN]) else "?") + digits[:2] + ":" + digits[2:]


def times(row):
    """The six times of a row."""
    return [time(row[at:at + 6]) for at in range(3, ROW, 6)]


def digits(row):
    """21  05:12 06:34 ..: the day, and each time's hour and minute."""
    return number(row[:3]) + "  " + " ".join(times(row))


def unicode(row):
    return "".join(chr(0x2800 + cell) for cell in row)


def ascii_braille(row):
    return "".join(BRF[cell] for cell in row)


def brf(pages):
    """A row is a line, ended by carriage return and newline; a form feed ends a page."""
    return "".join("".join(ascii_braille(row) + "\r\n" for row in page) + "\f" for page in pages)
