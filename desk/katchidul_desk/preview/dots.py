"""A row of cells drawn as dots, in SVG: the bytes that go to the embosser, and nothing computed again.

Lengths are half millimetres of the usual braille: dots 2.5 mm apart, cells 6 mm, lines 10 mm. A raised dot is a line of no length with
round ends, so a row is one path."""
from .markup import element

DOT, CELL, LINE = 5, 12, 20
ROW = 39
# The place of each dot in its cell, dot 1 first.
PLACES = [(3, 5), (3, 10), (3, 15), (8, 5), (8, 10), (8, 15)]
FLAT = "flat"


def path(cells):
    """The raised dots of a row: M, the place and a line of no length for each."""
    raised = ((at, dot) for at, cell in enumerate(cells) for dot in range(6) if cell >> dot & 1)
    return "".join("M%d %dh0" % (CELL * at + PLACES[dot][0], PLACES[dot][1]) for at, dot in raised)


def flat_dots():
    """Every place of a row, once in a document. Each row shows them faintly under its raised dots."""
    shape = element("path", id=FLAT, d=path(bytes([0x3f]) * ROW), class_="flat")
    return element("svg", element("defs", shape), width=0, height=0, class_="shapes", aria_hidden="true", focusable="false")


def drawn(cells, says):
    """A row's picture. `says` is what its cells say, for a reader who does not see it."""
    return element(
        "svg", element("title", "Braille: " + says), element("use", href="#" + FLAT), element("path", d=path(cells), class_="raised"),
        viewBox="0 0 %d %d" % (CELL * ROW, LINE), class_="braille", role="img")
