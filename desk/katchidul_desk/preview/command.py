"""katchidul preview: writes the page that shows orders as they will be printed."""
import os
import sys

from .. import inputs, streams
from ..arguments import parse
from ..errors import Unreadable
from .document import document
from .timetable import grouped, timetable

HELP = """katchidul preview ORDER... --out PAGE.html

Writes one HTML file to look at before anything is punched: the times of each row by the order's clock beside its braille drawn as
dots, the same cells that go to the embosser, with what they say; the dots of each page; refused days in words; and a picture of all
rows, with the night shaded. It has no scripts and no links, opens in any browser, and prints on A4.

An order is the bytes that make writes. A text is taken in its place, and made on the way; if it has a zone, the page shows all of its
orders. Orders of one town whose days follow one another are shown as one timetable. - is standard input.

Exit status: 0 the page is written; 1 an order is refused; 2 nothing was written, and a line says why."""


def one(given):
    """The timetable of what a file gave. Standard input and options have no name of their own."""
    given.check()
    stem, suffix = os.path.splitext(given.name)
    return timetable(given.order, given.zone, stem if suffix else None)


def main(words):
    if "--help" in words or "-h" in words:
        streams.write(streams.in_terminals_letters(HELP + "\n"))
        return 0
    arguments = parse("preview", words)
    if arguments.out is None and sys.stdout is not None and sys.stdout.isatty():
        raise Unreadable("preview writes a page for the browser; give its name, as --out page.html")
    made = [one(given) for given in inputs.given(arguments, "preview")]
    streams.write(document(grouped(made)).encode("utf-8"), arguments.out)
    for line in [line for table in made for line in table.wrong]:
        streams.say("katchidul: warning: %s" % line)
    return 0
