"""The commands that show an order: in words, as its sheet, table, cells, BRF, dots and weeks."""
from . import braille, inputs, orders, programs, streams, tables, weeks, zones
from .arguments import parse
from .errors import Unreadable
from .making import tell_no_clock, tell_wrong
from .orders import refused_lines
from .sheets import reason


def show(words):
    arguments = parse("show", words)
    every = inputs.given(arguments, "show")
    write_text("\n".join(orders.show(order) for given in every for order in orders_or_refused(given)), arguments.out)
    return 1 if any(given.refusal for given in every) else 0


def sheet(words):
    """What the program prints, also for a refused order. The sheet is in UTC, so it is one sheet for all of a zone's orders."""
    return plain("sheet", parse("sheet", words, {"plain"}), lambda given: [given.order])


def plain(program, arguments, orders_of):
    """What a program itself prints, for all orders."""
    text, told = b"", []
    for given in inputs.given(arguments, program):
        for order in orders_of(given):
            printed = programs.run(program, order)
            text += printed.text
            told += refused_lines(reason(order, printed.refusal), given.name) if printed.refusal else []
    streams.write(text, arguments.out)
    for line in told:
        streams.say("katchidul: %s" % line)
    return 1 if told else 0


def table(words):
    arguments = parse("table", words)
    texts = []
    for given in inputs.given(arguments, "table"):
        split = checked(given)
        if split is None:
            texts.append(tables.table(given.order))
            continue
        notes = [*zones.elsewhere_lines(split), *zones.odd_noon_lines(split), *zones.wrong_lines(split)]
        texts.append(tables.split_table(split) + "".join(line + "\n" for line in notes))
    return write_text("\n".join(texts), arguments.out)


def checked(given):
    """The split of a text with a zone, or None. Raises Refused before anything is printed."""
    given.check()
    return given.split()


def pages_by_order(given, anyway):
    """The pages of each order with its name. A page that would show a wrong time is left out unless it is asked for."""
    split = checked(given)
    if split is None:
        tell_no_clock(given)
        return [(given.name, braille.pages(given.order))]
    tell_wrong(split, anyway)
    for line in zones.lines(split, ["order %d" % number for number in range(1, len(split.parts) + 1)]):
        streams.say(line)
    return [("%s to %s" % (part.first, part.last), braille.pages(part.order)) for part in split.parts]


def brf(words):
    arguments = parse("brf", words, {"anyway"})
    every = inputs.given(arguments, "brf")
    pages = [page for given in every for _, own in pages_by_order(given, "anyway" in arguments.flags) for page in own]
    streams.write(braille.brf(pages).encode("ascii"), arguments.out)
    return 0


def cells(words):
    arguments = parse("cells", words, {"plain", "anyway"})
    every = inputs.given(arguments, "cells")
    shown = [pages for given in every for pages in pages_by_order(given, "anyway" in arguments.flags)]
    if "plain" in arguments.flags:
        if len(shown) > 1:
            raise Unreadable("cells --plain writes one order, since nothing marks where the next one's pages begin; here are %d"
                             % len(shown))
        streams.write_bytes(b"".join(row for page in shown[0][1] for row in page), arguments.out)
        return 0
    with_braille = arguments.out is not None or streams.has_letters("\u2800")
    if not with_braille:
        streams.say("katchidul: this terminal has no braille, so the cells are shown in ASCII braille")
    lines = [line for name, pages in shown for line in page_lines(name if len(shown) > 1 else None, pages, with_braille)]
    return write_text("".join(line + "\n" for line in lines), arguments.out)


def page_lines(name, pages, with_braille):
    """Each page with its digits beside it, and the dots of all."""
    if name:
        yield name
    for number, page in enumerate(pages, 1):
        yield "page %d" % number
        yield from ((braille.unicode(row) if with_braille else braille.ascii_braille(row)) + "  " + braille.digits(row) for row in page)
        yield ""
    yield "dots %d" % sum(braille.dots(row) for page in pages for row in page)


def wear(words):
    return plain("wear", parse("wear", words, {"plain"}), orders_or_refused)


def orders_or_refused(given):
    """The orders for the embosser. A refused order is given as it is, and its program refuses it."""
    return [given.order] if given.refusal else [order for _, order in given.orders()]


def week(words):
    arguments = parse("week", words, {"plain"})
    if "plain" in arguments.flags:
        return plain("week", arguments, orders_or_refused)
    texts = []
    for given in inputs.given(arguments, "week"):
        given.check()
        reports = [weeks.report(order) for _, order in given.orders()]
        if len(reports) > 1:
            streams.say("katchidul: note: each order has its own report, so seven days with a change of the clock among them are in none")
        texts += reports
    return write_text("\n".join(texts), arguments.out)


def write_text(text, out):
    """Letters outside ASCII go to a file as UTF-8, and to a terminal in its own encoding."""
    streams.write(text.encode("utf-8") if out else streams.in_terminals_letters(text), out)
    return 0
