"""katchidul make: writes the orders of a text, and says what it did."""
import os

from . import inputs, streams, zones
from .arguments import parse
from .errors import Unreadable, WrongTimes
from .orders import refused_lines


def make(words):
    arguments = parse("make", words, {"anyway"})
    given = inputs.one(arguments, "make")
    anyway = "anyway" in arguments.flags
    if not anyway:
        given.check()
    if given.refusal:
        for line in refused_lines(given.refusal, given.name):
            streams.say("katchidul: warning: %s" % line)
    tell_no_clock(given)
    if given.refusal or not given.zone:
        streams.write_bytes(given.order, arguments.out)
        return 0
    return write_split(given.split(), arguments.out, anyway)


def write_split(made, out, anyway):
    """Writes the orders of a split. An order with a wrong time on its pages is written only if that is asked for."""
    several = len(made.parts) > 1
    if several and out in (None, "-"):
        raise Unreadable("%s changes its clock within these rows, which takes %d orders; give a name for them with --out"
                         % (made.zone, len(made.parts)))
    names = [numbered(out, at) for at in range(1, len(made.parts) + 1)] if several else [out]
    orders = [part.order for part in made.parts]
    if made.ramadan:
        names, orders = names + [out], orders + [made.ramadan]
    tell_wrong(made, anyway)
    if several:
        streams.write_files(zip(names, orders))
    else:
        streams.write_bytes(orders[0], out)
    for line in zones.lines(made, [os.path.basename(name or "") for name in names]):
        streams.say(line)
    tell_stale(out, names)
    return 0


def numbered(out, number):
    """leeds.order, 1: leeds-1.order."""
    stem, suffix = os.path.splitext(out)
    return "%s-%d%s" % (stem, number, suffix)


def tell_no_clock(given):
    """Says that the pages will be in UTC, which is seldom meant."""
    if given.lacks_clock and not given.refusal:
        streams.say("katchidul: note: there is no zone and no clock, so the pages show UTC; "
                    "write zone: Europe/London or its like, or clock: 0")


def tell_wrong(made, anyway):
    """Names each row that one clock can't be right for, and stops there unless that is asked for."""
    for line in [*zones.odd_noon_lines(made), *zones.wrong_lines(made)]:
        streams.say("katchidul: warning: %s" % line)
    if made.on_pages and not anyway:
        raise WrongTimes("nothing is written; --anyway writes it all the same, and the rows above are then wrong on the page")


def tell_stale(out, names):
    """An order of an earlier run beside the new ones could be taken for one of them."""
    if out in (None, "-"):
        return
    for other in [out] + [numbered(out, number) for number in range(1, 10)]:
        if other not in names and os.path.exists(other):
            streams.say("katchidul: warning: %s is there from an earlier run, and is not one of these orders" % os.path.basename(other))
