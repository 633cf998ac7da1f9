"""Texts and orders damaged at random: each is made, shown and read, or refused by a sentence, and nothing else happens."""
import traceback

from katchidul_desk import messages, orders, reading, sheets, tables, weeks, zones
from katchidul_desk.errors import DeskError

from . import checks
from .checks import ROOT, cases, check

TEXTS = [path.read_text() for path in sorted((ROOT / "examples").glob("*.text"))] + [
    "town: Leeds\nmonth: 2026-10\nplace: 53.8008, -1.5491\nmethod: MWL\nzone: Europe/London\n",
    "town: Leeds\nfrom: 2026-09-01 to: 2027-07-31\nplace: 53°48'2.88\"N 1°32'56.76\"W\nmethod: ISNA\nclock: +01:00\n",
    "town: Leeds\nfrom: 2026-09-01\nto: 2027-07-31\nlatitude: 53 48 N\nlongitude: 1.5491 W\nmethod: MWL\nclock: 1 minutes\n"
    "minutes: dhuhr 5\n",
    "fields: as listed\ntown: A\nfield 99: 00ff\nbytes: 0100\nramadan: imsak 10, shift 0\nrows: 30, in two bytes\n"]
PIECES = ["", ":", "\n", " ", "-", "+", ".", ",", "°", "'", '"', "N", "W", "9" * 30, "1e999", "nan", "inf", "\u2212", "\u0663", "\u00b2",
          "\ufeff", "\0", "\udcff", "\\", "\\x4", "#",
          "town:", "zone: Europe/", "zone: UTC\n", "clock: ", "month: ", "to: ", "rows: ", "2026-", "0", "é", "ﬁ", "½", "٣", "\u2028",
          "\x1b[2J", "method: ", "field ", "bytes: "]


def mutated_text(draw):
    text = draw.choice(TEXTS)
    for _ in range(draw.randint(1, 4)):
        at, kind = draw.randrange(len(text) + 1), draw.randrange(5)
        if kind == 0:
            text = text[:at] + draw.choice(PIECES) + text[at:]
        elif kind == 1:
            text = text[:at] + text[at + draw.randint(1, 12):]
        elif kind == 2:
            text = text[:at] + chr(draw.choice([draw.randrange(128), draw.randrange(0xd800),
                                                draw.randrange(0xd800, 0xe000)])) + text[at + 1:]
        elif kind == 3:
            lines = text.split("\n")
            lines.insert(draw.randrange(len(lines) + 1), draw.choice(draw.choice(TEXTS).split("\n")))
            text = "\n".join(lines)
        else:
            other = draw.choice(TEXTS)
            text = text[:at] + other[draw.randrange(len(other)):][:draw.randint(1, 40)] + text[at:]
    return text


def mutated_order(draw):
    order = bytearray(cases.damaged(draw) if draw.random() < 0.7 else cases.join(cases.good(draw)))
    for _ in range(draw.randrange(3)):
        at = draw.randrange(len(order) + 1)
        order[at:at + draw.randrange(3)] = draw.randbytes(draw.randrange(3))
    return bytes(order)


def every_way(order, whole):
    """All that the desk does with an order; with the programs if `whole`."""
    shown = orders.show(order)
    again = orders.make(shown).order
    if len(order) <= reading.LONGEST and again != order:
        raise AssertionError("shown and made again it is another order")
    orders.fields(order)
    refusal = reading.read(order).refusal
    if refusal:
        messages.sentence(refusal.number, refusal.place, {})
    own = cases.refused_by(order)[0]
    if (refusal.number if refusal else 0) != own:
        raise AssertionError("the second reader returns %d" % own)
    if whole:
        try:
            sheets.sheet(order)
            tables.table(order)
            weeks.report(order)
        except DeskError:
            pass


def no_traceback(what, given, steps):
    """It may give only sentences, and short ones."""
    said = "none"
    try:
        steps()
    except DeskError as why:
        said = str(why)
    except Exception:
        said = traceback.format_exc()
    check("what is said of %s %r" % (what, given), said if "Traceback" in said or not 0 < len(said) <= 1000 else "", "")


def texts():
    draw, made = checks.draw(42), 0
    for number in range(70000 if checks.is_long else 2000):
        text = mutated_text(draw)

        def steps():
            nonlocal made
            result = orders.make(text)
            every_way(result.order, number % 50 == 0)
            made += result.refusal is None
            if result.zone and not result.refusal and number % 20 == 0:
                list(zones.lines(zones.split(result.order, result.zone), ["a", "b", "c", "d", "e"]))

        no_traceback("text", text, steps)
    check("some mutated texts are orders", made > 100, True)


def damaged_orders():
    draw = checks.draw(43)
    for number in range(30000 if checks.is_long else 1000):
        order = mutated_order(draw)
        no_traceback("order", order, lambda: every_way(order, number % 50 == 0))
    check("orders were tried", number > 900, True)


def forms():
    """Fields of a form, each any text."""
    draw = checks.draw(44)
    for _ in range(3000 if checks.is_long else 100):
        pairs = [(draw.choice(["town", "place", "month", "method", "clock", "zone", "rows", "from", "to", "field", "x"]),
                  draw.choice(PIECES) + draw.choice(PIECES)) for _ in range(4)]
        no_traceback("form", pairs, lambda: orders.faults(pairs))


TESTS = [texts, damaged_orders, forms]
