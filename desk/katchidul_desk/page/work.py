"""From a text to the timetable that the page shows, and to the files that the clerk can keep."""
from .. import braille, orders, preview


def made_of(text):
    """The timetable of a text. Raises the desk's errors for a text that makes none."""
    made = orders.make(text)
    return preview.timetable(made.order, made.zone)


def brf(order):
    """The pages that are shown, as BRF."""
    return braille.brf([[day.cells for day in page] for page in order.pages]).encode("ascii")


def contents(timetable, text):
    """The files to keep, by name, each as a function that makes its bytes."""
    made = {timetable.base + ".html": lambda: preview.document(preview.grouped([timetable])).encode("utf-8")}
    for one in timetable.shown:
        made[one.name] = lambda one=one: one.order
        made[one.name[:-len("order")] + "brf"] = lambda one=one: brf(one)
    if timetable.sheet_order:
        made[timetable.sheet_order[0]] = lambda: timetable.sheet_order[1]
    made[timetable.base + ".text"] = lambda: text.encode("utf-8")
    return made
