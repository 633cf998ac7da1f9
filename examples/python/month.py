#!/usr/bin/env python3
"""Prints the table of an order, a line a day, by the order's own clock: month.py ORDER

It needs the Python module katchidul; in a checkout PYTHONPATH=bindings/python names it. A refused day is its sentence. Exit status: 0 the
table is printed; 1 the order is refused; 2 there is no order, or no library."""
import datetime
import signal
import sys

import katchidul


def lines(library, order):
    asked = library.read_order(order)
    first, zone = datetime.date(asked.year, asked.month, asked.day), datetime.timezone(datetime.timedelta(minutes=asked.clock))
    for row in range(asked.rows):
        try:
            day = library.work_day(order, row)
            times = " ".join(f"{day.time(which).astimezone(zone):%H:%M}" for which in list(katchidul.Time)[:6])
        except katchidul.Refused as refused:
            times = str(refused)
        yield f"{first + datetime.timedelta(row)} {times}"


def main():
    signal.signal(signal.SIGPIPE, signal.SIG_DFL)  # what reads the table may stop early
    if len(sys.argv) != 2:
        return "usage: month.py ORDER", 2
    try:
        with open(sys.argv[1], "rb") as file:
            order = file.read(katchidul.ORDER_MAX + 1)
        for line in lines(katchidul.Library(), order):
            print(line)
    except OSError as why:
        return f"month.py: {why}", 2
    except katchidul.Refused as refused:
        return f"month.py: {sys.argv[1]}: {refused}", 1
    return "", 0


said, status = main()
if said:
    print(said, file=sys.stderr)
sys.exit(status)
