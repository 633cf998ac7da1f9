"""The sheet of an order, as the program prints it, in Python's dates and times."""
import datetime
import re
from typing import Dict, NamedTuple, Optional, Tuple

from . import programs
from .errors import ProgramError, Refused
from .reading import read

TIME = re.compile(r"([+-]\d)T(\d\d):(\d\d):(\d\d)")
REFUSED_ROW = re.compile(r"refused (\d+) day (\d+)")
# The columns that the cells have.
PRAYERS = ("fajr", "sunrise", "dhuhr", "asr", "maghrib", "isha")


class Row(NamedTuple):
    """Either `times`, by the column's name and in UTC, or `refused`: the number of the refusal and the day."""
    date: datetime.date
    times: Optional[Dict[str, datetime.datetime]]
    refused: Optional[Tuple[int, int]]


class Sheet(NamedTuple):
    """`columns` are those after the date: nine, and imsak before them on a Ramadan sheet."""
    town: str
    columns: Tuple[str, ...]
    rows: Tuple[Row, ...]


def sheet(order):
    """Raises Refused for an order that the program refuses."""
    return parsed(accepted("sheet", order))


def accepted(name, order):
    """What a program prints for an order that it accepts."""
    printed = programs.run(name, order)
    if printed.refusal:
        raise Refused(reason(order, printed.refusal))
    return printed.text


def reason(order, refusal):
    """The refusal with its reason. The program decides; the desk's reading says why, and both give the same number and place."""
    own = read(order).refusal
    return own if own and own[:2] == refusal[:2] else refusal._replace(why="the programs refuse it")


def parsed(text):
    try:
        town, header, *lines = text.decode("ascii").split("\n")[:-1]
        columns = tuple(header.split(" ")[1:])
        return Sheet(town, columns, tuple(parsed_row(line, columns) for line in lines))
    except ValueError:
        raise ProgramError("the program sheet printed what is no sheet") from None


def parsed_row(line, columns):
    date, rest = line.split(" ", 1)
    date = datetime.date.fromisoformat(date)
    refused = REFUSED_ROW.fullmatch(rest)
    if refused:
        return Row(date, None, (int(refused[1]), int(refused[2])))
    times = [instant(date, time) for time in rest.split(" ")]
    if len(times) != len(columns):
        raise ValueError("a row has a time for each column")
    return Row(date, dict(zip(columns, times)), None)


def instant(date, text):
    """+0T05:12:00, days from the row's date and the time of day, in UTC."""
    parts = TIME.fullmatch(text)
    if not parts:
        raise ValueError("a time is written +0T05:12:00")
    days, hour, minute, second = map(int, parts.groups())
    time = datetime.time(hour, minute, second, tzinfo=datetime.timezone.utc)
    return datetime.datetime.combine(date, time) + datetime.timedelta(days)
