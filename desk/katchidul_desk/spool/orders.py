"""An order's bytes, as far as the operator needs them. docs/ORDERS.md has the whole format, and the library reads the rest."""
from __future__ import annotations

import dataclasses
import datetime

from .errors import SpoolError

ORDER_MAX, ROWS_MAX, PAGE_ROWS = 1024, 400, 25
TOWN, FIRST_DAY, ROWS, RAMADAN = 1, 2, 3, 20


@dataclasses.dataclass(frozen=True)
class Order:
    town: str
    first: datetime.date
    rows: int
    ramadan: bool

    @property
    def pages(self) -> int:
        return -(-self.rows // PAGE_ROWS)


def fields(order: bytes) -> dict[int, int]:
    """Where the value of each tag begins; the two bytes before it are its length."""
    values, at = {}, 0
    while at + 3 <= len(order):
        values[order[at]] = at + 3
        at += 3 + int.from_bytes(order[at + 1:at + 3], "big")
    return values


def value(order: bytes, at: int) -> bytes:
    return order[at:at + int.from_bytes(order[at - 2:at], "big")]


def read(order: bytes) -> Order:
    """Town, first day and rows of an order that the host took."""
    try:
        found = fields(order)
        day = value(order, found[FIRST_DAY])
        first = datetime.date(int.from_bytes(day[:2], "big"), day[2], day[3])
        rows = int.from_bytes(value(order, found[ROWS]), "big")
        if not 1 <= rows <= ROWS_MAX:
            raise ValueError
        return Order(value(order, found[TOWN]).decode("ascii"), first, rows, RAMADAN in found)
    except (KeyError, ValueError, IndexError):
        raise SpoolError("the order cannot be read: its town, its first day or its rows are missing or wrong") from None


def cut(order: bytes, first_page: int, last_page: int) -> bytes:
    """The order of some of its pages: the first day and the rows are changed, and nothing else."""
    asks = read(order)
    if (first_page, last_page) == (1, asks.pages):
        return order
    if asks.ramadan:
        raise SpoolError("a Ramadan order cannot be cut into pages: it has thirty rows from the 1st of Ramadan; print all of its pages")
    begin = PAGE_ROWS * (first_page - 1)
    first, rows = asks.first + datetime.timedelta(begin), min(PAGE_ROWS * last_page, asks.rows) - begin
    found, made = fields(order), bytearray(order)
    at, length = found[ROWS], len(value(order, found[ROWS]))
    made[found[FIRST_DAY]:found[FIRST_DAY] + 4] = first.year.to_bytes(2, "big") + bytes([first.month, first.day])
    made[at:at + length] = rows.to_bytes(length, "big")
    return bytes(made)
