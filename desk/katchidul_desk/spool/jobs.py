"""What is in a spool: orders that wait, jobs, and what became of them."""
from __future__ import annotations

import dataclasses
import os
import pathlib

from . import logs, orders
from .errors import SpoolError
from .files import read_regular, shown

ID_MAX = 65535
FOLDERS = ("jobs", "held", "done", "cancelled")
WHY = ".why"


@dataclasses.dataclass(frozen=True)
class Job:
    """`id` is 0 for an order that is no job. `state` is "waiting" (in in/), "queued", "printing", "done", "held", "cancelled" or "refused".
    `sentence` says why, for the last three."""
    id: int
    name: str
    town: str
    pages: int
    sent: int
    finished: int
    state: str
    sentence: str


def check(spool: pathlib.Path) -> None:
    if not spool.is_dir():
        raise SpoolError(f"there is no spool at {shown(str(spool))}: make the folder first, or name another by -d")


def names(folder: pathlib.Path) -> list[str]:
    """The names in a folder, without those that begin with a dot; none if the folder is not there."""
    try:
        return sorted(name for name in os.listdir(folder) if not name.startswith("."))
    except FileNotFoundError:
        return []
    except OSError as error:
        raise SpoolError(f"{shown(str(folder))} cannot be read: {error.strerror}") from None


def text(path: pathlib.Path, most: int) -> bytes:
    """A file's bytes; empty if it cannot be read: then the host says so."""
    try:
        return read_regular(path, most)
    except OSError:
        return b""


def id_of(name: str) -> int:
    """A name as a job's id, or 0."""
    digits = name.isascii() and name.isdigit() and name[0] != "0" and len(name) <= len(str(ID_MAX))
    return int(name) if digits and int(name) <= ID_MAX else 0


def order_of(path: pathlib.Path) -> bytes:
    return text(path, orders.ORDER_MAX + 1)


def described(order: bytes) -> tuple[str, int]:
    """Town and pages, as far as they can be read."""
    try:
        asks = orders.read(order)
        return asks.town, asks.pages
    except SpoolError:
        return "", 0


def why(path: pathlib.Path) -> str:
    return text(path.with_name(path.name + WHY), 1000).decode("ascii", "replace").strip()


def name_of(folder: pathlib.Path) -> str:
    return os.fsdecode(text(folder / "name", 255)) or "order"


def read_job(spool: pathlib.Path, state: str, number: int) -> Job:
    folder = spool / state / str(number)
    town, pages = described(order_of(folder / "order"))
    log = logs.read(text(folder / "log", logs.LOG_MAX + 1))
    finished, sent = log or (0, 0)
    if state == "jobs":
        state = "printing" if sent else "queued"
    sentence = why(folder) if state in ("held", "cancelled") else "" if log else "its log is damaged"
    return Job(number, name_of(folder), town, pages, sent, finished, state, sentence)


def read_order(spool: pathlib.Path, folder: str, name: str) -> Job:
    town, pages = described(order_of(spool / folder / name))
    state = "waiting" if folder == "in" else "refused"
    return Job(0, name, town, pages, 0, 0, state, why(spool / folder / name) if state == "refused" else "")


def ids(spool: pathlib.Path) -> dict[int, str]:
    """The folder of each job. A job that moves meanwhile goes from held/ to jobs/, or from jobs/ to another folder: held/ is read twice."""
    found = {}
    for folder in ("held", *FOLDERS):
        found.update({id_of(name): folder for name in names(spool / folder) if id_of(name)})
    return found


def find(spool: pathlib.Path, number: int) -> str:
    """The folder that a job is in."""
    check(spool)
    folder = ids(spool).get(number)
    if folder is None:
        raise SpoolError(f"there is no job {number} in {shown(str(spool))}")
    return folder


def settled(spool: pathlib.Path, folder: str, number: int) -> Job | None:
    """A job that may move while it is read; None if it was taken out of the spool."""
    while True:
        job = read_job(spool, folder, number)
        if (spool / folder / str(number)).exists():
            return job
        folder = ids(spool).get(number)
        if folder is None:
            return None


def status(spool: pathlib.Path, done: int | None = 100) -> list[Job]:
    """Orders that wait, and the jobs by their ids. Of the jobs that are done or cancelled only the last ones, or all for None."""
    spool = pathlib.Path(spool)
    check(spool)
    waiting = [read_order(spool, "in", name) for name in names(spool / "in")]
    found = ids(spool)
    ended = sorted(number for number, folder in found.items() if folder in ("done", "cancelled"))
    passed = set() if done is None else set(ended[:len(ended) - done] if done < len(ended) else ())
    jobs = [settled(spool, found[number], number) for number in sorted(found) if number not in passed]
    refused = [read_order(spool, "refused", name) for name in names(spool / "refused") if not name.endswith(WHY)]
    return [job for job in jobs if job] + waiting + refused
