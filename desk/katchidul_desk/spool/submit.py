"""Puts orders into a spool. An order is written under a name that the host passes over, flushed, and then linked to its own name. No
order is replaced."""
from __future__ import annotations

import itertools
import os
import pathlib

from .errors import SpoolError
from .files import add, flush_folder, replace, shown
from .jobs import WHY, check

NAME_BYTES = 255


def check_name(name: str) -> None:
    length = len(os.fsencode(name))
    if not name or "/" in name or "\0" in name:
        raise SpoolError(f"{shown(name)!r} is no name of a file")
    if name.startswith("."):
        raise SpoolError(f"{shown(name)} begins with a dot, and the host passes such names over; give the order another name")
    if length > NAME_BYTES:
        raise SpoolError(f"{shown(name)} has {length} bytes; a name has {NAME_BYTES} at most")


def submit(spool: pathlib.Path, name: str, order: bytes) -> str:
    """Puts an order into a spool under a name, and returns the name."""
    spool = pathlib.Path(spool)
    check_name(name)
    check(spool)
    try:
        (spool / "in").mkdir(exist_ok=True)
        add(spool / "in", name, order)
    except FileExistsError:
        raise SpoolError(f"an order {shown(name)} waits in the spool already; give this one another name") from None
    except OSError as error:
        raise SpoolError(f"{shown(name)} was not submitted to {shown(str(spool))}: {error.strerror or error}") from None
    return name


def numbered(name: str):
    """The name, then the name with .2, .3, .. after it."""
    yield name
    yield from (f"{name}.{number}" for number in itertools.count(2))


def submit_free(spool: pathlib.Path, name: str, order: bytes) -> str:
    """The same, with a number after the name if an order of that name waits."""
    return submit(spool, next(each for each in numbered(name) if not (spool / "in" / each).exists()), order)


def take_back(spool: pathlib.Path, name: str, why: str) -> None:
    """Moves an order that waits to refused/, with its sentence, unless the host takes it first."""
    refused, kept = spool / "refused", os.fsdecode(os.fsencode(name)[:NAME_BYTES - 15])
    refused.mkdir(exist_ok=True)
    free = next(each for each in numbered(kept) if not each.endswith(WHY) and not (refused / each).exists())
    replace(refused, free + WHY, f"{why}\n".encode())
    try:
        os.rename(spool / "in" / name, refused / free)
    except FileNotFoundError:
        (refused / (free + WHY)).unlink(missing_ok=True)
        raise SpoolError(f"no order {shown(name)} waits in the spool; a job is cancelled by its number") from None
    flush_folder(refused)
    flush_folder(spool / "in")
