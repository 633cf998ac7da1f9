"""What the host is asked for: a file asks/WORD.ID, which the host takes between two pages."""
from __future__ import annotations

import fcntl
import os
import pathlib
import struct
import time

from .errors import SpoolError
from .files import flush_folder
from .jobs import find

ALLOWED = {"cancel": ("jobs", "held"), "hold": ("jobs",), "release": ("held",)}


def ask(spool: pathlib.Path, word: str, number: int) -> pathlib.Path:
    """Asks the host. SpoolError if that makes no sense for the folder that the job is in."""
    folder = find(spool, number)
    if folder not in ALLOWED[word]:
        state = "in work" if folder == "jobs" else folder
        raise SpoolError(f"job {number} is {state}: there is nothing to {word}")
    path = spool / "asks" / f"{word}.{number}"
    path.parent.mkdir(exist_ok=True)
    os.close(os.open(path, os.O_WRONLY | os.O_CREAT | os.O_NOFOLLOW | os.O_CLOEXEC, 0o664))
    flush_folder(path.parent)
    return path


def was_taken(path: pathlib.Path, seconds: float) -> bool:
    """Waits for the host to take what it was asked."""
    end = time.monotonic() + seconds
    while path.exists():
        if time.monotonic() > end:
            return False
        time.sleep(0.05)
    return True


def host_is_at_work(spool: pathlib.Path) -> bool:
    """Whether a host has the spool's lock."""
    try:
        file = os.open(spool / "lock", os.O_RDONLY | os.O_NOFOLLOW | os.O_NONBLOCK | os.O_CLOEXEC)
    except OSError:
        return False
    try:
        lock = struct.pack("hh4xqqi4x", fcntl.F_WRLCK, os.SEEK_SET, 0, 0, 0)
        return struct.unpack_from("h", fcntl.fcntl(file, fcntl.F_OFD_GETLK, lock))[0] != fcntl.F_UNLCK
    finally:
        os.close(file)
