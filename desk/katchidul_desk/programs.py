"""Runs the proved programs: those that are installed beside this package, or else those of its checkout.

A checkout's program is proved and built before its first run, and again after a change to a crate. KATCHIDUL_PROGRAMS names another
folder of programs."""
import fcntl
import os
import pathlib
import re
import subprocess
from typing import NamedTuple, Optional

from .errors import ProgramError
from .messages import Refusal
from .proving import prove

NAMES = ("sheet", "cells", "wear", "week")
PACKAGE = pathlib.Path(__file__).resolve().parent
REFUSED = re.compile(rb"order refused (\d+) place (\d+)\n")


class Printed(NamedTuple):
    """What a program printed. For a refused order this is the refusal's line, and `refusal` has number and place."""
    text: bytes
    refusal: Optional[Refusal]


def run(name, order):
    """Runs the program on an order."""
    program = find(name)
    try:
        ended = subprocess.run([program], input=order, stdout=subprocess.PIPE, check=False)
    except OSError as why:
        raise ProgramError("the program %s can't be run: %s" % (program, why.strerror)) from None
    if ended.returncode != 0:
        raise ProgramError("the program %s ended with status %d, so nothing is printed" % (name, ended.returncode))
    # A refused order prints this one line and nothing else, so no town's name can look like it.
    refused = REFUSED.fullmatch(ended.stdout)
    return Printed(ended.stdout, Refusal(int(refused[1]), int(refused[2])) if refused else None)


def find(name):
    """The program's path."""
    folder = os.environ.get("KATCHIDUL_PROGRAMS")
    if folder:
        return existing(pathlib.Path(folder) / name)
    if (PACKAGE.parent / name).is_file():
        return PACKAGE.parent / name
    root = PACKAGE.parent.parent
    if (root / "crates" / name / "src" / "main.rt").is_file():
        return proved(root, name)
    raise ProgramError("the program %s is not installed beside %s; install Katchidul again" % (name, PACKAGE))


def existing(path):
    if not path.is_file():
        raise ProgramError("KATCHIDUL_PROGRAMS names a folder without the program %s" % path.name)
    return path


# In a checkout.


def proved(root, name):
    """The checkout's program, after a proof if one is due. A lock keeps two first runs apart."""
    program, checked = root / "target" / "bin" / name, root / "target" / (name + ".checked")
    if is_current(root, program, checked):
        return program
    try:
        (root / "target").mkdir(exist_ok=True)
        with open(root / "target" / "desk.lock", "w") as lock:
            fcntl.flock(lock, fcntl.LOCK_EX)
            if not is_current(root, program, checked):
                prove(root, name, checked)
    except OSError as why:
        raise ProgramError("the program %s can't be proved and built: %s" % (name, why)) from None
    return existing(program)


def is_current(root, program, checked):
    """Whether no crate is newer than the last proof. The program's own age does not tell: rt leaves it if a change does not touch it."""
    try:
        since = checked.stat().st_mtime_ns
        return os.access(program, os.X_OK) and all(path.lstat().st_mtime_ns <= since for path in sources(root))
    except OSError:
        # No proof yet, or a file that went away meanwhile.
        return False


def sources(root):
    yield root / "crates.txt"
    for folder, below, files in os.walk(root / "crates"):
        # what rt itself writes
        below[:] = [name for name in below if name != "out"]
        yield pathlib.Path(folder)
        yield from (pathlib.Path(folder) / file for file in files)
