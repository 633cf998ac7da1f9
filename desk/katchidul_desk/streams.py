"""Files and standard streams in any state: each fault is a sentence."""
import os
import stat
import sys

from .errors import DeskError
from .wording import shown

# More than any text that makes an order. It limits what is read from a device without an end.
MOST = 65536
closed = set()


class Ended(Exception):
    """Nobody reads standard output any more."""


def start():
    """Puts /dev/null in the place of each closed standard stream: else the next file that is opened would get its number."""
    for number in (0, 1, 2):
        try:
            os.fstat(number)
        except OSError:
            closed.add(number)
            os.open(os.devnull, os.O_RDWR)


def read(path):
    """The bytes of a file, or of standard input for -."""
    name = "standard input" if path == "-" else path
    try:
        if path == "-":
            if 0 in closed:
                raise DeskError("standard input is closed; give an order or a text")
            data = read_all(0)
        else:
            # It waits for a pipe or a terminal, as other commands do.
            number = os.open(path, os.O_RDONLY)
            try:
                data = read_all(number)
            finally:
                os.close(number)
    except (OSError, ValueError) as why:
        raise DeskError("%s can't be read: %s" % (name, getattr(why, "strerror", None) or why)) from None
    if len(data) > MOST:
        raise DeskError("%s has more than %d bytes, so it is no order and no text of one" % (name, MOST))
    if not data:
        raise DeskError("%s is empty; give an order or a text" % name)
    return data


def read_all(number):
    data = b""
    while len(data) <= MOST:
        piece = os.read(number, MOST + 1 - len(data))
        if not piece:
            break
        data += piece
    return data


def is_terminal():
    """Whether standard input is a person, who would have to type an order."""
    return 0 not in closed and os.isatty(0)


def write(data, out=None):
    """To a file, or to standard output."""
    if out is None or out == "-":
        write_standard(data)
    else:
        write_files([(out, data)])


def write_bytes(data, out=None):
    """The same for bytes that are no text and would confuse a terminal."""
    if out is None and 1 not in closed and os.isatty(1):
        raise DeskError("these bytes are no text for a terminal; give a file's name with --out")
    write(data, out)


def write_files(files):
    """Writes (name, bytes) pairs: each file is replaced when all of them are written whole, and none before."""
    parts = []
    try:
        for out, data in files:
            if os.path.exists(out) and not stat.S_ISREG(os.stat(out).st_mode):
                with open(out, "wb", buffering=0) as device:
                    write_all(device.fileno(), data)
            else:
                parts.append(("%s.%d.part" % (os.path.realpath(out), os.getpid()), os.path.realpath(out)))
                write_part(parts[-1][0], data)
        for part, whole in parts:
            os.replace(part, whole)
    except (OSError, ValueError) as why:
        raise DeskError("%s can't be written: %s" % (out, getattr(why, "strerror", None) or why)) from None
    finally:
        for part, _ in parts:
            if os.path.exists(part):
                os.unlink(part)


def write_part(part, data):
    with open(part, "xb", buffering=0) as file:
        write_all(file.fileno(), data)
        os.fsync(file.fileno())


def write_standard(data):
    if 1 in closed:
        raise DeskError("standard output is closed, so nothing was printed")
    try:
        write_all(1, data)
    except BrokenPipeError:
        raise Ended() from None
    except OSError as why:
        raise DeskError("standard output can't be written: %s" % why.strerror) from None


def write_all(number, data):
    while data:
        data = data[os.write(number, data):]


def in_terminals_letters(text):
    """A text's bytes for standard output. What its encoding lacks is written as an escape."""
    return text.encode(getattr(sys.stdout, "encoding", None) or "ascii", "backslashreplace")


def has_letters(text):
    """Whether standard output can show these letters."""
    try:
        text.encode(getattr(sys.stdout, "encoding", None) or "ascii")
        return True
    except (UnicodeEncodeError, LookupError):
        return False


def say(line):
    """A line for the person at the desk, on standard error. A file's name in it can't command the terminal."""
    try:
        os.write(2, (shown(line) + "\n").encode(getattr(sys.stderr, "encoding", None) or "ascii", "backslashreplace"))
    except OSError:
        pass
