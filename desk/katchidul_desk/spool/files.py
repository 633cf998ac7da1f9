"""Files that last, regular files only, and names that can be shown."""
from __future__ import annotations

import errno
import os
import pathlib
import secrets
import stat


def shown(name: str) -> str:
    """A file's name as printable ASCII: every other byte, and the backslash, is \\xHH, as the host writes it."""
    return "".join(chr(byte) if 32 <= byte < 127 and byte != 92 else f"\\x{byte:02x}" for byte in os.fsencode(name))


def read_regular(path, most: int) -> bytes:
    """Up to `most` bytes of a regular file. It is opened without following a link and without waiting. OSError if it is no regular file."""
    file = os.open(path, os.O_RDONLY | os.O_NOFOLLOW | os.O_NONBLOCK | os.O_NOCTTY | os.O_CLOEXEC)
    try:
        if not stat.S_ISREG(os.fstat(file).st_mode):
            raise OSError(errno.EINVAL, "it is not a regular file")
        text = b""
        while len(text) < most and (more := os.read(file, most - len(text))):
            text += more
        return text
    finally:
        os.close(file)


def flush_folder(folder: pathlib.Path) -> None:
    file = os.open(folder, os.O_RDONLY | os.O_DIRECTORY | os.O_CLOEXEC)
    try:
        os.fsync(file)
    finally:
        os.close(file)


def write_unfinished(folder: pathlib.Path, text: bytes) -> pathlib.Path:
    """Writes a file that lasts, under a new name that the host passes over."""
    path = folder / f".unfinished-{os.getpid()}-{secrets.token_hex(8)}"
    file = os.open(path, os.O_WRONLY | os.O_CREAT | os.O_EXCL | os.O_CLOEXEC, 0o664)
    try:
        os.fchmod(file, 0o664)  # for any umask: the host is another user
        left = memoryview(text)
        while left:
            left = left[os.write(file, left):]
        os.fsync(file)
    except BaseException:
        os.unlink(path)
        raise
    finally:
        os.close(file)
    return path


def replace(folder: pathlib.Path, name: str, text: bytes) -> None:
    """Replaces a file's bytes at once, so that they last."""
    os.rename(write_unfinished(folder, text), folder / name)
    flush_folder(folder)


def add(folder: pathlib.Path, name: str, text: bytes) -> None:
    """Adds a file that is whole from the first moment and lasts. FileExistsError if the name is taken."""
    unfinished = write_unfinished(folder, text)
    try:
        os.link(unfinished, folder / name)
    finally:
        os.unlink(unfinished)
    flush_folder(folder)
