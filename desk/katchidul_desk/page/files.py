"""The files that the page has: its own style and script, and the texts and orders in the clerk's folder."""
import os
import pathlib
import stat

from .. import orders, reading
from ..errors import DeskError, Unreadable

OWN = pathlib.Path(__file__).with_name("static")
KINDS = {".css": "text/css; charset=utf-8", ".js": "text/javascript; charset=utf-8", ".svg": "image/svg+xml"}
LONGEST = 64 * 1024
SUFFIXES = (".text", ".txt", ".order")
MOST = 200


def own(name):
    """The kind and content of one of the page's own files, or None. The names are those that the folder has, so no path leaves it."""
    found = {path.name: path for path in (*OWN.iterdir(), OWN.parent.parent / "preview" / "style.css")}
    path = found.get(name)
    return (KINDS[path.suffix], path.read_bytes()) if path and path.suffix in KINDS else None


def listed(folder):
    """The names of the texts and orders in the folder."""
    try:
        with os.scandir(folder) as entries:
            return sorted(entry.name for entry in entries if is_ours(entry.name) and entry.is_file(follow_symlinks=False))[:MOST]
    except OSError:
        return []


def is_ours(name):
    """The plain name of a text or an order: no path, nothing hidden, and nothing that a page would not show."""
    return name.endswith(SUFFIXES) and name.isprintable() and not name.startswith(".") and "/" not in name and "\\" not in name


def content(folder, name):
    """A file of the folder. A name that leads out of it, by a path or by a link, is refused."""
    if not is_ours(name):
        raise Unreadable("the page opens only the texts and orders of its folder")
    try:
        # Without waiting, as a pipe would make it wait, and without following a link.
        descriptor = os.open(os.path.join(folder, name), os.O_RDONLY | os.O_NOFOLLOW | os.O_NONBLOCK | os.O_CLOEXEC)
        with open(descriptor, "rb") as file:
            if not stat.S_ISREG(os.fstat(descriptor).st_mode):
                raise Unreadable("%s is not a file" % name)
            return file.read(LONGEST + 1)
    except (OSError, ValueError) as why:
        raise Unreadable("%s can't be opened: %s" % (name[:100], getattr(why, "strerror", None) or why)) from None


def opened(folder, name):
    """The text of a file, from a text or an order."""
    data = content(folder, name)
    if len(data) > LONGEST:
        raise Unreadable("%s is over 64 KB, so it is neither a text nor an order" % name)
    # The length of a field begins with a zero byte, and no text has one.
    if b"\0" not in data:
        return data.decode("utf-8-sig", "replace")
    refusal = reading.read(data).refusal
    if refusal:
        raise DeskError("%s is not an order that the programs accept: %s" % (name, refusal.why))
    return orders.show(data)
