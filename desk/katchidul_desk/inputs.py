"""What a command is given: orders, texts that are made on the way, or options alone."""
import codecs
import os
from typing import NamedTuple, Optional

from . import orders, streams, zones
from .errors import DeskError, Refused, Unreadable
from .fields import CLOCK
from .messages import Refusal
from .reading import LONGEST, read
from .wording import shown


class Given(NamedTuple):
    """`name` is for messages. With a zone the order has no clock yet."""
    name: str
    order: bytes
    zone: Optional[str] = None
    is_made: bool = False

    @property
    def refusal(self):
        return read(self.order).refusal

    @property
    def lacks_clock(self):
        """Whether a text says nothing about its clock. It is false for an order that was made before."""
        return self.is_made and not self.zone and CLOCK not in read(self.order).values

    def check(self):
        """Raises Refused, with the name of what was given, for an order that the programs refuse."""
        if self.refusal:
            raise Refused(self.refusal, self.name)

    def split(self):
        """The orders by the zone's clock, or None without a zone."""
        return zones.split(self.order, self.zone) if self.zone else None

    def orders(self):
        """What the embosser gets, each order with the words that tell it from the others."""
        made = self.split()
        if made is None:
            return [(self.name, self.order)]
        return [("%s, %s to %s" % (self.name, part.first, part.last), part.order) for part in made.parts]


def given(arguments, command):
    """What the command is given, at least one. An option replaces the field of each text and each order."""
    if arguments.files:
        return [from_file(path, arguments.options) for path in arguments.files]
    if arguments.options:
        return [from_text("the order", "", arguments.options)]
    if streams.is_terminal():
        raise Unreadable("%s takes an order, a text, or options; katchidul %s --help says how" % (command, command))
    return [from_file("-", [])]


def one(arguments, command):
    every = given(arguments, command)
    if len(every) > 1:
        raise Unreadable("%s takes one text or order, and not %d" % (command, len(every)))
    return every[0]


def from_file(path, options):
    data, name = streams.read(path), "standard input" if path == "-" else shown(os.path.basename(path))
    if data.startswith((codecs.BOM_UTF16_LE, codecs.BOM_UTF16_BE)):
        raise DeskError("%s is a text in UTF-16; save it as UTF-8" % name)
    # The length of a field begins with a zero byte, and no text has one.
    if b"\0" not in data:
        return from_text(name, data.decode("utf-8-sig", "surrogateescape"), options)
    if not options:
        return Given(name, data)
    if len(data) > LONGEST:
        raise Refused(Refusal(1, 0, "the order has more than 1,024 bytes"), name)
    return from_text(name, orders.show(data), options)


def from_text(name, text, options):
    try:
        made = orders.make(text, options)
    except Unreadable as why:
        raise Unreadable("%s: %s" % (name, why) if text else str(why), why.field, why.line) from None
    return Given(name, made.order, made.zone, True)
