"""The bytes of an order: fields of a tag, a length and a value. A tag is a number or its digits."""
import struct


def field(tag, value):
    return struct.pack(">BH", int(tag), len(value)) + value


def join(fields):
    """An order of pairs of a tag and its value."""
    return b"".join(field(tag, value) for tag, value in fields)


def fields(order):
    """The pairs of a right order."""
    at = 0
    while at < len(order):
        end = at + 3 + int.from_bytes(order[at + 1:at + 3], "big")
        yield order[at], order[at + 3:end]
        at = end


def without(order, *tags):
    """The order without some tags."""
    removed = set(map(str, tags))
    return join((tag, value) for tag, value in fields(order) if str(tag) not in removed)
