"""Reads a PNG picture, as far as a browser writes one: eight bits a colour, not interlaced."""
import struct
import zlib


def pixels(data):
    """The rows of a picture, each a list of brightness from 0 to 255."""
    assert data[:8] == b"\x89PNG\r\n\x1a\n"
    at, packed = 8, b""
    while at < len(data):
        length, kind = struct.unpack(">I4s", data[at:at + 8])
        body = data[at + 8:at + 8 + length]
        if kind == b"IHDR":
            width, height, depth, colours, _, _, interlaced = struct.unpack(">IIBBBBB", body)
            assert (depth, interlaced) == (8, 0) and colours in (2, 6)
        packed += body if kind == b"IDAT" else b""
        at += 12 + length
    size = {2: 3, 6: 4}[colours]
    rows = lines(zlib.decompress(packed), width * size, height, size)
    return [[sum(line[x * size:x * size + 3]) // 3 for x in range(width)] for line in rows]


def lines(raw, length, height, size):
    """The rows' bytes, with PNG's filters undone."""
    before = bytearray(length)
    for row in range(height):
        start = row * (length + 1)
        kind, line = raw[start], bytearray(raw[start + 1:start + 1 + length])
        for at in range(length):
            left = line[at - size] if at >= size else 0
            above, corner = before[at], before[at - size] if at >= size else 0
            line[at] = line[at] + (0, left, above, (left + above) // 2, paeth(left, above, corner))[kind] & 255
        yield line
        before = line


def paeth(left, above, corner):
    guess = left + above - corner
    return min((left, above, corner), key=lambda one: abs(guess - one))
