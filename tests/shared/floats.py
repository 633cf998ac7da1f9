"""Floats and their bits. All NaNs are one float, as in the library."""
import struct

NAN = 0x7FF8_0000_0000_0000


def bits(number):
    return NAN if number != number else struct.unpack("<Q", struct.pack("<d", number))[0]


def real(pattern):
    return struct.unpack("<d", struct.pack("<Q", pattern))[0]
