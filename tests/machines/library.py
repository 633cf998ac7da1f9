"""Orders for the tests, and their pages by the library itself, over a shared object of it."""
import ctypes
import struct

from shared.header import declared
from shared.orders import join

ROW, PAGE = 39, 25
BRF = " A1B'K2L@CIF/MSP\"E3H9O6R^DJG>NTQ,*5<-U8V.%[$+X!&;:4\\0Z7(_?W]#Y)="


class Library:
    def __init__(self, shared):
        self.write = declared(ctypes.CDLL(shared)).katchidul_write_page

    def pages(self, order):
        """The cells of each page."""
        made = []
        while True:
            scratch = ctypes.create_string_buffer(ROW * PAGE)
            reply = self.write(order, len(order), len(made) + 1, 0, scratch, ROW * PAGE)
            if reply.number:
                return made
            made.append(scratch.raw[:reply.rows * ROW])


def order(town, rows=30, first=(2026, 6, 1), clock=60, latitude=54.7753, longitude=-1.5849):
    return join([(1, town.encode("ascii")), (2, struct.pack(">HBB", *first)), (3, struct.pack(">H", rows)),
                 (4, struct.pack(">d", latitude)), (5, struct.pack(">d", longitude)), (6, b"\0"), (16, struct.pack(">h", clock))])


def brf(cells):
    """A page in BRF, without its heading."""
    rows = [cells[at:at + ROW] for at in range(0, len(cells), ROW)]
    return ("".join("".join(BRF[cell] for cell in row) + "\r\n" for row in rows) + "\f").encode("ascii")
