"""A job's log: records of five bytes, a tag, the length 2 and a page. crates/joblog is the library's own reader."""
from __future__ import annotations

import struct

SENT, DONE, FINISHED = 1, 2, 3
LOG_MAX = 25  # bytes of the host's log: host/job.h


def read(log: bytes) -> tuple[int, int] | None:
    """The pages that are finished and those that are sent; None if a record is out of turn. A cut record at the end is ignored."""
    finished = sent = 0
    for at in range(0, len(log) - 4, 5):
        tag, length, page = struct.unpack(">BHH", log[at:at + 5])
        if (tag, length, page) == (SENT, 2, sent + 1):
            sent = page
        elif (tag, length, page) == (DONE, 2, finished + 1) and page <= sent:
            finished = page
        elif (tag, length, at) == (FINISHED, 2, 0):
            finished = sent = page
        else:
            return None
    return finished, sent
