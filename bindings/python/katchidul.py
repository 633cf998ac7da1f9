"""Prayer timetables in braille, by the proved calls of katchidul.h.

    import katchidul

    library = katchidul.Library()
    with open("durham.order", "rb") as file:
        order = file.read()
    print(library.work_day(order, 0).time(katchidul.Time.FAJR))

A call has the header's name without `katchidul_`, and takes what the header's takes. An order, a town and a log are bytes. What the
header's call writes into a lent buffer is returned. A refusal is raised as Refused, whose text is the library's sentence; `number` and
`place` are those of the header.

The library is libkatchidul.so.1 as the loader finds it, or the file that KATCHIDUL_LIBRARY names. It has no state: threads may share it."""
import ctypes
import datetime
import enum
import os
from ctypes import c_double, c_int32, c_int64, c_size_t, c_uint32
from typing import Any, ClassVar, Dict, List, NamedTuple, NoReturn, Optional, Tuple

VERSION = (1, 0)
ORDER_MAX, WRITTEN_MAX, SENTENCE_MAX = 1024, 157, 100
ROW_CELLS, PAGE_ROWS, RAMADAN_ROW_BYTES, ROW_BYTES = 39, 25, 131, 119
JOBS_MAX, PAGES_MAX, RECORD_BYTES = 16, 16, 5


def log_room(open_pages: int) -> int:
    """Bytes that are enough for a job's log while no more pages are sent and not done."""
    return RECORD_BYTES * (open_pages + 2)


# What the numbers say.

Refusal = enum.IntEnum("Refusal", """FIELD_CUT FIELD_UNKNOWN FIELD_AGAIN TAG_MISSING OUT_OF_RANGE NO_TRANSIT NO_SUNRISE NO_SUNSET
    BUFFER_SHORT INSTANT_BEYOND NONE_IN_FORCE LOG_SECOND_SHORT LOG_OUT_OF_TURN LOG_COUNT_OUTSIDE BOTH_FORMS QUEUE_FULL JOB_UNFIT
    NOT_FIRST_OF_RAMADAN""", start=1)
Record = enum.IntEnum("Record", "SENT DONE FINISHED", start=1)
Prayer = enum.IntEnum("Prayer", "NONE FAJR SUNRISE DHUHR ASR MAGHRIB ISHA QIYAM FAJR_TOMORROW", start=0)
Time = enum.IntEnum("Time", "FAJR SUNRISE DHUHR ASR MAGHRIB ISHA MIDDLE QIYAM TOMORROW", start=0)
Minutes = enum.IntEnum("Minutes", "FAJR SUNRISE DHUHR ASR MAGHRIB ISHA", start=0)
Method = enum.IntEnum("Method", """MUSLIM_WORLD_LEAGUE EGYPTIAN KARACHI UMM_AL_QURA DUBAI MOONSIGHTING_COMMITTEE NORTH_AMERICA KUWAIT QATAR
    SINGAPORE TEHRAN TURKEY OTHER""", start=0)
Madhab = enum.IntEnum("Madhab", "SHAFI HANAFI", start=1)
HighLatitudeRule = enum.IntEnum("HighLatitudeRule", "MIDDLE_OF_THE_NIGHT SEVENTH_OF_THE_NIGHT TWILIGHT_ANGLE", start=0)
Rounding = enum.IntEnum("Rounding", "NEAREST UP NONE", start=0)
Shafaq = enum.IntEnum("Shafaq", "GENERAL AHMER ABYAD", start=0)
Southern = enum.IntEnum("Southern", "UNREDUCED STARTS_AGAIN", start=0)
Carry = enum.IntEnum("Carry", "STOPS CARRIES", start=0)


# The header's structs, field by field.

class _Struct(ctypes.Structure):
    _fields_: ClassVar[Any]

    def __repr__(self) -> str:
        values = ((name, getattr(self, name)) for name, _ in self._fields_)
        shown = ", ".join(f"{name}={list(value) if isinstance(value, ctypes.Array) else value}" for name, value in values)
        return f"{type(self).__name__}({shown})"


class _Answer(_Struct):
    number: int
    place: int
    _fields_ = [("number", c_uint32), ("place", c_uint32)]


class Order(_Answer):
    """What an order asks for. write_order takes every field but the first four as it is."""
    town_at: int
    town_length: int
    year: int
    month: int
    day: int
    rows: int
    latitude: float
    longitude: float
    fajr_angle: float
    isha_angle: float
    method: int
    madhab: int
    high_latitude_rule: int
    rounding: int
    shafaq: int
    isha_interval: int
    minutes: "ctypes.Array[c_int32]"
    carry: int
    clock: int
    southern: int
    ramadan: int
    imsak: int
    shift: int
    _fields_ = [*((name, c_uint32) for name in ("town_at", "town_length", "year", "month", "day", "rows")),
                *((name, c_double) for name in ("latitude", "longitude", "fajr_angle", "isha_angle")),
                *((name, c_uint32) for name in ("method", "madhab", "high_latitude_rule", "rounding", "shafaq", "isha_interval")),
                ("minutes", c_int32 * len(Minutes)), ("carry", c_uint32), ("clock", c_int32), ("southern", c_uint32),
                ("ramadan", c_uint32), ("imsak", c_uint32), ("shift", c_int32)]


class Day(_Answer):
    """The nine times of a day, in seconds from 1970-01-01T00:00:00 UTC on."""
    times: "ctypes.Array[c_int64]"
    _fields_ = [("times", c_int64 * len(Time))]

    def time(self, which: Time) -> datetime.datetime:
        """A time, in UTC."""
        return datetime.datetime.fromtimestamp(self.times[which], datetime.timezone.utc)


class Map(_Answer):
    """A coordinate as on the map; sign 1 is south or west."""
    sign: int
    degrees: int
    minutes: int
    seconds: int
    hundredths: int
    _fields_ = [(name, c_uint32) for name in ("sign", "degrees", "minutes", "seconds", "hundredths")]


class Queue(_Struct):
    """The print queue. An empty one is Queue()."""
    jobs: int
    ids: "ctypes.Array[c_uint32]"
    pages: "ctypes.Array[c_uint32]"
    _fields_ = [("jobs", c_uint32), ("ids", c_uint32 * JOBS_MAX), ("pages", c_uint32 * JOBS_MAX)]


class Turned(_Struct):
    """The job whose page is to be sent, its pages left, and the queue after that; id 0 if no job waits."""
    id: int
    pages: int
    queue: Queue
    _fields_ = [("id", c_uint32), ("pages", c_uint32), ("queue", Queue)]


def _answer(name: str, **fields: Any) -> Any:
    return type(name, (_Answer,), {"_fields_": list(fields.items())})


_Prayer = _answer("_Prayer", prayer=c_uint32)
_Remaining = _answer("_Remaining", hours=c_uint32, minutes=c_uint32)
_Reply = _answer("_Reply")
_Written = _answer("_Written", length=c_uint32)
_Meaning = _answer("_Meaning", of_number=c_uint32, of_place=c_uint32)
_Cells = _answer("_Cells", rows=c_uint32, dots=c_uint32)
_Joined = _answer("_Joined", queue=Queue)
_Log = _answer("_Log", moved=c_uint32, finished=c_uint32, sent=c_uint32, used=c_size_t)

_READ, _LENT = [ctypes.c_char_p, c_size_t], [ctypes.POINTER(ctypes.c_char), c_size_t]
_AT_ROW, _AT_INSTANT = _READ + [c_uint32], _READ + [c_uint32, c_int64, c_uint32]
# What each call returns and takes.
CALLS: Dict[str, Tuple[Any, List[Any]]] = {
    "version": (c_uint32, []),
    "read_order": (Order, _READ),
    "write_order": (_Written, [Order] + _READ + _LENT),
    "work_day": (Day, _AT_ROW),
    "prayer_at": (_Prayer, _AT_INSTANT),
    "next_at": (_Prayer, _AT_INSTANT),
    "remaining_at": (_Remaining, _AT_INSTANT),
    "write_row": (_Reply, _AT_ROW + _LENT),
    "write_cells": (_Cells, _AT_ROW + _LENT),
    "write_page": (_Cells, _AT_ROW + [c_uint32] + _LENT),
    "join": (_Joined, [Queue, c_uint32, c_uint32]),
    "turn": (Turned, [Queue]),
    "read_log": (_Log, _READ + [c_size_t]),
    "append": (_Log, _LENT + [c_size_t, c_uint32, c_uint32] + _LENT),
    "restart": (_Log, _READ + [c_size_t, c_uint32] + _LENT),
    "write_sentence": (_Written, [c_uint32, c_uint32] + _LENT),
    "read_sentence": (_Meaning, _READ),
    "map_latitude": (Map, [c_double]),
    "map_longitude": (Map, [c_double]),
}


# What the calls return.

class Refused(Exception):
    """A refusal: its number, as Refusal has it, and place. Its text is the library's sentence. A later library may have more numbers."""

    def __init__(self, number: int, place: int, sentence: str):
        super().__init__(sentence)
        self.number, self.place = number, place


class Remaining(NamedTuple):
    hours: int
    minutes: int


class Cells(NamedTuple):
    """Cells of braille, a byte each and 39 a row, how many rows they are, and their dots."""
    cells: bytes
    rows: int
    dots: int


class Log(NamedTuple):
    """A job's log: its bytes, which the host makes lasting, and what they say. Pages 1 to finished are done, 1 to sent are sent."""
    log: bytes
    finished: int
    sent: int


class Library:
    """The calls of one shared object."""

    def __init__(self, path: Optional[str] = None):
        """Loads the library. OSError if it is not there, or of another version than this module can use."""
        path = path or os.environ.get("KATCHIDUL_LIBRARY") or f"libkatchidul.so.{VERSION[0]}"
        self._loaded = ctypes.CDLL(path)
        self._loaded.katchidul_version.restype = c_uint32
        major, minor = self.version()
        if major != VERSION[0] or minor < VERSION[1]:
            raise OSError(f"{path} has version {major}.{minor}, and this module needs {VERSION[0]}.{VERSION[1]} or a later {VERSION[0]}")
        for name, (result, given) in CALLS.items():
            call = getattr(self._loaded, "katchidul_" + name)
            call.restype, call.argtypes = result, given

    def _ask(self, name: str, *given: Any) -> Any:
        """Calls, with bytes and buffers as a pointer and a length, and raises a refusal."""
        words = (part for word in given for part in ((word, len(word)) if isinstance(word, (bytes, ctypes.Array)) else (word,)))
        said = getattr(self._loaded, "katchidul_" + name)(*words)
        if getattr(said, "number", 0) != 0:
            self._refuse(said.number, said.place)
        return said

    def _refuse(self, number: int, place: int) -> NoReturn:
        raise Refused(number, place, self.write_sentence(number, place))

    def version(self) -> Tuple[int, int]:
        """The library's major and minor number."""
        number: int = self._loaded.katchidul_version()
        return number // 65536, number % 65536

    # An order and its days.

    def read_order(self, order: bytes) -> Order:
        asked: Order = self._ask("read_order", order)
        return asked

    def write_order(self, order: Order, town: bytes) -> bytes:
        """The order's bytes."""
        room = ctypes.create_string_buffer(WRITTEN_MAX)
        length: int = self._ask("write_order", order, town, room).length
        return room.raw[:length]

    def work_day(self, order: bytes, row: int) -> Day:
        """The nine times of a row's date; rows count from 0."""
        day: Day = self._ask("work_day", order, row)
        return day

    def prayer_at(self, order: bytes, row: int, seconds: int, nanoseconds: int = 0) -> Prayer:
        """The prayer in force at an instant, by the row's day alone."""
        return Prayer(self._ask("prayer_at", order, row, seconds, nanoseconds).prayer)

    def next_at(self, order: bytes, row: int, seconds: int, nanoseconds: int = 0) -> Prayer:
        return Prayer(self._ask("next_at", order, row, seconds, nanoseconds).prayer)

    def remaining_at(self, order: bytes, row: int, seconds: int, nanoseconds: int = 0) -> Remaining:
        """The time until the next prayer."""
        said = self._ask("remaining_at", order, row, seconds, nanoseconds)
        return Remaining(said.hours, said.minutes)

    # A row and a page.

    def write_row(self, order: bytes, row: int) -> bytes:
        """A row's line with its newline: 119 bytes, or 131 of a Ramadan sheet."""
        room = ctypes.create_string_buffer(RAMADAN_ROW_BYTES)
        self._ask("write_row", order, row, room)
        return room.raw[:room.raw.index(b"\n") + 1]

    def write_cells(self, order: bytes, row: int) -> Cells:
        """A row in braille."""
        room = ctypes.create_string_buffer(ROW_CELLS)
        said = self._ask("write_cells", order, row, room)
        return Cells(room.raw, said.rows, said.dots)

    def write_page(self, order: bytes, page: int, first: int = 0, rows: int = PAGE_ROWS) -> Cells:
        """Up to `rows` rows of a page in braille, from its row `first` on. Pages count from 1, rows from 0."""
        room = ctypes.create_string_buffer(ROW_CELLS * rows)
        said = self._ask("write_page", order, page, first, room)
        return Cells(room.raw[:ROW_CELLS * said.rows], said.rows, said.dots)

    # The print queue.

    def join(self, queue: Queue, id: int, pages: int) -> Queue:
        """The queue with a job more at its back."""
        joined: Queue = self._ask("join", queue, id, pages).queue
        return joined

    def turn(self, queue: Queue) -> Turned:
        turned: Turned = self._ask("turn", queue)
        return turned

    # A job's log. `size` is the bytes that the host keeps for it.

    def read_log(self, log: bytes) -> Log:
        return self._log(self._ask("read_log", log, len(log)), log)

    def append(self, log: bytes, record: Record, page: int, size: int = log_room(PAGES_MAX)) -> Log:
        """The log with a record more. Make its bytes lasting before the page is sent."""
        first, second = self._rooms(log, size)
        said = self._ask("append", first, len(log), record, page, second)
        return self._log(said, second.raw if said.moved else first.raw)

    def restart(self, log: bytes, count: int, size: int = log_room(PAGES_MAX)) -> Log:
        """The log after a failure, by the number of pages that the embosser has finished. Pages finished + 1 to sent go out again."""
        _, second = self._rooms(log, size)
        return self._log(self._ask("restart", log, len(log), count, second), second.raw)

    @staticmethod
    def _rooms(log: bytes, size: int) -> "Tuple[ctypes.Array[ctypes.c_char], ctypes.Array[ctypes.c_char]]":
        first = ctypes.create_string_buffer(max(size, len(log)))
        ctypes.memmove(first, log, len(log))
        return first, ctypes.create_string_buffer(size)

    @staticmethod
    def _log(said: Any, log: bytes) -> Log:
        return Log(log[:said.used], said.finished, said.sent)

    # Words.

    def write_sentence(self, number: int, place: int) -> str:
        """A refusal in words."""
        room = ctypes.create_string_buffer(SENTENCE_MAX)
        length: int = self._ask("write_sentence", number, place, room).length
        return room.raw[:length].decode("ascii")

    def read_sentence(self, sentence: str) -> Tuple[int, int]:
        """The number and the place that a sentence says."""
        said = self._ask("read_sentence", sentence.encode("ascii", "replace"))
        return said.of_number, said.of_place

    def map_latitude(self, degrees: float) -> Map:
        place: Map = self._ask("map_latitude", degrees)
        return place

    def map_longitude(self, degrees: float) -> Map:
        place: Map = self._ask("map_longitude", degrees)
        return place
