"""Good orders, orders damaged in every way, and a second reader of orders, written here from document 01 and the Rust crate's method.rs
alone. tests/orders/run compares both of the library's readers with it; other tests draw orders from here."""
import datetime
import random
import struct

from shared.floats import bits
from shared.orders import field, join

LENGTHS = {1: range(1, 41), 2: [4], 3: [1, 2], 4: [8], 5: [8], 6: [1], 7: [1], 8: [1], 9: [1], 10: [1], 11: [12], 12: [8], 13: [8], 14: [2],
           15: [1],
           16: [2], 17: [1], 18: [5], 19: [5], 20: [2]}
# By method: Fajr, Isha and Maghrib angle, interval, rounding, and the minutes for sunrise, Dhuhr, Asr and Maghrib.
METHODS = [(18.0, 17.0, 0.0, 0, 0, (0, 1, 0, 0)), (19.5, 17.5, 0.0, 0, 0, (0, 1, 0, 0)), (18.0, 18.0, 0.0, 0, 0, (0, 1, 0, 0)),
           (18.5, 0.0, 0.0, 90, 0, (0, 0, 0, 0)),
           (18.2, 18.2, 0.0, 0, 0, (-3, 3, 3, 3)), (18.0, 18.0, 0.0, 0, 0, (0, 5, 0, 3)), (15.0, 15.0, 0.0, 0, 0, (0, 1, 0, 0)),
           (18.0, 17.5, 0.0, 0, 0, (0, 0, 0, 0)),
           (18.0, 0.0, 0.0, 90, 0, (0, 0, 0, 0)), (20.0, 18.0, 0.0, 0, 1, (0, 1, 0, 0)), (17.7, 14.0, 4.5, 0, 0, (0, 0, 0, 0)),
           (18.0, 17.0, 0.0, 0, 0, (-7, 5, 4, 7)),
           (0.0, 0.0, 0.0, 0, 0, (0, 0, 0, 0))]
LAST = datetime.date(2199, 12, 31)
# The tags of a coordinate as a float and as on the map.
FORMS = ((4, 18), (5, 19))


def real(value):
    x = struct.unpack(">d", value)[0]
    return 0.0 if x == 0.0 else x


def hundredths(value):
    """The hundredths of a coordinate as on the map, without its sign."""
    _, degrees, minutes, seconds, parts = value
    return degrees * 360000 + minutes * 6000 + seconds * 100 + parts


def coordinate(values, tag, other):
    """In either form. A quotient of whole numbers is rounded once, and a zero has no sign."""
    if tag in values:
        return real(values[tag])
    return (-1 if values[other][0] == 1 else 1) * hundredths(values[other]) / 360000


def fields_of(order):
    """The values by tag, or the refusal."""
    if len(order) > 1024:
        return None, (1, 0)
    values, at = {}, 0
    while at < len(order):
        if len(order) - at < 3:
            return None, (1, at)
        tag, size = order[at], order[at + 1] * 256 + order[at + 2]
        if tag not in LENGTHS:
            return None, (2, at)
        if tag in values:
            return None, (3, at)
        if size not in LENGTHS[tag]:
            return None, (2, at)
        if len(order) - at - 3 < size:
            return None, (1, at)
        values[tag] = order[at + 3:at + 3 + size]
        at += 3 + size
    return values, None


def offsets(order):
    """Where each field begins, and its tag."""
    at = 0
    while at < len(order):
        yield at, order[at]
        at += 3 + order[at + 1] * 256 + order[at + 2]


def date_of(value):
    try:
        return datetime.date(value[0] * 256 + value[1], value[2], value[3])
    except ValueError:
        return None


def tabular(day):
    """Year, month and day of the tabular Islamic calendar by its rule, counted on from 1-1-1, which is Julian Day 1948439.5."""
    left, year = day.toordinal() - 227015, 1
    leap = lambda: year % 30 in (2, 5, 7, 10, 13, 16, 18, 21, 24, 26, 29)
    while left >= 354 + leap():
        left, year = left - 354 - leap(), year + 1
    month = 1
    while left >= (days := 30 if month % 2 or month == 12 and leap() else 29):
        left, month = left - days, month + 1
    return year, month, left + 1


def opens_ramadan(values):
    """Is the first day, less the shift, the first of month 9?"""
    return tabular(date_of(values[2]) - datetime.timedelta(values[20][1] - 1))[1:] == (9, 1)


def in_range(values, tag):
    value = values[tag]
    if tag == 1:
        return all(32 <= byte <= 126 for byte in value)
    if tag == 2:
        date = date_of(value)
        return date is not None and 1900 <= date.year <= 2199
    if tag == 3:
        rows = int.from_bytes(value, "big")
        if 20 in values and rows != 30:
            return False
        return 1 <= rows <= (250 if len(value) == 1 else 400) and (LAST - date_of(values[2])).days >= rows - 1
    if tag in (4, 5, 12, 13):
        low, high = {4: (-90, 90), 5: (-180, 180), 12: (0, 30), 13: (0, 30)}[tag]
        return low <= real(value) <= high
    if tag == 11:
        return all(-720 <= minutes <= 720 for minutes in struct.unpack(">6h", value))
    if tag == 14:
        return struct.unpack(">H", value)[0] <= 1440
    if tag == 16:
        return -840 <= struct.unpack(">h", value)[0] <= 840
    if tag in (18, 19):
        sign, _, minutes, seconds, parts = value
        return sign <= 1 and minutes <= 59 and seconds <= 59 and parts <= 99 and hundredths(value) <= {18: 90, 19: 180}[tag] * 360000
    if tag == 20:
        return value[0] <= 30 and value[1] <= 2
    low, high = {6: (0, 12), 7: (1, 2), 8: (0, 2), 9: (0, 2), 10: (0, 2), 15: (0, 1), 17: (0, 1)}[tag]
    return low <= value[0] <= high


def refusal_of(order):
    """The values by tag, and the refusal's number and place, or None."""
    values, refusal = fields_of(order)
    if refusal is None:
        refusal = next(((4, tag) for tag in range(1, 7) if tag not in values and dict(FORMS).get(tag) not in values), None)
    if refusal is None:
        refusal = next(((15, other) for tag, other in FORMS if tag in values and other in values), None)
    if refusal is None:
        refusal = next(((5, tag) for tag in sorted(values) if not in_range(values, tag)), None)
    if refusal is None and 20 in values and not opens_ramadan(values):
        refusal = 18, 2
    return values, refusal


def refused_by(order):
    """The refusal's number and place; 0 and 0 for an order that is read."""
    return refusal_of(order)[1] or (0, 0)


def reading(order):
    """What reading returns: number and place of the refusal, then every field of the record, in the order of crates/probes' ProbeOrder, a
    float by its bits. A refused order has 0 in each. And the first line of the order's sheet."""
    values, refusal = refusal_of(order)
    if refusal is not None:
        return (*refusal, *[0] * 35), b"order refused %d place %d" % refusal
    date, method = date_of(values[2]), values[6][0]
    fajr, isha, maghrib, interval, rounding, brought = METHODS[method]
    angle = lambda tag, missing: real(values[tag]) if tag in values else missing
    one = lambda tag, missing: values[tag][0] if tag in values else missing
    town = next(at for at, tag in offsets(order) if tag == 1) + 3
    record = (0, 0, town, len(values[1]), date.year, date.month, date.day, int.from_bytes(values[3], "big"),
              bits(coordinate(values, 4, 18)), bits(coordinate(values, 5, 19)), bits(angle(12, fajr)), bits(angle(13, isha)),
              method, one(7, 1), one(8, 0), one(9, rounding), one(10, 0), struct.unpack(">H", values[14])[0] if 14 in values else interval,
              *struct.unpack(">6h", values.get(11, bytes(12))), one(15, 0), *struct.unpack(">h", values.get(16, bytes(2))), one(17, 0),
              *([1, values[20][0], values[20][1] - 1] if 20 in values else [0, 0, 0]), bits(maghrib), 0, *brought, 0)
    return record, values[1]


def good(draw):
    """A good order, now and then at an end of a range."""
    date = datetime.date(1900, 1, 1) + datetime.timedelta(draw.choice([0, draw.randrange(109572), 109571]))
    size, most = draw.choice([(1, 250), (2, 400)])
    rows = draw.choice([1, draw.randint(1, most), most])
    rows = min(rows, (LAST - date).days + 1)
    on_map = lambda most: bytes([draw.randrange(2), *draw.choice([(most, 0, 0, 0), (0, 0, 0, 0), (draw.randrange(most), 59, 59, 99),
                                 (draw.randrange(most), draw.randrange(60), draw.randrange(60), draw.randrange(100))])])
    double = lambda low, high: struct.pack(">d", draw.choice([low, high, -0.0, 0.0, draw.uniform(low, high)]))
    fields = [(1, bytes(draw.choice([32, 126, draw.randint(32, 126)]) for _ in range(draw.choice([1, 40, draw.randint(1, 40)])))),
              (2, struct.pack(">HBB", date.year, date.month, date.day)), (3, rows.to_bytes(size, "big")),
              draw.choice([(4, double(-90.0, 90.0)), (18, on_map(90))]), draw.choice([(5, double(-180.0, 180.0)), (19, on_map(180))]),
              (6, bytes([draw.randrange(13)]))]
    more = [(7, bytes([draw.randint(1, 2)])), (8, bytes([draw.randrange(3)])), (9, bytes([draw.randrange(3)])),
            (10, bytes([draw.randrange(3)])),
            (11, struct.pack(">6h", *[draw.choice([-720, 720, 0, draw.randint(-720, 720)]) for _ in range(6)])), (12, double(0.0, 30.0)),
            (13, double(0.0, 30.0)), (14, struct.pack(">H", draw.choice([0, 1440, draw.randint(0, 1440)]))),
            (15, bytes([draw.randrange(2)])), (16, struct.pack(">h", draw.choice([-840, 840, 0, draw.randint(-840, 840)]))),
            (17, bytes([draw.randrange(2)]))]
    fields += [f for f in more if draw.random() < 0.5]
    if draw.random() < 0.2:
        fields = ramadan(draw, fields)
    draw.shuffle(fields)
    return fields


def first_days():
    """The 310 first days of Ramadan from 1900 to 2199, by the rule."""
    day = datetime.date(1900, 1, 1)
    while day <= LAST:
        year, month, number = tabular(day)
        if (month, number) == (9, 1):
            yield day
            day += datetime.timedelta(350)
        day += datetime.timedelta(1)


FIRST_DAYS = list(first_days())


def ramadan(draw, fields):
    """The same as a Ramadan sheet."""
    shift = draw.randrange(3)
    day = draw.choice(FIRST_DAYS) + datetime.timedelta(shift - 1)
    kept = [(tag, value) for tag, value in fields if tag not in (2, 3)]
    return kept + [(2, struct.pack(">HBB", day.year, day.month, day.day)), (3, draw.choice([b"\x1e", b"\0\x1e"])),
                   (20, bytes([draw.choice([0, 30, draw.randint(0, 30)]), shift]))]


def out_of_range(draw, tag, value):
    if tag in (4, 5, 12, 13):
        return struct.pack(">d",
                           draw.choice([float("nan"), float("inf"), float("-inf"), -90.00000000000001, 90.00000000000001,
                                        -180.00000000000003,
                                              180.00000000000003, -5e-324, 30.000000000000004]))
    return bytes(draw.choice([byte, byte ^ 1, byte ^ 128, 0, 255, draw.randrange(256)]) for byte in value)


def damaged(draw):
    fields = good(draw)
    kind = draw.randrange(10)
    place = draw.randrange(len(fields))
    tag, value = fields[place]
    if kind == 0:
        del fields[place]
    elif kind == 1:
        fields.insert(draw.randrange(len(fields) + 1), (tag, draw.choice([value, b""])))
    elif kind == 2:
        fields[place] = (draw.choice([0, 20, 21, 99, 255]), value)
    elif kind == 3:
        fields[place] = (tag, draw.choice([value + b" ", value[:-1], b""]))
    elif kind <= 5:
        fields[place] = (tag, out_of_range(draw, tag, value))
    elif kind == 9:
        fields.insert(draw.randrange(len(fields) + 1), draw.choice([(4, bytes(8)), (5, bytes(8)), (18, bytes(5)), (19, b"\xff" * 5)]))
    order = join(fields)
    if kind == 6:
        order = order[:draw.randrange(len(order))]
    elif kind == 7:
        at = draw.randrange(len(order))
        order = order[:at] + bytes([draw.randrange(256)]) + order[at + 1:]
    elif kind == 8:
        order = bytes(draw.randrange(256) for _ in range(draw.randrange(40)))
    return order


def date_bytes(year, month, day):
    return struct.pack(">HBB", year, month, day)


def real_bytes(x):
    return struct.pack(">d", x)


def after(x):
    """The next float above."""
    return struct.unpack(">d", (int.from_bytes(real_bytes(x), "big") + 1).to_bytes(8, "big"))[0]


def minutes_bytes(fajr, isha):
    return struct.pack(">6h", fajr, 0, 0, 0, 0, isha)


# The order of document 01's sheet, 44 bytes; with some of its values others, and with further ones; without a tag.
POLE = {1: b"Pole", 2: date_bytes(2026, 6, 21), 3: b"\1", 4: real_bytes(90.0), 5: real_bytes(0.0), 6: b"\0"}


def but(values):
    return join({**POLE, **values}.items())


def without(tag):
    return join((t, value) for t, value in POLE.items() if t != tag)


WHOLE = but({})


def marked():
    """Document 01's own examples, the ends of each range and the values beyond them, the values of a missing tag, and orders for which the
    order of the checks decides."""
    return broken() + dates_and_rows() + numbers() + on_the_map() + ramadan_sheets()


def broken():
    """Refusals 1 to 4, and a town's bytes."""
    town, long = field(1, b"Pole"), WHOLE + bytes(1024 - len(WHOLE))
    orders = [WHOLE, b""]
    # 1: a field cut, in its header or its value; over 1,024 bytes, of any kind
    orders += [b"\1\0", b"\x63", b"\1\0\2A", WHOLE + b"\7\0", WHOLE + b"\7\0\1", bytes(1025), long, long + b"\0"]
    # 2: a tag that is none, and a length that the tag's value can't have
    lengths = ((99, 0), (0, 0), (16, 1), (16, 3), (15, 0), (15, 2), (18, 1), (17, 0))
    orders += [field(tag, bytes(length)) for tag, length in lengths] + [field(1, b"A" * length) for length in (0, 41, 40)]
    # 3: a tag again, before its wrong length; a wrong length before a cut value
    orders += [town + town, WHOLE + town, WHOLE + b"\1\0\0", WHOLE + b"\7\0\2"]
    # 4: each tag that may not be missing; before a value out of range, and after a broken field
    orders += [without(tag) for tag in POLE] + [field(1, b"\37") + field(2, POLE[2]), field(1, b"\37") + b"\x63"]
    # 5: a town's bytes
    return orders + [but({1: name}) for name in (b"A\37", b"\177", b" ~")]


def dates_and_rows():
    # a date: months and days that there are not, both ends of the years; before the rows
    orders = [but({2: date_bytes(*day)}) for day in ((2026, 13, 1), (2026, 0, 1), (2026, 4, 31), (2026, 2, 29), (2023, 2, 29),
                                                     (2024, 2, 29))]
    orders += [but({2: date_bytes(*day)}) for day in ((1899, 12, 31), (1900, 1, 1), (2199, 12, 31), (2200, 1, 1))]
    orders += [but({2: date_bytes(2026, 4, day), 3: b"\0"}) for day in (31, 30)]
    # rows: 1 to 250, the last by 2199-12-31
    orders += [but({3: bytes([rows])}) for rows in (0, 250, 251)] + [but({2: date_bytes(1900, 1, 1), 3: bytes([251])})]
    orders += [but({2: date_bytes(2199, 12, day), 3: bytes([rows])}) for day, rows in ((31, 2), (1, 31), (1, 32))]
    # rows in two bytes, high byte first: 1 to 400, and the last by 2199-12-31 here too; three bytes are no length
    two = lambda rows: struct.pack(">H", rows)
    orders += [but({3: two(rows)}) for rows in (0, 1, 30, 250, 251, 255, 256, 399, 400, 401, 512, 65535)] + [but({3: b"\0\1\0"})]
    orders += [but({2: date_bytes(2198, 11, day), 3: two(400)}) for day in (26, 27, 28)]
    return orders + [but({2: date_bytes(2199, 12, day), 3: two(rows)}) for day, rows in ((31, 1), (31, 2), (1, 31), (1, 32))]


def numbers():
    # floats: both ends, the next beyond them, NaN, and -0.0, which is read as 0.0
    orders = [but({tag: real_bytes(sign * x)}) for tag,
              most in ((4, 90.0), (5, 180.0)) for sign in (1, -1) for x in (most, after(most), 0.0)]
    orders += [but({tag: real_bytes(x)}) for tag in (12, 13) for x in (30.0, after(30.0), 0.0, -0.0, -after(0.0))]
    orders += [but({tag: real_bytes(float("nan"))}) for tag in (4, 5, 12, 13)]
    # choices: both ends and their neighbours
    orders += [but({6: bytes([number])}) for number in (12, 13)]
    orders += [but({tag: bytes([number])}) for tag in (7, 8, 9, 10, 15, 17) for number in range(4)] + [but({tag: b"\xff"}) for tag in (15,
                                                                                                                                       17)]
    # own minutes, signed 16-bit, which leave the method's; the interval, which leaves the Isha angle
    orders += [but({11: minutes_bytes(*pair)}) for pair in ((-720, 720), (-721, 0), (0, 721), (32767, 0), (0, -32768), (-1, 2))]
    orders += [but({14: struct.pack(">H", n)}) for n in (0, 1440, 1441)]
    # the clock, signed 16-bit
    orders += [but({16: struct.pack(">h", n)}) for n in (-841, -840, -1, 0, 60, 840, 841, 32767, -32768)]
    # the value of a missing tag comes from the method, and a tag sets its one field
    orders += [but({6: bytes([method])}) for method in range(12)]
    return orders + [but({6: b"\11", 9: b"\2"}), but({6: b"\13", 11: minutes_bytes(-1, 2)})]


def on_the_map():
    """Coordinates as on the map, and both forms of one."""
    # each part's limit and the whole's, either sign, a zero with either; a length that it can't have
    given = [(tag, value) for tag, value in POLE.items() if tag not in (4, 5)]
    on_map = lambda *parts: join(given + [(tag, bytes(part)) for tag, part in parts])
    orders = [on_map((18, (sign, 21, 25, 21, 3)), (19, (1 - sign, 39, 49, 34, 32))) for sign in (0, 1)]
    latitudes = ((0, 90, 0, 0, 0), (1, 90, 0, 0, 0), (0, 90, 0, 0, 1), (0, 89, 59, 59, 99), (1, 0, 0, 0, 0), (1, 0, 0, 0, 1),
                 (2, 0, 0, 0, 0),
                 (0, 0, 60, 0, 0), (0, 0, 0, 60, 0), (0, 0, 0, 0, 100), (0, 255, 255, 255, 255), (0, 91, 0, 0, 0))
    orders += [on_map((18, part), (19, (0, 0, 0, 0, 0))) for part in latitudes]
    longitudes = ((0, 180, 0, 0, 0), (1, 180, 0, 0, 1), (1, 179, 59, 59, 99), (0, 181, 0, 0, 0), (1, 0, 60, 0, 0))
    orders += [on_map((18, (0, 0, 0, 0, 0)), (19, part)) for part in longitudes]
    orders += [WHOLE + field(18, bytes(length)) for length in (0, 4, 6)]
    # one coordinate in each form; both forms, which is 15 for any values, after missing tags and before ranges, latitude first
    north, east, wild = field(18, bytes(5)), field(19, bytes(5)), field(18, b"\2\x63\x63\x63\x63")
    orders += [without(4) + north, without(5) + east, WHOLE + north, WHOLE + east, WHOLE + east + north, WHOLE + wild]
    orders += [but({1: b"\37"}) + north, but({4: real_bytes(float("nan"))}) + wild, without(6) + north, without(5) + north,
               without(4) + east]
    # the map form's range is judged in its own tag's turn, after tag 5's
    return orders + [join([*given, (5, real_bytes(181.0)), (18, bytes([0, 91, 0, 0, 0]))])]


def ramadan_sheets():
    """A Ramadan sheet: 30 rows in one byte or two, from the shifted 1 Ramadan on; every first day and its neighbours."""
    fast = lambda day, rows=b"\x1e", told=b"\x0a\1": but({2: date_bytes(*day), 3: rows, 20: told})
    orders = [fast((2026, 2, day), told=bytes([10, shift])) for day in range(16, 21) for shift in range(3)]
    beside = [first + datetime.timedelta(days) for first in FIRST_DAYS for days in (-1, 0, 1)]
    orders += [fast(day.timetuple()[:3]) for day in beside if day <= LAST]
    orders += [fast((1900, 1, day), told=bytes([0, shift])) for day in (1, 2, 3, 4) for shift in range(3)]
    orders += [fast((2026, 2, 18), rows) for rows in (b"\x1d", b"\x1f", b"\0\x1e", b"\0\x1d", b"\1\x1e", b"\1", b"\0")]
    orders += [fast((2026, 2, 18), told=bytes(told)) for told in ((0, 1), (30, 1), (31, 1), (255, 1), (0, 3), (30, 255), (31, 3))]
    # rows other than 30 in tag 3's turn, before tags 4 to 20; ranges before the start; both forms before it
    orders += [fast((2026, 2, 17), b"\x1d", b"\x1f\3"), fast((2026, 2, 17), told=b"\x1f\3"), fast((2026, 2, 17)) + field(7, b"\0"),
               fast((2026, 2, 17)) + field(18, bytes(5)), fast((2026, 2, 30)), fast((2026, 2, 17)) + field(12, real_bytes(31.0))]
    return orders + [WHOLE + field(20, bytes(length)) for length in (0, 1, 3)] + [fast((2026, 2, 18)) + field(20, b"\x0a\1")]


def every():
    """The orders that tests/orders/run compares: the marked ones, good ones and damaged ones. Deterministic."""
    draw = random.Random(1)
    return marked() + [join(good(draw)) for _ in range(1000)] + [damaged(draw) for _ in range(3000)]
