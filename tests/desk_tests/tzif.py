"""A second reading of the system's time zone files, from RFC 8536 alone, with the rule in the footer."""
import bisect
import calendar
import functools
import pathlib
import re
import struct
import zoneinfo

HEADER = struct.Struct(">4sc15x6l")
OFFSET = r"([+-]?)(\d{1,3})(?::(\d{2}))?(?::(\d{2}))?"
NAME = r"(?:<[^>]+>|[A-Za-z]+)"
RULE = re.compile(r"%s%s(?:(%s)(?:%s)?(?:,([^,]+),([^,]+))?)?" % (NAME, OFFSET, NAME, OFFSET))


def seconds(sign, hours, minutes, rest):
    size = int(hours) * 3600 + int(minutes or 0) * 60 + int(rest or 0)
    return -size if sign == "-" else size


class Zone:
    def __init__(self, name):
        path = next(path for path in (pathlib.Path(folder) / name for folder in zoneinfo.TZPATH) if path.is_file())
        data = path.read_bytes()
        _, _, utc, standard, leap, times, types, letters = HEADER.unpack_from(data)
        second = HEADER.size + times * 5 + types * 6 + letters + leap * 8 + standard + utc
        magic, _, utc, standard, leap, times, types, letters = HEADER.unpack_from(data, second)
        if magic != b"TZif":
            raise ValueError("no second part in %s" % path)
        at = second + HEADER.size
        self.times = list(struct.unpack_from(">%dq" % times, data, at))
        kinds = data[at + 8 * times:at + 9 * times]
        offsets = [struct.unpack_from(">l", data, at + 9 * times + 6 * kind)[0] for kind in range(types)]
        self.offsets = [offsets[kind] for kind in kinds]
        self.first = offsets[0]
        at += 9 * times + 6 * types + letters + 12 * leap + standard + utc
        self.rule = data[at:].strip(b"\n").decode("ascii")

    def offset(self, instant):
        """Seconds from UTC at a count of seconds from 1970."""
        if not self.times or instant >= self.times[-1]:
            return self.by_rule(instant) if self.rule else self.offsets[-1]
        at = bisect.bisect_right(self.times, instant)
        return self.offsets[at - 1] if at else self.first

    def by_rule(self, instant):
        year = 1970 + instant // 31556952
        changes = self.rule_changes(range(year - 1, year + 2))
        return max(one for one in changes if one[0] <= instant)[1]

    @functools.lru_cache(maxsize=None)
    def rule_changes(self, years):
        """(instant, offset from it on) by the rule. Without summer time there is one, from the beginning on."""
        found = RULE.fullmatch(self.rule).groups()
        standard = -seconds(*found[:4])
        if not found[4]:
            return [(-2**62, standard)]
        summer = -seconds(*found[5:9]) if found[6] else standard + 3600
        return [(change(year, found[9]) - standard, summer) for year in years] + [(change(year, found[10]) - summer,
                                                                                   standard) for year in years]

    def changes(self, first, last):
        """The instants between two at which the clock may change."""
        by_rule = self.rule_changes(range(1970 + first // 31556952, 1970 + last // 31556952)) if self.rule else []
        return [time for time in [*self.times, *(time for time, _ in by_rule)] if first <= time <= last]


def change(year, rule):
    """M3.5.0/2, the last Sunday of March at 02:00, or the two forms by the day of the year: seconds from 1970, as if local were UTC."""
    day, _, time = rule.partition("/")
    at = seconds(*re.fullmatch(OFFSET, time or "2").groups())
    if day.startswith("M"):
        month, week, weekday = map(int, day[1:].split("."))
        first = (calendar.weekday(year, month, 1) + 1) % 7
        days = 1 + (weekday - first) % 7 + 7 * (week - 1)
        while days > calendar.monthrange(year, month)[1]:
            days -= 7
        return calendar.timegm((year, month, days, 0, 0, 0)) + at
    start = calendar.timegm((year, 1, 1, 0, 0, 0))
    if day.startswith("J"):
        number = int(day[1:]) - 1 + (calendar.isleap(year) and int(day[1:]) >= 60)
        return start + number * 86400 + at
    return start + int(day) * 86400 + at
