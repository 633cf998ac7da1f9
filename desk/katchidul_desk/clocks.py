"""A zone's clock, as the system's time zone data has it."""
import datetime
import zoneinfo

from .errors import ZoneError
from .wording import did_you_mean, quoted, utc_offset

# Folders of the time zone data whose clocks count leap seconds, or are in another folder too.
OTHER_CLOCKS = ("right/", "posix/")
# An order's clock is at most this far from UTC.
MOST_MINUTES = 840


def find(name):
    """The zone of a name such as Europe/London."""
    try:
        if not name.startswith(OTHER_CLOCKS):
            return zoneinfo.ZoneInfo(name)
    except (KeyError, OSError, ValueError):
        pass
    known = zoneinfo.available_timezones()
    if not known:
        raise ZoneError("this computer has no time zone data; install the package tzdata (on Debian: apt install tzdata)")
    if name in known:
        raise ZoneError("the time zone data of %s can't be read; install the package tzdata again" % quoted(name))
    raise ZoneError("%s is no time zone%s" % (quoted(name), did_you_mean(name, known) or ", which is written as Europe/London"))


def minutes(instant, zone):
    """The zone's clock at an instant, in minutes from UTC."""
    offset = instant.astimezone(zone).utcoffset()
    if offset % datetime.timedelta(minutes=1):
        raise ZoneError("on %s the clocks of %s were %s from UTC, and an order's clock has whole minutes" % (
            instant.date(), zone.key, offset))
    clock = offset // datetime.timedelta(minutes=1)
    if abs(clock) > MOST_MINUTES:
        raise ZoneError("on %s the clocks of %s are %s, and an order's are at most 14 hours from UTC" % (
            instant.date(), zone.key, utc_offset(clock)))
    return clock


def local(instant, zone):
    return instant.astimezone(zone).strftime("%H:%M")
