"""A second sun for the rows that the tests compare: the low-precision formulas of the Astronomical Almanac, page C24.

Their error is 0.01 degrees, some seconds of time. Nothing here is from the port or its source but two rules of the source: the shadow of
Asr is that of the sun at 0h, and Dhuhr by the Muslim World League is a minute after noon."""
import datetime
import math

J2000 = datetime.datetime(2000, 1, 1, 12, tzinfo=datetime.timezone.utc)
HORIZON = -50 / 60
FAJR, ISHA = -18, -17


def sun(at):
    """Declination in radians, and the equation of time in degrees."""
    days = (at - J2000).total_seconds() / 86400
    mean, anomaly = (280.460 + 0.9856474 * days) % 360, math.radians(357.528 + 0.9856003 * days)
    longitude = math.radians(mean + 1.915 * math.sin(anomaly) + 0.020 * math.sin(2 * anomaly))
    tilt = math.radians(23.439 - 0.0000004 * days)
    ascension = math.degrees(math.atan2(math.cos(tilt) * math.sin(longitude), math.cos(longitude)))
    return math.asin(math.sin(tilt) * math.sin(longitude)), (mean - ascension + 180) % 360 - 180


def hour_angle(altitude, latitude, declination):
    """From noon to the moment at which the sun has an altitude, in degrees."""
    sine = math.sin(math.radians(altitude)) - math.sin(latitude) * math.sin(declination)
    return math.degrees(math.acos(sine / (math.cos(latitude) * math.cos(declination))))


def moment(date, latitude, longitude, altitude, side):
    """When the sun has an altitude before noon (-1) or after it (1); noon itself for 0."""
    noon = datetime.datetime.combine(date, datetime.time(12), datetime.timezone.utc) - datetime.timedelta(hours=longitude / 15)
    at = noon
    for _ in range(6):
        declination, equation = sun(at)
        angle = side * hour_angle(altitude, math.radians(latitude), declination) if side else 0
        at = noon + datetime.timedelta(hours=(angle - equation) / 15)
    return at


def asr_altitude(date, latitude):
    """The shadow is as long as the thing and its shadow at noon."""
    declination, _ = sun(datetime.datetime.combine(date, datetime.time(0), datetime.timezone.utc))
    return math.degrees(math.atan(1 / (1 + math.tan(abs(math.radians(latitude) - declination)))))


def six_times(date, latitude, longitude):
    """Fajr to Isha in UTC, by the Muslim World League's angles."""
    asked = [(FAJR, -1), (HORIZON, -1), (0, 0), (asr_altitude(date, latitude), 1), (HORIZON, 1), (ISHA, 1)]
    times = [moment(date, latitude, longitude, *one) for one in asked]
    times[2] += datetime.timedelta(minutes=1)
    return times
