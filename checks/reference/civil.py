"""Days, civil times and the court's clock.

A day is a whole number counted from 1970-01-01, an instant a whole number of seconds counted from its midnight in
Greenwich, and an offset the seconds by which a clock is ahead of Greenwich.
"""
import datetime
import functools
import re
from collections import namedtuple

DAY = 86400
EPOCH = datetime.date(1970, 1, 1).toordinal()

NAME = r"([A-Za-z]{3,15}|<[A-Za-z0-9+-]{3,15}>)"
HOURS = r"([+-]?[0-9]{1,3}(?::[0-9]{2}(?::[0-9]{2})?)?)"
CHANGE = r"M([0-9]{1,2})\.([0-9])\.([0-9])(?:/" + HOURS + ")?"
RULE = re.compile(NAME + HOURS + "(?:" + NAME + HOURS + "?," + CHANGE + "," + CHANGE + ")?")

# When the clock is set forward or back in a year: the month, the week in it (5 is the last), the day of the week from
# Sunday, and the seconds after that day's midnight.
Change = namedtuple("Change", "month week weekday seconds")

# The offset of standard time; that of daylight saving time and the two changes are None where there is none.
Zone = namedtuple("Zone", "standard daylight begins ends")

# When the office is scheduled to open and to close, and to when a last day runs for electronic filing, in minutes after midnight;
# None where it runs to midnight.
Clock = namedtuple("Clock", "zone opens closes efiling_until", defaults=[None])


class CannotTell(Exception):
    """The input has a form that the program may well take, and this body doesn't read."""


def day_of_text(text):
    """The day that is written YYYY-MM-DD, of the years 1900 to 2199, or None."""
    found = re.fullmatch(r"([0-9]{4})-([0-9]{2})-([0-9]{2})", text)
    if not found or not 1900 <= int(found[1]) <= 2199:
        return None
    try:
        return datetime.date(*map(int, found.groups())).toordinal() - EPOCH
    except ValueError:
        return None


def day_text(day):
    return datetime.date.fromordinal(day + EPOCH).isoformat()


def weekday(day):
    """0 for Monday to 6 for Sunday. 1970-01-01 was a Thursday."""
    return (day + 3) % 7


def minute_of_text(text, last="23:59"):
    """The minutes after midnight that are written HH:MM, not after `last`, or None."""
    if not re.fullmatch("[0-9]{2}:[0-9]{2}", text) or text > last or text[3:] > "59":
        return None
    return 60 * int(text[:2]) + int(text[3:])


def minute_text(minute):
    return "{:02}:{:02}".format(minute // 60, minute % 60)


def zone_of_text(text):
    """The zone that the text names, or None."""
    if text[:1] in ("+", "-"):
        found = re.fullmatch(r"[+-](0[0-9]|1[0-4]):([0-5][0-9])", text)
        if not found:
            return None
        seconds = 3600 * int(found[1]) + 60 * int(found[2])
        return Zone(seconds if text[0] == "+" else -seconds, None, None, None)
    found = RULE.fullmatch(text)
    if not found:
        if re.search(r",(J|[0-9])", text):
            raise CannotTell("a rule of a zone with days of the year")
        return None
    standard = -seconds_of(found[2], 24)
    if found[3] is None:
        return Zone(standard, None, None, None)
    daylight = standard + 3600 if found[4] is None else -seconds_of(found[4], 24)
    return Zone(standard, daylight, change_of(found.groups()[4:8]), change_of(found.groups()[8:12]))


def seconds_of(text, most):
    """The seconds of `[+-]h`, `h:mm` or `h:mm:ss`."""
    parts = [int(part) for part in text.lstrip("+-").split(":")] + [0, 0]
    if parts[0] > most or parts[1] > 59 or parts[2] > 59:
        raise CannotTell("a rule of a zone with such hours")
    seconds = 3600 * parts[0] + 60 * parts[1] + parts[2]
    return -seconds if text[0] == "-" else seconds


def change_of(groups):
    month, week, day = map(int, groups[:3])
    if not (1 <= month <= 12 and 1 <= week <= 5 and day <= 6):
        raise CannotTell("a rule of a zone with such a day")
    return Change(month, week, day, 7200 if groups[3] is None else seconds_of(groups[3], 167))


@functools.lru_cache(maxsize=None)
def moment(change, year, offset):
    """The instant of the change in that year, by a clock with that offset."""
    first = datetime.date(year, change.month, 1).toordinal() - EPOCH
    next_month = first + 31
    while datetime.date.fromordinal(next_month + EPOCH).day != 1:
        next_month -= 1
    day = first + (change.weekday - 1 - weekday(first)) % 7 + 7 * (change.week - 1)
    while day >= next_month:
        day -= 7
    return day * DAY + change.seconds - offset


def offset_at(zone, instant):
    if zone.daylight is None:
        return zone.standard
    year = datetime.date.fromordinal(instant // DAY + EPOCH).year
    begins, ends = moment(zone.begins, year, zone.standard), moment(zone.ends, year, zone.daylight)
    if begins <= ends:
        return zone.daylight if begins <= instant < ends else zone.standard
    return zone.standard if ends <= instant < begins else zone.daylight


def civil(zone, instant):
    """The day, and the second of it, that the clock shows."""
    return divmod(instant + offset_at(zone, instant), DAY)


def instant_at(zone, day, second):
    """The instant at which the clock shows this: the earlier of two, and where it shows it never, later by the gap."""
    offsets = [zone.standard] if zone.daylight is None else [zone.standard, zone.daylight]
    civil_seconds = day * DAY + second
    shown = [civil_seconds - offset for offset in offsets if civil(zone, civil_seconds - offset) == (day, second)]
    return min(shown) if shown else civil_seconds - min(offsets)
