"""Rule 6 of the Federal Rules of Civil Procedure: days, hours, access to the clerk's office, timeliness, notice.

None as a day or an instant says that there is none: it lies beyond the days that the calendar covers.
"""
from collections import namedtuple

from .civil import civil, day_of_text, instant_at, weekday

AFTER, BEFORE = "after", "before"
FILING, SERVICE = "filing", "service"
ELECTRONIC, PAPER = "electronic", "paper"

# The span, its first and last day included; the two lists of holidays; the outages in the order of entry.
Days = namedtuple("Days", "first last federal state outages")

# An outage begins at minute `start` of the day, and ends before minute `end`.
Outage = namedtuple("Outage", "day start end")

# An act: by what means, on which day and in which minute of it.
Filing = namedtuple("Filing", "day minute means")

# What is shown of a deadline: ("last", day), ("until", instant) or ("beyond", None).
Shown = namedtuple("Shown", "kind end")
BEYOND = Shown("beyond", None)

# Electronic service added three days until the amendment of 2016.
AMENDED = day_of_text("2016-12-01")


def covered(days, day):
    return days.first <= day <= days.last


def permitted(days, day, direction):
    """6(a)(1)(C), 6(a)(6): covered, no Saturday, no Sunday, no holiday in that direction."""
    holiday = day in days.federal or (direction == AFTER and day in days.state)
    return covered(days, day) and weekday(day) < 5 and not holiday


def rolled(days, day, direction):
    """6(a)(5): the nearest permitted day at or after the day, or at or before it."""
    while day is not None and covered(days, day):
        if permitted(days, day, direction):
            return day
        day += 1 if direction == AFTER else -1
    return None


def last_day(days, event, count, direction, added):
    """6(a)(1), 6(d): the last day of that many days, and where three are added, of three more."""
    last = rolled(days, event + count if direction == AFTER else event - count, direction)
    if last is None or not added:
        return last
    return rolled(days, last + 3, AFTER)


def end_of_hours(days, clock, instant, count, direction):
    """6(a)(2)."""
    end = instant + 3600 * count if direction == AFTER else instant - 3600 * count
    day, second = civil(clock.zone, end)
    if permitted(days, day, direction):
        return end
    day = rolled(days, day, direction)
    return None if day is None else instant_at(clock.zone, day, second)


def has_outage(days, day):
    return any(outage.day == day for outage in days.outages)


def first_accessible(days, day, direction):
    """The least later day that is covered, permitted and without an outage."""
    for later in range(max(day + 1, days.first), days.last + 1):
        if permitted(days, later, direction) and not has_outage(days, later):
            return later
    return None


def with_access(days, last, direction):
    """6(a)(3)(A)."""
    return first_accessible(days, last, direction) if has_outage(days, last) else last


def with_access_hours(days, clock, end, direction):
    """6(a)(3)(B): an outage meets the 3,600 seconds before the end."""
    day, second = civil(clock.zone, end)
    near = [outage for outage in days.outages if abs(outage.day - day) <= 2]
    # outages begin and end with minutes, so that one second of each is enough where the offsets are whole minutes too
    seconds = [end, clock.zone.standard, clock.zone.daylight or 0]
    pace = 60 if all(second % 60 == 0 for second in seconds) else 1
    if not near or not any(is_out(near, *civil(clock.zone, moment)) for moment in range(end - 3600, end, pace)):
        return end
    later = first_accessible(days, day, direction)
    return None if later is None else instant_at(clock.zone, later, second)


def is_out(outages, day, second):
    return any(outage.day == day and 60 * outage.start <= second < 60 * outage.end for outage in outages)


def adds_three(kind, served):
    """6(d), by the letter of the kind of service in Rule 5(b)(2)."""
    return kind in ("C", "D", "F") or (kind == "E" and served < AMENDED)


def day_end(clock, act, means):
    """6(a)(4). The minute at which a last day ends: for a paper filing the closing one, for an electronic one that of a local rule; None
    where it ends at midnight, as for service."""
    if act == SERVICE:
        return None
    return clock.efiling_until if means == ELECTRONIC else clock.closes


def is_timely(clock, shown, act, filing):
    """6(a)(4). The last day ends at the minute of its end, which is in time, or at midnight."""
    if shown.kind == "until":
        return instant_at(clock.zone, filing.day, 60 * filing.minute) <= shown.end
    if shown.kind == "beyond" or filing.day > shown.end:
        return False
    end = day_end(clock, act, filing.means)
    return filing.day < shown.end or end is None or filing.minute <= end


def notice_day(days, hearing, count):
    """6(c): the greatest permitted day that lies at least that many days before the hearing."""
    for day in range(min(hearing - count, days.last), days.first - 1, -1):
        if permitted(days, day, BEFORE):
            return day
    return None
