"""Periods: the table of those that the Rules set, entered ones, and extensions under Rule 6(b)."""
import re
from collections import namedtuple

from .civil import civil, instant_at
from .rule6 import (AFTER, BEFORE, BEYOND, ELECTRONIC, FILING, SERVICE, Filing, Shown, adds_three, covered,
                    end_of_hours, is_timely, last_day, rolled, with_access, with_access_hours)

# `kind` and `second` say whether a kind of service and a second day are "required", "none" or "noted" (may be);
# `unit` is "d" or "h", or, where an order sets the end and nothing is counted, "set" for a day and "at" for a time of it;
# `added` says that the period runs from service under Rule 5(b)(2); `extended` is under which rule it may be extended: "4m",
# "6b" or "never".
Period = namedtuple("Period", "text count unit direction act kind second added extended")

RULES = {period.text: period for period in (
    Period("4m", 90, "d", AFTER, SERVICE, "none", "none", False, "4m"),
    Period("12a1Ai", 21, "d", AFTER, SERVICE, "none", "none", False, "6b"),
    Period("12a1Aii-us", 60, "d", AFTER, SERVICE, "none", "none", False, "6b"),
    Period("12a1Aii-abroad", 90, "d", AFTER, SERVICE, "none", "none", False, "6b"),
    Period("12a1B", 21, "d", AFTER, SERVICE, "required", "none", True, "6b"),
    Period("12a1C", 21, "d", AFTER, SERVICE, "required", "none", True, "6b"),
    Period("12a2", 60, "d", AFTER, SERVICE, "none", "none", False, "6b"),
    Period("12a3", 60, "d", AFTER, SERVICE, "none", "required", False, "6b"),
    Period("59b", 28, "d", AFTER, FILING, "noted", "none", False, "never"),
    Period("59e", 28, "d", AFTER, FILING, "noted", "none", False, "never"),
)}
ENTERED = re.compile("(0|[1-9][0-9]{0,8})([dh])/(after|before)/(filing|service)/(event|served)/"
                     "(plain|50b|50d|52b|59b|59d|59e|60b)")

# The day of an event and the minute of it.
Event = namedtuple("Event", "day minute")

# What a deadline is computed from; `filed` is the act, or None.
Deadline = namedtuple("Deadline", "period event second kind grants filed")

# An extension: "d" or "h" with a number, or "until" with a day; or what an order sets: "reset" with a day, or "reset at" with a
# day and a minute of it.
Grant = namedtuple("Grant", "unit value")
Request = namedtuple("Request", "grant asked motion cause neglect")


def period_of_text(text):
    if text in RULES:
        return RULES[text]
    found = ENTERED.fullmatch(text)
    if not found:
        return None
    count, unit, direction, act, start, mark = found.groups()
    served = start == "served"
    return Period(text, int(count), unit, direction, act, "required" if served else "none", "none", served,
                  "6b" if mark == "plain" else "never")


def set_to(act, timed):
    """The period of an act that an order wants by the day of the event, or by its minute."""
    return Period("set/" + act, 0, "at" if timed else "set", AFTER, act, "none", "none", False, "6b")


def is_set(period):
    """Whether an order sets the period's end."""
    return period.unit in ("set", "at")


def ends_at_instant(period):
    """Whether the period ends at an instant, and not with a day."""
    return period.unit in ("h", "at")


def is_order(grant):
    """Whether an order sets the end itself."""
    return grant.unit in ("reset", "reset at")


def is_in_range(unit, count):
    return unit in ("set", "at") or 1 <= count <= (3650 if unit == "d" else 8760)


def refused_start(days, period, event, second, kind):
    """The refusal of a period from that event, its number, or None."""
    if not covered(days, event.day) or (second is not None and not covered(days, second)):
        return 5
    if not suits(period.kind, kind) or not suits(period.second, second):
        return 7
    if period.added and (period.direction == BEFORE or period.unit == "h"):
        return 7
    return None if is_in_range(period.unit, period.count) else 6


def suits(wanted, given):
    return given is None if wanted == "none" else given is not None or wanted == "noted"


def fits(period, grant):
    """An extension by hours is for a period that ends at an instant, one by days or to a date for one that ends with a day; an order
    sets either end of either."""
    return is_order(grant) or (grant.unit == "h") == ends_at_instant(period)


def extended(days, clock, deadline):
    """Whether the deadline ends with a last day or at an instant, and which, before access to the office is looked at; or None for
    both. An order may set an end of the other kind than the period's: nothing is counted from that in the period's unit."""
    period, event = deadline.period, deadline.event
    if period.unit == "set":
        end = event.day
    elif period.unit == "at":
        end = instant_at(clock.zone, event.day, 60 * event.minute)
    elif period.unit == "d":
        day = event.day if deadline.second is None else max(event.day, deadline.second)
        added = period.added and adds_three(deadline.kind, event.day)
        end = last_day(days, day, period.count, period.direction, added)
    else:
        start = instant_at(clock.zone, event.day, 60 * event.minute)
        end = end_of_hours(days, clock, start, period.count, period.direction)
    kind = "until" if ends_at_instant(period) else "last"
    for grant in deadline.grants:
        counted = end is not None and fits(period, grant) and kind == ("until" if ends_at_instant(period) else "last")
        if is_order(grant) or grant.unit == "until":
            kind, end = set_end(clock, grant) if fits(period, grant) else (kind, None)
        elif not counted:
            end = None
        elif grant.unit == "d":
            end = rolled(days, end + grant.value, AFTER)
        else:
            end = end_of_hours(days, clock, end, grant.value, AFTER)
    return (None, None) if end is None else (kind, end)


def set_end(clock, grant):
    """The kind of the end that an order or an extension to a date sets, and the end."""
    if grant.unit == "reset at":
        return "until", instant_at(clock.zone, grant.value.day, 60 * grant.value.minute)
    return "last", grant.value


def shown(days, clock, deadline):
    """6(a), (b), (d): what is shown of the deadline."""
    kind, end = extended(days, clock, deadline)
    to_date = deadline.grants[-1].unit not in ("d", "h") if deadline.grants else is_set(deadline.period)
    if end is not None and deadline.period.act == FILING and not to_date:
        direction = AFTER if deadline.grants else deadline.period.direction
        if kind == "until":
            end = with_access_hours(days, clock, end, direction)
        else:
            end = with_access(days, end, direction)
    return BEYOND if end is None else Shown(kind, end)


def anew(deadline, day):
    """The deadline as it runs anew from a day, at the time of day of its event: no extension counts any more."""
    return deadline._replace(event=deadline.event._replace(day=day), second=None if deadline.second is None else day, grants=[])


def granted(deadline, grant):
    return deadline._replace(grants=deadline.grants + [grant])


def refused_order(days, clock, deadline, request):
    """The refusal of another end that an order sets, its number, or None. What 6(b)(2) bars gets no later one."""
    grant = request.grant
    day = grant.value if grant.unit == "reset" else grant.value.day
    if not covered(days, request.asked.day) or not covered(days, day):
        return 5
    now, then = shown(days, clock, deadline), shown(days, clock, granted(deadline, grant))
    return 10 if deadline.period.extended == "never" and not is_no_later(clock, now, then) else None


def is_no_later(clock, now, then):
    """Whether the second end is no later than the first: a last day and an instant are compared by the day on the court's clock."""
    if BEYOND in (now, then):
        return False
    if now.kind == then.kind:
        return then.end <= now.end
    return civil(clock.zone, then.end)[0] <= now.end if now.kind == "last" else then.end < civil(clock.zone, now.end)[0]


def refused_extension(days, clock, deadline, request):
    """6(b): the refusal of the extension, or of what an order sets, its number, or None."""
    if is_order(request.grant):
        return refused_order(days, clock, deadline, request)
    grant, asked, period = request.grant, request.asked, deadline.period
    if not covered(days, asked.day) or (grant.unit == "until" and not covered(days, grant.value)):
        return 5
    now = shown(days, clock, deadline)
    if now == BEYOND:
        return 8
    if period.extended == "never":
        return 10
    if not fits(period, grant) or (grant.unit == "h") != (now.kind == "until"):
        return 28
    if grant.unit != "until" and not is_in_range(grant.unit, grant.value):
        return 6
    in_time = is_timely(clock, now, period.act, Filing(asked.day, asked.minute, ELECTRONIC))
    if period.extended == "6b" and not request.cause:
        return 11
    if period.extended == "6b" and not in_time and not request.motion:
        return 12
    if period.extended == "6b" and not in_time and not request.neglect:
        return 13
    then = shown(days, clock, granted(deadline, grant))
    if then == BEYOND:
        return 8
    return None if then.kind == now.kind and then.end > now.end else 14
