"""The ends that other readings of the Rules give, computed by the program in plain Python (reference/).

Each is the deadline of reference/periods.py with one thing changed: its act, its event, or its days counted in two steps; or on
days of which some are no holidays.
"""
from lib.derivation_steps import time_text
from lib.legal_names import legal_name
from reference.civil import civil, weekday
from reference.periods import Deadline, Event, Period, shown
from reference.rule6 import AFTER, BEYOND, FILING, SERVICE, Days, Outage, adds_three

# What the name of a holiday ends in that may be none, and the reading by which it is none.
DOUBT, DOUBTFUL_DAY = " (doubtful)", "that day isn't a legal holiday"


def days_of(calendar):
    """The calendar as the second program has it."""
    outages = [Outage(*outage) for outage in calendar.outages]
    return Days(calendar.first, calendar.last, set(calendar.federal), set(calendar.state), outages)


def with_act(deadline, act, kind):
    """The same deadline with another act, from the day from which it runs."""
    period, event = deadline.period, deadline.event
    day = event.day if deadline.second is None else max(event.day, deadline.second)
    return deadline._replace(period=period._replace(act=act), event=Event(day, event.minute), second=None, kind=kind)


def again(days, clock, so_far, count):
    """What is shown where that many days are counted from a day that is shown, to file. None for an instant."""
    if so_far.kind != "last":
        return BEYOND if so_far == BEYOND else None
    period = Period("", count, "d", AFTER, FILING, "none", "none", False, "6b")
    return shown(days, clock, Deadline(period, Event(so_far.end, 0), None, None, [], None))


def readings(days, clock, names, deadline):
    """Each reading's words, and what is shown by it, or None where it doesn't bear on the deadline."""
    files = deadline.period.act == FILING
    other = with_act(deadline, SERVICE if files else FILING, deadline.kind)
    yield "the outage moves nothing", shown(days, clock, other) if files else None
    yield "outages move service too", None if files else shown(days, clock, other)
    last = deadline.grants[-1] if deadline.grants else None
    before = deadline._replace(grants=deadline.grants[:-1])
    by_days = files and last is not None and last.unit == "d"
    yield "extended from the moved day", again(days, clock, shown(days, clock, before), last.value) if by_days else None
    added = deadline.period.added and adds_three(deadline.kind, deadline.event.day)
    without = with_act(deadline, FILING, None)
    moved = files and added and not deadline.grants
    yield "moved before the 3 days too", again(days, clock, shown(days, clock, without), 3) if moved else None
    event = deadline.event
    at_midnight = deadline.period.unit == "h" and event.minute == 0
    later = deadline._replace(event=Event(event.day + 1, 0))
    yield "from the end of that day", shown(days, clock, later) if at_midnight else None
    yield "that Friday isn't a legal holiday", shown(without_fridays(days), clock, deadline)
    yield DOUBTFUL_DAY, shown(without_doubtful(days, names), clock, deadline)


def without_fridays(days):
    """The days of which no Friday is a holiday because a Saturday's is observed on it."""
    return days._replace(federal={day for day in days.federal if weekday(day) != 4 or not legal_name(day).endswith(", observed")})


def without_doubtful(days, names):
    """The days of which none is a holiday of the state whose name says that it is doubtful."""
    return days._replace(state={day for day in days.state if not names.get(day, "").endswith(DOUBT)})


def lines(calendar, deadline):
    """The lines of the readings that give another end, as (day, what, section)."""
    days, clock = days_of(calendar), calendar.clock
    end = shown(days, clock, deadline)
    for words, other in readings(days, clock, calendar.names, deadline):
        if other is None or other == end:
            continue
        what, day = "other reading: " + words, other.end
        if other.kind == "until":
            day, second = civil(clock.zone, other.end)
            what += ", " + time_text(second)
        elif other == BEYOND:
            what += ", beyond"
        yield (day, what, "ours")
