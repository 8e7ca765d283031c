"""The steps of a deadline's reasons, one at a time: which line may follow, and how far it leads.

Nothing here computes a deadline. Each function speaks of one place that the reasons may have come to; it is given the
next line, says whether that may follow there, and which function is asked next. What it knows are the rules of one step
and the court's file.
"""
import re
from collections import namedtuple

from lib.legal_names import called
from reference.civil import civil, day_of_text, day_text, instant_at, minute_of_text, minute_text, offset_at, weekday

# The calendar as it is when the deadline is shown: its span, its lists of holidays, its outages (day, from, to).
Calendar = namedtuple("Calendar", "clock first last federal state outages names")
# What a row says of a deadline: `second` and `kind` may be None, `length` is ("d" or "h", number), or of an end that an order sets
# ("set", 0) for a day and ("at", 0) for a time; `grants` are texts as `+7d`, `+24h` or a date, or as `order DATE`
# and `order DATE TIME`. `right_from` is the day from which the rule of its period is right, or None; `text` is the
# period as the row has it.
Deadline = namedtuple("Deadline", "length direction act served kind event minute second summons right_from grants text")
# A line: the day that it shows, or None; what happened; the section that it cites.
Line = namedtuple("Line", "day what section")

AFTER, BEFORE = "after", "before"
DAY = 86400
COLUMN = 50
AMENDED = day_of_text("2016-12-01")
KINDS = {"A": "by hand", "B": "at office or home", "C": "by mail", "D": "by leaving with the clerk", "E": "electronically",
         "F": "by other means"}
LAST_DAY = {AFTER: "6(a)(1)(C)", BEFORE: "6(a)(1)(C), 6(a)(5)"}
SAME_TIME = {AFTER: "6(a)(2)(C)", BEFORE: "6(a)(2)(C), 6(a)(5)"}
# Where a time is fixed 6(a) doesn't apply, as the Committee Note says; else an instant ends hours.
BY_ORDER, BY_HOURS = "6(a), 2009 Note", "6(a)(2)"
WEEKDAYS = ["Mon", "Tue", "Wed", "Thu", "Fri", "Sat", "Sun"]


class Wrong(Exception):
    """Why a line can't follow."""


def expect(said, why):
    if not said:
        raise Wrong(why)


def line_of(text):
    """The line that is written so: two spaces, the day or as many spaces, what happened in 50 columns, the section."""
    found = re.fullmatch(r"  (?:([A-Z][a-z]{2}) (\d{4}-\d\d-\d\d)| {14})  (\S(?:.*\S)?) +(?<=  )(\S.*)", text)
    expect(found, "the line has another form")
    name, date, what, section = found.groups()
    # one run of spaces parts the two; neither has two spaces in a row
    expect("  " not in what and text == text[:18] + what.ljust(COLUMN) + "  " + section, "the columns don't stand in line")
    if name is None:
        return Line(None, what, section)
    day = day_of_text(date)
    expect(day is not None and WEEKDAYS[weekday(day)] == name, "the day of the week is another")
    return Line(day, what, section)


def checked(calendar, deadline, lines, answer):
    """That the lines lead from the event to what is answered, as `last DATE`, `until DATE TIME` or `beyond`; the lines that
    follow the end."""
    place, left = begins, list(lines)
    while left and not isinstance(place, str):
        place = place(calendar, deadline, left.pop(0))
    expect(isinstance(place, str), "the reasons end before the time does")
    expect(place == answer, "the reasons lead to {}, and the answer is {}".format(place, answer))
    return left




def is_covered(calendar, day):
    return calendar.first <= day <= calendar.last


def causes(calendar, day, holidays, accessible):
    """The causes for which the day is passed over, each with the section that it adds."""
    name = calendar.names.get(day)
    found = []
    if weekday(day) == 5:
        found.append(("Saturday", ""))
    if weekday(day) == 6:
        found.append(("Sunday", ""))
    if day in calendar.federal:
        found.append((called(day, name), ", 6(a)(6)"))
    if holidays == AFTER and day in calendar.state:
        found.append((name or "legal holiday of the state", ", 6(a)(6)(C)"))
    if accessible and any(outage[0] == day for outage in calendar.outages):
        found.append(("inaccessible", ""))
    return found


def counted(start, count, direction):
    return start + count if direction == AFTER else start - count


def time_text(second):
    return "{:02}:{:02}:{:02}".format(second // 3600, second // 60 % 60, second % 60)


def shown_at(calendar, instant):
    day, second = civil(calendar.clock.zone, instant)
    return day, time_text(second)


def begins(calendar, deadline, line):
    unit, count = deadline.length
    if unit == "set":
        expect(line == Line(deadline.event, "set for this day by an order", BY_ORDER), "an order sets the day")
        return runs(deadline.event, False, deadline.grants)
    if unit == "at":
        end = instant_at(calendar.clock.zone, deadline.event, 60 * deadline.minute)
        day, time = shown_at(calendar, end)
        expect(line == Line(day, "set by an order for " + time, BY_ORDER), "an order sets the time")
        return runs_until(end, deadline.grants, BY_ORDER)
    if unit == "d":
        event = later_event(deadline)
        if deadline.right_from is not None and event < deadline.right_from:
            what = "the rule as it reads from {} is applied".format(day_text(deadline.right_from))
            expect(line == Line(event, what, "ours"), "the event lies before the day from which the rule is right")
            return excludes
        return excludes(calendar, deadline, line)
    start = instant_at(calendar.clock.zone, deadline.event, 60 * deadline.minute)
    day, time = shown_at(calendar, start)
    expect(line == Line(day, "the event, at " + time, "6(a)(2)(A)"), "hours are counted from the event on")
    return counting_hours(start, count, deadline.direction, deadline.grants)


def excludes(calendar, deadline, line):
    event = later_event(deadline)
    expect(line == Line(event, "day of the event, excluded", "6(a)(1)(A)"), "the event's day is excluded")
    return counting(event, deadline.length[1], deadline.direction, adds_three(deadline), deadline.grants)


def later_event(deadline):
    return deadline.event if deadline.second is None else max(deadline.event, deadline.second)


def adds_three(deadline):
    if not deadline.served or deadline.kind is None:
        return False
    return deadline.kind in "CDF" or (deadline.kind == "E" and deadline.event < AMENDED)


def not_covered(line):
    return line == Line(None, "a day that is needed isn't covered", "ours")


def counting(start, count, direction, three, grants):
    def place(calendar, deadline, line):
        day = counted(start, count, direction)
        if not_covered(line):
            expect(not is_covered(calendar, day), "the day is covered")
            return nowhere(grants)
        expect(is_covered(calendar, day), "the day isn't covered")
        expect(line == Line(day, "day {}, every day counted".format(count), "6(a)(1)(B)"), "every day is counted")
        found = lambda last: runs(last, three, grants)
        return looking(day, direction, direction, False, LAST_DAY[direction], runs_to(found), grants)
    return place


def runs_to(found):
    """The day that was looked for is the last day."""
    def end(calendar, day, line, section):
        expect(line == Line(day, "the time runs to this day", section), "the time runs to the day that is open")
        return found(day)
    return end


def same_time(second, found):
    """The day that was looked for has the same time."""
    def end(calendar, day, line, section):
        instant = instant_at(calendar.clock.zone, day, second)
        shown, time = shown_at(calendar, instant)
        expect(line == Line(shown, "the same time, " + time, section), "the hours run to the same time")
        return found(instant)
    return end


def looking(day, going, holidays, accessible, section, end, grants):
    """The day is looked at: it is passed over for a cause, or it is the one."""
    def place(calendar, deadline, line):
        if not_covered(line):
            expect(not is_covered(calendar, day), "the day is covered")
            return nowhere(grants)
        expect(is_covered(calendar, day), "the day isn't covered")
        found = causes(calendar, day, holidays, accessible)
        if line.what.endswith(", passed over"):
            wanted = [Line(day, cause + ", passed over", section + added) for cause, added in found]
            expect(line in wanted, "there is no such cause to pass over the day")
            return looking(counted(day, 1, going), going, holidays, accessible, section, end, grants)
        expect(not found, "the day is to be passed over")
        return end(calendar, day, line, section)
    return place


def runs(last, three, grants):
    """The time runs to this last day."""
    def place(calendar, deadline, line):
        if three:
            wanted = Line(None, "3 days added, served " + KINDS[deadline.kind], "6(d)")
            expect(line == wanted, "three days are added for the service")
            return counting(last, 3, AFTER, False, grants)
        if grants:
            return extended(calendar, deadline, line, grants, last)
        outages = [outage for outage in calendar.outages if outage[0] == last]
        if moves(deadline) and outages:
            expect(line in [Line(last, inaccessible(outage), "6(a)(3)(A)") for outage in outages],
                   "the clerk's office was inaccessible on the last day")
            return for_access(calendar, deadline, last, "6(a)(3)(A)", runs_to(closes))
        return closes(last)(calendar, deadline, line)
    return place


def moves(deadline):
    """The clerk's office matters for filing, and not where the end is a date certain: one to which the time was extended last, or
    one that an order sets."""
    certain = deadline.grants[-1][0] != "+" if deadline.grants else deadline.length[0] in ("set", "at")
    return deadline.act == "filing" and not certain


def inaccessible(outage):
    return "clerk's office inaccessible {} to {}".format(minute_text(outage[1]), minute_text(outage[2]))


def for_access(calendar, deadline, day, section, end):
    holidays = AFTER if deadline.grants else deadline.direction
    return looking(max(day + 1, calendar.first), AFTER, holidays, True, section, end, [])


def closes(last):
    def place(calendar, deadline, line):
        if deadline.act == "filing":
            until = calendar.clock.efiling_until
            what = "last day, to {}, e-filing to {}".format(minute_text(calendar.clock.closes), "midnight" if until is None else minute_text(until))
            expect(line == Line(last, what, "6(a)(4)"), "the last day ends when the office closes")
        else:
            expect(line == Line(last, "last day, to midnight", "ours"), "the last day ends at midnight")
        return "last " + day_text(last)
    return place


def extension(deadline, grant):
    """The day of an extension or of what an order sets, what is said of it, and the section."""
    section = "4(m)" if deadline.summons else "6(b)"
    if grant[0] == "+":
        unit = {"d": "day", "h": "hour"}[grant[-1]]
        return None, "extended by {} {}{}".format(int(grant[1:-1]), unit, "" if int(grant[1:-1]) == 1 else "s"), section
    words = grant.split(" ")
    if words[0] != "order":
        return day_of_text(grant), "extended to this day", section
    time = "{} of ".format(words[2]) if sets_time(grant) else ""
    return day_of_text(words[1]), "reset to {}this day by an order".format(time), BY_ORDER


def sets_time(grant):
    """Whether an order sets a time of day."""
    return len(grant.split(" ")) == 3


def adds(grant, unit):
    """Whether the extension is by a number of these."""
    return grant[0] == "+" and grant[-1] == unit


def fits(deadline, grant):
    """An order sets an end of either kind."""
    return grant.startswith("order ") or adds(grant, "h") == (deadline.length[0] in ("h", "at"))


def from_certain(calendar, grants, day):
    """On from the date certain of the first of these, or from the time of it."""
    if not sets_time(grants[0]):
        return runs(day, False, grants[1:])
    end = instant_at(calendar.clock.zone, day, 60 * minute_of_text(grants[0].split(" ")[2]))
    return runs_until(end, grants[1:], BY_ORDER)


def extended(calendar, deadline, line, grants, last):
    day, what, section = extension(deadline, grants[0])
    if adds(grants[0], "h") or not fits(deadline, grants[0]):
        expect(line == Line(day, "not " + what, section), "the extension is of another kind")
        return nowhere(grants[1:])
    expect(line == Line(day, what, section), "the time is extended")
    if day is not None:
        return from_certain(calendar, grants, day)
    return counting(last, int(grants[0][1:-1]), AFTER, False, grants[1:])


def counting_hours(start, hours, direction, grants):
    def place(calendar, deadline, line):
        end = counted(start, 3600 * hours, direction)
        day, time = shown_at(calendar, end)
        # how far the clocks were set forward between the earlier of the two and the later
        earlier, later = min(start, end), max(start, end)
        forward = offset_at(calendar.clock.zone, later) - offset_at(calendar.clock.zone, earlier)
        change = ""
        if forward:
            change = ", clocks {} {} min".format("forward" if forward > 0 else "back", abs(forward) // 60)
        wanted = Line(day, "hour {}, at {}{}".format(hours, time, change), "6(a)(2)(B)")
        expect(line == wanted, "every hour is counted")
        return hours_end(end, direction, grants)
    return place


def hours_end(end, direction, grants):
    def place(calendar, deadline, line):
        day, second = civil(calendar.clock.zone, end)
        is_open = is_covered(calendar, day) and not causes(calendar, day, direction, False)
        if is_open:
            expect(line == Line(day, "the hours end on this day", "6(a)(2)(C)"), "the hours end on an open day")
            return runs_until(end, grants)
        expect(line == Line(day, "the hours end, and are continued", "6(a)(2)(C)"), "the hours are continued")
        found = lambda instant: runs_until(instant, grants)
        return looking(day, direction, direction, False, SAME_TIME[direction], same_time(second, found), grants)
    return place


def meets_last_hour(calendar, end, outage):
    # an hour lies on two days at the most
    if abs(outage[0] - civil(calendar.clock.zone, end)[0]) > 1:
        return False
    seconds = (civil(calendar.clock.zone, at) for at in range(end - 3600, end))
    return any(day == outage[0] and 60 * outage[1] <= second < 60 * outage[2] for day, second in seconds)


def runs_until(end, grants, section=BY_HOURS):
    def place(calendar, deadline, line):
        if grants:
            day, what, by_rule = extension(deadline, grants[0])
            if adds(grants[0], "d") or not fits(deadline, grants[0]):
                expect(line == Line(day, "not " + what, by_rule), "the extension is of another kind")
                return nowhere(grants[1:])
            expect(line == Line(day, what, by_rule), "the time is extended")
            if day is not None:
                return from_certain(calendar, grants, day)
            return counting_hours(end, int(grants[0][1:-1]), AFTER, grants[1:])
        met = [outage for outage in calendar.outages if meets_last_hour(calendar, end, outage)]
        if moves(deadline) and met:
            expect(line in [Line(outage[0], inaccessible(outage), "6(a)(3)(B)") for outage in met],
                   "the clerk's office was inaccessible in the last hour")
            day, second = civil(calendar.clock.zone, end)
            return for_access(calendar, deadline, day, "6(a)(3)(B)", same_time(second, ends_at))
        return ends_at(end, section)(calendar, deadline, line)
    return place


def ends_at(end, section=BY_HOURS):
    def place(calendar, deadline, line):
        day, time = shown_at(calendar, end)
        expect(line == Line(day, "the time ends at " + time, section), "the time ends at that instant")
        return "until {} {}".format(day_text(day), time)
    return place


def nowhere(grants):
    """A day that was needed isn't covered; a date may yet be among the extensions."""
    def place(calendar, deadline, line):
        if not grants:
            expect(line == Line(None, "beyond the days covered", "ours"), "the time is beyond the days covered")
            return "beyond"
        day, what, section = extension(deadline, grants[0])
        if day is not None and fits(deadline, grants[0]):
            expect(line == Line(day, what, section), "the time is extended")
            return from_certain(calendar, grants, day)
        expect(line == Line(day, "not " + what, section), "there is nothing to extend")
        return nowhere(grants[1:])
    return place
