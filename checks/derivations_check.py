#!/usr/bin/env python3
"""Checks what `docket memo` prints under answers: reasons each by the line before it, and the other lines by themselves.

    derivations_check.py DOCKET [SEED [COUNT]]

Rows are made at random from SEED (by default 1) until COUNT deadlines (by default 10000) were shown: ends that are
computed, and deadlines that are started, set and reset by orders, extended, ended and resumed, with acts and hearings, and with holidays and
outages that are entered meanwhile. Every deadline that an answer or a sheet shows must have its period in words, then reasons that lead to
what is shown, by the steps of lib/derivation_steps.py alone, which computes no deadline, and then the other readings that
give another end, which the second program in plain Python computes (lib/other_readings.py). The lines of an act, of a
refusal and of what a reader is warned of must be those of lib/note_lines.py, the head that of lib/memo_head.py, and the page
with these lines that of lib/memo_page.py. So must those of the examples and of the stored run. Of each input the sheets of some
cases are asked for too, from days at random: they must have the lines of the sheet that the second program writes, each with
the rows that made it what it is, its reasons, its act, how far its end lies from that day, and what a reader is warned of. Then
lines of every shape are spoiled in every way below and must be refused. The status is 0 where all of this is so. It needs Python
3.8 or later.
"""
import random
import re
import sys
from collections import Counter

from lib import note_lines, other_readings
from lib.desk import desk_rows, report_of
from lib.derivation_steps import AFTER, COLUMN, WEEKDAYS, Calendar, Deadline, Line, Wrong, checked, expect, line_of
from lib.made_inputs import CODES, HOLIDAYS, ZONES, listed, quoted
from lib.memo_head import below_head, head_of, without_made
from lib.memo_page import memo_on, page_of
from lib.period_words import COUNTING, SET, SUMMONS, called
from lib.programs import TOP, programs_of, seed_and_count
from reference import periods
from reference.civil import day_of_text, day_text, minute_of_text, minute_text, weekday
from reference.court_file import court_of, split, table_of
from reference.docket import STEPS, assignment_of, case_of, deadlines_of, ending_of, hearing_of, motions_of, opening, step, view
from reference.rows_in import grant as grant_of, reset_to, rows_of
from reference.text_out import assigned_text, sheet_lines, shown_text

# Of the periods of the Rules the number of days, the act, whether they run from service under Rule 5(b)(2), and the day
# from which they are so.
RULES = {"4m": (90, "service", False, SUMMONS), "12a1Ai": (21, "service", False, COUNTING),
         "12a1Aii-us": (60, "service", False, COUNTING), "12a1Aii-abroad": (90, "service", False, COUNTING),
         "12a1B": (21, "service", True, COUNTING), "12a1C": (21, "service", True, COUNTING),
         "12a2": (60, "service", False, COUNTING), "12a3": (60, "service", False, COUNTING),
         "59b": (28, "filing", False, COUNTING), "59e": (28, "filing", False, COUNTING)}


# What an input and its answers say


def deadline_of(period, date, time, second, kind):
    """The deadline that the last five fields of `start` and `compute` say."""
    if period in RULES:
        days, act, served, right_from = RULES[period]
        length, direction = ("d", days), AFTER
    elif period in SET:
        length, direction, act, served, right_from = ("at" if time else "set", 0), AFTER, period.split("/")[1], False, None
    else:
        entered, direction, act, start, _ = period.split("/")
        length, served, right_from = (entered[-1], int(entered[:-1])), start == "served", None
    return Deadline(length, direction, act, served, kind or None, day_of_text(date), minute_of_text(time or "00:00"),
                    day_of_text(second) if second else None, period == "4m",
                    day_of_text(right_from) if right_from else None, [], period)


def calendar_of(file):
    """The calendar of a court's file."""
    court = court_of(file)
    days = court.days
    return Calendar(court.clock, days.first, days.last, list(days.federal), list(days.state), [], names_of(file))


def names_of(file):
    """The names that a court's file gives to holidays."""
    table = table_of(file).get("holiday_names", {})
    return {day_of_text(date): name for date, name in table.items() if day_of_text(date) is not None}


def enter(calendar, fields):
    """A holiday or an outage that was entered."""
    if fields[0] == "holiday":
        getattr(calendar, fields[2]).append(day_of_text(fields[1]))
    else:
        outage = (day_of_text(fields[1]), minute_of_text(fields[2]), minute_of_text(fields[3], "24:00"))
        calendar.outages.append(outage)


def derivations(data, output):
    """Each deadline that is shown: the calendar as it was then, the deadline, its lines, what is shown, the lines that must
    follow those of the deadline, and those that must come before them. Each other answer: None, the lines that must follow,
    those that do, the answer, and nothing."""
    file, rows = split(data)
    calendar, started, begun = calendar_of(file), {}, {}
    court = court_of(file)
    docket, works = opening(court), [row.work for row in rows_of(rows, 1, court, True)]
    rows = [row.split(",") for row in rows.decode().splitlines() if row]
    lines = output.decode().split("\n")[:-1]
    at, number, case = 0, 0, None

    def told():
        nonlocal at
        first = at
        while at < len(lines) and lines[at].startswith("  "):
            at += 1
        return lines[first:at]

    def copy():
        return calendar._replace(federal=list(calendar.federal), state=list(calendar.state),
                                 outages=list(calendar.outages))

    while at < len(lines):
        line = lines[at]
        at += 1
        answer = re.fullmatch(r"(\d+) 1 (.*)", line)
        if answer and int(answer[1]) == number + 1 and number < len(rows):
            fields, text, work = rows[number][1:], answer[2], works[number]
            number += 1
            docket, made = step(court, docket, work) if work[0] in STEPS else (docket, view(court, docket, work))
            shown = re.fullmatch(r"(?:deadline (\d+) |extended |reset |resumed )?((?:last|until|beyond).*)", text)
            if shown and fields[0] in ("compute", "start", "set", "extend", "reset", "resume"):
                if fields[0] == "compute":
                    deadline = deadline_of(*fields[1:])
                elif fields[0] in ("start", "set"):
                    own = begun[fields[1], shown[1]] = fields[2:] if fields[0] == "start" else ["set/" + fields[4], fields[2], fields[3], "", ""]
                    deadline = started[fields[1], shown[1]] = deadline_of(*own)
                else:
                    if fields[0] == "resume" and fields[3]:
                        period, _, time, second, kind = begun[fields[1], fields[2]]
                        started[fields[1], fields[2]] = deadline_of(period, fields[3], time, second and fields[3], kind)
                    deadline = started[fields[1], fields[2]]
                    if fields[0] in ("extend", "reset"):
                        deadline.grants.append(fields[3] if fields[0] == "extend" else order_text(*fields[3:5]))
                more = note_lines.notes(court, docket, work, made)
                yield copy(), deadline._replace(grants=list(deadline.grants)), told(), shown[2], more, []
                continue
            if text in ("holiday entered", "outage entered"):
                enter(calendar, fields)
            yield None, note_lines.notes(court, docket, work, made), told(), text, [], []
            continue
        found = re.fullmatch(r"case (\d+) filed .*", line)
        if found:
            case = found[1]
            continue
        found = re.fullmatch(r"deadline (\d+) \S+ ((?:last \S+|until \S+ \S+|beyond)) .*", line)
        if found:
            deadline = started[case, found[1]]
            yield copy(), deadline._replace(grants=list(deadline.grants)), told(), found[2], [], []
            continue
        if line.startswith("  "):
            raise Wrong("reasons under an answer that shows no deadline: " + line)


def docket_after(data):
    """The court's file, its court, what is docketed after all rows, and by case and deadline the lines of the rows."""
    file, rows = split(data)
    court = court_of(file)
    sources, docket = note_lines.sources(court, [row.work for row in rows_of(rows, 1, court, True)])
    return file, court, docket, sources


def order_text(date, time):
    return " ".join(["order", date] + [time] * bool(time))


def grant_text(grant):
    if grant.unit == "until":
        return day_text(grant.value)
    if grant.unit == "reset":
        return order_text(day_text(grant.value), "")
    if grant.unit == "reset at":
        return order_text(day_text(grant.value.day), minute_text(grant.value.minute))
    return "+{}{}".format(grant.value, grant.unit)


def granted(text):
    """The extension as the second program has it, or what an order sets."""
    words = text.split(" ")
    if words[0] != "order":
        return grant_of(text, None)
    return reset_to(day_of_text(words[1]), [minute_of_text(time) for time in words[2:]])


def of_row(row):
    """The deadline of a docketed row."""
    second = "" if row.second is None else day_text(row.second)
    time = "" if row.period.unit == "set" else minute_text(row.event.minute)
    deadline = deadline_of(row.period.text, day_text(row.event.day), time, second, row.kind)
    return deadline._replace(grants=[grant_text(grant) for grant in row.grants])


def whole_case(ended, output, case, today):
    """The same of the whole sheet of a case, counted from a day or None, where the input ended so."""
    file, court, docket, sources = ended
    lines = output.decode().split("\n")[:-1]
    if case_of(docket, case) is None:
        expect(lines == ["status 6", "docket: case {} isn't open: no row has opened it".format(case)], "a case that isn't open is shown")
        return
    filed, days = case_of(docket, case).filed, docket.days
    calendar = Calendar(court.clock, days.first, days.last, list(days.federal), list(days.state),
                        [tuple(outage) for outage in days.outages], names_of(file))
    blocks = [[]]
    for line in lines:
        if not line.startswith("  "):
            blocks.append([line])
        else:
            blocks[-1].append(line)
    expect(blocks[0] == [] and [block[0] for block in blocks[1:]] == sheet_lines(court, docket, case),
           "the sheet has other lines")
    # the line of who has the case comes after that of the case
    blocks = iter(blocks[2 if assignment_of(docket, case) is None else 3:])
    for deadline in deadlines_of(docket, case):
        row, block = deadline.row, next(blocks)
        first = sources[case, deadline.number]
        is_due = ending_of(docket, case, deadline.number) is None
        more = note_lines.act(court, docket, row) + note_lines.ahead(court, docket, row, today if is_due else None)
        more += note_lines.of_deadline(court, docket, row, filed, today)
        more += note_lines.of_motions(row, [other.row for other in deadlines_of(docket, case)])
        shown = shown_text(court, periods.shown(days, court.clock, row))
        yield calendar, of_row(row), block[1:], shown, more, first
    for motion in motions_of(docket, case):
        block, hearing = next(blocks), hearing_of(docket, case, motion.number)
        yield None, [], block[1:], block[0], [], []
        if hearing is not None:
            block = next(blocks)
            yield None, note_lines.of_hearing(docket, hearing.day), block[1:], block[0], [], []


def asked(deadline):
    """The deadline as the second program has it."""
    grants = [granted(grant) for grant in deadline.grants]
    event = periods.Event(deadline.event, deadline.minute)
    period = periods.set_to(deadline.act, deadline.length[0] == "at") if deadline.text in SET else periods.period_of_text(deadline.text)
    return periods.Deadline(period, event, deadline.second, deadline.kind, grants, None)


def follow(calendar, deadline, texts, shown, more, first):
    """That the lines are the first ones, the deadline's period by its Rule, its reasons, the other readings, and the others."""
    lines = [line_of(text) for text in texts]
    expect(lines[:len(first)] == [Line(*line) for line in first], "other rows made the deadline")
    lines = lines[len(first):]
    event = deadline.event if deadline.second is None else max(deadline.event, deadline.second)
    wanted = [Line(*line) for line in called(deadline.text, event)]
    expect(lines[:len(wanted)] == wanted, "the period is another")
    left = checked(calendar, deadline, lines[len(wanted):], shown)
    readings = [Line(*line) for line in other_readings.lines(calendar, asked(deadline))]
    expect(left[:len(readings)] == readings, "other readings give other ends")
    expect(left[len(readings):] == [Line(*line) for line in more], "other lines follow the reasons")


def wrong_with(calendar, deadline, texts, shown, more, first):
    """Why these lines can't follow what is shown, or None. Without a calendar `deadline` is the lines that must follow."""
    try:
        if calendar is None:
            expect([line_of(text) for text in texts] == [Line(*line) for line in deadline], "other lines follow this answer")
        else:
            follow(calendar, deadline, texts, shown, more, first)
    except Wrong as wrong:
        return str(wrong)
    return None


# Rows that are made


def a_date(chance):
    first = day_of_text(chance.choice(["2007-10-25", "2009-11-15", "2015-11-15", "2016-11-15", "2025-02-20", "2025-08-20",
                                       "2025-10-20"]))
    return day_text(first + chance.randrange(40))


def a_time(chance):
    return "{:02}:{:02}".format(chance.choice([0, 1, 2, 3, 8, 9, 12, 14, 15, 17, 23]), chance.choice([0, 15, 30, 59]))


def a_period(chance):
    """The last five fields of `start` and `compute`."""
    kind = ""
    if chance.random() < 0.3:
        period = chance.choice(CODES)
        served = RULES[period][2]
    else:
        served = chance.random() < 0.25
        hours = not served and chance.random() < 0.4
        length = chance.choice(["1h", "24h", "36h", "72h", "200h"] if hours else ["1d", "3d", "7d", "14d", "21d", "28d"])
        if chance.random() < 0.02:
            length = "8760h" if hours else "3650d"
        direction = "after" if served else chance.choice(["after", "before"])
        period = "/".join([length, direction, chance.choice(["filing", "filing", "service"]),
                           "served" if served else "event", "plain"])
    if served:
        kind = chance.choice("ABCDEF")
    second = a_date(chance) if period == "12a3" else ""
    return ",".join([period, a_date(chance), chance.choice(["", a_time(chance)]), second, kind])


# Rows that are refused, for nearly every cause that the others seldom have
ODD = ["open,1,2025-03-03", "open,4097,2025-03-03", "open,2,1999-01-01", "motion,1,2025-09-01,0", "motion,1,1999-01-01,14",
       "inaccessible,2025-09-10,17:00,16:00", "calendar,Zed,2025-09-10", "sheet,9", "cancel,1,1", "cancel,1,63", "file,1,63,2025-09-01,09:00,paper",
       "book,1,1,Zed,R1,2025-09-10,10:00,2,2025-08-01", "book,1,1,Ames,R9,2025-09-10,10:00,2,2025-08-01",
       "book,1,1,Ames+Ames,R1,2025-09-10,10:00,2,2025-08-01", "book,1,1,Ames,R1,2025-09-10,10:00,0,2025-08-01",
       "move,1,1,Ames,R1,2025-09-10,10:00,0,2025-08-01", "extend,1,1,+0d,2007-01-02,09:00,yes,yes,yes",
       "start,1,0d/after/filing/event/plain,2025-09-01,,,", "compute,8761h/after/filing/event/plain,2025-09-01,,,",
       "compute,12a1B,2025-09-01,,,", "compute,12a1Ai,2025-09-01,,,A", "compute,12a3,2025-09-01,,,",
       "start,1,12a1B,2025-09-01,,,", "compute,4m,2025-09-01,,2025-09-02,", "compute,7d/after/filing/event/plain,1999-01-01,,,",
       "start,1,7d/after/filing/event/plain,2025-09-01,,,A", "compute,7d/after/filing/served/plain,2025-09-01,,,",
       "compute,3h/after/filing/served/plain,2025-09-01,,,A", "compute,7d/before/filing/served/plain,2025-09-01,,,A",
       "start,1,7d/after/filing/served/plain,2025-09-01,,2025-09-02,A", "start,1,1d/before/filing/event/plain,2025-09-01,,2025-09-02,"]


# Ends that an outage moves beyond the days covered, or would by another reading, with an act and with an extension
AT_THE_END = b'''zone = "EST5EDT,M3.2.0/2,M11.1.0/2"
opens = "08:30"
closes = "17:00"
from = "2026-01-01"
to = "2026-12-31"
federal = []
state = []
judges = ["Ames"]
rooms = ["R1"]
%%
1,open,1,2026-12-01
1,start,1,59e,2026-12-03,,,
1,start,1,28d/after/filing/event/plain,2026-12-03,,,
1,start,1,28d/after/service/event/plain,2026-12-03,,,
1,start,1,14d/after/filing/event/plain,2026-12-10,,,
1,extend,1,4,+7d,2026-12-10,09:00,yes,yes,yes
1,file,1,1,2026-12-31,16:59,paper
1,file,1,2,2026-12-30,16:59,electronic
1,file,1,3,2026-12-31,23:59,paper
1,inaccessible,2026-12-31,16:00,17:00
1,file,1,1,2026-12-31,16:59,paper
1,sheet,1
'''


# Counts that lead to the Friday before a Saturday's holiday, or over it: after an event, before one, with the three days of 6(d),
# with an extension, to serve, and to a date certain; then that Friday is also a holiday of the state, and has an outage
AT_A_FRIDAY = b'''zone = "EST5EDT,M3.2.0/2,M11.1.0/2"
opens = "08:30"
closes = "17:00"
from = "2026-01-01"
to = "2026-12-31"
federal = ["2026-06-19", "2026-07-03"]
state = []
judges = ["Ames"]
rooms = ["R1"]
%%
1,open,1,2026-05-01
1,start,1,59e,2026-06-05,,,
1,start,1,7d/before/filing/event/plain,2026-07-11,,,
1,start,1,7d/before/service/event/plain,2026-07-10,,,
1,start,1,30d/after/filing/served/plain,2026-05-31,,,C
1,start,1,14d/after/filing/event/plain,2026-06-05,,,
1,extend,1,5,+11d,2026-06-10,09:00,yes,yes,yes
1,start,1,12a1Ai,2026-06-12,,,
1,start,1,27d/after/filing/event/plain,2026-06-05,,,
1,start,1,21d/after/filing/event/plain,2026-06-05,,,
1,extend,1,8,2026-07-03,2026-06-10,09:00,yes,yes,yes
1,sheet,1
1,holiday,2026-07-03,state
1,sheet,1
1,inaccessible,2026-07-03,09:00,12:00
1,sheet,1
'''


def a_row(chance):
    word = chance.choices(["compute", "start", "extend", "holiday", "inaccessible", "sheet", "file", "motion", "book", "odd"],
                          [60, 6, 12, 3, 4, 1, 5, 1, 8, 4])[0]
    if word == "odd":
        return "1," + chance.choice(ODD)
    if word == "compute":
        return "1,compute," + a_period(chance)
    if word == "start":
        return "1,start,1," + a_period(chance)
    if word == "extend":
        grant = chance.choice(["+1d", "+7d", "+30d", "+24h", "+5h", a_date(chance), "2026-06-06"])
        asked_on = chance.choice(["2007-01-02,09:00", "2007-01-02,09:00", a_date(chance) + "," + a_time(chance)])
        found = ",".join(chance.choice(["yes", "yes", "yes", "no"]) for _ in range(3))
        return "1,extend,1,{},{},{},{}".format(chance.randrange(1, 12), grant, asked_on, found)
    if word == "file":
        time = chance.choice(["17:00", "16:30", "16:31", a_time(chance)])
        return "1,file,1,{},{},{},{}".format(chance.randrange(1, 40), a_date(chance), time, chance.choice(["electronic", "paper"]))
    if word == "motion":
        return "1,motion,1,{},{}".format(a_date(chance), chance.choice(["14", "14", "7", "exparte"]))
    if word == "book":
        return "1,{},1,{},{},{},{},{},{},{}".format(
            chance.choice(["book", "book", "move"]), chance.randrange(1, 6), chance.choice(["Ames", "Brandt", "Brandt+Ames"]),
            chance.choice(["R1", "R2"]), a_date(chance), chance.choice(["08:00", "09:00", "10:00", "10:30", "16:00"]),
            chance.choice(["1", "2", "3q"]), chance.choice(["2007-01-05", a_date(chance)]))
    if word == "holiday":
        return "1,holiday,{},{}".format(a_date(chance), chance.choice(["federal", "state"]))
    if word == "inaccessible":
        start = chance.choice(["00:00", "09:00", "14:30", "16:00"])
        return "1,inaccessible,{},{},{}".format(a_date(chance), start, chance.choice(["16:30", "17:00", "24:00"]))
    return "1,sheet,1"


def an_input(chance):
    first, last = chance.choice([("2007-01-01", "2026-12-31")] * 4 + [("2007-10-20", "2025-11-20")])
    federal, state = chance.sample(HOLIDAYS, 6), chance.sample(HOLIDAYS, 3)
    court = ["zone = " + quoted(chance.choice(ZONES)), 'opens = "08:30"',
             "closes = " + quoted(chance.choice(["16:30", "17:00"])), "from = " + quoted(first), "to = " + quoted(last),
             "federal = " + listed(federal), "state = " + listed(state), "judges = [\"Ames\", \"Brandt\"]",
             "rooms = [\"R1\", \"R2\"]"]
    if chance.random() < 0.5:
        names = {date: chance.choice(["Labor Day", "Independence Day", "Christmas Day", "Columbus Day"]) for date in chance.sample(HOLIDAYS, 5)}
        names.update((date, "Good Friday (doubtful)") for date in state if chance.random() < 0.5)
        court += ["[holiday_names]"] + ["{} = {}".format(date, quoted(name)) for date, name in names.items()]
    rows = ["1,open,1," + chance.choice(["2007-01-02", a_date(chance)])] + [a_row(chance) for _ in range(400)]
    # Outages on days of hearings, once they are set
    rows += ["1,inaccessible,{},09:00,12:00".format(row.split(",")[6]) for row in rows
             if row.startswith("1,book,") and chance.random() < 0.2]
    lines = [row.encode() + b"\n" for row in rows]
    # Deadlines and other ends that orders set, and some that are ended and resumed, now and then: such rows are entered into a folder
    if chance.random() < 0.3:
        lines = desk_rows(chance, lines, [1], faulty=False)
    return "\n".join(court).encode() + b"\n%%\n" + b"".join(lines)


# Reasons that are spoiled


def other_day(text, days):
    """The line with a day that lies that many days later, and its weekday."""
    day = day_of_text(text[6:16])
    if day is None:
        return None
    return "  {} {}".format(WEEKDAYS[weekday(day + days)], day_text(day + days)) + text[16:]


def swapped(text, old, new):
    """The line with another word, in columns that still stand in line."""
    if old not in text:
        return None
    return text[:18] + text[18:18 + COLUMN].rstrip().replace(old, new).ljust(COLUMN) + text[18 + COLUMN:]


def lines_spoiled(texts):
    """Each way to spoil the lines, by its name."""
    for place, text in enumerate(texts):
        before, after = texts[:place], texts[place + 1:]
        yield "a line left out", before + after
        yield "a line twice", before + [text, text] + after
        if after and after[0] != text:
            yield "two lines exchanged", before + [after[0], text] + after[1:]
        for name, line in line_spoiled(text):
            if line is not None and line != text:
                yield name, before + [line] + after
        if text[18:].startswith("day of the event") and "the rule as it reads" not in texts[place - 1]:
            yield "an older event that isn't one", before + [older_line(text), text] + after
    yield "a line more", texts + [older_line("  Mon 2025-09-01" + "  ")]
    yield "a note more", texts + ["  Mon 2025-09-01  " + "the event lies before the filing of the case".ljust(COLUMN) + "  note"]
    if texts:
        yield "an end left out", texts[:-1]
        yield "nothing at all", []


def older_line(text):
    """The line of an older event, of the day of this line."""
    return text[:18] + "the rule as it reads from {} is applied".format(COUNTING).ljust(COLUMN) + "  ours"


# What a row did to a deadline, and what it may be said to have done in its place, in as many letters where there is such a word.
OTHER_DEEDS = {"started": "resumed", "extended": "started", "reset": "started", "filed": "ended", "ended": "filed", "resumed": "started"}


def line_spoiled(text):
    yield "a day too late", other_day(text, 1)
    yield "a day too early", other_day(text, -1)
    yield "a week too late", other_day(text, 7)
    if text[2:5].strip():
        yield "a wrong weekday", "  " + ("Mon" if text[2:5] != "Mon" else "Tue") + text[5:]
    section = text[20 + COLUMN:]
    for other in ["6(a)(1)(A)", "6(a)(1)(B)", "6(a)(1)(C)", "6(a)(1)(C), 6(a)(5)", "6(a)(2)(C)", "6(a)(3)(A)",
                  "6(a)(3)(B)", "6(a)(4)", "6(a)(5)", "6(b)", "4(m)", "6(d)", "ours", section + ", 6(a)(6)",
                  section.replace(", 6(a)(6)(C)", "").replace(", 6(a)(6)", ""), section.replace(", 6(a)(5)", "")]:
        if other != section:
            yield "the section " + other, text[:20 + COLUMN] + other
    yield "a Sunday for a Saturday", swapped(text, "Saturday", "Sunday")
    yield "a Saturday for a Sunday", swapped(text, "Sunday", "Saturday")
    yield "a holiday for a Saturday", swapped(text, "Saturday", "legal holiday")
    found = re.match(r"day (\d+),", text[18:])
    if found:
        yield "a day too many", swapped(text, found[0], "day {},".format(int(found[1]) + 1))
    found = re.match(r"(?:timely, |late, |asked at |case |in |passed |\w+ by row )?(\d+)", text[18:])
    if found:
        number = str(int(found[1]) + 1).zfill(len(found[1]))
        yield "another number", swapped(text, found[0], found[0][:len(found[0]) - len(found[1])] + number)
    yield "passed for in", re.sub(r"^(.{18})in (\d+ days?)      ", r"\1passed \2 ago ", text)
    yield "another row's deed", re.sub(r"^(.{18})(started|extended|reset|filed|ended|resumed) by", lambda found: found[1] + OTHER_DEEDS[found[2]] + " by", text)
    yield "a year after for before", re.sub(r"(a year or more) before (\S+) ", r"\1 after \2  ", text)
    yield "as of another day", re.sub(r"as of 2(\d{3})-(\d\d)-(\d\d)$", r"as of 2\1-\2-01" if not text.endswith("-01") else r"as of 2\1-\2-02", text)
    yield "late for undecided", swapped(text, "undecided: the end is beyond", "late, beyond")
    yield "late for timely", swapped(text, "timely, ", "late, ")
    yield "timely for late", swapped(text, "late, ", "timely, ")
    yield "an act on paper", swapped(text, "electronically", "on paper")
    yield "an electronic act", swapped(text, "on paper", "electronically")
    yield "the judge for the room", swapped(text, "has the room", "has the judge")
    yield "neglect for a motion", swapped(text, "a motion is needed", "neglect must be excused")
    yield "a motion for neglect", swapped(text, "neglect must be excused", "a motion is needed")
    yield "another reading", swapped(text, "the outage moves nothing", "outages move service too")
    yield "a choice that isn't ours", swapped(text, "other reading: ", "")
    found = re.match(r"the rule as it reads from (\S+) ", text[18:])
    if found:
        other = SUMMONS if found[1] == COUNTING else COUNTING
        yield "a rule of another day", swapped(text, found[1], other)
        yield "a rule of the day before", swapped(text, found[1], day_text(day_of_text(found[1]) - 1))
    yield "another service", swapped(text, "by mail", "by hand")
    yield "service by hand", swapped(text, "by leaving with the clerk", "by hand")
    yield "filing for service", swapped(text, "last day, to midnight", "last day, to 17:00, e-filing to midnight")
    yield "service for filing", swapped(text, ", e-filing to midnight", "")
    yield "the clocks left out", re.sub(r", clocks (forward|back) \d+ min", lambda found: " " * len(found[0]), text)
    yield "the clocks set back for forward", swapped(text, "clocks forward", "clocks back")
    yield "the clocks set forward for back", swapped(text, "clocks back", "clocks forward")
    yield "an open day passed over", swapped(text, "the time runs to this day", "Saturday, passed over")
    yield "a closed day taken", swapped(text, "Saturday, passed over", "the time runs to this day")
    holiday = re.match(r"(.*), passed over .*, 6\(a\)\(6\)$", text[18:])
    if holiday:
        yield "a holiday taken", swapped(text, holiday[0][:COLUMN].rstrip(), "the time runs to this day")
        yield "another holiday", swapped(text, holiday[1], "Flag Day")
        yield "a holiday without its name", swapped(text, holiday[1], "legal holiday")
        yield "a holiday that isn't observed", swapped(text, ", observed", "")
        yield "a holiday observed on its day", swapped(text, holiday[1], holiday[1] + ", observed")
    yield "a holiday of the state taken", swapped(text, "legal holiday of the state, passed over", "the time runs to this day")
    yield "hours not continued", swapped(text, "the hours end, and are continued", "the hours end on this day")
    yield "an extension left out", swapped(text, "extended by", "not extended by")
    yield "an order left out", swapped(text, "reset to", "not reset to")
    yield "a column moved", text[:18 + COLUMN] + " " + text[18 + COLUMN:]


def shape(texts):
    """What the lines say, without days and numbers."""
    return tuple(re.sub(r"\d+", "", text[18:]) for text in texts)


def judge_of(ended, case):
    """Who has the case after all rows, and to whom it is referred. None where it isn't assigned."""
    _, court, docket, _ = ended
    return assigned_text(court, docket, case).partition(" ")[2] or None


def memo_of(programs, data, *words, judge=None):
    """What the memo says below its head, which must be that of the court, of these words and of this judge, or the status and the line
    where what is asked for isn't there. Its page must have the same lines."""
    ended = report_of(programs, ["memo", *words], data)
    if ended.status == 6 and not ended.output:
        return b"status 6\n" + ended.errors
    if ended.status:
        sys.exit("status {}: {}".format(ended.status, ended.errors.decode()))
    given, text = dict(zip(words[::2], words[1::2])), ended.output.decode()
    page = report_of(programs, ["memo", *words, "--html"], data).output.decode()
    if page != page_of(text) or memo_on(page) != text:
        sys.exit("another page: {}".format(words))
    text = text if "--today" in given else without_made(text)
    return below_head(text, head_of(split(data)[0], given.get("--case"), given.get("--today"), judge=judge)).encode()


def all_derivations(programs, data, chance):
    """Those of all rows, and of the sheets of each case that is open, of one that isn't, and of one at random from a day."""
    yield from derivations(data, memo_of(programs, data))
    ended = docket_after(data)
    opened = [case.number for case in ended[2].cases]
    for case in opened + [max(opened, default=0) % 4096 + 1]:
        yield from whole_case(ended, memo_of(programs, data, "--case", str(case), judge=judge_of(ended, case)), case, None)
    for case in opened:
        for day in [a_date(chance)] + ends_near(ended, case, chance):
            output = memo_of(programs, data, "--case", str(case), "--today", day, judge=judge_of(ended, case))
            yield from whole_case(ended, output, case, day_of_text(day))


def ends_near(ended, case, chance):
    """A day at an end of a deadline of the case that is pending, or a day beside it, where there is one."""
    _, court, docket, _ = ended
    rows = [deadline.row for deadline in deadlines_of(docket, case) if deadline.row.filed is None]
    ends = [note_lines.end_of(court, periods.shown(docket.days, court.clock, row))[0] for row in rows]
    ends = [end for end in ends if end is not None]
    return [day_text(chance.choice(ends) + chance.randrange(-1, 2))] if ends else []


def main(words):
    programs, (seed, count) = programs_of(words[:1]), seed_and_count(words[1:], 10000)
    chance = random.Random(seed)
    shown, said, wrong, shapes = 0, 0, 0, {}
    # (the example of several clerks, whose words are beside it, may be answered otherwise)
    inputs = [path.read_bytes() for path in sorted((TOP / "examples").glob("*.txt")) if not path.with_suffix(".words").exists()]
    inputs += [path.read_bytes() for path in sorted((TOP / "crates" / "docket").glob("stdin"))] + [AT_THE_END, AT_A_FRIDAY]
    inputs.append((TOP / "runs" / "calendar" / "appeal.in").read_bytes())
    while shown < count or inputs:
        data = inputs.pop() if inputs else an_input(chance)
        for derivation in all_derivations(programs, data, chance):
            why = wrong_with(*derivation)
            if derivation[0] is None:
                said += bool(derivation[2])
            else:
                shown += 1
            shapes.setdefault(shape(derivation[2]), derivation)
            if why:
                wrong += 1
                if wrong <= 5:
                    print("refused, since {}: {}".format(why, derivation[3]))
                    if derivation[0] is None:
                        print("wanted:", *derivation[1], sep="\n")
                    print("\n".join(derivation[2]))
    print("{} deadlines, and {} other answers, of whose lines {} were refused; {} shapes of lines".format(
        shown, said, wrong, len(shapes)))
    taken, refused = Counter(), Counter()
    for calendar, deadline, texts, answer, more, first in shapes.values():
        for name, spoiled in lines_spoiled(texts):
            if wrong_with(calendar, deadline, spoiled, answer, more, first):
                refused[name] += 1
            else:
                taken[name] += 1
                if sum(taken.values()) <= 5:
                    print("taken, though spoiled ({}): {}".format(name, answer))
                    print("\n".join(spoiled))
    print("{} spoiled in {} ways, of which {} were taken".format(sum(refused.values()) + sum(taken.values()),
                                                                len(refused), sum(taken.values())))
    sys.exit(1 if wrong or taken else 0)


if __name__ == "__main__":
    main(sys.argv[1:])
