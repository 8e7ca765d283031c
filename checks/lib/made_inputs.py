"""Inputs made at random: a court's file, the divider, and rows.

Each kind of input leads to refusals that the others seldom meet. Values come from small stores of likely ones, so that
rows speak of the same cases, judges, rooms, days and slots.
"""
import datetime
from collections import namedtuple

from lib.made_calendars import clock_changes, long_span

# What rows speak of: any days, those on which papers were served, those of hearings; judges, rooms, and open cases.
World = namedtuple("World", "days served hearings judges rooms cases")

INPUTS = ["mixed", "hearings", "deadlines", "mixed", "hearings", "deadlines", "periods", "edge", "full_deadlines",
          "full_motions", "full_grants", "full_outages", "full_dates", "long_span", "clock_changes"]
INPUTS += ["row_faults"] * 4 + ["court_faults"] * 8
CALENDARS = {"long_span": long_span, "clock_changes": clock_changes}
ZONES = ["EST5EDT,M3.2.0/2,M11.1.0/2", "EST5EDT,M3.2.1/2,M11.1.1/2", "-05:00", "+05:45", "MST7", "<+10>-10",
         "AEST-10AEDT,M10.1.0,M4.1.0/3", "LHST-10:30LHDT-11,M10.1.0,M4.1.0", "IST-1GMT0,M10.5.0,M3.5.0/1"]
HOLIDAYS = ["2016-12-26", "2025-03-28", "2025-03-31", "2025-05-26", "2025-07-04", "2025-08-29", "2025-09-01",
            "2025-09-05", "2025-10-13", "2027-01-01"]
CODES = ["4m", "12a1Ai", "12a1Aii-us", "12a1Aii-abroad", "12a1B", "12a1C", "12a2", "12a3", "59b", "59e"]
MARKS = ["plain"] * 14 + ["50b", "50d", "52b", "59b", "59d", "59e", "60b"]
FAR = ["1999-12-31", "2007-01-02", "2026-12-31", "2027-01-02"]
CLERK_JUNK = ["0", "2", "", "01", "x", "1 "]
JUNK = ["", "x", "-1", "01", "1000000000", "24:00", "9:00", "2025-02-29", "2025-9-1", "+d", "+01d", "Nobody", "A+B+C+D",
        "1.5", "28d", "28d/after/filing/event", "4M", "G", "c", "Yes", "Paper", "both", "exparte ", "3h", "q", " 1",
        "12:60"]


def made_input(chance, name):
    """The bytes of an input of that kind."""
    if name in CALENDARS:
        court, rows = CALENDARS[name](chance)
    else:
        court, world = made_court(chance, name)
        rows = made_rows(chance, name, world)
    rows = ["1," + row for row in rows]
    if name == "row_faults":
        rows = with_fault(chance, rows)
    if name == "court_faults":
        court = with_court_fault(chance, court)
    end = chance.choice(["\n", "\n", "\n", "\r\n"])
    text = "\n".join(court) + "\n%%\n" + "".join(row + end for row in rows)
    data = text.encode()
    if name in ("row_faults", "court_faults") and chance.random() < 0.1:
        at = chance.randrange(len(data))
        data = data[:at] + b"\xff" + data[at:]
    return data


def made_court(chance, name):
    judges = ["Ames", "Brandt", "Cole", "Dorn"][:chance.choice([0, 1, 2, 2, 3, 3, 4] if name == "mixed" else [2, 3])]
    rooms = ["R1", "R2", "R3"][:chance.choice([0, 1, 2, 2, 3] if name == "mixed" else [1, 2])]
    if name == "periods":
        judges = []
    first, last = chance.choice([("2007-01-01", "2026-12-31"), ("2016-01-01", "2025-10-03"),
                                 ("2025-08-25", "2026-12-31")])
    if name == "edge":
        first, last = "2025-08-28", "2025-09-19"
    federal = chance.sample(HOLIDAYS, chance.randrange(6))
    if name in ("full_dates", "full_outages"):
        first, last = "2000-01-01", "2026-12-31"
    if name == "full_dates":
        federal = weekends(4094) + federal[:1]
    opens, closes = chance.choice([("08:30", "17:00"), ("09:00", "12:00"), ("00:00", "23:59"), ("10:05", "14:50")])
    court = ["zone = " + quoted(chance.choice(ZONES)), "opens = " + quoted(opens), "closes = " + quoted(closes),
             "from = " + quoted(first), "to = " + quoted(last), "federal = " + listed(federal),
             "state = " + listed(chance.sample(HOLIDAYS, chance.randrange(4))), "judges = " + listed(judges),
             "rooms = " + listed(rooms)]
    days, served, hearings = made_days(chance, name)
    return court, World(days, served, hearings, judges, rooms, [1, 2, 3] if name == "mixed" else [1, 2])


def quoted(text):
    return '"' + text + '"'


def listed(texts):
    return "[" + ", ".join(map(quoted, texts)) + "]"


def weekends(count):
    """Dates that are Saturdays and Sundays, and so close no other day, from 2000 on, and other days of before 2025."""
    day, dates = datetime.date(2000, 1, 1), []
    while len(dates) < count:
        if day.weekday() >= 5 or day < datetime.date(2009, 1, 1):
            dates.append(day.isoformat())
        day += datetime.timedelta(1)
    return dates


def made_days(chance, name):
    """Days that lie near one another; of them, those of service lie before those of hearings."""
    near = [(datetime.date(2025, 8, 25) + datetime.timedelta(days)).isoformat() for days in range(26)]
    days = chance.sample(near, 10) + ["2025-08-29", "2025-09-01", "2025-09-15"]
    if name in ("periods", "deadlines"):
        days += ["2025-03-07", "2025-03-10", "2025-03-28", "2016-11-09", "2016-12-01", "2025-10-31", "2025-11-03",
                 "2025-10-05"]
    return days, chance.sample(near[:7], 3) + ["2025-08-29"], chance.sample(near[14:], 2) + ["2025-09-15"]


def made_rows(chance, name, world):
    """The rows: first what the others need, then any."""
    for case in world.cases:
        yield "open,{},{}".format(case, chance.choice(world.days))
        for _ in range(5 if name == "hearings" else 2):
            yield "motion,{},{},{}".format(case, chance.choice(world.served), a_need(chance))
        for _ in range(5 if name == "deadlines" else 1):
            yield "start,{},{}".format(case, a_period_of(chance, world))
    yield from FILLED.get(name, lambda chance, world: [])(chance, world)
    weights = WEIGHTS.get(name, WEIGHTS["mixed"])
    for _ in range(chance.choice([10, 40, 80, 120])):
        word = chance.choices(list(ROWS), weights)[0]
        yield word + "," + ROWS[word](chance, world)


# What fills up a limit


def filled_deadlines(chance, world):
    for _ in range(chance.choice([62, 64])):
        yield "start,1,{}".format(a_period_of(chance, world, "14d/after/service/event/plain"))


def filled_motions(chance, world):
    for _ in range(62):
        yield "motion,1,{},{}".format(chance.choice(world.days), a_need(chance))


def filled_grants(chance, world):
    yield "start,1,12a1Ai,2025-08-29,,,"
    yield "start,1,24h/after/service/event/plain,2025-08-29,,,"
    for _ in range(chance.choice([31, 34])):
        yield "extend,1,1,+1d,2025-08-29,09:00,no,yes,no"
        yield "extend,1,2,+1h,2025-08-29,00:00,yes,yes,yes"


def filled_outages(chance, world):
    day = datetime.date(2024, 1, 1)
    for _ in range(chance.choice([508, 512])):
        yield "inaccessible,{},{},24:00".format(day.isoformat(), a_time(chance))
        day += datetime.timedelta(chance.choice([0, 1]))


FILLED = {"full_deadlines": filled_deadlines, "full_motions": filled_motions, "full_grants": filled_grants,
          "full_outages": filled_outages}


# Single values


def rarely(chance, value, other, odds=0.02):
    return chance.choice(other) if chance.random() < odds else value


def a_case(chance, world):
    return rarely(chance, chance.choice(world.cases), [0, 4, 4096, 4097, 999999999])


def a_place(chance):
    """The number of a deadline or of a motion."""
    return rarely(chance, chance.choice([1, 1, 2, 2, 3, 4, 5]), [0, 6, 9, 64, 65], 0.04)


def a_day(chance, world):
    return rarely(chance, chance.choice(world.days), FAR)


def a_time(chance):
    hour = chance.choice([0, 1, 2, 8, 9, 10, 11, 14, 16, 17, 23])
    return "{:02}:{:02}".format(hour, chance.choice([0, 0, 5, 30, 59]))


def a_need(chance):
    return rarely(chance, chance.choice(["exparte", 1, 2, 5, 7, 14, 14]), [0, 365, 366], 0.08)


def a_period(chance, served=False):
    if not served and chance.random() < 0.4:
        return chance.choice(CODES)
    length = chance.choice(["1d", "3d", "7d", "14d", "28d", "24h", "48h", "72h", "1h"])
    length = rarely(chance, length, ["0d", "3650d", "3651d", "0h", "8760h", "8761h", "400d"], 0.08)
    return "/".join([length, chance.choice(["after", "after", "before"]), chance.choice(["filing", "service"]),
                     "served" if served else "event", chance.choice(MARKS)])


def a_period_of(chance, world, period=None):
    """The last five fields of `start` and `compute`, mostly as they suit the period."""
    served = period is None and chance.random() < 0.2
    period = period or a_period(chance, served)
    wants_kind = served or period in ("12a1B", "12a1C")
    kind = chance.choice("ABCDEF") if wants_kind or (period[:2] == "59" and chance.random() < 0.3) else ""
    second = a_day(chance, world) if period == "12a3" else ""
    kind = rarely(chance, kind, ["", "C", "E"], 0.05)
    second = rarely(chance, second, ["", a_day(chance, world)], 0.05)
    return ",".join([period, a_day(chance, world), chance.choice(["", a_time(chance)]), second, kind])


def a_grant(chance, world):
    grant = chance.choice(["+1d", "+3d", "+7d", "+14d", "+30d", "+24h", a_day(chance, world), a_day(chance, world)])
    return rarely(chance, grant, ["+0d", "+0h", "+3650d", "+3651d", "+8761h"], 0.1)


def a_panel(chance, world):
    names = world.judges + ["Nobody"] if chance.random() < 0.06 else world.judges or ["Nobody"]
    count = min(chance.choice([1, 1, 1, 2, 2, 3]), len(names))
    if chance.random() < 0.06:
        return "+".join(chance.choice(names + names[:1]) for _ in range(count + 1))[:60]
    return "+".join(chance.sample(names, count))


def a_hearing(chance, world):
    """The fields of `book` and `move`. A panel of four names is a fault, which has inputs of its own."""
    panel = "+".join(a_panel(chance, world).split("+")[:3])
    room = rarely(chance, chance.choice(world.rooms or ["R9"]), ["R9", ""])
    time = "{:02}:{:02}".format(rarely(chance, chance.choice([10, 10, 11, 11]), [0, 8, 9, 14, 16, 17, 23], 0.1),
                                chance.choice([0, 15, 30, 45]))
    slots = rarely(chance, chance.choice(["1", "1q", "2", "3q"]), ["0", "0q", "4", "12", "48", "97q", "999999999"],
                   0.06)
    day = rarely(chance, chance.choice(world.hearings), world.days, 0.15)
    notice = rarely(chance, chance.choice(world.served), world.days, 0.15)
    day, notice = rarely(chance, day, FAR), rarely(chance, notice, FAR)
    return ",".join(map(str, [a_case(chance, world), a_place(chance), panel, room, day, time, slots, notice]))


def a_finding(chance):
    return chance.choice(["yes", "yes", "no"])


def an_end(chance):
    return chance.choice(["24:00", a_time(chance)])


ROWS = {
    "open": lambda chance, world: "{},{}".format(a_case(chance, world), a_day(chance, world)),
    "start": lambda chance, world: "{},{}".format(a_case(chance, world), a_period_of(chance, world)),
    "compute": a_period_of,
    "file": lambda chance, world: "{},{},{},{},{}".format(
        a_case(chance, world), a_place(chance), a_day(chance, world), a_time(chance),
        chance.choice(["electronic", "paper"])),
    "extend": lambda chance, world: "{},{},{},{},{},{},{},{}".format(
        a_case(chance, world), a_place(chance), a_grant(chance, world), a_day(chance, world), a_time(chance),
        a_finding(chance), a_finding(chance), a_finding(chance)),
    "motion": lambda chance, world: "{},{},{}".format(a_case(chance, world), a_day(chance, world), a_need(chance)),
    "book": a_hearing,
    "move": a_hearing,
    "cancel": lambda chance, world: "{},{}".format(a_case(chance, world), a_place(chance)),
    "holiday": lambda chance, world: "{},{}".format(
        rarely(chance, a_day(chance, world), world.served, 0.4), chance.choice(["federal", "federal", "state"])),
    "inaccessible": lambda chance, world: "{},{},{}".format(a_day(chance, world), a_time(chance), an_end(chance)),
    "sheet": lambda chance, world: str(a_case(chance, world)),
    "calendar": lambda chance, world: "{},{}".format(a_panel(chance, world), a_day(chance, world)),
}

# How often each row comes, in the order of ROWS.
WEIGHTS = {
    "mixed": [1, 6, 4, 2, 8, 3, 12, 6, 2, 2, 2, 3, 2],
    "hearings": [0.5, 1, 0, 1, 1, 2, 16, 8, 2, 1.5, 0.3, 1, 2],
    "deadlines": [0.5, 5, 4, 2, 20, 1, 1, 1, 0, 1, 1, 3, 0],
    "periods": [0, 0, 30, 0, 0, 0, 0, 0, 0, 1, 1, 0, 0],
    "full_dates": [0, 1, 4, 0, 1, 1, 2, 1, 1, 4, 0, 1, 1],
}


# Faults


def with_fault(chance, rows):
    """The rows with some fields that can't be read, left out or put in."""
    rows = list(rows)
    for _ in range(chance.choice([1, 1, 2])):
        at = chance.randrange(len(rows))
        fields = rows[at].split(",")
        column = chance.randrange(len(fields))
        change = chance.randrange(6)
        if change == 0:
            fields[0] = chance.choice(CLERK_JUNK)
        elif change == 1:
            fields = fields[:column] + [chance.choice(JUNK)] + fields[column:]
        elif change == 2:
            fields = fields[:column] or [""]
        elif change == 3:
            fields[1:2] = [chance.choice(["fly", "Open", "", "shee t", "set", "reset", "end", "resume", "close", "rule", "assign", "title"])]
        else:
            fields[column] = chance.choice(JUNK)
        rows[at] = ",".join(fields)
    return rows


def with_court_fault(chance, court):
    """The court's file with a line that is left out, given twice, cut or changed."""
    court = list(court)
    at = chance.randrange(len(court))
    key = court[at].split(" = ")[0]
    change = chance.randrange(12)
    if change == 0:
        del court[at]
    elif change == 1:
        court.append(court[at])
    elif change == 2:
        court[at] += chance.choice(["x", "]", '"', " # said"])
    elif change == 3:
        court[at] = key + " = " + chance.choice(["830", "true", "[]", "[1]", "[[]]", '["x", 1]', "2025-01-01"])
    else:
        court[at] = key + " = " + chance.choice(BAD_VALUES[key])
    return court


BAD_TIMES = ['"24:00"', '"8:30"', '"12:60"', '""', '"23:59"', '"00:00"', '"08:30:00"']
BAD_DATES = ['"2025-02-29"', '"2025-9-1"', '""', '"1899-12-31"', '"2200-01-01"', '"1950-01-01"', '"2050-01-01"',
             '"2049-12-31"', '"2199-12-31"', '"1900-01-01"']
BAD_NAMES = ['["A B"]', '[""]', '["A", "A"]', '["A", "B", "A"]', '["' + "J" * 33 + '"]', '["\u00c4mes"]',
             '["Ames+Cole"]', listed("J{:02}".format(number) for number in range(33)),
             listed("J{:02}".format(number) for number in range(32))]
BAD_LISTS = ["[" + date + "]" for date in BAD_DATES] + ['["2025-01-01", 1]', '["2025-01-01", "2025-13-01", 1]']
BAD_VALUES = {
    "zone": ['"+15:00"', '"-5:00"', '"+05:60"', '"America/New_York"', '""', '"EST"', '"UTC"', '"+14:59"', '"-00:00"'],
    "opens": BAD_TIMES, "closes": BAD_TIMES, "from": BAD_DATES, "to": BAD_DATES, "federal": BAD_LISTS,
    "state": BAD_LISTS, "judges": BAD_NAMES, "rooms": BAD_NAMES,
}
