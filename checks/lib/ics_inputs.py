"""Inputs for calendars: in the zones of examples/courts, with hearings around both changes of the clocks."""
import re

# The zones of examples/courts, and their names in the database that khal reads.
ZONES = {"EST5EDT,M3.2.0/2,M11.1.0/2": "America/New_York", "CST6CDT,M3.2.0/2,M11.1.0/2": "America/Chicago",
         "MST7MDT,M3.2.0/2,M11.1.0/2": "America/Denver", "MST7": "America/Phoenix",
         "PST8PDT,M3.2.0/2,M11.1.0/2": "America/Los_Angeles", "AKST9AKDT,M3.2.0/2,M11.1.0/2": "America/Anchorage",
         "HST10": "Pacific/Honolulu"}


def zoned_input(chance, zone):
    """An input in a zone, with hearings on the days around both changes of the clocks."""
    opens, closes = chance.choice([("08:30", "17:00"), ("00:00", "23:59"), ("09:15", "12:00")])
    judges, rooms = ["Ames", "Featherstonehaugh-Cholmondeley", "de_la_Cruz"], ["R1", "Old.Courthouse-East_Wing-Room-14C"[:32]]
    lines = ["zone = '{}'".format(zone), 'opens = "{}"'.format(opens), 'closes = "{}"'.format(closes),
             'from = "2024-01-01"', 'to = "2027-12-31"', 'federal = ["2025-01-01", "2025-09-01"]', "state = []",
             "judges = {}".format(judges).replace("'", '"'), "rooms = {}".format(rooms).replace("'", '"')]
    days = ["2025-03-06", "2025-03-07", "2025-03-10", "2025-03-11", "2025-10-31", "2025-11-03", "2025-11-04", "2026-03-06",
            "2026-03-09", "2026-10-30", "2026-11-02"]
    rows = ["open,{},2025-01-0{}".format(case, case) for case in (1, 2, 3)]
    for case in (1, 2, 3):
        rows += ["motion,{},2025-01-02,{}".format(case, chance.choice(["7", "14", "exparte"])) for _ in range(4)]
        rows += ["start,{},{},{},,,".format(case, chance.choice(["4m", "12a1Ai", "59e", "12a1Aii-us", "30d/after/service/event/60b",
                                                                "1d/before/filing/event/plain"]), chance.choice(days))
                 for _ in range(3)]
        rows += ["start,{},{}h/after/filing/event/plain,{},{:02}:{:02},,".format(case, chance.choice([1, 24, 48, 72]),
                                                                              chance.choice(days), chance.randrange(24),
                                                                              chance.choice([0, 30])) for _ in range(3)]
    for _ in range(chance.choice([10, 40, 80])):
        case, motion = chance.choice([1, 2, 3]), chance.randrange(1, 5)
        word = chance.choices(["book", "move", "cancel", "file", "extend", "holiday", "outage"], [6, 6, 2, 2, 3, 1, 1])[0]
        if word == "cancel":
            rows.append("cancel,{},{}".format(case, motion))
        elif word == "extend":
            rows.append("extend,{},{},+{},{},09:30,yes,yes,yes".format(case, chance.randrange(1, 7),
                                                                    chance.choice(["7d", "14d", "24h"]), chance.choice(days)))
        elif word == "holiday":
            rows.append("holiday,{},{}".format(chance.choice(["2025-03-12", "2025-04-07", "2025-12-01", "2026-11-27"]),
                                               chance.choice(["federal", "state"])))
        elif word == "outage":
            rows.append("inaccessible,{},00:00,24:00".format(chance.choice(["2025-04-04", "2025-11-28", "2026-11-30"])))
        elif word == "file":
            rows.append("file,{},{},{},{:02}:30,{}".format(case, chance.randrange(1, 7), chance.choice(days), chance.randrange(24),
                                                          chance.choice(["electronic", "paper"])))
        else:
            first = chance.randrange(0, 94)
            rows.append("{},{},{},{},{},{},{:02}:{:02},{},2025-01-06".format(
                word, case, motion, "+".join(chance.sample(judges, chance.choice([1, 1, 2, 3]))), chance.choice(rooms),
                chance.choice(days), first // 4, first % 4 * 15, chance.choice(["1", "2", "1q", "3q", "6"])))
    return ("\n".join(lines) + "\n%%\n" + "".join("1,{}\n".format(row) for row in rows)).encode()


def cut(chance, data):
    """The input with some of its rows alone."""
    head, divider, rows = data.partition(b"%%")
    ends = [at.end() for at in re.finditer(rb"\n", rows)]
    return head + divider + rows[:chance.choice(ends)]
