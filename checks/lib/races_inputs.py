"""Inputs of several clerks, made at random: rows that get in one another's way, and rows that have nothing to do with others.

Each kind is a list of how many clerks there are, how many rows each has, and how many entries the journal takes.
"""
from collections import namedtuple

# An input by its name: the words of the command line, the court's file, and the rows, each with its clerk before it.
Input = namedtuple("Input", "name clerks limit court rows")

MOST = 1000000
DAYS = ["2025-09-15", "2025-09-16"]
COURT = """zone = "EST5EDT,M3.2.0/2,M11.1.0/2"
opens = "08:30"
closes = "17:00"
from = "2007-01-01"
to = "2026-12-31"
federal = ["2025-09-01"]
state = []
judges = [{}]
rooms = [{}]
"""


def court_text(judges, rooms):
    """The court's file with that many judges and rooms."""
    named = [", ".join('"{}{}"'.format(letter, number) for number in range(1, count + 1))
             for letter, count in (("J", judges), ("R", rooms))]
    return COURT.format(*named)


def dealt(chance, name, court, lists, limit=MOST):
    """The input in which the clerks' rows, a list each, come in an order that is drawn; each begins with its first."""
    left = [list(rows) for rows in lists]
    rows = []
    while any(left):
        clerk = chance.choices(range(len(left)), [len(rows) for rows in left])[0]
        rows.append("{},{}".format(clerk + 1, left[clerk].pop(0)))
    return Input(name, len(left), limit, court, rows)


def a_hearing(chance, case, motion, judge="J1", room="R1", days=DAYS):
    """The fields of `book` and `move`: a time in a morning, so that most hearings are in the way of others."""
    start = "{:02}:{:02}".format(chance.choice([9, 10, 11]), chance.choice([0, 30]))
    return "{},{},{},{},{},{},{},2025-08-29".format(case, motion, judge, room, chance.choice(days), start,
                                                    chance.choice(["1", "2", "1q"]))


def for_slots(chance, clerks, count):
    """Hearings before one judge, of motions in two cases that all clerks share. Where there are many clerks, hearings
    aren't moved or cancelled and no sheets are asked for, so that an order is found soon.
    """
    for clerk in range(clerks):
        rows = [row.format(clerk % 2 + 1) for row in ("open,{},2025-08-04", "motion,{},2025-08-20,exparte")]
        while len(rows) < count:
            case, motion, day = chance.choice([1, 2]), chance.randrange(1, 9), chance.choice(DAYS)
            asked = ["motion,{},2025-08-20,exparte".format(case), "motion,{},2025-08-20,7".format(case),
                     "book," + a_hearing(chance, case, motion), "book," + a_hearing(chance, case, motion),
                     "calendar,J1," + day]
            if clerks <= 8:
                asked += ["move," + a_hearing(chance, case, motion), "cancel,{},{}".format(case, motion),
                          "sheet,{}".format(case)]
            rows.append(chance.choice(asked))
        yield rows


def in_cases(chance, clerks, count):
    """Deadlines, acts, extensions and motions in cases that all clerks share."""
    for _ in range(clerks):
        rows = ["open,{},2025-08-04".format(case) for case in (1, 2, 3)]
        while len(rows) < count:
            case, deadline = chance.choice([1, 2, 3]), chance.randrange(1, 9)
            rows.append(chance.choice([
                "motion,{},2025-08-20,14".format(case), "start,{},12a1Ai,2025-08-04,,,".format(case),
                "start,{},14d/after/filing/event/plain,2025-08-11,,,".format(case),
                "file,{},{},2025-08-25,10:00,{}".format(case, deadline, chance.choice(["paper", "electronic"])),
                "extend,{},{},+{}d,2025-08-22,10:00,yes,yes,yes".format(case, deadline, chance.choice([7, 14])),
                "sheet,{}".format(case)]))
        yield rows


def about_days(chance, clerks, count):
    """Holidays and outages in the way of hearings, and of deadlines that run over them."""
    days = ["2025-09-{}".format(day) for day in (15, 16, 17, 18, 19)]
    for clerk in range(clerks):
        rows = ["open,{},2025-08-04".format(clerk + 1)]
        while len(rows) < count:
            case, motion = chance.randrange(1, clerks + 1), chance.randrange(1, 4)
            rows.append(chance.choice([
                "motion,{},2025-08-20,14".format(clerk + 1), "motion,{},2025-08-20,exparte".format(clerk + 1),
                "book," + a_hearing(chance, case, motion, days=days), "move," + a_hearing(chance, case, motion, days=days),
                "cancel,{},{}".format(case, motion), "holiday,{},{}".format(chance.choice(days), chance.choice(["federal", "state"])),
                "inaccessible,{},09:00,12:00".format(chance.choice(days)),
                "start,{},14d/after/filing/event/plain,2025-09-03,,,".format(case),
                "compute,14d/after/filing/event/plain,2025-09-02,,,", "sheet,{}".format(case)]))
        yield rows


def apart(chance, clerks, count):
    """Each clerk has cases, a judge, a room and days of its own."""
    for clerk in range(clerks):
        case, judge, room = clerk + 1, "J{}".format(clerk % 32 + 1), "R{}".format(clerk % 32 + 1)
        days = DAYS if clerk < 32 else ["2025-09-17", "2025-09-18"]
        rows = ["open,{},2025-08-04".format(case)]
        while len(rows) < count:
            motion = chance.randrange(1, 6)
            rows.append(chance.choice([
                "motion,{},2025-08-20,7".format(case), "start,{},12a1Ai,2025-08-04,,,".format(case),
                "file,{},{},2025-08-25,10:00,paper".format(case, motion),
                "book," + a_hearing(chance, case, motion, judge, room, days),
                "move," + a_hearing(chance, case, motion, judge, room, days), "cancel,{},{}".format(case, motion),
                "sheet,{}".format(case), "calendar,{},{}".format(judge, chance.choice(days)),
                "compute,28d/after/filing/event/plain,2025-08-04,,,"]))
        yield rows


def inputs(chance):
    """The inputs that are run."""
    for clerks, count in ((2, 60), (3, 16), (3, 30), (4, 30), (8, 15), (64, 8)):
        yield dealt(chance, "slots of a judge", court_text(1, 2), for_slots(chance, clerks, count))
    for clerks, count in ((2, 60), (3, 16), (4, 30), (8, 12)):
        yield dealt(chance, "shared cases", court_text(1, 1), in_cases(chance, clerks, count))
    for clerks, count in ((3, 30), (4, 20)):
        yield dealt(chance, "holidays and hearings", court_text(1, 1), about_days(chance, clerks, count))
    for clerks, count, limit in ((3, 16, 30), (4, 30, 50)):
        yield dealt(chance, "a short journal", court_text(1, 2), for_slots(chance, clerks, count), limit)
    for clerks, count in ((4, 60), (64, 12)):
        yield dealt(chance, "nothing shared", court_text(32, 32), apart(chance, clerks, count))
