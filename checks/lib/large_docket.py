"""One large docket, made at random: large in every way that a program could give up at.

It has 600 cases with names, 5,000 rows that give numbers to deadlines and motions, 10,000 changes of hearings, and lines of
2,000 and of 5,000 bytes, which are refused, since no judge has such a name. After the rows of its first cases 200 of them can be
struck, so that other deadlines and motions have numbers that aren't their places. No later row names what is struck.
"""
import random
from typing import NamedTuple

NUMBERED, CHANGES, STRUCK = 5000, 10000, 200
# The cases of which rows are struck, those whose first motions are heard, those in which acts are recorded, and the one with as
# many deadlines and extensions as there may be.
SPOILED, HEARD, FILED, LARGEST = range(1, 131), range(131, 451), range(451, 600), 600
JUDGES, ROOMS = ["J{}".format(n) for n in range(1, 33)], ["R{}".format(n) for n in range(1, 33)]
LONG_LINES = [2000] * 20 + [5000] * 5
COURT = """zone = "EST5EDT,M3.2.0/2,M11.1.0/2"
opens = "08:30"
closes = "17:00"
from = "2024-01-01"
to = "2027-12-31"
federal = ["2025-05-26", "2025-06-19", "2025-07-04", "2025-09-01", "2025-10-13", "2025-11-11", "2025-11-27", "2025-12-25"]
state = ["2025-03-28"]
judges = [{}]
rooms = [{}]
"""
PERIODS = ["4m,{day},,,", "59e,{day},,,", "12a1B,{day},,,C", "12a3,{day},,{other},", "72h/after/filing/event/plain,{day},14:30,,",
           "30d/after/service/served/60b,{day},,,E", "7d/before/filing/event/plain,{other},,,"]


class Large(NamedTuple):
    """The court's file, the names of cases by number, the rows, how many of them come before any is struck, and which are."""
    court: bytes
    names: dict
    rows: list
    before: int
    strikes: list


def day_in(draw, *months):
    return "2025-{:02}-{:02}".format(draw.choice(months), draw.randint(1, 28))


def opened(draw, cases):
    return ["open,{},2025-01-0{}".format(case, draw.randint(2, 5)) for case in cases]


def started(draw, case):
    return "start,{},{}".format(case, draw.choice(PERIODS).format(day=day_in(draw, 2, 3, 4), other=day_in(draw, 5, 6)))


def first_motions(draw, cases):
    return ["motion,{},2025-01-0{},exparte".format(case, draw.randint(6, 9)) for case in cases]


def numbered(draw, cases, count):
    """Rows that give numbers in these cases."""
    rows = []
    for _ in range(count):
        case = draw.choice(cases)
        rows.append(started(draw, case) if draw.random() < 0.6 else
                    "motion,{},{},{}".format(case, day_in(draw, 1), draw.choice(["exparte", "7", "14"])))
    return rows


def hearing(draw, word, case):
    """A hearing of a case's first motion, at a time that no other case with its judge and its room has."""
    place = case - HEARD[0]
    hour, minute = 9 + place // 32 % 7, 30 * (place // (32 * 7))
    return "{},{},1,{},{},2025-03-{:02},{:02}:{:02},{},2025-01-10".format(
        word, case, JUDGES[place % 32], ROOMS[place % 32], draw.randint(10, 13), hour, minute, draw.choice(["1", "1q"]))


def changes(draw):
    """Changes of hearings: each is set first, then they are moved, cancelled and set again."""
    rows, off = [hearing(draw, "book", case) for case in HEARD], set()
    while len(rows) < CHANGES:
        case = draw.choice(HEARD)
        if case in off:
            off.discard(case)
            rows.append(hearing(draw, "book", case))
        elif draw.random() < 0.05:
            off.add(case)
            rows.append("cancel,{},1".format(case))
        else:
            rows.append(hearing(draw, "move", case))
    return rows


def others(draw):
    """Acts, extensions, outages, a holiday, and lines that are long."""
    rows = ["file,{},{},{},{:02}:30,{}".format(draw.choice(FILED), draw.randint(1, 3), day_in(draw, 3, 4, 5), draw.randint(8, 22),
                                               draw.choice(["paper", "electronic"])) for _ in range(500)]
    rows += ["extend,{},{},+{}d,2025-03-01,10:00,yes,yes,no".format(LARGEST, draw.randint(1, 2), draw.randint(1, 9)) for _ in range(64)]
    rows += ["inaccessible,{},{:02}:00,{:02}:00".format(day_in(draw, 4, 5), draw.randint(8, 12), draw.randint(13, 23)) for _ in range(40)]
    rows += ["book,{},1,{},R1,2025-03-20,10:00,1,2025-01-10".format(LARGEST, "x" * length) for length in LONG_LINES]
    return rows + ["holiday,2025-05-02,state", "sheet,{}".format(LARGEST), "calendar,J1,2025-03-12"]


def large_docket(seed):
    """The docket of a seed."""
    draw = random.Random("large {}".format(seed))
    cases = range(1, LARGEST + 1)
    names = {case: "{}:25-cv-{:05}-{}".format(draw.randint(1, 9), case, draw.choice(["ABC", "JD", "AB-CD"])) for case in cases}
    rows = opened(draw, SPOILED) + numbered(draw, SPOILED, 4 * len(SPOILED))
    before = len(rows)
    strikes = draw.sample(range(len(SPOILED) + 1, before + 1), STRUCK)
    rows += opened(draw, range(HEARD[0], LARGEST + 1)) + first_motions(draw, range(HEARD[0], LARGEST + 1))
    rows += [started(draw, LARGEST) for _ in range(63)]
    rows += numbered(draw, range(1, LARGEST), NUMBERED - 63 - 4 * len(SPOILED) - (LARGEST - HEARD[0] + 1))
    rows += changes(draw) + others(draw)
    court = COURT.format(", ".join('"{}"'.format(name) for name in JUDGES), ", ".join('"{}"'.format(name) for name in ROOMS))
    return Large(court.encode(), names, ["1," + row for row in rows], before, strikes)
