"""The inputs that are measured: courts' files, and rows drawn from a fixed seed."""
import datetime
import itertools
import pathlib
import re

# Each kind of row, as it stands in a file. A word in braces is drawn anew for each row, by the method of that name
# in Draw.
KINDS = {
    "days": "1,compute,{days}d/{direction}/{act}/event/plain,{day},,,",
    "rule periods": "1,compute,{rule_period_with_its_days_and_kind}",
    "hours": "1,compute,{hours}h/{direction}/{act}/event/plain,{day},{time},,",
}
# A mixed input takes a kind anew for each row.
MIXED = "mixed"
# Rows of a docket, each of which rests on those before it: see the functions of these names.
DOCKET = ("docket", "hearings", "in order", "at random", "sheets")
SEED = 20250902
# How many rows an input has at most.
MOST_ROWS = 100000

EXAMPLE = pathlib.Path(__file__).resolve().parent.parent / "examples" / "district.toml"

# The full court: its span, its dates in each list, and the first of its closed days. The federal dates come first.
FULL_FROM = datetime.date(1950, 1, 1)
FULL_TO = datetime.date(2049, 12, 31)
FULL_DATES = 4096
FIRST_CLOSED = datetime.date(2003, 1, 1)

# Days of events, more than a year inside both courts' spans at both ends, so that no answer is 'beyond'.
FIRST_DAY = datetime.date(2008, 1, 31)
LAST_DAY = datetime.date(2025, 12, 1)

# How many judges and rooms a court has, if not as many as the example. Half hours at which hearings begin. Cases.
BENCHES = {"1 judge": 1, "32 judges": 32}
HALF_HOURS = ["{:02}:{:02}".format(at // 2, at % 2 * 30) for at in range(17, 33)]
CASES = 4096

# What each period asks for beside the day of its event.
WITHOUT_KIND = ("4m", "12a1Ai", "12a1Aii-us", "12a1Aii-abroad", "12a2")
WITH_KIND = ("12a1B", "12a1C", "59b", "59e", "14d/after/filing/served/plain")
WITH_SECOND_DAY = ("12a3",)


class Draw:
    """The words of one row, each drawn when the row asks for it."""

    def __init__(self, source, court):
        self.source = source
        self.judges, self.rooms = names_in(court, "judges"), names_in(court, "rooms")

    def __getitem__(self, word):
        return getattr(self, word)()

    def day(self):
        span = (LAST_DAY - FIRST_DAY).days
        return FIRST_DAY + datetime.timedelta(days=self.source.randint(0, span))

    def time(self):
        return "{:02}:{:02}".format(self.source.randint(0, 23), self.source.randint(0, 59))

    def days(self):
        return self.source.randint(1, 365)

    def hours(self):
        return self.source.randint(1, 365 * 24)

    def direction(self):
        return self.source.choice(("after", "before"))

    def act(self):
        return self.source.choice(("filing", "service"))

    def rule_period_with_its_days_and_kind(self):
        period = self.source.choice(WITHOUT_KIND + WITH_KIND + WITH_SECOND_DAY)
        second = self.day() if period in WITH_SECOND_DAY else ""
        kind = self.source.choice("ABCDEF") if period in WITH_KIND else ""
        return "{},{},,{},{}".format(period, self.day(), second, kind)


def case_rows(draw, case):
    """A case that is opened, and what is docketed in it: 24 rows, so that 4,096 cases take some 98,000."""
    yield "1,open,{},{}".format(case, draw.day())
    for deadline in range(1, 7):
        yield "1,start,{},{}".format(case, draw.rule_period_with_its_days_and_kind())
        yield "1,extend,{},{},+{}d,{},10:00,yes,yes,yes".format(case, deadline, draw.days(), draw.day())
        yield "1,file,{},{},{},{},paper".format(case, deadline, draw.day(), draw.time())
    for _ in range(5):
        yield "1,motion,{},{},14".format(case, draw.day())


def docket(draw, count):
    """Deadlines, extensions, acts and motions of case after case."""
    rows = (row for case in range(1, CASES + 1) for row in case_rows(draw, case))
    written = list(itertools.islice(rows, count))
    return written + ["1,compute,{}".format(draw.rule_period_with_its_days_and_kind()) for _ in range(count - len(written))]


def hearing(draw, case, motion):
    """A hearing ex parte on some day: many are refused, since the day is closed or the judge is busy."""
    source = draw.source
    judges = "+".join(source.sample(draw.judges, min(len(draw.judges), source.choice((1, 1, 1, 2)))))
    place = source.choice(draw.rooms), draw.day(), source.choice(HALF_HOURS), source.choice(("1", "2", "3q"))
    return "{},{},{},{},{},{},{},{}".format(case, motion, judges, *place, FIRST_DAY)


def hearings(draw, count):
    """Motions, and hearings that are booked, moved and cancelled, over all judges and eighteen years."""
    written = []
    for motion in range(1, 65):
        for case in range(1, 513):
            if motion == 1:
                written.append("1,open,{},{}".format(case, FIRST_DAY))
            written.append("1,motion,{},{},exparte".format(case, FIRST_DAY))
            written.append("1,book," + hearing(draw, case, motion))
            written.append("1,{}".format(draw.source.choice((
                "move," + hearing(draw, case, motion), "book," + hearing(draw, case, motion),
                "cancel,{},{}".format(case, motion)))))
            if len(written) >= count:
                return written[:count]
    return written


def places():
    """Half hours on days from Monday to Friday, the earliest first."""
    for number in range((LAST_DAY - FIRST_DAY).days):
        day = FIRST_DAY + datetime.timedelta(days=number)
        if day.weekday() < 5:
            for half_hour in HALF_HOURS:
                yield day, half_hour


def booked_at(draw, count, where):
    """Cases with 64 motions each, and a hearing of each motion at the next of those places, before one judge."""
    where, written = iter(where), []
    for case in itertools.count(1):
        written.append("1,open,{},{}".format(case, FIRST_DAY))
        for motion in range(1, 65):
            place = draw.judges[0], draw.rooms[0], *next(where)
            written.append("1,motion,{},{},exparte".format(case, FIRST_DAY))
            written.append("1,book,{},{},{},{},{},{},1,{}".format(case, motion, *place, FIRST_DAY))
        if len(written) >= count:
            return written[:count]


def in_order(draw, count):
    """Hearings each of which is later than all before it."""
    return booked_at(draw, count, places())


def at_random(draw, count):
    """The same hearings in another order."""
    # half of the rows are bookings, and the last case is written whole before its rows are cut
    where = list(itertools.islice(places(), count // 2 + 64))
    draw.source.shuffle(where)
    return booked_at(draw, count, where)


def sheets(draw, count):
    """Cases with two deadlines and a motion, and then their sheets again and again."""
    opened = []
    for case in range(1, 33):
        opened += itertools.islice(case_rows(draw, case), 4)
        opened.append("1,motion,{},{},14".format(case, draw.day()))
    return opened + ["1,sheet,{}".format(1 + number % 32) for number in range(count - len(opened))]


def of_clerks(kind, draw, clerks, count):
    """Rows of clerks, dealt to them in turn."""
    # the rows of each of four lists are the same for any number of clerks, so that all have the same work
    lists = [CLERK_KINDS[kind](draw, part) for part in range(PARTS)]
    for number in range(count):
        part = number % PARTS
        yield "{},{}".format(1 + part % clerks, next(lists[part]))


def hearings_of(draw, part, judge):
    """Hearings that are set, moved and cancelled before a judge, in a quarter of the cases."""
    source, room = draw.source, draw.rooms[part]
    cases = range(part + 1, CASES + 1, PARTS)
    for motion, case in itertools.product(range(1, 65), cases):
        if motion == 1:
            yield "open,{},{}".format(case, FIRST_DAY)
        yield "motion,{},{},exparte".format(case, FIRST_DAY)
        for word in ("book", "move"):
            place = judge, room, draw.day(), source.choice(HALF_HOURS), source.choice(("1", "2", "3q"))
            yield "{},{},{},{},{},{},{},{},{}".format(word, case, motion, *place, FIRST_DAY)
        yield "cancel,{},{}".format(case, motion)


def disjoint(draw, part):
    return hearings_of(draw, part, draw.judges[part])


def contended(draw, part):
    return hearings_of(draw, part, draw.judges[0])


def growing(draw, part):
    """Hearings that are set before one judge, in one room, on random days, in a quarter of the cases: few are cancelled."""
    source = draw.source
    for case in range(part + 1, CASES + 1, PARTS):
        yield "open,{},{}".format(case, FIRST_DAY)
        for motion in range(1, 65):
            yield "motion,{},{},exparte".format(case, FIRST_DAY)
            place = draw.judges[0], draw.rooms[0], draw.day(), source.choice(HALF_HOURS), source.choice(("1", "2", "3q"))
            yield "book,{},{},{},{},{},{},{},{}".format(case, motion, *place, FIRST_DAY)
            if source.random() < 1 / 32:
                yield "cancel,{},{}".format(case, motion)


def mostly_reading(draw, part):
    """Sheets of a clerk's own cases and ends of periods, and a command in every 20 rows."""
    for number in itertools.count():
        case = part + 1 + PARTS * (number // 20 % 64)
        if number % 20 == 0:
            yield "open,{},{}".format(case, FIRST_DAY) if number < 20 * 64 else "motion,{},{},14".format(case, draw.day())
        elif number % 2 == 0:
            yield "sheet,{}".format(case)
        else:
            yield "compute,{}".format(draw.rule_period_with_its_days_and_kind())


# Of how many parts of the docket the rows of several clerks are.
PARTS = 4
CLERK_KINDS = {"disjoint": disjoint, "contended": contended, "growing": growing, "mostly reading": mostly_reading}


def names_in(court, key):
    """The names in a list of a court's file, which stands in one line."""
    return re.findall('"([^"]*)"', re.search("^" + key + " = .*", court, re.MULTILINE).group())


def court_of(judges):
    """The example's file with that many judges and rooms."""
    court = EXAMPLE.read_text()
    for key, letter in (("judges", "J"), ("rooms", "R")):
        names = ", ".join('"{}{}"'.format(letter, number) for number in range(1, judges + 1))
        court = re.sub("(?m)^" + key + " = .*", "{} = [{}]".format(key, names), court)
    return court


def full_court():
    """The file of the full court."""
    def dates(first):
        days = (FIRST_CLOSED + datetime.timedelta(days=first + number) for number in range(FULL_DATES))
        return ", ".join('"{}"'.format(day) for day in days)

    return "\n".join((
        'zone = "EST5EDT,M3.2.0/2,M11.1.0/2"',
        'opens = "08:30"',
        'closes = "17:00"',
        'from = "{}"'.format(FULL_FROM),
        'to = "{}"'.format(FULL_TO),
        "federal = [{}]".format(dates(0)),
        "state = [{}]".format(dates(FULL_DATES)),
        "judges = []",
        "rooms = []",
        "",
    ))


def rows_of(kind, draw, count):
    """Rows of a kind, as many as are asked for."""
    if kind in DOCKET:
        made = {"docket": docket, "hearings": hearings, "in order": in_order, "at random": at_random, "sheets": sheets}
        yield from made[kind](draw, count)
        return
    templates = list(KINDS.values())
    for _ in range(count):
        row = draw.source.choice(templates) if kind == MIXED else KINDS[kind]
        yield row.format_map(draw)


