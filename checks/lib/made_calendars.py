"""Inputs made at random that try calendars and clocks: courts of up to a hundred years, and rows that compute alone.

A long span has lists of up to 4,096 dates each, many of them side by side, and holidays and outages that are entered
between the questions. A span with changes of the clocks has a zone made at random, and periods in hours that begin and
end around its changes.
"""
import datetime

from reference.civil import civil, day_text, moment, zone_of_text

FIRST = datetime.date(1900, 1, 1)
LAST = datetime.date(2199, 12, 31)
MOST_DAYS = 36525
MOST_DATES = 4096


def long_span(chance):
    """The lines of the court's file, and the rows."""
    first, length = a_span(chance)
    lists = [some_dates(chance, first, length) for _ in range(2)]
    rows = []
    for _ in range(chance.choice([100, 300])):
        day = first + datetime.timedelta(chance.randrange(length))
        word = chance.choices(["compute", "holiday", "inaccessible"], [20, 2, 1])[0]
        if word == "compute":
            most = chance.choice([3, 30, 400, 3650])
            rows.append("compute,{}d/{}/{}/event/plain,{},,,".format(
                chance.randrange(1, most), chance.choice(["after", "before"]), chance.choice(["filing", "service"]), day))
        elif word == "holiday":
            rows.append("holiday,{},{}".format(day, chance.choice(["federal", "state"])))
        else:
            rows.append("inaccessible,{},{},24:00".format(day, chance.choice(["00:00", "12:00"])))
    return a_court("EST5EDT,M3.2.0/2,M11.1.0/2", first, length, lists), rows


def clock_changes(chance):
    """The lines of the court's file, and the rows."""
    first, length = a_span(chance)
    zone = a_zone(chance)
    last = first + datetime.timedelta(length - 1)
    years = chance.sample(range(first.year, last.year + 1), min(20, last.year - first.year + 1))
    read = zone_of_text(zone)
    rows = []
    for year in years:
        for change, offset in ((read.begins, read.standard), (read.ends, read.daylight)):
            day, second = civil(read, moment(change, year, offset))
            for _ in range(6):
                rows.append(around(chance, day, second // 60))
    return a_court(zone, first, length, [[], []]), rows


def around(chance, day, minute):
    """A period in hours that begins or ends within some minutes of this minute of the day."""
    hours = chance.choice([0, 1, 2, 24, 48])
    at = day * 1440 + minute + chance.choice([-61, -60, -31, -1, 0, 1, 29, 30, 59, 60])
    direction = chance.choice(["after", "before"])
    start = at - 60 * hours if direction == "after" else at + 60 * hours
    return "compute,{}h/{}/filing/event/plain,{},{:02}:{:02},,".format(
        max(hours, 1), direction, day_text(start // 1440), start % 1440 // 60, start % 60)


def a_span(chance):
    """The first day, and how many days there are."""
    length = chance.choice([MOST_DAYS, MOST_DAYS, chance.randrange(30, MOST_DAYS)])
    return FIRST + datetime.timedelta(chance.randrange((LAST - FIRST).days - length)), length


def some_dates(chance, first, length):
    """Days of the span: some alone, some in long rows, and some twice."""
    most = chance.choice([10, 1000, MOST_DATES])
    dates = []
    while len(dates) < most:
        at = chance.randrange(length)
        for day in range(at, min(length, at + chance.choice([1, 1, 1, 2, 5, 40, 1000]))):
            dates.append((first + datetime.timedelta(day)).isoformat())
    return dates[:most]


def a_zone(chance):
    """A rule with two changes a year, in different months."""
    begins, ends = chance.sample(range(1, 13), 2)
    west = chance.randrange(-13 * 60, 12 * 60)
    ahead = chance.choice([30, 60, 60, 60, 120])
    return "AAA{}BBB{},M{}.{}.{}/{},M{}.{}.{}/{}".format(
        hours_text(west), hours_text(west - ahead), begins, chance.randrange(1, 6), chance.randrange(7), a_time(chance),
        ends, chance.randrange(1, 6), chance.randrange(7), a_time(chance))


def hours_text(minutes):
    return "{}{}:{:02}".format("-" if minutes < 0 else "", abs(minutes) // 60, abs(minutes) % 60)


def a_time(chance):
    return "{}:{:02}".format(chance.choice([0, 1, 2, 3, 23, 24]), chance.choice([0, 0, 30]))


def a_court(zone, first, length, lists):
    federal, state = ("[" + ", ".join('"{}"'.format(date) for date in dates) + "]" for dates in lists)
    return ['zone = "{}"'.format(zone), 'opens = "09:00"', 'closes = "17:00"', 'from = "{}"'.format(first),
            'to = "{}"'.format(first + datetime.timedelta(length - 1)), "federal = " + federal, "state = " + state,
            "judges = []", "rooms = []"]
