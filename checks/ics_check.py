#!/usr/bin/env python3
"""Compares the calendars that `docket ics` writes with what clerk_office says of the same docket.

    ics_check.py DOCKET CLERK_OFFICE [SEED [COUNT]]

Inputs are made at random, half of them in the zones of examples/courts, with hearings around both changes of the clocks.
Half of them are entered into a folder, in which cases have names (lib/given_docket.py), and each is called by its name.
clerk_office answers each; from its answers to the rows and the sheets at its end this script makes the list of events
that a calendar must have: the deadlines and hearings that are chosen, in order, and then what was taken off the calendar.
The calendar is read by Debian's python3-icalendar, and each event must be the wanted one, property by property. The times
are computed by the C library, which knows zones by itself. Each calendar is also looked at as bytes: CR LF at each end, no
line of more than 75 bytes, no character cut by a fold.

Each input is also written twice, after some of its rows and after all, with a judge and without: no event may vanish, no
SEQUENCE may fall, and that of an event that is written otherwise must be higher. In a folder the row that started a deadline is struck
afterwards: the deadline must be cancelled, on the day from which it ran, and no other event may vanish. For one input of each zone of
examples/courts both are imported one after another into Debian's khal, which must show what the second one says and nothing
else, in the zone of that name from the machine's own database.

It needs Debian's python3-icalendar and khal, and takes /usr/bin/python3 where the Python that runs it has no icalendar. The
status is 0 where all is alike.
"""
import datetime
import os
import random
import re
import shutil
import sys
import tempfile
from collections import Counter
from pathlib import Path

try:
    import icalendar
except ImportError:
    if sys.executable != "/usr/bin/python3" and Path("/usr/bin/python3").exists():
        os.execv("/usr/bin/python3", ["/usr/bin/python3", *sys.argv])
    icalendar = None
if icalendar is None or shutil.which("khal") is None:
    sys.exit("ics_check.py: nothing was checked: install Debian's python3-icalendar and khal")

from lib.asked_days import asked_days
from lib.case_names import asked
from lib.desk import report_of
from lib.given_docket import given_docket, input_of
from lib.ics_inputs import ZONES, cut, zoned_input
from lib.ics_wanted import Clock, answered, day_of, entries_wanted, event_wanted, lost_item, lost_of, revisions_of, uid
from lib.khal import khal_line, khal_lines
from lib.made_inputs import INPUTS, made_input
from lib.programs import programs_of, run, seed_and_count


STAMP = datetime.datetime(2025, 9, 15, 12, tzinfo=datetime.timezone.utc)
WHY = ["--reason", "entered twice"]


# What a calendar has


def read_value(name, value):
    if name in ("DTSTART", "DTEND", "DTSTAMP", "LAST-MODIFIED"):
        return value.dt
    return int(value) if name == "SEQUENCE" else str(value)


def events_read(data):
    """The events of a calendar as icalendar reads them, in their order."""
    calendar = icalendar.Calendar.from_ical(data)
    if (str(calendar["VERSION"]), str(calendar["PRODID"])) != ("2.0", "-//Jerghuma//docket//EN"):
        raise ValueError("the head of the calendar")
    return [{name: read_value(name, value) for name, value in event.items()} for event in calendar.subcomponents
            if event.name == "VEVENT"]


def faults_of_bytes(data):
    if not data.endswith(b"\r\n") or re.search(rb"[^\r]\n|\r[^\n]", data):
        return "an end of a line that isn't CR LF"
    for line in data.split(b"\r\n"):
        if len(line) > 75:
            return "a line of {} bytes".format(len(line))
        line.decode()
    return None


# Comparing


def revision(given, revisions, case):
    """The SEQUENCE of the events of a case. A strike counts as a row does, and as a change of all days by the last row before it."""
    last = max(revisions.get(0, 0), revisions.get(case, 0))
    return last if given.numbers is None else max(last, given.numbers.rows_before) + given.numbers.strikes


def differs(seen, chance, given):
    """How a calendar differs from what clerk_office says, if it does. What was compared is counted."""
    office = answered(given)
    if office is None:
        return None
    clock, revisions = Clock(office.court["zone"]), revisions_of(office.rows, office.answers)
    for _ in range(2):
        words, choice, stamp = made_words(chance, given.names, office.court, office.docket)
        began = datetime.datetime.now(datetime.timezone.utc).replace(microsecond=0)
        status, found, errors = given.report(words)
        fault = faults_of_bytes(found) if (status, errors) == (0, b"") else errors.decode()
        if fault:
            return "{}: {}".format(" ".join(words), fault)
        read = events_read(found)
        if stamp is None and read:
            stamp = read[0]["DTSTAMP"]
            if not began <= stamp <= datetime.datetime.now(datetime.timezone.utc):
                return "{}: the stamp isn't the clock's time: {}".format(" ".join(words), stamp)
        wanted = [event_wanted(clock, item, revision(given, revisions, item.case), off, stamp)
                  for item, off in entries_wanted(given.names, office.docket, office.rows, office.answers, choice, given.lost)]
        for at in range(max(len(wanted), len(read))):
            if wanted[at:at + 1] != read[at:at + 1]:
                return "{}: event {}\nwanted {}\nfound  {}".format(" ".join(words), at, wanted[at:at + 1], read[at:at + 1])
        seen["events"] += len(read)
    plain = input_of(given.programs, given.plain)
    return rewritten_differs(seen, chance, plain, answered(plain))


def rewritten_differs(seen, chance, given, office):
    """What is wrong with a calendar that is written after some rows of an input and then after all, if something is."""
    earlier = cut(chance, given.data)
    for judge in [None, *office.judges[:3]]:
        words = ["ics"] + (["--judge", judge] if judge else [])
        old, new = ({event["UID"]: event for event in events_read(report_of(given.programs, words, rows).output)} for rows in (earlier, given.data))
        for name, event in old.items():
            if name not in new:
                if name not in office.docket.beyond:
                    return "{}: {} vanished".format(" ".join(words), name)
                continue
            before, after = (says(events[name]) for events in (old, new))
            rise = new[name]["SEQUENCE"] - event["SEQUENCE"]
            if rise < 0 or rise == 0 and before != after:
                return "{}: the SEQUENCE of {} rises by {}\nbefore {}\nafter  {}".format(" ".join(words), name, rise, event,
                                                                                      new[name])
            seen["changed"] += before != after
    return None


def events_of(given):
    """The events of all that is in a folder, by their names, written at one instant."""
    return {event["UID"]: event for event in events_read(given.report(["ics", "--stamp", STAMP.strftime("%Y%m%dT%H%M%SZ")]).output)}


def struck_differs(seen, chance, given):
    """What is wrong with the calendar of a folder once the row is struck that started a deadline, if something is."""
    office = None if given.place[0] == "--input" else answered(given)
    if office is None:
        return None
    starts = [number for number, row in office.rows.items() if row.split(",")[1] in ("start", "set") and office.answers[number].startswith("deadline ")]
    if not starts:
        return None
    row = chance.choice(starts)
    lost = lost_of(office.rows[row], int(office.answers[row].split(" ")[1]))
    old = events_of(given)
    ended = run([given.programs.docket, "strike", *given.place, row, "--accept", *WHY])
    new, name = events_of(given), uid(lost.case, 0, lost.number)
    gone = [other for other in old if other not in new and other not in office.docket.beyond]
    item = lost_item(given.names, lost)
    wanted = event_wanted(Clock(office.court["zone"]), item._replace(summary="Cancelled: " + item.summary), max(office.rows) + 1, True, STAMP)
    if ended.status != 0 or gone or new.get(name) != wanted:
        return "row {} is struck: {}\nvanished {}\nwanted {}\nfound  {}".format(row, ended.status, gone, wanted, new.get(name))
    seen["struck"] += 1
    return None


def says(event):
    """What an event says, but for when it was written and its number."""
    return {name: value for name, value in event.items() if name not in ("DTSTAMP", "LAST-MODIFIED", "SEQUENCE")}


def made_words(chance, names, court, docket):
    days = [item.day for item in docket.items] or [day_of(court["from"])]
    judges = sorted({judge for panel in [*docket.before.values(), *[item.panel or () for item in docket.items]] for judge in panel})
    words, judge, case, stamp = ["ics"], None, None, None
    first, last, asked_for = asked_days(chance, days, day_of(court["from"]), day_of(court["to"]), 0.3)
    words += asked_for
    if judges and chance.random() < 0.3:
        judge = chance.choice(judges)
        words += ["--judge", judge]
    if docket.items and chance.random() < 0.2:
        case = chance.choice([item.case for item in docket.items])
        words += ["--case", asked(chance, names, case)]
    if chance.random() < 0.6:
        stamp = datetime.datetime(chance.randrange(1900, 2200), chance.randrange(1, 13), chance.randrange(1, 29),
                                  chance.randrange(24), chance.randrange(60), chance.randrange(60),
                                  tzinfo=datetime.timezone.utc)
        words += ["--stamp", "{:04}{:%m%dT%H%M%SZ}".format(stamp.year, stamp)]
    return words, (first, last, judge, case), stamp


def khal_differs(seen, chance, programs):
    """How khal shows two calendars of each zone, imported one after another, otherwise than clerk_office says of the second, if
    it does."""
    for zone, name in ZONES.items():
        given = input_of(programs, zoned_input(chance, zone))
        office = answered(given)
        for judge in (None, "Ames"):
            words = ["ics"] + (["--judge", judge] if judge else [])
            choice = day_of(office.court["from"]), day_of(office.court["to"]), judge, None
            wanted = sorted(khal_line(item) for item, _ in entries_wanted({}, office.docket, office.rows, office.answers, choice))
            read = khal_lines([programs.report(words, rows).output for rows in (cut(chance, given.data), given.data)], name)
            if wanted != read:
                return "khal in {} of {}: {}".format(name, judge, next((w, r) for w, r in zip(wanted + [""], read + [""])
                                                                       if w != r))
            seen["shown"] += len(read)
    return None


def main(words):
    programs, (seed, count) = programs_of(words[:2]), seed_and_count(words[2:], 300)
    seen = Counter()
    for number in range(count):
        chance = random.Random("ics {} {}".format(seed, number))
        data = zoned_input(chance, chance.choice(list(ZONES))) if number % 2 else made_input(chance, chance.choice(INPUTS))
        with tempfile.TemporaryDirectory() as parent:
            given = given_docket(programs, chance, data, parent)
            wrong = differs(seen, chance, given) or struck_differs(seen, chance, given)
        if wrong:
            sys.exit("seed {} input {}: {}".format(seed, number, wrong))
    wrong = khal_differs(seen, random.Random("khal {}".format(seed)), programs)
    if wrong:
        sys.exit(wrong)
    print("{} events of {} inputs are what clerk_office says; {} were written otherwise later, each with a higher SEQUENCE; {} deadlines "
          "were struck; khal shows {} in {} zones".format(seen["events"], count, seen["changed"], seen["struck"], seen["shown"], len(ZONES)))


if __name__ == "__main__":
    main(sys.argv[1:])
