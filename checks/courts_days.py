#!/usr/bin/env python3
"""Compares courts' files, as `docket court write` writes them, with rules of observance that were written apart from the program.

    courts_days.py DOCKET FOLDER

DOCKET writes the file of each court that checks/lib/holiday_rules.py has, for the years 2016 to 2045, and must name just
these courts in its help. In each file the title and the zone must be the court's, the hours 08:30 to 17:00, and the two
lists, for each day of those years, those of the rules for its state, each day once and in order, with its name, the day that
is set and a mark where it is in doubt. The table of names must name just these days, each with the law that makes it a
holiday. FOLDER/NAME.toml must be what is written for that court. FOLDER/../district.toml was written by hand; of its lists
the days from Monday to Friday are compared. The status is 0 where all is the same. It needs Python 3.8 or later.
"""
import pathlib
import re
import subprocess
import sys
from datetime import date

from lib.holiday_rules import COURTS, federal_days, state_days, state_of

FIRST, LAST = 2016, 2045
WRITTEN_BY_HAND = "district"


def lines_of(text, key):
    """The dates of a list of a court's file, as they are written, each with what stands after it."""
    written = re.search(rf"^{key} = \[(.*?)\]$", text, re.MULTILINE | re.DOTALL).group(1)
    found = re.findall(r'^ *"(\d{4}-\d\d-\d\d)", # (.*)$', written, re.MULTILINE)
    return [(date.fromisoformat(day), comment) for day, comment in found]


def list_of(text, key):
    """The dates of a list of a court's file, as they are written."""
    return [day for day, _ in lines_of(text, key)]


def names_of(text):
    """The names that a court's file gives to days, each with the law after it."""
    _, _, table = text.partition("\n[holiday_names]\n")
    found = re.findall(r'^(\d{4}-\d\d-\d\d) = "(.*?)" # (.*)$', table, re.MULTILINE)
    return {date.fromisoformat(day): (name, law) for day, name, law in found}


def years_of(text):
    """The first and the last year that a court's file covers."""
    return tuple(int(re.search(rf'^{key} = "(\d{{4}})-{day}"$', text, re.MULTILINE).group(1))
                 for key, day in (("from", "01-01"), ("to", "12-31")))


def in_the_lists(text, lists, by_hand):
    """A line for each day that a list of the file and the rules don't have alike."""
    for key, days in lists.items():
        lines = [line for line in lines_of(text, key) if not by_hand or line[0].weekday() < 5]
        written = [day for day, _ in lines]
        if written != sorted(set(written)):
            yield f"{key}: the days aren't in order, each once"
        for day in sorted(set(written) ^ days.keys()):
            yield f"{key}: {day}: {'only the rules have it' if day in days else 'only the file has it'}"
        for day, comment in lines:
            if not by_hand and day in days and comment != days[day].comment(day):
                yield f"{key}: {day} is '{comment}' in the file, and '{days[day].comment(day)}' by the rules"


def in_the_names(text, lists):
    """A line for each day that the table of names and the rules don't have alike."""
    wanted = {day: (holiday.named(day), holiday.law) for days in lists.values() for day, holiday in days.items()}
    names = names_of(text)
    for day in sorted(names.keys() | wanted.keys()):
        if names.get(day) != wanted.get(day):
            yield f"names: {day} is {names.get(day)} in the file, and {wanted.get(day)} by the rules"


def differences(court, text):
    """A line for each thing that the file of the court and the rules don't have alike."""
    by_hand = court == WRITTEN_BY_HAND
    code = "new_york_southern" if by_hand else court
    (title, zone), state, (first, last) = COURTS[code], state_of(code), years_of(text)
    lists = {"federal": federal_days(state, first, last), "state": state_days(state, first, last)}
    if f"United States District Court for the {title}" not in text.partition("\n")[0]:
        yield f"the court isn't called {title}"
    for key, value in (("zone", zone), ("opens", "08:30"), ("closes", "17:00")):
        if f'\n{key} = "{value}"\n' not in text:
            yield f"{key} isn't {value}"
    yield from in_the_lists(text, lists, by_hand)
    if not by_hand:
        yield from in_the_names(text, lists)


def written(program, court, first, last):
    """The file that the program writes for a court."""
    words = [program, "court", "write", "--court", court, "--from", str(first), "--to", str(last)]
    return subprocess.run(words, capture_output=True, text=True, check=True).stdout


def of_program(program, folder):
    """A line for each difference of a file that is written, or that stands in the folder."""
    told = subprocess.run([program, "court", "write", "--help"], capture_output=True, text=True, check=True).stdout
    named = dict(re.findall(r"^  ([a-z_]+) +(.*District of .*)$", told, re.MULTILINE))
    if named != {court: title for court, (title, _) in COURTS.items()}:
        yield "docket court write --help doesn't name just the courts of the rules"
    for court in COURTS:
        text, stored = written(program, court, FIRST, LAST), folder / f"{court}.toml"
        yield from (f"{court}: {line}" for line in differences(court, text))
        if stored.exists() and stored.read_text() != text:
            yield f"{stored} isn't what docket writes for {court} from {FIRST} to {LAST}"


def main():
    if len(sys.argv) != 3:
        sys.exit(__doc__)
    folder = pathlib.Path(sys.argv[2])
    by_hand = folder.parent / f"{WRITTEN_BY_HAND}.toml"
    lines = list(of_program(sys.argv[1], folder))
    lines += [f"{by_hand}: {line}" for line in differences(WRITTEN_BY_HAND, by_hand.read_text())]
    lines += [f"{path} is the file of no court" for path in folder.glob("*.toml") if path.stem not in COURTS]
    for line in lines:
        print(line)
    print(f"{len(COURTS)} courts' files, of which {len(list(folder.glob('*.toml')))} are stored, and that of {by_hand}: "
          f"{len(lines)} differences")
    sys.exit(1 if lines else 0)


if __name__ == "__main__":
    main()
