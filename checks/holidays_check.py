#!/usr/bin/env python3
"""Compares the holidays that docket knows with two libraries of holidays, day by day.

    holidays_check.py DOCKET

The libraries are Debian's python3-holidays (compared: 0.10.1) and python3-workalendar (compared:
17.0.0); where the first isn't there, only the rules are compared, and a line says so. Compared are the days from Monday to
Friday:

- those of the United States, from 1970 to 2069: what `court check` says that an empty list lacks, and what python3-holidays has;
- those of each state and of the United States, from 2016 to 2069: what `court write` writes for a court of the state, and what
  each library has;
- those that `court write` writes for each court and a hundred years, and the rules of checks/lib/holiday_rules.py.

Each difference must be one that lib/holiday_differences.py explains. A line for each comparison says how many days agree. The status is
0 where nothing is left unexplained.
"""
import pathlib
import re
import subprocess
import sys
import tempfile
import warnings
from datetime import date

from courts_days import differences, list_of, names_of, written
from lib import holiday_rules
from lib.holiday_differences import ONLY_LIBRARY, ONLY_PROGRAM

DEBIAN_PACKAGES = "/usr/lib/python3/dist-packages"
FIRST_OF_FEDERAL, FIRST, LAST = 1970, 2016, 2069
# the longest files
LONG_SPANS = ((2016, 2115), (2100, 2199))

# a court of each state, and the state as each library names it; python3-workalendar has the legal holidays of Florida apart
# from the paid ones
COURTS = {
    "alabama_northern": ("AL", "Alabama"),
    "alaska": ("AK", "Alaska"),
    "arizona": ("AZ", "Arizona"),
    "arkansas_eastern": ("AR", "Arkansas"),
    "california_central": ("CA", "California"),
    "colorado": ("CO", "Colorado"),
    "connecticut": ("CT", "Connecticut"),
    "delaware": ("DE", "Delaware"),
    "district_of_columbia": ("DC", "DistrictOfColumbia"),
    "florida_southern": ("FL", "FloridaLegal"),
    "georgia_northern": ("GA", "Georgia"),
    "guam": ("GU", "Guam"),
    "hawaii": ("HI", "Hawaii"),
    "idaho": ("ID", "Idaho"),
    "illinois_northern": ("IL", "Illinois"),
    "indiana_southern": ("IN", "Indiana"),
    "iowa_southern": ("IA", "Iowa"),
    "kansas": ("KS", "Kansas"),
    "kentucky_western": ("KY", "Kentucky"),
    "louisiana_eastern": ("LA", "Louisiana"),
    "maine": ("ME", "Maine"),
    "maryland": ("MD", "Maryland"),
    "massachusetts": ("MA", "Massachusetts"),
    "michigan_eastern": ("MI", "Michigan"),
    "minnesota": ("MN", "Minnesota"),
    "mississippi_southern": ("MS", "Mississippi"),
    "missouri_eastern": ("MO", "Missouri"),
    "montana": ("MT", "Montana"),
    "nebraska": ("NE", "Nebraska"),
    "nevada": ("NV", "Nevada"),
    "new_hampshire": ("NH", "NewHampshire"),
    "new_jersey": ("NJ", "NewJersey"),
    "new_mexico": ("NM", "NewMexico"),
    "new_york_southern": ("NY", "NewYork"),
    "north_carolina_eastern": ("NC", "NorthCarolina"),
    "north_dakota": ("ND", "NorthDakota"),
    "northern_mariana_islands": ("MP", None),
    "ohio_northern": ("OH", "Ohio"),
    "oklahoma_western": ("OK", "Oklahoma"),
    "oregon": ("OR", "Oregon"),
    "pennsylvania_eastern": ("PA", "Pennsylvania"),
    "puerto_rico": ("PR", None),
    "rhode_island": ("RI", "RhodeIsland"),
    "south_carolina": ("SC", "SouthCarolina"),
    "south_dakota": ("SD", "SouthDakota"),
    "tennessee_middle": ("TN", "Tennessee"),
    "texas_southern": ("TX", "Texas"),
    "utah": ("UT", "Utah"),
    "vermont": ("VT", "Vermont"),
    "virgin_islands": ("VI", None),
    "virginia_eastern": ("VA", "Virginia"),
    "washington_western": ("WA", "Washington"),
    "west_virginia_southern": ("WV", "WestVirginia"),
    "wisconsin_eastern": ("WI", "Wisconsin"),
    "wyoming": ("WY", "Wyoming"),
}


def days_of(text):
    """The days that a court's file lists, with their names."""
    names = names_of(text)
    return {day: names[day][0].replace(", observed", "").replace(" (doubtful)", "") for key in ("federal", "state") for day in list_of(text, key)}


def lacking(program, first, last):
    """The days from Monday to Friday that the program says an empty federal list lacks."""
    text = (f'zone = "EST5EDT,M3.2.0/2,M11.1.0/2"\nopens = "08:30"\ncloses = "17:00"\nfrom = "{first}-01-01"\n'
            f'to = "{last}-12-31"\nfederal = []\nstate = []\njudges = []\nrooms = []\n')
    with tempfile.TemporaryDirectory() as folder:
        path = pathlib.Path(folder) / "court.toml"
        path.write_text(text)
        told = subprocess.run([program, "court", "check", str(path)], capture_output=True, text=True, check=False).stdout
    found = re.findall(r"the list lacks (\d{4}-\d\d-\d\d), (?:which the law sets for|on which) (.*?)(?:; | is observed)", told)
    days = {date.fromisoformat(day): name for day, name in found}
    return {day: name for day, name in days.items() if day.weekday() < 5}


def weekdays(days, first, last):
    return {day: name for day, name in days if day.weekday() < 5 and first <= day.year <= last}


def of_holidays(holidays, state, first, last):
    """The days from Monday to Friday that python3-holidays has."""
    return weekdays(holidays.US(state=state, years=range(first, last + 2)).items(), first, last)


def of_workalendar(usa, calendar, first, last):
    """The days from Monday to Friday that python3-workalendar has."""
    years = range(first, last + 1)
    return weekdays(((day, name) for year in years for day, name in getattr(usa, calendar)().holidays(year)), first, last)


def unexplained(court, days, others, reasons):
    """The days that the others haven't and no reason explains."""
    return [(day, name) for day, name in sorted(days.items())
            if day not in others and not any(of in ("", court) and name in names for of, names, _ in reasons)]


def compared(what, library, ours, theirs):
    """How many days aren't explained, each of which is printed."""
    alone = [(day, name, "the program") for day, name in unexplained(what, ours, theirs, ONLY_PROGRAM)]
    alone += [(day, name, library) for day, name in unexplained(what, theirs, ours, ONLY_LIBRARY)]
    for day, name, who in alone:
        print(f"{what}: {day} {name}: only {who} has it, and it isn't explained")
    both = len(ours.keys() & theirs.keys())
    print(f"{what}, {library}: {both} days agree, {len(ours) - both} only in the program, {len(theirs) - both} only in the library")
    return len(alone)


def as_ruled(program, court, first, last):
    """How many days of the file that the program writes for these years aren't those of the rules."""
    lines = list(differences(court, written(program, court, first, last)))
    for line in lines:
        print(f"{court}, {first} to {last}: {line}")
    return len(lines)


def libraries():
    """The two libraries, of which the second may be missing."""
    sys.path.append(DEBIAN_PACKAGES)
    try:
        import holidays
    except ImportError:
        sys.exit("python3-holidays isn't installed, so only the rules were compared: apt-get install python3-holidays")
    try:
        from workalendar import usa
    except ImportError:
        print("python3-workalendar isn't installed; only python3-holidays is compared")
        usa = None
    return holidays, usa


def main():
    if len(sys.argv) != 2:
        sys.exit(__doc__)
    program = sys.argv[1]
    warnings.simplefilter("ignore")
    left = sum(as_ruled(program, court, *years) for court in holiday_rules.COURTS for years in LONG_SPANS)
    print(f"{len(holiday_rules.COURTS)} courts and the rules, {' and '.join('%d to %d' % years for years in LONG_SPANS)}: {left} differences")
    holidays, usa = libraries()
    ours = lacking(program, FIRST_OF_FEDERAL, LAST)
    left += compared("united_states", "python3-holidays", ours, of_holidays(holidays, None, FIRST_OF_FEDERAL, LAST))
    for court, (state, calendar) in COURTS.items():
        ours = days_of(written(program, court, FIRST, LAST))
        left += compared(court, "python3-holidays", ours, of_holidays(holidays, state, FIRST, LAST))
        if usa and calendar:
            left += compared(court, "python3-workalendar", ours, of_workalendar(usa, calendar, FIRST, LAST))
    print("each difference is explained" if not left else f"{left} differences aren't explained")
    sys.exit(1 if left else 0)


if __name__ == "__main__":
    main()
