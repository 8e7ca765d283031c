"""Rules of observance of the holidays that courts' files list, written apart from the program that writes the files.

Holidays of the United States are those that Fed. R. Civ. P. 6(a)(6)(A) names, observed as 5 U.S.C. 6103(b)(1) and
Executive Order 11582 say. Holidays of a state are those that its statute names and the United States do not have,
observed by that statute's own rule; a day of the federal list isn't listed again, and a Saturday or a Sunday isn't
listed at all. The statutes' texts weren't at hand when these rules were written: they were compared with two libraries
(holidays_check.py). The rules of states are those of 2016 and later, for New York those of 2007 and later; those of the
United States go back to 1970. It needs Python 3.8 or later.
"""
from datetime import date
from typing import NamedTuple

from lib.state_holidays import DOUBTFUL, STATES, STATUTES
from lib.year_days import (MONDAY, SATURDAY, THANKSGIVING, Holiday, before_1971, fixed, friday_or_monday, inauguration_day, last, nth,
                           veterans_day)

FEDERAL = [
    Holiday("New Year's Day", fixed(1, 1), friday_or_monday),
    Holiday("Birthday of Martin Luther King, Jr.", nth(3, MONDAY, 1), since=1986),
    Holiday("Washington's Birthday", before_1971(fixed(2, 22), nth(3, MONDAY, 2)), friday_or_monday),
    Holiday("Memorial Day", before_1971(fixed(5, 30), last(MONDAY, 5)), friday_or_monday),
    Holiday("Juneteenth National Independence Day", fixed(6, 19), friday_or_monday, since=2021),
    Holiday("Independence Day", fixed(7, 4), friday_or_monday),
    Holiday("Labor Day", nth(1, MONDAY, 9)),
    Holiday("Columbus Day", nth(2, MONDAY, 10), since=1971),
    Holiday("Veterans Day", veterans_day, friday_or_monday),
    Holiday("Thanksgiving Day", THANKSGIVING),
    Holiday("Christmas Day", fixed(12, 25), friday_or_monday),
]

# of the capital's region, 5 U.S.C. 6103(c); where another holiday is on that day, the day has the other's name
INAUGURATION_DAY = Holiday("Inauguration Day", inauguration_day, every=4, offset=1, law="5 U.S.C. 6103(c)")

EASTERN, CENTRAL, PACIFIC = ("EST5EDT,M3.2.0/2,M11.1.0/2", "CST6CDT,M3.2.0/2,M11.1.0/2", "PST8PDT,M3.2.0/2,M11.1.0/2")
MOUNTAIN = "MST7MDT,M3.2.0/2,M11.1.0/2"


def of_states(zone, *names):
    """The courts of states that are one district each, with this zone."""
    return {name.lower().replace(" ", "_"): (f"District of {name}", zone) for name in names}


def of_parts(state, zone, *parts):
    """The courts of a state's districts, each with its zone."""
    code = state.lower().replace(" ", "_")
    return {f"{code}_{part}": (f"{part.capitalize()} District of {state}", zone) for part in parts}


# each district court, as 28 U.S.C. 81 to 131 name the districts: by its code its title, and the zone of its office. Where in a
# district there is another clock, its file says so in a comment
COURTS = {
    **of_parts("Alabama", CENTRAL, "northern", "middle", "southern"),
    **of_states("AKST9AKDT,M3.2.0/2,M11.1.0/2", "Alaska"),
    **of_states("MST7", "Arizona"),
    **of_parts("Arkansas", CENTRAL, "eastern", "western"),
    **of_parts("California", PACIFIC, "northern", "eastern", "central", "southern"),
    **of_states(MOUNTAIN, "Colorado", "Idaho", "Montana", "New Mexico", "Utah", "Wyoming"),
    **of_states(EASTERN, "Connecticut", "Delaware", "Maine", "Maryland", "Massachusetts", "New Hampshire", "New Jersey",
                "Rhode Island", "South Carolina", "Vermont"),
    "district_of_columbia": ("District of Columbia", EASTERN),
    **of_parts("Florida", EASTERN, "northern", "middle", "southern"),
    **of_parts("Georgia", EASTERN, "northern", "middle", "southern"),
    **of_states("ChST-10", "Guam"),
    "northern_mariana_islands": ("District of the Northern Mariana Islands", "ChST-10"),
    **of_states("HST10", "Hawaii"),
    **of_parts("Illinois", CENTRAL, "northern", "central", "southern"),
    **of_parts("Indiana", EASTERN, "northern", "southern"),
    **of_parts("Iowa", CENTRAL, "northern", "southern"),
    **of_states(CENTRAL, "Kansas", "Minnesota", "Nebraska", "North Dakota", "South Dakota"),
    **of_parts("Kentucky", EASTERN, "eastern", "western"),
    **of_parts("Louisiana", CENTRAL, "eastern", "middle", "western"),
    **of_parts("Michigan", EASTERN, "eastern", "western"),
    **of_parts("Mississippi", CENTRAL, "northern", "southern"),
    **of_parts("Missouri", CENTRAL, "eastern", "western"),
    **of_states(PACIFIC, "Nevada", "Oregon"),
    **of_parts("New York", EASTERN, "northern", "southern", "eastern", "western"),
    **of_parts("North Carolina", EASTERN, "eastern", "middle", "western"),
    **of_parts("Ohio", EASTERN, "northern", "southern"),
    **of_parts("Oklahoma", CENTRAL, "northern", "eastern", "western"),
    **of_parts("Pennsylvania", EASTERN, "eastern", "middle", "western"),
    **of_states("AST4", "Puerto Rico"),
    "virgin_islands": ("District of the Virgin Islands", "AST4"),
    **of_parts("Tennessee", EASTERN, "eastern"),
    **of_parts("Tennessee", CENTRAL, "middle", "western"),
    **of_parts("Texas", CENTRAL, "northern", "southern", "eastern", "western"),
    **of_parts("Virginia", EASTERN, "eastern", "western"),
    **of_parts("Washington", PACIFIC, "eastern", "western"),
    **of_parts("West Virginia", EASTERN, "northern", "southern"),
    **of_parts("Wisconsin", CENTRAL, "eastern", "western"),
}


def state_of(court):
    """The state of a court, from its code: `new_york` of `new_york_southern`."""
    return max((state for state in STATES if court == state or court.startswith(state + "_")), key=len)


class Listed(NamedTuple):
    """A holiday as it is listed on a day: its name, the day that is set, the law, and whether it is in doubt."""
    name: str
    own: date
    law: str
    doubtful: bool

    def named(self, day):
        """What the day is called: the holiday's name, with words where it is observed in place of another day, and where it is in
        doubt."""
        return self.name + ("" if self.own == day else ", observed") + (" (doubtful)" if self.doubtful else "")

    def comment(self, day):
        """What stands after the day in its list."""
        of = "" if self.own == day else f" (for {'Saturday' if day < self.own else 'Sunday'}, {self.own})"
        return f"{self.name}{of}{'; doubtful, for the court to say' if self.doubtful else ''}"


def listed(holidays, first, last_year, law=None, doubtful=()):
    """The days from Monday to Friday of these years on which the holidays are observed. A New Year's Day of the year
    after may be among them. Of two on one day the first of the list has it."""
    days = {}
    for holiday in reversed(holidays):
        for year in range(first, last_year + 2):
            day, own = holiday.kept_in(year) or (None, None)
            if day and first <= day.year <= last_year and day.weekday() < SATURDAY:
                days[day] = Listed(holiday.name, own, law or holiday.law_of(day, own), holiday.name in doubtful)
    return days


def federal_days(state, first, last_year):
    """The days of the federal list in a state."""
    more = [INAUGURATION_DAY] if state == "district_of_columbia" else []
    return listed(FEDERAL + more, first, last_year)


def state_days(state, first, last_year):
    """The days of the state's list, which the federal list hasn't."""
    federal = federal_days(state, first, last_year)
    days = listed(STATES[state], first, last_year, STATUTES[state], DOUBTFUL.get(state, ()))
    return {day: holiday for day, holiday in days.items() if day not in federal}
