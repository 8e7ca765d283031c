"""What a day of the federal list is called by law: the holiday that is set on it, or the one that is observed on it.

The days are those of 5 U.S.C. 6103, for the years 1970 to 2199. They are found here from the calendar of Python alone.
"""
import datetime

from reference.civil import day_text, weekday

MONDAY, THURSDAY, FRIDAY, SATURDAY, SUNDAY = 0, 3, 4, 5, 6


def nth(date, count, day_of_week, month):
    """Whether the date is that weekday of the month, counted from 1."""
    return date.month == month and date.weekday() == day_of_week and (date.day - 1) // 7 + 1 == count


def last(date, day_of_week, month):
    """Whether the date is the last such weekday of the month."""
    return date.month == month and date.weekday() == day_of_week and (date + datetime.timedelta(7)).month != month


def inauguration(date):
    return date.year % 4 == 1 and date.month == 1 and (
        (date.day == 20 and date.weekday() != SUNDAY) or (date.day == 21 and date.weekday() == MONDAY))


# Each holiday with the test of its day, in the order in which they are asked.
HOLIDAYS = [
    ("New Year's Day", lambda d: (d.month, d.day) == (1, 1)),
    ("Birthday of Martin Luther King, Jr.", lambda d: d.year >= 1986 and nth(d, 3, MONDAY, 1)),
    ("Inauguration Day", inauguration),
    ("Washington's Birthday", lambda d: nth(d, 3, MONDAY, 2) if d.year > 1970 else (d.month, d.day) == (2, 22)),
    ("Memorial Day", lambda d: last(d, MONDAY, 5) if d.year > 1970 else (d.month, d.day) == (5, 30)),
    ("Juneteenth National Independence Day", lambda d: d.year >= 2021 and (d.month, d.day) == (6, 19)),
    ("Independence Day", lambda d: (d.month, d.day) == (7, 4)),
    ("Labor Day", lambda d: nth(d, 1, MONDAY, 9)),
    ("Columbus Day", lambda d: d.year >= 1971 and nth(d, 2, MONDAY, 10)),
    ("Veterans Day", lambda d: nth(d, 4, MONDAY, 10) if 1971 <= d.year <= 1977 else (d.month, d.day) == (11, 11)),
    ("Thanksgiving Day", lambda d: nth(d, 4, THURSDAY, 11)),
    ("Christmas Day", lambda d: (d.month, d.day) == (12, 25)),
]


def set_on(date, capital):
    """The holiday that the law sets on the date, or None."""
    if not 1970 <= date.year <= 2199:
        return None
    for name, is_on in HOLIDAYS:
        if is_on(date) and (capital or name != "Inauguration Day"):
            return name
    return None


def observed_on(day):
    """The holiday that is observed on the day in place of a Saturday or a Sunday, or None."""
    date = datetime.date.fromisoformat(day_text(day))
    other = {FRIDAY: 1, MONDAY: -1}.get(weekday(day))
    return None if other is None else set_on(date + datetime.timedelta(other), False)


def short(name):
    """A holiday as it is called where another word follows."""
    return "Juneteenth" if name.startswith("Juneteenth") else name


def legal_name(day):
    """What the day is called where it is in the federal list."""
    name = set_on(datetime.date.fromisoformat(day_text(day)), True)
    if name is not None:
        return name
    name = observed_on(day)
    return "legal holiday" if name is None else short(name) + ", observed"


def called(day, name):
    """What the day is called where it is in the federal list, and the court's file gives it this name, or none."""
    if not name:
        return legal_name(day)
    holiday = observed_on(day)
    return name + ", observed" * (holiday is not None and name in (holiday, short(holiday)))
