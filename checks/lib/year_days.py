"""Days of a year, where a holiday that falls on a weekend is observed, and a holiday by the two. It needs Python 3.8 or later."""
from datetime import date, timedelta

MONDAY, TUESDAY, THURSDAY, FRIDAY, SATURDAY, SUNDAY = 0, 1, 3, 4, 5, 6


# Days of a year.

def fixed(month, day):
    """The same date each year."""
    return lambda year: date(year, month, day)


def nth(count, weekday, month):
    """That weekday of the month, counted from 1."""
    def of_year(year):
        first = date(year, month, 1)
        return first + timedelta((weekday - first.weekday()) % 7 + 7 * (count - 1))
    return of_year


def last(weekday, month):
    """The last such weekday of a month that isn't December."""
    def of_year(year):
        end = date(year, month + 1, 1) - timedelta(1)
        return end - timedelta((end.weekday() - weekday) % 7)
    return of_year


def after(days, of_year):
    """So many days after another day, before it if negative."""
    return lambda year: of_year(year) + timedelta(days)


def before_1971(early, late):
    """One day up to 1970 and another since: the Uniform Monday Holiday Act took effect in 1971."""
    return lambda year: (early if year < 1971 else late)(year)


def veterans_day(year):
    """11 November, and the fourth Monday of October from 1971 to 1977."""
    return (nth(4, MONDAY, 10) if 1971 <= year <= 1977 else fixed(11, 11))(year)


def inauguration_day(year):
    """20 January, or the 21st where that is a Sunday."""
    return monday_for_sunday(date(year, 1, 20))


def easter(year):
    """Easter Sunday of the Gregorian calendar, by the rule of Meeus, Jones and Butcher."""
    a, b, c = year % 19, year // 100, year % 100
    d, e = divmod(b, 4)
    f = (b + 8) // 25
    g = (b - f + 1) // 3
    h = (19 * a + b - d - g + 15) % 30
    i, k = divmod(c, 4)
    l = (32 + 2 * e + 2 * i - h - k) % 7
    m = (a + 11 * h + 22 * l) // 451
    month, day = divmod(h + l - 7 * m + 114, 31)
    return date(year, month, day + 1)


GOOD_FRIDAY = after(-2, easter)
THANKSGIVING = nth(4, THURSDAY, 11)
ELECTION_DAY = after(1, nth(1, MONDAY, 11))


# Where a holiday that falls on a weekend is observed.

def stays(day):
    """On the day itself, whatever day of the week it is."""
    return day


def monday_for_sunday(day):
    """On Monday for a Sunday; a Saturday stays."""
    return day + timedelta(1) if day.weekday() == SUNDAY else day


def friday_or_monday(day):
    """On Friday for a Saturday, and on Monday for a Sunday."""
    return day - timedelta(1) if day.weekday() == SATURDAY else monday_for_sunday(day)


class Holiday:
    """A holiday, by the rule for its day and the rule for weekends, in the years in which it is one."""

    def __init__(self, name, of_year, observed=stays, since=1, until=9999, every=1, offset=0, law=None, but=()):
        self.name, self.of_year, self.observed = name, of_year, observed
        self.since, self.until, self.every, self.offset = since, until, every, offset
        self.law, self.but = law, but

    def kept_in(self, year):
        """The day on which the holiday of that year is observed, if it is one in that year, and the day that is set."""
        if self.since <= year <= self.until and year % self.every == self.offset and year not in self.but:
            return self.observed(self.of_year(year)), self.of_year(year)
        return None

    def law_of(self, day, own):
        """What makes the observed day a holiday: its own law, or for a day of the federal list the weekend's."""
        if self.law or own == day:
            return self.law or "5 U.S.C. 6103(a)"
        return "5 U.S.C. 6103(b)(1)" if day < own else "Executive Order 11582"
