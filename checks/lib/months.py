"""The months of a judge, as a page shows them in grids: a second body, by the calendar of Python.

A booking has its day, its first minute, how many minutes it takes, its case and its motion.
"""
import calendar
import datetime

from lib.case_names import called


def clock(minute):
    return "{:02}:{:02}".format(minute // 60, minute % 60)


def block(names, b):
    return "{}-{} case {}, motion {}".format(clock(b.first), clock(b.first + b.count), called(names, b.case), b.motion)


def week(names, bookings, month, days):
    """A week: its load, the bar, and its days."""
    quarters = sum(b.count for b in bookings if b.day in days) // 15
    hundredths = quarters * 5 // 8
    cells = [(day.month == month, str(day.day), [block(names, b) for b in bookings if b.day == day]) for day in days]
    return "{} h {} min".format(quarters // 4, quarters % 4 * 15), "{}%".format(hundredths), "width: {}%".format(min(100, hundredths)), cells


def months_of(names, judge, bookings):
    """The grid of each month in which the judge has a booking."""
    months = sorted({(b.day.year, b.day.month) for b in bookings})
    return [("Judge {}, month of {}; 100% is a load of 40 hours".format(judge, datetime.date(year, month, 1).strftime("%a %Y-%m-%d")),
             [week(names, bookings, month, days) for days in calendar.Calendar().monthdatescalendar(year, month)])
            for year, month in months]
