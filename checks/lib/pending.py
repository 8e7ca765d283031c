"""What has been pending for long on a day, by judge, as `docket pending` lists it: a second body, which counts months by the days on
which they end.

Of a sheet it is asked when the case was filed and when its motions were served. How these were ruled on by the day, whether the case was
closed, and who had it, is by the facts of its rows that are dated by then.
"""
import calendar
import csv
import datetime
import io
from collections import namedtuple

from lib.case_names import called
from lib.pages import faults_of, read, rows_of
from reference.civil import day_of_text
from reference.docket import assignment_of, closing_of, facts_by, ruling_of

# `judge` is empty where the case isn't assigned, and `motion` is none of a case itself.
Item = namedtuple("Item", "judge case motion since")
HEADS = ["judge", "kind", "case", "motion", "since", "title", "label"]
KINDS = ["Motions with no ruling for more than six months", "Cases of more than three years that aren't closed"]


def day_of(text):
    return datetime.date.fromisoformat(text)


def named(day):
    return day.strftime("%a %Y-%m-%d")


def end_of_months(since, months):
    """The day a number of months after a day: the same day of the month, or its last day where that month is shorter."""
    years, month = divmod(since.year * 12 + since.month - 1 + months, 12)
    return datetime.date(years, month + 1, min(since.day, calendar.monthrange(years, month + 1)[1]))


def pending_on(day, sheets, judges, docket):
    """The motions and the cases that have been pending for long on the day, each by judge, case and motion. `docket` is that of the rows."""
    so_far = facts_by(docket, day_of_text(str(day)))

    def holder(sheet):
        assigned = assignment_of(so_far, sheet.case)
        return judges[assigned.judge] if assigned is not None else ""

    def is_decided(case, motion):
        ruling = ruling_of(so_far, case, motion)
        return ruling is not None and ruling.how != "reserved"
    listed = sorted((s for s in sheets if closing_of(so_far, s.case) is None),
                    key=lambda s: ([*judges, ""].index(holder(s)), s.case))
    motions = [Item(holder(s), s.case, int(words[1]), day_of(words[3])) for s in listed for words, _ in s.motions
               if end_of_months(day_of(words[3]), 6) < day and not is_decided(s.case, int(words[1]))]
    cases = [Item(holder(s), s.case, None, day_of(s.filed)) for s in listed if end_of_months(day_of(s.filed), 36) < day]
    return motions, cases


def pending_lines(names, day, lists):
    """The text, without titles and labels."""
    lines = ["Pending on " + named(day)]
    for kind, items in zip(KINDS, lists):
        lines += ["", "{}: {}".format(kind, len(items))]
        lines += ["  {}: case {}{}, since {}".format(item.judge or "not assigned", called(names, item.case),
                                                     "" if item.motion is None else " motion {}".format(item.motion), named(item.since))
                  for item in items]
    return lines


def table_of(names, lists):
    """The table for other programs, without titles and labels."""
    rows = [[item.judge, "case" if item.motion is None else "motion", called(names, item.case),
             "" if item.motion is None else str(item.motion), str(item.since), "", ""] for items in lists for item in items]
    guarded = (("'" + field if field[:1] in ("=", "+", "-", "@", "\t", "\r", "\uff1d", "\uff0b", "\uff0d", "\uff20") else field for field in row) for row in rows)
    return "".join(line + "\n" for line in [",".join(HEADS), *(",".join('"{}"'.format(field.replace('"', '""')) for field in row) for row in guarded)])


def table_fault(names, lists, text):
    """What a table for other programs says otherwise, or none. One that a program reads as a table is read so."""
    if text != table_of(names, lists):
        return "another table"
    columns = {len(row) for row in csv.reader(io.StringIO(text))}
    return None if columns == {len(HEADS)} else "rows of other lengths"


def page_fault(names, day, lists, page):
    """What a page says otherwise, or what is wrong with its markup, or none."""
    faults = faults_of(page)
    if faults:
        return faults[0]
    main = read(page)[0].all("main")[0]
    sections = main.all("section")
    if main.all("h1")[0].text() != "Pending on " + named(day) or len(sections) != len(KINDS):
        return "another page"
    for kind, items, section in zip(KINDS, lists, sections):
        wanted = [[item.judge or "not assigned", "case {}{}".format(called(names, item.case), "" if item.motion is None else
                   ", motion {}".format(item.motion)), named(item.since)] for item in items]
        rows = [[cell.text() for cell in cells] for table in section.all("table") for _, cells in rows_of(table, 3)]
        if section.all("h2")[0].text() != "{}: {}".format(kind, len(items)) or rows != wanted:
            return "another list of a page"
    return None
