"""The rows of the input: records of fields, and the command or query that each asks for.

Fields are plain, or stand whole in double quotes. What `csv` makes of quotes in the middle of a field isn't told here.
"""
import re
from collections import namedtuple

from .civil import CannotTell, day_of_text, minute_of_text
from .periods import Event, Grant, Request, period_of_text, set_to
from .rule6 import Filing
from .sections import CODES

NUMBERS = {"BadClerk": 1, "UnknownCommand": 2, "WrongCount": 3, "BadField": 4, "NotText": 5, "TooManyRows": 6}
MOST_ROWS = 100000
FIELD = re.compile(rb'"((?:[^"]|"")*)(?:"|\Z)|([^",\r\n]*)')

# What a row asks for: the clerk's number, and a tuple of the command's word and its fields.
Row = namedtuple("Row", "clerk work")


class RowFault(Exception):
    """The row's number, the name of the fault, and the column of BadField or None."""

    def line(self):
        row, name, column = self.args
        return "row {} fault {} {}{}".format(row, NUMBERS[name], name, "" if column is None else " {}".format(column))


def records_of(data):
    """The records, as lists of fields that are bytes. Lines end with LF, CR LF or CR, and blank ones are skipped."""
    if data.startswith(b"\xef\xbb\xbf"):
        raise CannotTell("a byte order mark before the rows")
    at = 0
    while at < len(data):
        if data[at] in b"\r\n":
            at += 1
            continue
        fields, after = [], b","
        while after == b",":
            found = FIELD.match(data, at)
            fields.append(found[2] if found[1] is None else found[1].replace(b'""', b'"'))
            after = data[found.end():found.end() + 1]
            if after not in (b"", b",", b"\r", b"\n"):
                raise CannotTell("quotes in the middle of a field")
            at = found.end() + 1
        yield fields


def rows_of(data, clerks, court, at_desk=False):
    """The rows, each checked before the next is looked at. The desk takes more forms than clerk_office."""
    rows = []
    for number, record in enumerate(records_of(data), 1):
        if number > MOST_ROWS:
            raise RowFault(number, "TooManyRows", None)
        rows.append(row_of(number, record, clerks, court, at_desk))
    return rows


def row_of(number, record, clerks, court, at_desk):
    try:
        fields = [field.decode("utf-8") for field in record]
    except UnicodeDecodeError:
        raise RowFault(number, "NotText", None) from None
    if len(fields) < 2:
        raise RowFault(number, "WrongCount", None)
    clerk = number_of(fields[0])
    if clerk is None or not 1 <= clerk <= clerks:
        raise RowFault(number, "BadClerk", None)
    columns = DESK_COLUMNS if at_desk else COLUMNS
    if fields[1] not in columns:
        raise RowFault(number, "UnknownCommand", None)
    readers = columns[fields[1]]
    if len(fields) != 2 + len(readers):
        raise RowFault(number, "WrongCount", None)
    values = []
    for column, (reader, field) in enumerate(zip(readers, fields[2:]), 3):
        value = reader(field, court)
        if value is None:
            raise RowFault(number, "BadField", column)
        values.append(value)
    return Row(clerk, WORKS[fields[1]](*values))


# One column each: what the text of a field says, or None where it can't be read. A field that may be empty is given as
# a list of no or one value.


def number_of(text):
    return int(text) if re.fullmatch("0|[1-9][0-9]{0,8}", text) else None


def number(text, court):
    return number_of(text)


def date(text, court):
    return day_of_text(text)


def time(text, court):
    return minute_of_text(text)


def end_time(text, court):
    return 1440 if text == "24:00" else minute_of_text(text)


def time_or_none(text, court):
    return 0 if text == "" else minute_of_text(text)


def given_time(text, court):
    """A list of the minute, or an empty one where no time is given."""
    if text == "":
        return []
    minute = minute_of_text(text)
    return None if minute is None else [minute]


def quarter(text, court):
    """A slot of 15 minutes, by its time."""
    minute = minute_of_text(text)
    return minute // 15 if minute is not None and minute % 15 == 0 else None


def date_or_none(text, court):
    if text == "":
        return []
    day = day_of_text(text)
    return None if day is None else [day]


def kind(text, court):
    if text == "":
        return []
    return [text] if re.fullmatch("[A-F]", text) else None


def one_of(*words):
    return lambda text, court: text if text in words else None


def called(text, court):
    """What something is called: 1 to 200 bytes without control characters."""
    return None if not 1 <= len(text.encode()) <= TEXT_BYTES or CONTROL.search(text) else text


def period(text, court):
    return period_of_text(text)


def period_or_code(text, court):
    """A period as the desk takes it, also by the code of the section that sets it, or by the court's own name for it."""
    return period_of_text(text) or entered(CODES.get(text) or court.periods.get(text, ""))


def entered(text):
    """The period that a text enters, and not one of the Rules."""
    return period_of_text(text) if "/" in text else None


def grant(text, court):
    if text[:1] == "+" and text[-1:] in ("d", "h"):
        count = number_of(text[1:-1])
        return None if count is None else Grant(text[-1], count)
    day = day_of_text(text)
    return None if day is None else Grant("until", day)


def need(text, court):
    """A list of the number of days, or an empty one for a motion that may be heard ex parte."""
    if text == "exparte":
        return []
    count = number_of(text)
    return None if count is None else [count]


def slots(text, court):
    """Half hours, or quarters of an hour with a `q`, in slots of 15 minutes."""
    count = number_of(text[:-1] if text.endswith("q") else text)
    if count is None:
        return None
    return count if text.endswith("q") else 2 * count


def place(names, name):
    """A name that the court's file doesn't have is the number one past its last."""
    return names.index(name) if name in names else len(names)


def judge(text, court):
    return place(court.judges, text)


def judge_or_none(text, court):
    return [] if text == "" else [place(court.judges, text)]


def room(text, court):
    return place(court.rooms, text)


def panel(text, court):
    names = text.split("+")
    return tuple(place(court.judges, name) for name in names) if len(names) <= 3 else None


def only(values):
    return values[0] if values else None


EVENT_COLUMNS = [date, time_or_none, date_or_none, kind]
PERIOD_COLUMNS = [period] + EVENT_COLUMNS
HEARING_COLUMNS = [number, number, panel, room, date, quarter, slots, date]
FINDING = one_of("yes", "no")
COLUMNS = {
    "open": [number, date],
    "start": [number] + PERIOD_COLUMNS,
    "compute": PERIOD_COLUMNS,
    "file": [number, number, date, time, one_of("electronic", "paper")],
    "extend": [number, number, grant, date, time, FINDING, FINDING, FINDING],
    "motion": [number, date, need],
    "book": HEARING_COLUMNS,
    "move": HEARING_COLUMNS,
    "cancel": [number, number],
    "holiday": [date, one_of("federal", "state")],
    "inaccessible": [date, time, end_time],
    "sheet": [number],
    "calendar": [judge, date],
}
TEXT_BYTES = 200
# A control character, of ASCII or after it.
CONTROL = re.compile("[\x00-\x1f\x7f-\x9f]")
WHY = ("moot", "vacated", "stayed", "suspended", "withdrawn")


def why(text, court):
    """Why a deadline is ended, and the number of the motion that suspends it, or None."""
    word, colon, motion = text.partition(":")
    found = number_of(motion) if colon else None
    if word not in WHY or colon and (word != "suspended" or found is None):
        return None
    return word, found


# The forms of the desk: those of clerk_office, where a period may be named by its section's code, and its own.
DESK_COLUMNS = {
    **COLUMNS,
    "start": [number, period_or_code] + EVENT_COLUMNS,
    "compute": [period_or_code] + EVENT_COLUMNS,
    "set": [number, date, given_time, one_of("filing", "service")],
    "reset": [number, number, date, given_time, date],
    "end": [number, number, why, date],
    "resume": [number, number, date_or_none, date],
    "close": [number, one_of("dismissed", "judgment", "settled", "transferred", "remanded", "otherwise"), date],
    "reopen": [number, date],
    "rule": [number, number, one_of("granted", "denied", "in part", "moot", "withdrawn", "reserved"), date],
    "assign": [number, judge, judge_or_none, date],
    "title": [number, called],
    "label": [number, one_of("deadline", "motion"), number, called],
}
WORKS = {
    "open": lambda case, filed: ("open", case, filed),
    "start": lambda case, *rest: ("start", case) + asked_period(*rest),
    "compute": lambda *rest: ("compute",) + asked_period(*rest),
    "file": lambda case, deadline, day, minute, means: ("file", case, deadline, Filing(day, minute, means)),
    "extend": lambda case, deadline, *rest: ("extend", case, deadline, request(*rest)),
    "motion": lambda case, served, days: ("motion", case, served, only(days)),
    "book": lambda *fields: ("book",) + fields,
    "move": lambda *fields: ("move",) + fields,
    "cancel": lambda case, motion: ("cancel", case, motion),
    "holiday": lambda day, name: ("holiday", day, name),
    "inaccessible": lambda day, begin, end: ("inaccessible", day, begin, end),
    "sheet": lambda case: ("sheet", case),
    "calendar": lambda of_judge, day: ("calendar", of_judge, day),
    "set": lambda case, day, minute, act: ("start", case, set_to(act, bool(minute)), Event(day, only(minute) or 0), None, None),
    "reset": lambda case, deadline, day, minute, dated: ("extend", case, deadline, order(reset_to(day, minute), dated)),
    "end": lambda case, deadline, why, dated: ("end", case, deadline, why, dated),
    "resume": lambda case, deadline, day, dated: ("resume", case, deadline, only(day), dated),
    "close": lambda case, why, dated: ("close", case, why, dated),
    "reopen": lambda case, dated: ("reopen", case, dated),
    "rule": lambda case, motion, ruling, dated: ("rule", case, motion, ruling, dated),
    "assign": lambda case, to_judge, referred, dated: ("assign", case, to_judge, only(referred), dated),
    "title": lambda case, text: ("title", case),
    "label": lambda case, of, of_number, text: ("label", case, of, of_number),
}


def asked_period(of_rule, day, minute, second, of_service):
    return of_rule, Event(day, minute), only(second), only(of_service)


def reset_to(day, minute):
    """Another end that an order sets: a day, or a time of it."""
    return Grant("reset at", Event(day, minute[0])) if minute else Grant("reset", day)


def order(grant, dated):
    """What an order of a day grants: nothing was asked for, and nothing has to be found."""
    return Request(grant, Event(dated, 0), False, False, False)


def request(extension, day, minute, motion, cause, neglect):
    return Request(extension, Event(day, minute), motion == "yes", cause == "yes", neglect == "yes")
