"""What a clerk is warned of a row that isn't refused, by the docket before it, computed from the docket of the reference in plain Python.

A line is (day or None, what, section), as those of note_lines.py. Left out are the hearings that stay set on the day of an outage,
and the names of cases.
"""
from lib.note_lines import APPEAL, docketed, far_from, moves_appeal, note, of_extension, of_motions, of_start, runs_from_event, starts
from reference.civil import day_text
from reference.docket import case_of, deadline_of, deadlines_of, ending_of, step
from reference.periods import is_set
from reference.rule6 import AFTER

# At which place of a command stands the day of what it says has happened: that of a filing, of an order, or of service.
DATED = {"open": 2, "motion": 2, "book": 8, "move": 8, "end": 4, "resume": 4, "close": 3, "reopen": 2, "rule": 4, "assign": 4}
# How many slots of a quarter of an hour are four hours.
LONG = 16


def warned(court, rows, work, today):
    """The lines on what a row asks for, where it counts from a day or None."""
    return OF_COMMAND.get(work[0], nothing)(court, rows, work, today) + of_day(work, today) + of_length(work)


def nothing(court, rows, work, today):
    return []


def of_new(court, rows, work, today):
    """A deadline that would start: what the memo would say of it, and what its case has."""
    after, answer = step(court, rows, work)
    row, others = deadline_of(after, work[1], answer[1]).row, deadlines_of(rows, work[1])
    lines = of_start(court, rows, row, case_of(rows, work[1]).filed, today) + of_motions(row, [other.row for other in others])
    return lines + [note(row.event.day, "deadline {} of the case is the same and pending".format(other.number)) for other in others
                    if is_pending(rows, other) and is_same(row, other.row)]


def is_pending(rows, other):
    return other.row.filed is None and ending_of(rows, other.case, other.number) is None


def is_same(row, other):
    return (row.period.text, row.event, row.second) == (other.period.text, other.event, other.second)


def of_act(court, rows, work, today):
    """An act: it is done before its event, or moves the time to appeal."""
    row, done = docketed(rows, work), work[3]
    lines = [note(done.day, "the act was done before its event")] if runs_from_event(row) and done.day < starts(row) else []
    if not moves_appeal(row):
        return lines
    lines.append(note(done.day, "if timely, the time to appeal moves: FRAP 4(a)(4)"))
    return lines + [note(done.day, "if timely, it moves deadline {}: FRAP 4(a)(4)".format(other.number)) for other in deadlines_of(rows, work[1])
                    if other.row.period.text in APPEAL and other.row.event.day == row.event.day]


def of_grant(court, rows, work, today):
    """An extension, or another end that an order sets."""
    after, answer = step(court, rows, work)
    return of_extension(court, after, work, answer[1])


OF_COMMAND = {"start": of_new, "file": of_act, "extend": of_grant}


def happened(work, today):
    """The day of what a command says has happened, or None. An event that lies a year or more from today has a note of its own."""
    if work[0] == "start":
        _, _, period, event, second, _ = work
        day = event.day if second is None else max(event.day, second)
        return None if is_set(period) or period.direction != AFTER or far_from(today, day) else day
    if work[0] in ("file", "extend"):
        return work[3].day if work[0] == "file" else work[3].asked.day
    return work[DATED[work[0]]] if work[0] in DATED else None


def of_day(work, today):
    """A day after that of entry."""
    day = None if today is None else happened(work, today)
    return [] if day is None or day <= today else [note(day, "this day lies after the day of entry, {}".format(day_text(today)))]


def of_length(work):
    """A hearing that would last more than four hours."""
    if work[0] not in ("book", "move") or work[7] <= LONG:
        return []
    hours, quarters = divmod(work[7], 4)
    minutes = " {} minutes".format(15 * quarters) if quarters else ""
    return [note(work[5], "the hearing would last {} hours{}".format(hours, minutes))]
