"""The docket of an input, and who has its cases: by its rows, as the second program in Python does them.

A sheet of clerk_office has the names of a case's judges alone. Of the day from which on they have it, and of what was so on a day, only
the rows tell.
"""
from office_reference import answered
from reference.civil import day_text
from reference.court_file import court_of, split
from reference.docket import assignment_of
from reference.rows_in import rows_of


def rows_after(data):
    """The docket after the rows of an input of clerk 1 that has no fault."""
    of_court, of_rows = split(data)
    court = court_of(of_court, True)
    return answered(court, rows_of(of_rows, 1, court, True), None, None)[1]


def assigned_in(data):
    """Of each case that is assigned the day from which on it is, by the rows of an input of clerk 1 that has no fault."""
    if b",assign," not in data:
        return {}
    docket = rows_after(data)
    found = {case.number: assignment_of(docket, case.number) for case in docket.cases}
    return {number: day_text(assignment.dated) for number, assignment in found.items() if assignment is not None}


def judges_in(line):
    """The judges of a case by the line `assigned JUDGE, referred to JUDGE2` of its sheet."""
    return line[len("assigned "):].split(", referred to ")
