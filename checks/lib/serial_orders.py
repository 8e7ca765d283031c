"""Whether a serial order explains what a run of several clerks printed.

A serial order is a journal: it merges the commands of all clerks, those of each clerk in the order of its rows, and leaves
out those that were answered `journal full`. It explains a run where the reference's docket, given the commands in that
order, answers each as it was printed, the sheets and calendars at the end are those of the docket after all of them, and
what each query printed is what the docket shows at some moment after its clerk's command before it, and before the one
after it. An order is looked for by order_search.py; that it explains the run is seen here once more, by a plain replay.
"""
import re

from lib.order_search import FULL, NoOrder, Search
from reference.docket import STEPS, opening, step, view
from reference.text_out import answer_lines, closing_lines

OF_SHEET = ("assigned ", "deadline ", "motion ", "hearing ")


def explained(court, rows, clerks, limit, text):
    """The numbers of the rows of a journal that explains the text of a run, and the docket after it."""
    told, closing = replies(rows, text.splitlines())
    check_full(rows, told, limit)
    order = Search(court, rows, clerks, told, closing).found()
    return order, replayed(court, rows, told, closing, order)


def replies(rows, lines):
    """The lines of the answer to each row, without the two numbers, and the lines after all answers."""
    told, at = [], 0
    for number, row in enumerate(rows, 1):
        begin = "{} {} ".format(number, row.clerk)
        if at == len(lines) or not lines[at].startswith(begin):
            raise NoOrder("row {} isn't answered in its place".format(number))
        answer = [lines[at][len(begin):]]
        at += 1
        if answer == ["sheet"]:
            answer += lines[at:at + 1]
            at += 1
        while at < len(lines) and goes_on(answer[0], lines[at]):
            answer.append(lines[at])
            at += 1
        told.append(answer)
    return told, lines[at:]


def goes_on(first, line):
    """Whether a line goes on with an answer that has that first line."""
    if first == "sheet":
        return line.startswith(OF_SHEET)
    return first == "calendar" and re.match(r"\d{4}-\d\d-\d\d ", line) is not None


def check_full(rows, told, limit):
    """The journal is full where it has all the entries that it takes, and from then on for ever."""
    full, finished = set(), 0
    for row, lines in zip(rows, told):
        if row.work[0] in STEPS:
            if lines == FULL:
                full.add(row.clerk)
            elif row.clerk in full:
                raise NoOrder("clerk {} finished a command after the journal was full".format(row.clerk))
            else:
                finished += 1
    if finished > limit or (full and finished < limit):
        raise NoOrder("the journal is full with {} entries and not with {}".format(finished, limit))


def replayed(court, rows, told, closing, order):
    """The docket after the commands in that order, which must explain all that was printed."""
    if sorted(order) != [number for number, (row, lines) in enumerate(zip(rows, told), 1)
                         if row.work[0] in STEPS and lines != FULL]:
        raise NoOrder("the order isn't one of the commands that were finished")
    dockets, place = [opening(court)], {}
    for number in order:
        docket, answer = step(court, dockets[-1], rows[number - 1].work)
        if answer_lines(court, docket, answer) != told[number - 1]:
            raise NoOrder("row {} is answered otherwise in that order".format(number))
        dockets.append(docket)
        place[number] = len(dockets) - 1
    check_clerks(court, rows, told, dockets, place)
    if closing_lines(court, dockets[-1]) != closing:
        raise NoOrder("the sheets and calendars at the end are others in that order")
    return dockets[-1]


def check_clerks(court, rows, told, dockets, place):
    """Each clerk's commands stand in the order of its rows, and each query shows a docket between those beside it."""
    for clerk in {row.clerk for row in rows}:
        first, queries = 0, []
        for number, row in enumerate(rows, 1):
            if row.clerk == clerk and row.work[0] not in STEPS:
                queries.append(number)
            elif row.clerk == clerk and number in place:
                check_shown(court, rows, told, queries, dockets[first:place[number]])
                first, queries = place[number], []
        check_shown(court, rows, told, queries, dockets[first:])


def check_shown(court, rows, told, queries, dockets):
    if not dockets:
        raise NoOrder("a clerk's rows are out of order")
    for number in queries:
        work = rows[number - 1].work
        if not any(answer_lines(court, docket, view(court, docket, work)) == told[number - 1] for docket in dockets):
            raise NoOrder("row {} shows no docket between those of its clerk's commands".format(number))
