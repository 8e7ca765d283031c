#!/usr/bin/env python3
"""Runs the reports of docket on the runs of runs/calendar, and compares what they write with what is stored.

    calendar_runs.py DOCKET
    calendar_runs.py --write DOCKET [NAME ..]

With --write what is stored is made anew, of all runs or of those named. What is due, what has been pending, a judge's week and the answers of a desk to
a large input are the text of the reference in plain Python, and the rows that a desk then writes are those of the input. A page,
a calendar, JSON and SQL are what DOCKET writes, and they are stored only where the checks of these formats find that each says of
the input what the reference and `docket memo` say (lib/calendar_faults.py); and a memo only where its reasons follow from one
another, as derivations_check.py has it. The calls of a desk are DOCKET's, in a folder, and what it writes is to be read before it
is stored: no reference knows it. Then runs_join.py puts the runs into the merge gate. It needs Python 3.8 or later and, with
--write, what those checks need; the status is 0 where all is as it must be.
"""
import datetime
import pathlib
import re
import sys
import tempfile

from lib.assigned import assigned_in, rows_after
from lib.given_docket import LAST_ROW, input_of
from lib.memo_head import below_head, head_of
from lib.memo_lines import closing_of, reasons_of
from lib.memo_page import memo_on, page_of
from lib.pending import pending_lines, pending_on, table_of
from lib.programs import CHECKS, Programs, programs_of, run as run_program
from lib.runs_made import sum_of
from lib.stored_calendars import calls_of, data_of, is_of_desk, runs, wanted_of
from office_reference import answers_of
from reference.court_file import court_of, split
from reference.docket import STEPS, deadlines_of, hearing_of, motions_of, opening, step
from reference.periods import shown
from reference.rows_in import rows_of
from reference.text_out import hearing_line, shown_text

# The reference, which answers as clerk_office does.
REFERENCE = CHECKS / "office_reference.py"
# With how many choices of words each input goes through the checks: a large one takes a minute each.
SMALL, LARGE = range(8), range(2)
# The day, the second and the account of the merge gate, in place of those of this machine: of a row that is struck or restored, and
# of each entry of a log, as text and as JSON.
IN_THE_GATE = [(re.compile(found, re.MULTILINE), put) for found, put in (
    (rb"^((?:row \d+ |  )(?:struck|restored) )[-\d]+ by [^:\n]+: ", rb"\g<1>1969-12-31 by clerk@court (1000): "),
    (rb"^((?:(?:strike of |restore of )?row \d+|court's file)  )[-\d]+ [:\d]+ UTC  .+$", rb"\g<1>1970-01-01 00:00:00 UTC  clerk@court (1000)"),
    (rb'"time":"[^"\n]+","account":"[^"\n]+"', rb'"time":"1970-01-01T00:00:00Z","account":"clerk@court (1000)"'),
    (rb'("remark":"(?:struck|restored) )[-\d]+ by [^:\n]+: ', rb"\g<1>1969-12-31 by clerk@court (1000): "))]


def written(programs, run):
    """What a report says; its status must be 0."""
    ended = programs.report(run.words, data_of(run))
    if ended.status != 0 or ended.errors:
        sys.exit("{}: status {}: {}".format(run.name, ended.status, ended.errors.decode()))
    return ended.output


def option(words, name):
    """What an option is given, or none."""
    return words[words.index(name) + 1] if name in words else None


def reference_text(run, programs):
    """What is due, or a week, by the reference, with the other readings of `docket memo`."""
    from calendar_check import docket_of, due_text, sheets_of, week_text
    given = input_of(programs, data_of(run))
    reasons = reasons_of(closing_of(given.memo(LAST_ROW).output.decode()))
    court = dict(re.findall(r'^(opens|closes|from|to) = "([^"]*)"', given.plain.decode(), re.MULTILINE))
    closing = closing_of(given.office(LAST_ROW).output.decode())
    docket = docket_of({}, closing, reasons)
    if run.words[0] == "pending":
        on = datetime.date.fromisoformat(option(run.words, "--on"))
        data = given.read_by_office()
        lists = pending_on(on, sheets_of(closing, assigned_in(data)), list(docket.calendars), rows_after(data))
        return (table_of({}, lists) if "--csv" in run.words else "".join(line + "\n" for line in pending_lines({}, on, lists))).encode()
    judge, case, count = (option(run.words, name) for name in ("--judge", "--case", "--days"))
    first, last, day, today = (datetime.date.fromisoformat(option(run.words, name) or court[key])
                               for name, key in (("--from", "from"), ("--to", "to"), ("--of", "from"), ("--today", "from")))
    overdue = "--overdue" in run.words
    if count is not None:
        first, last = today, today + datetime.timedelta(int(count) - 1)
    if overdue:
        last = min(last, today - datetime.timedelta(1))
    lines = week_text({}, court, docket, judge, day) if run.words[0] == "week" else \
        due_text({}, court, docket, first, last, judge, None if case is None else int(case), overdue)
    return "".join(line + "\n" for line in lines).encode()


def memo_fault(run, text):
    """What is wrong with the reasons of a memo, or none. Its head must be that of the court and of what is asked for. A page is looked
    at as one, and then as the memo on it."""
    from derivations_check import derivations, docket_after, whole_case, wrong_with
    from reference.civil import day_of_text
    case, today = option(run.words, "--case"), option(run.words, "--today")
    if "--html" in run.words:
        page, text = text.decode(), memo_on(text.decode()).encode()
        if page != page_of(text.decode()):
            return "another page"
    text = below_head(text.decode(), head_of(split(data_of(run))[0], case, today)).encode()
    found = derivations(data_of(run), text) if case is None else \
        whole_case(docket_after(data_of(run)), text, int(case), None if today is None else day_of_text(today))
    return next((why for why in (wrong_with(*each) for each in found) if why), None)


def kept(run, text):
    return sum_of(text) if run.is_made else text


def moved_lines(court, days, docket):
    """A line for each deadline that ends otherwise now than it did by these days, and for each hearing whose last day for affidavits
    is another, with both."""
    before = docket._replace(days=days)
    for case in sorted(case.number for case in docket.cases):
        for deadline in deadlines_of(docket, case):
            was, now = (shown_text(court, shown(by, court.clock, deadline.row)) for by in (days, docket.days))
            if was != now:
                yield "  case {} deadline {}: {}, now {}".format(case, deadline.number, was, now)
        for motion in motions_of(docket, case):
            hearing = hearing_of(docket, case, motion.number)
            if hearing is not None and hearing_line(court, before, hearing) != hearing_line(court, docket, hearing):
                yield "  case {} motion {}: {}, now {}".format(case, motion.number, hearing_line(court, before, hearing), hearing_line(court, docket, hearing))


def told(data):
    """What a desk tells of each row: the answer of the reference, and after a holiday or an outage what it moves."""
    of_court, of_rows = split(data)
    court = court_of(of_court)
    docket = opening(court)
    for answer, row in zip(answers_of(data), rows_of(of_rows, 1, court)):
        yield from answer
        if row.work[0] in STEPS:
            days = docket.days
            docket, _ = step(court, docket, row.work)
            if docket.days != days:
                yield from moved_lines(court, days, docket)


def desk_kept(run):
    """What is kept of a desk: what it tells of the rows, by the reference, and the rows that it writes, which are the input's."""
    data = data_of(run)
    return kept(run, "".join(line + "\n" for line in told(data)).encode()) + kept(run, data)


def in_the_gate(text):
    """What the gate's run writes in place of this text."""
    for found, put in IN_THE_GATE:
        text = found.sub(put, text)
    return text


def calls_text(programs, run):
    """What the calls of a desk write in a folder, each after its line, and how it ended where it isn't well."""
    text = b""
    with tempfile.TemporaryDirectory() as folder:
        for words, given in calls_of(run):
            if "court.toml" in words:
                (pathlib.Path(folder) / "court.toml").write_bytes(given)
            ended = run_program([programs.docket, *words], given, cwd=folder)
            text += "$ {}\n".format(" ".join(words)).encode() + in_the_gate(ended.output)
            if ended.status != 0:
                text += "status {}\n".format(ended.status).encode() + ended.errors
    return text


def write(programs, names):
    """Makes what is stored of the runs of these names anew, or of all."""
    from lib.calendar_faults import fault_of
    asked = [run for run in runs() if not names or run.name in names]
    for data, is_made in sorted({(data_of(run), run.is_made) for run in asked if run.is_made or not is_of_desk(run)}):
        fault = fault_of(input_of(programs, data), LARGE if is_made else SMALL)
        if fault:
            sys.exit(fault)
    for run in asked:
        if is_of_desk(run):
            wanted_of(run).write_bytes(desk_kept(run) if run.is_made else calls_text(programs, run))
            continue
        text = reference_text(run, programs) if run.words[0] in ("due", "week") or run.words[0] == "pending" and "--page" not in run.words else \
            written(programs, run)
        fault = memo_fault(run, text) if run.words[0] == "memo" else None
        if fault:
            sys.exit("{}: {}".format(run.name, fault))
        wanted_of(run).write_bytes(kept(run, text))


def text_now(programs, run):
    """What is kept of what DOCKET writes of a run."""
    return calls_text(programs, run) if is_of_desk(run) else kept(run, written(programs, run))


def main(words):
    if words[:1] == ["--write"] and len(words) > 1:
        write(Programs(programs_of(words[1:2]).docket, REFERENCE), words[2:])
        return
    if len(words) != 1:
        sys.exit("usage: calendar_runs.py DOCKET | --write DOCKET [NAME ..]")
    programs = programs_of(words)
    looked_at = [run for run in runs() if not (run.is_made and is_of_desk(run))]
    wrong = [run.name for run in looked_at if text_now(programs, run) != wanted_of(run).read_bytes()]
    for name in wrong:
        print("{}: it isn't what is stored".format(name))
    print("{} passed, {} failed".format(len(looked_at) - len(wrong), len(wrong)))
    sys.exit(1 if wrong else 0)


if __name__ == "__main__":
    main(sys.argv[1:])
