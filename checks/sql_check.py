#!/usr/bin/env python3
"""Loads the SQL that docket writes into sqlite3 and into a PostgreSQL server, and asks both.

    sql_check.py DOCKET CLERK_OFFICE [SEED [COUNT]]

Inputs are made at random. Each script must load without a complaint, with all keys and constraints held, into both databases;
the server is one of its own, in a folder that is removed at the end. Both are asked what is due and for the week of a judge,
and what they say, written as docket writes it, must be the texts of `due` and `week`. The rows of each table must be
those of the JSON and of the answers of clerk_office, each once and in order, and each instant that of its day and time, by
a reading of the court's zone of its own (reference/civil.py). Half of the inputs are entered into a folder, in which cases have
names (lib/given_docket.py): the table of cases and the answers must have their names. In half of them rows are given to several
clerks (lib/several_clerks.py), whose numbers the answers must have. A faulty input must end both programs alike. The questions in
docs/clerk/REPORTS.md must be answered as written. It needs Debian's sqlite3 and postgresql, and Python 3.8 or later; the status is
0 where all is alike.
"""
import datetime
import glob
import json
import os
import pathlib
import random
import re
import shutil
import subprocess
import sys
import tempfile

from lib.case_names import called, named_text
from lib.given_docket import LAST_ROW, given_docket
from lib.made_inputs import INPUTS, made_input
from lib.programs import TOP, programs_of, seed_and_count
from reference.civil import day_of_text, instant_at, zone_of_text

DUE = """SELECT due_day, COALESCE(due_time, '00:00:00'), case_number, 0, number, due_time, term, timely, NULL FROM deadlines
 WHERE timely IS NOT TRUE AND due_day BETWEEN '{0}' AND '{1}' {2}
UNION ALL
SELECT hearing_day, begins, case_number, 1, motion_number, begins, room, NULL, minutes FROM hearings
 WHERE hearing_day BETWEEN '{0}' AND '{1}'
ORDER BY 1, 2, 3, 4, 5"""
# What isn't due of a docket whose rows ended deadlines.
NOT_ENDED = "AND NOT EXISTS (SELECT * FROM endings WHERE endings.case_number = deadlines.case_number AND deadline_number = number)"
WEEK = """SELECT hearing_day, begins, minutes, case_number, motion_number, room
FROM hearings NATURAL JOIN panels
WHERE judge = '{0}' AND hearing_day BETWEEN '{1}' AND '{2}' ORDER BY hearing_day, begins"""
PANELS = "SELECT case_number, motion_number, judge FROM panels ORDER BY case_number, motion_number, place"
TABLES = {
    "cases": ("number, filed", "number"),
    "deadlines": ("case_number, number, event_day, event_time, second_day, service, last_day, {ends_at}, filed_day, filed_time,"
                  " on_paper, timely", "case_number, number"),
    "grants": ("case_number, deadline_number, number, days, hours, until_day", "case_number, deadline_number, number"),
    "resets": ("case_number, deadline_number, number, reset_day, reset_time", "case_number, deadline_number, number"),
    "motions": ("case_number, number, served, notice_days", "case_number, number"),
    "hearings": ("case_number, motion_number, room, hearing_day, begins, minutes, {starts_at}, {ends_at}, notice_day,"
                 " affidavits_day", "case_number, motion_number"),
    "outages": ("number, outage_day, begins, ends", "number"),
    "closings": ("case_number, closed, how", "case_number"),
    "assignments": ("case_number, dated, judge, referred", "case_number"),
    "endings": ("case_number, deadline_number, why, motion_number", "case_number, deadline_number"),
    "rulings": ("case_number, motion_number, ruled, how", "case_number, motion_number"),
    "answers": ("number, clerk, refusal, answer", "number"),
}
# Where docs/clerk/REPORTS.md asks sqlite3.
PROMPT = "    sqlite> "
# A row is written with these between its values and after it.
BETWEEN, AFTER = "\x1f", "\x1e"
# How many values of a row are its key, in tables where it isn't three.
KEYS = {"cases": 1, "closings": 1, "assignments": 1, "outages": 1, "answers": 1, "deadlines": 2, "motions": 2, "hearings": 2, "endings": 2,
        "rulings": 2}
# Names that no court's file may have.
HOSTILE = ["O'Brien", "'); DROP TABLE cases; --", "\\\\'"]
EPOCH = datetime.datetime(1970, 1, 1, tzinfo=datetime.timezone.utc)


def ran(command, data=b""):
    done = subprocess.run(command, input=data, stdout=subprocess.PIPE, stderr=subprocess.PIPE, check=False)
    return done.returncode, done.stdout.decode(), done.stderr.decode()


# The databases


class Sqlite:
    """A database in a file, by sqlite3."""
    name = "sqlite3"

    def __init__(self, folder):
        self.file = str(folder / "docket.db")

    def load(self, script):
        pathlib.Path(self.file).unlink(missing_ok=True)
        status, text, errors = ran(["sqlite3", "-bail", self.file], b"PRAGMA foreign_keys = ON;\n" + script)
        return errors or text or ("status {}".format(status) if status else None) or self.lacks()

    def lacks(self):
        return ran(["sqlite3", self.file, "PRAGMA foreign_key_check; PRAGMA integrity_check;"])[1].replace("ok\n", "") or None

    def asked(self, query):
        return ran(["sqlite3", "-separator", BETWEEN, "-newline", AFTER, self.file, query])

    @staticmethod
    def seconds(column):
        return "CAST(strftime('%s', {}) AS INTEGER)".format(column)

    def close(self):
        pass


class Postgres:
    """A database of a server of our own, by psql."""
    name = "PostgreSQL"

    def __init__(self, folder):
        self.folder = folder / "pg"
        self.folder.mkdir()
        self.bin = sorted(glob.glob("/usr/lib/postgresql/*/bin"))[-1]
        if os.getuid() == 0:
            folder.chmod(0o755)
            shutil.chown(self.folder, "postgres")
        self.run("{}/initdb -D {}/data -A trust -E UTF8 --no-sync".format(self.bin, self.folder))
        self.run("{}/pg_ctl -D {}/data -l {}/log -w -o '-k {} -c listen_addresses= -c fsync=off' start".format(
            self.bin, self.folder, self.folder, self.folder))
        self.psql = ["psql", "-X", "-q", "-h", str(self.folder), "-U", "postgres" if os.getuid() == 0 else os.environ["USER"],
                     "-d", "postgres", "-v", "ON_ERROR_STOP=1"]

    def run(self, line):
        by = ["su", "postgres", "-s", "/bin/sh", "-c", line] if os.getuid() == 0 else ["sh", "-c", line]
        subprocess.run(by, check=True, stdout=subprocess.DEVNULL, cwd=str(self.folder))

    def load(self, script):
        ran(self.psql, b"SET client_min_messages = error; DROP SCHEMA public CASCADE; CREATE SCHEMA public;")
        status, text, errors = ran(self.psql, script)
        return errors or text or ("status {}".format(status) if status else None)

    def asked(self, query):
        return ran([*self.psql, "-A", "-t", "-F", BETWEEN, "-R", AFTER, "-c", query])

    @staticmethod
    def seconds(column):
        return "EXTRACT(EPOCH FROM {})::bigint".format(column)

    def close(self):
        self.run("{}/pg_ctl -D {}/data -m fast stop".format(self.bin, self.folder))


TRUTHS = {"t": "1", "f": "0"}


def rows_of(database, query):
    """The rows that a query gives; a truth is 1 or 0, and what is missing is empty."""
    status, text, errors = database.asked(query)
    if status != 0 or errors:
        raise SystemExit("{}: {}\n{}".format(database.name, query, errors))
    lines = text.split(AFTER)
    if lines and lines[-1].strip("\n") == "":
        lines.pop()
    if lines and lines[-1].endswith("\n") and database.name == "PostgreSQL":
        lines[-1] = lines[-1][:-1]
    return [tuple(TRUTHS.get(value, value) for value in line.split(BETWEEN)) for line in lines]


# The texts of docket, written from what a database says


def named(day):
    return datetime.date.fromisoformat(day).strftime("%a %Y-%m-%d")


def minutes(text):
    return int(text[:2]) * 60 + int(text[3:5])


def clock(minute):
    return "{:02}:{:02}".format(minute // 60, minute % 60)


def has_endings(rows):
    """Whether some of these rows end a deadline, close or assign a case, take an end back, or rule on a motion: then there are tables of
    what is ended and closed."""
    return any(row.split(",")[1] in ("end", "resume", "close", "reopen", "rule", "assign") for row in rows)


def tables_of(rows):
    """The tables that there are where these are the rows: one of rulings where some rule on a motion, and one of assignments where some
    assign a case."""
    words = {row.split(",")[1] for row in rows}
    there = {"closings": has_endings(rows), "endings": has_endings(rows), "rulings": "rule" in words, "assignments": "assign" in words}
    return [table for table in TABLES if there.get(table, True)]


def due_text(database, names, closes, first, last, endings):
    panels = {}
    for case, motion, judge in rows_of(database, PANELS):
        panels.setdefault((case, motion), []).append(judge)
    lines = ["Due from {} to {}".format(named(first), named(last)),
             "Filing on paper ends at {}, when the clerk's office closes.".format(closes)]
    before = None
    for day, _, case, kind, number, time, words, timely, length in rows_of(database, DUE.format(first, last, NOT_ENDED if endings else "")):
        if day != before:
            lines += ["", named(day)]
        before = day
        if kind == "0":
            lines.append("  to {}  case {} deadline {}: {}{}".format(time or "midnight", called(names, int(case)), number, words,
                                                                     ", filed late" if timely == "0" else ""))
        else:
            end = clock(minutes(time) + int(length))
            lines.append("  {}-{}  case {} motion {}: hearing before {}, room {}".format(
                time[:5], end, called(names, int(case)), number, "+".join(panels[case, number]), words))
    return "".join(line + "\n" for line in (lines if before else lines + ["", "Nothing is due."]))


def due_alone(text, first, last):
    """What is due without the other readings, which the tables don't have: without their marks, and without the days on which something is
    due by them alone. How many are ended isn't asked either."""
    head, *days = re.sub(r", other reading.*|\n\nEnded, and so not listed: .*", "", text).rstrip("\n").split("\n\n")
    days = [day for day in days if not re.match(r"[A-Z][a-z]{2} \d{4}-\d\d-\d\d\n", day) or first <= day[4:14] <= last]
    return "\n\n".join([head, *(days or ["Nothing is due."])]) + "\n"


def week_lines(database, names, judge, of):
    monday = datetime.date.fromisoformat(of)
    monday -= datetime.timedelta(monday.weekday())
    found = rows_of(database, WEEK.format(judge, monday, monday + datetime.timedelta(6)))
    return ["{}  {}-{}  case {} motion {}, room {}".format(named(day), begins[:5], clock(minutes(begins) + int(length)),
                                                         called(names, int(case)), motion, room) for day, begins, length, case, motion, room in found]


# The rows that each table must have, by the JSON and by clerk_office


def instant(text):
    at = datetime.datetime.fromisoformat(text) - EPOCH
    return str(at.days * 86400 + at.seconds)


def time_of(text):
    return text + ":00"


def or_empty(value):
    return "" if value is None else str(value)


def event_time(text):
    """The time of an event. A row without one has 00:00, which is no value here."""
    return "" if text == "00:00" else time_of(text)


def wanted_rows(whole, rows, answers, given):
    found = {table: [] for table in TABLES}
    for sheet in whole["cases"]:
        case = str(sheet["case"])
        found["cases"].append((case, sheet["filed"]))
        found["closings"] += [(case, sheet["closed"], sheet["closing"])] if "closed" in sheet else []
        found["assignments"] += [(case, sheet["assigned"], sheet["judge"], or_empty(sheet["referred"]))] if "assigned" in sheet else []
        for d in sheet["deadlines"]:
            number, filed = str(d["number"]), d["filed"]
            act = ("", "", "") if filed is None else (filed["day"], time_of(filed["time"]), str(int(filed["means"] == "paper")))
            found["deadlines"].append((
                case, number, d["event"]["day"], event_time(d["event"]["time"]), or_empty(d["second_day"]), or_empty(d["service"]),
                or_empty(d["last_day"]), "" if d["end"] is None else instant(d["end"]), *act,
                {"timely": "1", "late": "0"}.get(d["state"], "")))
            found["endings"] += [(case, number, d["ended"], d.get("suspended_by"))] if "ended" in d else []
            for place, g in enumerate(d["grants"]):
                key = (case, number, str(place + 1))
                if "order" in g:
                    found["resets"].append((*key, g["until"], time_of(g["time"]) if "time" in g else ""))
                else:
                    found["grants"].append((*key, or_empty(g["days"]), or_empty(g["hours"]), or_empty(g["until"])))
        for m in sheet["motions"]:
            found["motions"].append((case, str(m["number"]), m["served"], or_empty(m["notice_days"])))
            found["rulings"] += [(case, str(m["number"]), m["ruled"], m["ruling"])] if "ruling" in m else []
            h = m["hearing"]
            if h is not None:
                found["hearings"].append((case, str(m["number"]), h["room"], h["day"], time_of(h["time"]), str(h["minutes"]),
                                          instant(h["start"]), instant(h["end"]), h["notice"], or_empty(h["affidavits"])))
    for row, words in zip(rows, answers):
        if words == "outage entered":
            _, _, day, begins, ends = row.split(",")
            found["outages"].append((str(len(found["outages"]) + 1), day, time_of(begins), time_of(ends)))
    found["answers"] = [(str(given.numbers.of_row(place + 1) if given.numbers else place + 1), str(given.clerks[place] if given.clerks else 1),
                         words.split(" ")[1] if words.startswith("refused ") else "", words) for place, words in enumerate(answers)]
    return found


def answers_of(text, closing):
    """What each row was answered, with the lines below it, without the end of the last."""
    answers = []
    for line in text[:len(text) - len(closing)].splitlines():
        numbered = re.match(r"[0-9]+ 1 (.*)", line)
        if numbered:
            answers.append(numbered[1])
        else:
            answers[-1] += "\n" + line
    return answers


def closing_of(longer):
    """The sheets and calendars at the end of a text, which come after the answer to a last row of one line."""
    lines = longer.splitlines(keepends=True)
    last = max(at for at, line in enumerate(lines) if re.match(r"[0-9]+ 1 ", line))
    return "".join(lines[last + 1:])


def names_fault(database, names, whole):
    """What is wrong with the names of cases, or none: without names the table of cases has no column for them."""
    if not names:
        return None
    found = rows_of(database, "SELECT number, name FROM cases ORDER BY number")
    wanted = [(str(sheet["case"]), names.get(sheet["case"], "")) for sheet in whole["cases"]]
    return None if found == wanted else "names of cases: found {}, wanted {}".format(found, wanted)


def table_fault(database, wanted, tables):
    for table in tables:
        columns, order = TABLES[table]
        columns = columns.format(starts_at=database.seconds("starts_at"), ends_at=database.seconds("ends_at"))
        found = rows_of(database, "SELECT {} FROM {} ORDER BY {}".format(columns, table, order))
        if found != wanted[table]:
            pairs = list(zip(found, wanted[table])) + [(len(found), len(wanted[table]))]
            return "{}: found and wanted: {}".format(table, next(pair for pair in pairs if pair[0] != pair[1]))
    return None


def zone_fault(database, data):
    """A hearing or an end of hours whose instant isn't that of its day and time, or none."""
    zone = zone_of_text(re.search(r'^\s*zone\s*=\s*["\']([^"\']*)["\']', data.decode(), re.MULTILINE).group(1))
    seconds = database.seconds
    for day, begins, starts in rows_of(database, "SELECT hearing_day, begins, {} FROM hearings".format(seconds("starts_at"))):
        if int(starts) != instant_at(zone, day_of_text(day), 60 * minutes(begins)):
            return "a hearing on {} at {} begins at {}".format(day, begins, starts)
    return None


# Comparing


def is_in_order(script):
    """Whether the rows of each table are put into it by their keys, in order."""
    last = {}
    for table, first, rest in re.findall(r"^INSERT INTO (\w+) VALUES \((\d+)((?:, \d+)*)", script, re.MULTILINE):
        key = (int(first), *[int(part) for part in rest.split(", ")[1:]][:2])
        key = key[:KEYS.get(table, 3)]
        if last.get(table, ()) >= key:
            return False
        last[table] = key
    return True


def differs(chance, given, databases):
    status, text, _ = given.office().texts()
    found = given.report(["sql"])
    if status != 0 or found.status != 0:
        several = given.as_several()
        return None if status != 0 and (found.status, found.errors) == (several.status, several.errors) and \
            (found.status == 0 or not found.output) else "another fault"
    rows = [row for row in given.plain.decode().split("%%", 1)[1].splitlines()[1:] if row]
    longer = given.office(LAST_ROW).texts()
    if longer[0] != 0:
        return None
    answers = [named_text(given.names, answer) for answer in answers_of(text, closing_of(longer[1]))]
    whole = json.loads(given.report(["json"]).output)
    wanted, script, endings = wanted_rows(whole, rows, answers, given), found.output.decode(), has_endings(rows)
    if not is_in_order(script):
        return "a row that isn't in its place"
    first, last, closes = whole["court"]["from"], whole["court"]["to"], whole["court"]["closes"]
    days = [d["last_day"] for s in whole["cases"] for d in s["deadlines"] if d["last_day"]] or [first]
    if chance.random() < 0.5:
        first, last = sorted([chance.choice(days), chance.choice(days)])
    judge = chance.choice(whole["court"]["judges"]) if whole["court"]["judges"] else None
    of = chance.choice([b["day"] for c in whole["calendars"] for b in c["bookings"]] or [first])
    due = due_alone(given.report(["due", "--from", first, "--to", last]).output.decode(), first, last)
    for database in databases:
        fault = database.load(found.output) or table_fault(database, wanted, tables_of(rows)) or zone_fault(database, given.plain) or \
            names_fault(database, given.names, whole)
        if fault:
            return "{}: {}".format(database.name, fault)
        if due_text(database, given.names, closes, first, last, endings) != due:
            return "{}: something else is due from {} to {}".format(database.name, first, last)
        if judge is not None:
            week = given.report(["week", "--judge", judge, "--of", of]).output.decode().splitlines()
            if week_lines(database, given.names, judge, of) != week[week.index("") + 1:][week[week.index("") + 1:].index("") + 1:]:
                return "{}: another week of {} with {}".format(database.name, judge, of)
    return None


def refuses_hostile_names(programs):
    court = 'zone = "-05:00"\nopens = "09:00"\ncloses = "17:00"\nfrom = "2025-01-01"\nto = "2025-12-31"\nfederal = []\n' \
            'state = []\njudges = ["{}"]\nrooms = ["R1"]\n%%\n'
    for name in HOSTILE:
        data = court.format(name).encode()
        found, other = programs.report(["sql"], data), programs.office(data)
        if found != other or found.status != 2 or found.output:
            return "the name {} isn't refused".format(name)
    return None


def document_fault(database):
    """A question of docs/clerk/REPORTS.md that is answered otherwise, or none."""
    lines = (TOP / "docs" / "clerk" / "REPORTS.md").read_text().splitlines()
    fault = database.load((TOP / "examples" / "a_day.sql").read_bytes())
    asked = [at for at, line in enumerate(lines) if line.startswith(PROMPT)]
    for at in asked:
        wanted = [line[4:] for line in lines[at + 1:lines.index("", at)]]
        found = ["|".join(row) for row in rows_of(database, lines[at][len(PROMPT):])]
        fault = fault or (None if found == wanted else "docs/clerk/REPORTS.md: {}".format(lines[at].strip()))
    return fault if asked else "docs/clerk/REPORTS.md asks nothing"


def main(words):
    programs, (seed, count) = programs_of(words[:2]), seed_and_count(words[2:], 60)
    fault = refuses_hostile_names(programs)
    with tempfile.TemporaryDirectory() as folder:
        databases = [Sqlite(pathlib.Path(folder)), Postgres(pathlib.Path(folder))]
        try:
            fault = fault or document_fault(databases[0])
            for number in range(0 if fault else count):
                chance = random.Random("sql {} {}".format(seed, number))
                with tempfile.TemporaryDirectory() as parent:
                    given = given_docket(programs, chance, made_input(chance, chance.choice(INPUTS)), parent)
                    fault = differs(chance, given, databases)
                if fault:
                    fault = "seed {} input {}: {}".format(seed, number, fault)
                    break
        finally:
            for database in databases:
                database.close()
    if fault:
        sys.exit(fault)
    print("{} inputs of seed {}: both databases say what is due, each week and each row".format(count, seed))


if __name__ == "__main__":
    main(sys.argv[1:])
