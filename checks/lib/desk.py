"""A desk's folder, and what is called with it."""
import pathlib
import re
import subprocess
import tempfile

from lib.journal import read_journal
from lib.programs import run
from reference.sections import CODES

# The status with which the desk ends where its journal can't be opened, read or written.
REFUSED = 10
# The option with which all rows are kept or none, the one with which commands that are refused are kept too, and the status with
# which a call ends whose rows have faults.
TOGETHER, KEEP_REFUSED, FAULTS = "--all-or-nothing", "--keep-refused", 3
# The status with which a session ends in which some rows had faults or were held back, and the line with which a row is answered
# that has a fault.
FAULTY, FAULT_LINE = 8, re.compile(rb"\d+ (?:\d+|-) fault ")
# A row whose period is named by the code of its section, and a row that the desk takes, and clerk_office doesn't.
CODED = rb"(?:start,[^,\n]*|compute),(?:" + b"|".join(re.escape(code.encode()) for code in sorted(CODES)) + rb"),"
CODED_ROW = re.compile(rb"^[0-9]+," + CODED)
ROW_OF_DESK = re.compile(rb'(?m)^"?[0-9]+"?,(?:"?(?:set|reset|end|resume|close|reopen|rule|assign|title|label)"?,|' + CODED + rb")")
# The judges of a row that sets a hearing.
PANEL = re.compile(rb"(?m)^[0-9]+,(?:book|move),[^,\r\n]*,[^,\r\n]*,([^,\r\n]+),")
# What a session says first of each that was cut off before it.
CUT_OFF = re.compile(rb"docket: a session of [^\n]* was cut off; the last row that is kept is row (\d+): see 'docket log [^\n]* --row \1'\n")
# A court's file that is short, so that a journal's bytes are mostly those of its rows.
SHORT_COURT = b"""zone = "EST5EDT,M3.2.0/2,M11.1.0/2"
opens = "08:30"
closes = "17:00"
from = "2024-01-01"
to = "2026-12-31"
federal = ["2025-05-26", "2025-06-19", "2025-07-04", "2025-09-01"]
state = ["2025-03-28"]
judges = ["Ames", "Brandt"]
rooms = ["R1"]
"""


def told_of(ended):
    """What a call says on standard error of the lines of its input, and then the line that sums up, both as bytes."""
    *lines, last = ended.errors.splitlines(True)
    return b"".join(lines), last


def answers_alone(text):
    """Answers as the journal keeps them: without the lines below them that begin with a blank, the deadlines that a holiday or an
    outage moves."""
    return b"".join(line for line in text.splitlines(True) if not line.startswith(b" "))


def divided(text):
    """The court's file and the rows of an input, each row with the end of its line."""
    if text.startswith(b"%%\n"):
        court, rows = b"", text[3:]
    else:
        court, _, rows = text.partition(b"\n%%\n")
        court += b"\n"
    return court, [row for row in rows.splitlines(True) if row.strip()]


def drawn_rows(draw, count, cases=4):
    """Rows of one clerk about this many cases, of which some are refused."""
    rows = []
    for _ in range(count):
        case, day = draw.randint(1, cases), "2025-{:02}-{:02}".format(draw.randint(1, 12), draw.randint(1, 28))
        rows.append(draw.choice([
            "1,open,{},{}".format(case, day),
            "1,start,{},{},{},,,".format(case, draw.choice(["4m", "12a1Ai", "59b", "59e"]), day),
            "1,motion,{},{},14".format(case, day),
            "1,sheet,{}".format(case),
            "1,compute,59e,{},,,".format(day),
            "1,holiday,{},state".format(day),
        ]).encode() + b"\n")
    return rows


class Desk:
    """A folder with a journal that was opened with a court's file."""

    def __init__(self, programs, parent, court):
        self.programs, self.folder, self.court = programs, pathlib.Path(parent) / "desk", court
        file = pathlib.Path(parent) / "court.toml"
        file.write_bytes(court)
        ended = run([programs.docket, "init", self.folder, "--court", file])
        assert ended.status == 0, ended

    @property
    def journal(self):
        return self.folder / "journal"

    def read(self):
        """The journal, read byte by byte."""
        return read_journal(self.journal.read_bytes())

    def tail(self):
        """What stands in the journal after its end, which the next opening cuts off."""
        data = self.journal.read_bytes()
        return data[read_journal(data).end + 2:]

    def cut(self):
        """What was cut off, by the names of the files in which it is saved."""
        return {path.name: path.read_bytes() for path in self.folder.glob("cut-*")}

    def words(self, *words):
        """The words of a call: what is to be done, as `enter` or `court change`, then the folder, then the others."""
        task, *others = words
        return [str(self.programs.docket), *task.split(" "), str(self.folder), *map(str, others)]

    def call(self, *words, given=b"", **how):
        return run(self.words(*words), given, **how)

    def take_court(self, court):
        """Goes by another court's file, also where answers differ."""
        file = self.folder.parent / "court.toml"
        file.write_bytes(court)
        self.court = court
        return self.call("court change", file, "--accept")

    def session(self, *words, **how):
        """A session of its own, which reads rows from a pipe and answers to one."""
        return subprocess.Popen(self.words("enter", *words), stdin=subprocess.PIPE, stdout=subprocess.PIPE,
                                stderr=subprocess.PIPE, **how)

    def input_of(self, rows):
        """The input of the clerk's program with this court and these rows."""
        end = b"" if self.court.endswith(b"\n") else b"\n"
        return self.court + end + b"%%\n" + b"".join(rows)

    def enter(self, rows):
        """The answers to rows, as the journal keeps them. Where some have faults, the session says how many at its end."""
        ended = self.call("enter", given=b"".join(rows))
        faulty = sum(FAULT_LINE.match(line) is not None for line in ended.output.splitlines())
        assert ended.status == (FAULTY if faulty else 0) and CUT_OFF.sub(b"", ended.errors).startswith(b"%d of " % faulty if faulty else b""), ended
        return answers_alone(ended.output)

    def rows(self):
        """What `rows` writes."""
        ended = self.call("rows")
        assert ended.status == 0, ended
        return ended.output


def has_rows_of_desk(data):
    """Whether an input has rows that the desk alone takes."""
    return ROW_OF_DESK.search(data) is not None


def report_of(programs, words, data):
    """What docket says of an input. Rows that the desk alone takes are entered into a folder, and so are the others beside them."""
    if not has_rows_of_desk(data):
        return programs.report(words, data)
    with tempfile.TemporaryDirectory() as parent:
        court, rows = divided(data)
        desk = Desk(programs, parent, court)
        desk.enter(row if row.endswith(b"\n") else row + b"\n" for row in rows)
        return desk.call(*words)


def set_rows(draw, rows, cases, faulty=True):
    """The rows with some put among them by which an order sets a deadline for a day, one of the days in them, or for a time of it, or
    another end for a deadline. Some have a fault, unless none is to have one."""
    days = re.findall(rb"\d{4}-\d\d-\d\d", b"".join(rows)) or [b"2025-09-07"]
    rows = list(rows)
    for _ in range(draw.randint(1, 8)):
        time = draw.choice([b""] * 8 + [b"00:00", b"02:30", b"09:30", b"17:00"] + [b"9:30"] * faulty)
        act = draw.choice([b"filing"] * 8 + [b"service"] * 4 + [b"answer"] * faulty)
        row = b"1,set,%d,%s,%s,%s\n" % (draw.choice(cases), draw.choice(days), time, act)
        if draw.random() < 0.5:
            row = b"1,reset,%d,%d,%s,%s,%s\n" % (draw.choice(cases), draw.randint(1, 6), draw.choice(days), time, draw.choice(days))
        rows.insert(draw.randint(min(len(rows), 3), len(rows)), row)
    return rows


def fact_rows(draw, rows, cases, faulty=True):
    """The rows with some put among them that end one of the first deadlines of a case, or resume it, some that rule on one of its first
    motions, and a few that close a case or reopen it. Some have a fault, unless none is to have one."""
    days = re.findall(rb"\d{4}-\d\d-\d\d", b"".join(rows)) or [b"2025-09-07"]
    reasons = [b"moot", b"vacated", b"stayed", b"suspended", b"withdrawn"] + [b"settled"] * faulty
    rows = list(rows)
    for _ in range(draw.randint(1, 12)):
        subject, dated = b"%d,%d" % (draw.choice(cases), draw.randint(1, 4)), draw.choice(days)
        day = draw.choice(days + [b"9/7/25"] * faulty) if draw.random() < 0.3 else b""
        row = draw.choice([b"1,end,%s,%s,%s\n" % (subject, draw.choice(reasons), dated), b"1,resume,%s,%s,%s\n" % (subject, day, dated)])
        rows.insert(draw.randint(min(len(rows), 4), len(rows)), row)
    rulings = [b"granted", b"denied", b"in part", b"moot", b"withdrawn", b"reserved"] + [b"vacated"] * faulty
    for _ in range(draw.randint(0, 6)):
        row = b"1,rule,%d,%d,%s,%s\n" % (draw.choice(cases), draw.randint(1, 4), draw.choice(rulings), draw.choice(days))
        rows.insert(draw.randint(min(len(rows), 4), len(rows)), row)
    ways = [b"dismissed", b"judgment", b"settled", b"transferred", b"remanded", b"otherwise"] + [b"moot"] * faulty
    for _ in range(draw.choice([0, 0, 1, 2])):
        case, at = draw.choice(cases), draw.randint(min(len(rows), 4), len(rows))
        rows.insert(at, b"1,close,%d,%s,%s\n" % (case, draw.choice(ways), draw.choice(days)))
        rows.insert(draw.randint(at, len(rows)), b"1,reopen,%d,%s\n" % (case, draw.choice(days)))
    return rows


def assign_rows(draw, rows, cases, faulty=True):
    """The rows with a few put among them that assign a case to a judge of a hearing in them, and may refer it to another, where they
    have hearings. A few name a judge whom no court has. Some have a fault, unless none is to have one."""
    text = b"".join(rows)
    days = re.findall(rb"\d{4}-\d\d-\d\d", text)
    judges = sorted({name for panel in PANEL.findall(text) for name in panel.split(b"+")})
    rows = list(rows)
    for _ in range(draw.choice([0, 1, 2, 4]) if judges else 0):
        named = judges + [b"Nobody"] * (draw.random() < 0.2)
        to, referred, dated = draw.choice(named), draw.choice(named + [b""] * len(named)), draw.choice(days + [b"9/2/25"] * faulty)
        row = b"1,assign,%d,%s,%s,%s\n" % (draw.choice(cases), to, referred, dated)
        rows.insert(draw.randint(min(len(rows), 4), len(rows)), row)
    return rows


# What cases, deadlines and motions are called in made rows: texts that mean something in HTML, in a spreadsheet, in SQL or to a shell,
# and some that are right to left, or go from one to the other. None has a comma, a quote or the end of a line.
TEXTS = ["Doe v. Acme", "answer of Acme", "In re: Marie-Ève", "<script>alert(1)</script>", "=cmd|' /C calc'!A0", "a; DROP TABLE cases", "&amp;", "--",
         "$(id)", "\u202eemca", "\u200f\u05d0\u05d1", "\U0001f6e1 seal"]
# And texts that no row may have.
NO_TEXTS = ["", "a\tb", "a\x7f", "a\x85b", "x" * 201, "\u00e9" * 101]


def called_rows(draw, rows, cases, faulty=True):
    """The rows with some put among them that say what a case, or one of its first deadlines or motions, is called. Some have a fault,
    unless none is to have one."""
    rows = list(rows)
    for _ in range(draw.randint(1, 8)):
        text = draw.choice(TEXTS + NO_TEXTS * faulty).encode()
        of = draw.choice([b"deadline", b"motion"] * 4 + [b"case"] * faulty)
        row = draw.choice([b"1,title,%d,%s\n" % (draw.choice(cases), text), b"1,label,%d,%s,%d,%s\n" % (draw.choice(cases), of, draw.randint(1, 4), text)])
        rows.insert(draw.randint(min(len(rows), 4), len(rows)), row)
    return rows


def coded_rows(draw, rows, cases, faulty=True):
    """The rows with some put among them whose period is named by the code of its section. Some have a fault, unless none is to have
    one."""
    days = re.findall(rb"\d{4}-\d\d-\d\d", b"".join(rows)) or [b"2025-09-07"]
    rows = list(rows)
    for _ in range(draw.randint(1, 6)):
        code = draw.choice(sorted(CODES))
        served = "/served/" in CODES[code] and draw.random() < 0.9
        field = draw.choice([code] * 12 + [code.lower(), code.upper(), code + "i", "34b2A"] * faulty).encode()
        kind = draw.choice(list("ABCDEF")).encode() if served else b""
        row = b"%s,%s,%s,,%s\n" % (field, draw.choice(days), draw.choice([b""] * 3 + [b"09:30"]), kind)
        rows.insert(draw.randint(min(len(rows), 3), len(rows)), (b"1,start,%d," % draw.choice(cases) if draw.random() < 0.8 else b"1,compute,") + row)
    return rows


# Names that a court's file gives to periods, as it writes them. Rows read the first as a section's, and the last as none.
NAMED_PERIODS = b"""
[periods]
50b = "3d/after/filing/event/plain"
opposition = "14d/after/service/served/plain"
reply = 7
"LRCiv 7.2" = "7d/after/filing/event/plain"
"LRCiv-7.2" = "7d/after/filing/served/plain"
late = "72h/before/filing/event/60b"
59e = "1d/after/filing/event/plain"
slip = "59e"

[periods.cite]
opposition = "LRCiv 7.2(c)"
"""


def named_rows(draw, rows, cases):
    """The rows with some put among them whose period is named by a court's file, or has a name that it doesn't give."""
    days = re.findall(rb"\d{4}-\d\d-\d\d", b"".join(rows)) or [b"2025-09-07"]
    rows = list(rows)
    for _ in range(draw.randint(1, 6)):
        name = draw.choice([b"50b", b"opposition", b"Opposition", b"LRCiv-7.2", b"LRCiv 7.2", b"late", b"59e", b"slip", b"cite", b"reply"])
        kind = draw.choice([b"C", b"E"]) if name in (b"opposition", b"LRCiv-7.2") else b""
        row = b"1,start,%d,%s,%s,,,%s\n" % (draw.choice(cases), name, draw.choice(days), kind)
        rows.insert(draw.randint(min(len(rows), 3), len(rows)), row)
    return rows


def desk_rows(draw, rows, cases, faulty=True):
    """The rows with some among them that the desk alone takes."""
    return assign_rows(draw, fact_rows(draw, set_rows(draw, rows, cases, faulty), cases, faulty), cases, faulty)
