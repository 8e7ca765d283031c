"""What rows call cases, deadlines and motions, in each report of a folder: also texts that mean something in the format of a report."""
import csv
import io
import json
import re
import sqlite3
import tempfile
from html.parser import HTMLParser

from lib.desk import Desk, FAULTS, FAULTY, NO_TEXTS, SHORT_COURT, TEXTS, told_of
from lib.memo_head import HEAD

# Texts with quotes, commas and backslashes too, and the longest.
HOSTILE = TEXTS + ["\"quoted\" and 'single'", "a,b;c", "'); DROP TABLE cases; --", "back\\slash \\n \\, \\;", "</title></h3><b onclick=x>", "&lt;b&gt;",
                   "%s {} `id`", "\uff1d1\uff0b1", "x" * 200, "\u20ac" * 66]
# The rows before those that call things something: a case, a deadline, and a motion with a hearing.
BEGUN = ["1,open,1:25-cv-5,2025-01-06", "1,start,1:25-cv-5,59e,2025-08-04,,,", "1,motion,1:25-cv-5,2025-08-01,14",
         "1,book,1:25-cv-5,1,Ames,R1,2025-09-15,10:00,2,2025-08-29"]
STAMP = ["--stamp", "20250901T120000Z"]
# A day on which the motion has been pending for more than six months, and by what a program for tables takes a text for a formula.
ON, FORMULAS = ["--on", "2026-03-31"], ("=", "+", "-", "@", "\uff1d", "\uff0b", "\uff0d", "\uff20")
# What an iCalendar text has in place of a character.
ESCAPED = re.compile(r"\\(.)")


class Elements(HTMLParser):
    """The tags of a page, in order, and its texts."""

    def __init__(self, page):
        super().__init__()
        self.tags, self.texts = [], []
        self.feed(page)

    def handle_starttag(self, tag, attributes):
        self.tags.append((tag, [name for name, _ in attributes]))

    def handle_endtag(self, tag):
        self.tags.append(tag)

    def handle_data(self, data):
        self.texts.append(data)


def row_of(*fields):
    """A row, whose fields are quoted where they have to be."""
    text = io.StringIO()
    csv.writer(text, lineterminator="\n").writerow(fields)
    return text.getvalue().encode()


def calling(title, of_deadline, of_motion):
    """The rows that call the case, its deadline and its motion so."""
    case = "1:25-cv-5"
    return [row_of(1, "title", case, title), row_of(1, "label", case, "deadline", 1, of_deadline), row_of(1, "label", case, "motion", 1, of_motion)]


def said(desk, *words):
    """What a report says."""
    ended = desk.call(*words)
    assert ended.status == 0 and not ended.errors, (words, ended)
    return ended.output.decode()


def summaries(text):
    """The SUMMARY of each event of a calendar, and how many lines it has; none is longer than 75 bytes."""
    assert all(len(line.encode()) <= 75 for line in text.split("\r\n")), text
    lines = text.replace("\r\n ", "").split("\r\n")
    return [ESCAPED.sub(lambda found: "\n" if found[1] == "n" else found[1], line.split(":", 1)[1]) for line in lines if line.startswith("SUMMARY:")], len(lines)


def texts_in(sheet):
    """What a sheet in JSON calls the case, its deadline and its motion."""
    return sheet.get("title"), sheet["deadlines"][0].get("label"), sheet["motions"][0].get("label")


def compare(desk, title, of_deadline, of_motion, plain):
    """That each report shows these texts, whole and as texts alone: a page has the same elements as `plain`, and a calendar as many
    lines."""
    whole = json.loads(said(desk, "json"))
    assert texts_in(whole["cases"][0]) == (title, of_deadline, of_motion), whole["cases"]
    booking, = whole["calendars"][0]["bookings"]
    assert (booking["title"], booking["label"]) == (title, of_motion), booking
    base = sqlite3.connect(":memory:")
    base.executescript("PRAGMA foreign_keys = ON;\n" + said(desk, "sql"))
    assert base.execute("SELECT * FROM titles").fetchall() == [(1, title)], title
    assert base.execute("SELECT * FROM labels ORDER BY motion_number").fetchall() == [(1, 1, None, of_deadline), (1, None, 1, of_motion)], title
    below = ["    {}: {}\n".format(title, label) for label in (of_deadline, of_motion)]
    due = said(desk, "due", "--from", "2025-08-01", "--to", "2025-12-31")
    assert all("\n" + line in due for line in below), (due, below)
    week = said(desk, "week", "--judge", "Ames", "--of", "2025-09-15")
    assert week.endswith("\n" + below[1]), (week, below)
    lines = ["title {}\n".format(title), "label {}\n".format(of_deadline), "label {}\n".format(of_motion)]
    for words in (["sheet", "1:25-cv-5"], ["case", "1:25-cv-5"], ["memo", "--case", "1:25-cv-5"]):
        sheet = said(desk, *words)
        assert all("\n" + line in sheet for line in lines), (words, sheet, lines)
    head, of_all = HEAD.match(said(desk, "memo", "--case", "1:25-cv-5")), HEAD.match(said(desk, "memo"))
    assert (head["case"], head["title"], head["judge"], of_all["title"]) == ("1:25-cv-00005", title, None, None), (head, of_all)
    assert [line for line in said(desk, "memo").splitlines(True) if line in lines] == [], "the answers of a memo have what things are called"
    page = Elements(said(desk, "page"))
    assert page.tags == Elements(plain["page"]).tags, (title, page.tags)
    shown = [" ({})".format(title), "1 ({})".format(of_deadline), "1 ({})".format(of_motion), " ({}: {})".format(title, of_deadline), " ({}: {})".format(title, of_motion)]
    assert all(any(text.endswith(end) for text in page.texts) for end in shown), (shown, page.texts)
    assert "\n" + below[1] in said(desk, "pending", *ON), below
    table = list(csv.reader(io.StringIO(said(desk, "pending", *ON, "--csv"), newline="")))
    assert table[1:] and table[1][5:] == ["'" * text.startswith(FORMULAS) + text for text in (title, of_motion)], table
    pending = Elements(said(desk, "pending", *ON, "--page"))
    assert pending.tags == Elements(plain["pending"]).tags and any(text.endswith(shown[-1]) for text in pending.texts), (title, pending.texts)
    found, count = summaries(said(desk, "ics", *STAMP))
    assert count == summaries(plain["ics"])[1] and [text for text in found if text.endswith(" ({}: {})".format(title, of_deadline))], found
    assert [text for text in found if text.endswith(" ({}: {})".format(title, of_motion))], found


def check_refused(desk):
    """Texts that no row may have are faults, and so is one with the end of a line in it."""
    before = desk.journal.read_bytes()
    for text in NO_TEXTS:
        title, *labels = calling(text, text, text)
        for row, column in [(title, 4), *((label, 6) for label in labels)]:
            ended = desk.call("enter", given=row)
            assert ended.status == FAULTY and b" fault 4 BadField %d" % column in ended.output, (row, ended)
        ended = desk.call("enter", "--all-or-nothing", given=title)
        assert ended.status == FAULTS and told_of(ended)[0] and not ended.output, (title, ended)
    for row in calling("two\nlines", "two\nlines", "two\nlines"):
        ended = desk.call("enter", "--all-or-nothing", given=row)
        assert ended.status == FAULTS and not ended.output, (row, ended)
    assert desk.journal.read_bytes() == before


def check_last(desk):
    """The last of the rows that stand and are done counts."""
    def title():
        return texts_in(json.loads(said(desk, "json"))["cases"][0])[0]

    first = desk.enter([row_of(1, "title", "1:25-cv-5", "the first")])
    desk.enter([row_of(1, "title", "1:25-cv-5", "the second")])
    row = int(first.split()[0]) + 1
    assert title() == "the second"
    assert "the second" in said(desk, "log") and "the first" in said(desk, "log", "--case", "1:25-cv-5")
    for word, wanted in (("strike", "the first"), ("restore", "the second")):
        ended = desk.call(word, row, "--reason", "twice")
        assert ended.status == 0 and title() == wanted, (word, ended)
    refused = desk.enter([b"1,close,1:25-cv-5,settled,2025-11-03\n", row_of(1, "title", "1:25-cv-5", "the third")])
    assert b" closed\n" in refused and b" refused 30 CaseIsClosed\n" in refused and title() == "the second", refused
    refused = desk.enter([b"1,label,2,deadline,1,none\n", b"1,reopen,1:25-cv-5,2025-11-04\n", b"1,label,1:25-cv-5,deadline,9,none\n", b"1,label,1:25-cv-5,motion,9,none\n"])
    assert [line.split(b" ", 2)[2] for line in refused.splitlines()] == [b"refused 1 NoSuchCase", b"reopened", b"refused 3 NoSuchDeadline", b"refused 4 NoSuchMotion"], refused


def check_called(programs):
    """Each of these texts in each report; how many there are."""
    with tempfile.TemporaryDirectory() as parent:
        desk = Desk(programs, parent, SHORT_COURT)
        desk.enter([row.encode() + b"\n" for row in BEGUN])
        bare = {name: said(desk, name, *words) for name, words in (("page", []), ("ics", STAMP), ("json", []), ("sql", []), ("sheet", ["1:25-cv-5"]),
                                                                   ("pending", [*ON, "--page"]))}
        assert "title" not in json.loads(bare["json"])["cases"][0] and "CREATE TABLE titles" not in bare["sql"] and "\ntitle " not in bare["sheet"]
        for at, text in enumerate(HOSTILE):
            texts = text, HOSTILE[at - 1], HOSTILE[at - 2]
            answers = desk.enter(calling(*texts))
            assert [line.split(b" ", 2)[2] for line in answers.splitlines()] == [b"titled", b"labelled", b"labelled"], (texts, answers)
            compare(desk, *texts, bare)
        check_refused(desk)
        check_last(desk)
    return len(HOSTILE)
