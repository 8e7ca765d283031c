#!/usr/bin/env python3
"""Checks how the built desk reads rows as people write them.

    written_check.py DOCKET [SEED [COUNT]]
    written_check.py DOCKET --write

COUNT plain rows at random (20,000 without it) are written in eleven styles, as people and their programs write them; each must
be read as the row it was made from. As many fields have blanks and dots in them: each must be read, or be a fault, as
lib/written_fields.py has it from docs/clerk/ROWS.md, and so must the word that is suggested for a misspelt period. Each section
of docs/law/RULES.md whose period is entered must be read as its text, or where it has two be a fault that names both; and the
definition must have just these. Some two hundred lines are spoiled as people spoil them; what is said of each must be what
runs/written/said.txt has. A case that was opened in one form of its number must be found in all others. --write writes that file
anew: read it as someone who made the mistake. What --json says must be the same faults. It needs Python 3.8 or later.
"""
import csv
import datetime
import json
import random
import re
import sys
import tempfile

from lib.case_names import read, spelled
from lib.desk import Desk, FAULTS, FAULTY, SHORT_COURT, told_of
from lib.programs import TOP, programs_of, seed_and_count
from lib.spoiled_lines import spoiled
from lib.written_fields import ENTERED as SECTIONS, spelled as spelled_section
from lib.written_trials import check_broken, check_misspelt, check_sections, check_triggers

SAID = TOP / "runs" / "written" / "said.txt"
COURT = SHORT_COURT.replace(b'["Ames", "Brandt"]', b'["Ames", "Brandt", "OBrien", "Smith-Jones", "J.Kaplan"]').replace(
    b'["R1"]', b'["11A", "11B", "Annex-2"]') + b'[short_names]\nKaplan = "J.Kaplan"\nannex = "Annex-2"\nnobody = "Cole"\n'
JUDGES, ROOMS = ["Ames", "Brandt", "OBrien", "Smith-Jones", "J.Kaplan"], ["11A", "11B", "Annex-2"]
# Names of these for short, and one of nobody.
SHORTS = {"Kaplan": "J.Kaplan", "annex": "Annex-2", "nobody": "Cole"}
MONTHS = ["Jan", "Feb", "Mar", "Apr", "May", "Jun", "Jul", "Aug", "Sep", "Oct", "Nov", "Dec"]
LONG = ["January", "February", "March", "April", "May", "June", "July", "August", "September", "October", "November", "December"]
# The periods of the Rules, and how they are cited.
RULES = {"4m": "4(m)", "12a1Ai": "12(a)(1)(A)(i)", "12a1Aii-us": "12(a)(1)(A)(ii)-US", "12a1Aii-abroad": "12(a)(1)(A)(ii) abroad",
         "12a1B": "12(a)(1)(B)", "12a1C": "12(a)(1)(C)", "12a2": "12(a)(2)", "12a3": "12(a)(3)", "59b": "59(b)", "59e": "59(e)"}
ENTERED = ["14d/after/filing/event/plain", "72h/after/service/event/plain", "7d/before/service/event/60b", "30d/after/service/served/plain",
           "30d/after/filing/event/60b"]
# The sections that set one period which is entered, by its text.
NAMED = {text: [section for section, texts in SECTIONS.items() if texts == [text]] for text in ENTERED}
KINDS = {"A": ["personal", "by hand", "hand delivery"], "B": ["left", "dwelling"], "C": ["mail", "by mail", "U.S. mail"], "D": ["with clerk", "clerk"],
         "E": ["ECF", "CM/ECF", "e-mail", "electronic"], "F": ["other", "consent"]}
WORDS = {"electronic": ["electronic", "ECF", "Electronically"], "paper": ["paper", "on paper", "Paper"], "yes": ["yes", "Y", "Yes"], "no": ["no", "N", "NO"],
         "federal": ["federal", "Federal"], "state": ["state", "STATE"], "exparte": ["ex parte", "Ex Parte", "exparte"],
         "filing": ["filing", "Filing", "file", "to file"], "service": ["service", "Service", "serve"],
         "moot": ["moot", "Moot", "mooted"], "vacated": ["vacated", "Vacated", "vacate"], "stayed": ["stayed", "STAYED", "stay"],
         "suspended": ["suspended", "Suspended", "suspend"], "suspended:3": ["suspended:3", " suspended:3 "], "withdrawn": ["withdrawn", "Withdrawn", "withdrew"],
         "dismissed": ["dismissed", "Dismissed", "dismissal"], "judgment": ["judgment", "Judgement"], "settled": ["settled", "Settlement"],
         "deadline": ["deadline", "Deadline", "deadlines"], "motion": ["motion", "MOTION", "Motions"],
         "transferred": ["transferred", "Transfer"], "remanded": ["remanded", "REMAND"], "otherwise": ["otherwise", "Other"],
         "granted": ["granted", "Granted", "grant"], "denied": ["denied", "Denied", "deny"], "in part": ["in part", "In Part", "granted in part"],
         "reserved": ["reserved", "Reserved", "under advisement"]}
# What cases, deadlines and motions are called, which is taken as it is written.
CALLED = ["Doe v. Acme", "answer of Acme", "In re Acme & Co.", "<script>", "=cmd|x", "a 2nd reply (Doe)"]
# The columns of each command, by what they hold.
FORMS = {
    "open": "clerk command case date",
    "start": "clerk command case period date time? second? kind?",
    "file": "clerk command case deadline date time means",
    "extend": "clerk command case deadline grant date time motion! cause! neglect!",
    "motion": "clerk command case date need",
    "book": "clerk command case motion judge room date time slots notice",
    "move": "clerk command case motion judge room date time slots notice",
    "cancel": "clerk command case motion",
    "holiday": "clerk command date list",
    "inaccessible": "clerk command date from to",
    "compute": "clerk command period date time? second? kind?",
    "sheet": "clerk command case",
    "calendar": "clerk command judge. date",
    "set": "clerk command case date time? act",
    "reset": "clerk command case deadline date time? dated",
    "end": "clerk command case deadline why dated",
    "resume": "clerk command case deadline date? dated",
    "close": "clerk command case why. dated",
    "reopen": "clerk command case dated",
    "rule": "clerk command case motion ruling dated",
    "assign": "clerk command case judge. referred? dated",
    "title": "clerk command case title",
    "label": "clerk command case of number label",
}
NAMES = sorted({column.strip("?!.") for form in FORMS.values() for column in form.split()})


def a_date(draw, clear=False):
    """A date; a clear one is another date, or none, where day and month are changed about."""
    while True:
        date = datetime.date(draw.randint(2024, 2026), draw.randint(1, 12), draw.randint(1, 28))
        if not clear or date.day > 12 or date.day == date.month:
            return date.isoformat()


def a_case(draw):
    """A case: its number, or its number as the court writes it."""
    if draw.random() < 0.6:
        return str(draw.randint(1, 4096))
    return "{}{:02}-{}-{:05}{}".format(draw.choice(["", "1:", "4:"]), draw.randint(0, 99), draw.choice(["cv", "cr", "mc"]),
                                       draw.choice([draw.randint(1, 99), draw.randint(1, 99999)]), draw.choice(["", "-ABC", "-JPG-RL"]))


def drawn(draw, column, clear):
    """A plain field of a column."""
    if column.endswith("?") and draw.random() < 0.5:
        return ""
    time = "{:02}:{:02}".format(draw.randint(0, 23), draw.choice([0, 15, 30, 45]))
    return {
        "clerk": lambda: str(draw.randint(1, 64)), "case": lambda: a_case(draw),
        "deadline": lambda: draw.choice(sorted(RULES)) if draw.random() < 0.3 else str(draw.randint(1, 99)),
        "motion": lambda: "last" if draw.random() < 0.3 else str(draw.randint(1, 99)),
        "period": lambda: draw.choice(sorted(RULES) + ENTERED), "date": lambda: a_date(draw, clear), "notice": lambda: a_date(draw, clear), "dated": lambda: a_date(draw, clear),
        "second?": lambda: a_date(draw, clear), "time": lambda: time, "time?": lambda: time, "from": lambda: time,
        "to": lambda: draw.choice([time, "24:00"]), "kind?": lambda: draw.choice("ABCDEF"), "means": lambda: draw.choice(["electronic", "paper"]),
        "grant": lambda: draw.choice(["+14d", "+24h", a_date(draw, clear)]), "motion!": lambda: draw.choice(["yes", "no"]),
        "cause!": lambda: draw.choice(["yes", "no"]), "neglect!": lambda: draw.choice(["yes", "no"]),
        "need": lambda: draw.choice(["14", "7", "exparte"]), "judge": lambda: "+".join(draw.sample(JUDGES, draw.randint(1, 3))),
        "judge.": lambda: draw.choice(JUDGES), "referred?": lambda: draw.choice(JUDGES), "room": lambda: draw.choice(ROOMS), "slots": lambda: draw.choice(["2", "3q", "1"]),
        "list": lambda: draw.choice(["federal", "state"]), "act": lambda: draw.choice(["filing", "service"]),
        "date?": lambda: a_date(draw, clear),
        "why": lambda: draw.choice(["moot", "vacated", "stayed", "suspended", "suspended:3", "withdrawn"]),
        "ruling": lambda: draw.choice(["granted", "denied", "in part", "moot", "withdrawn", "reserved"]),
        "title": lambda: draw.choice(CALLED), "label": lambda: draw.choice(CALLED), "of": lambda: draw.choice(["deadline", "motion"]),
        "number": lambda: str(draw.randint(1, 99)),
        "why.": lambda: draw.choice(["dismissed", "judgment", "settled", "transferred", "remanded", "otherwise"]),
    }[column]()


def a_row(draw, clear):
    """A plain row: its columns and their fields."""
    command = draw.choice(sorted(FORMS))
    columns = FORMS[command].split()
    return columns, [command if column == "command" else drawn(draw, column, clear) for column in columns]


def date_in(style, draw, text):
    day = datetime.date.fromisoformat(text)
    if style == "month first":
        return draw.choice(["{}/{}/{}", "{:02}/{:02}/{}", "{}-{}-{}"]).format(day.month, day.day, day.year)
    if style == "day first":
        return draw.choice(["{}/{}/{}", "{:02}.{:02}.{}"]).format(day.day, day.month, day.year)
    if style == "words":
        return draw.choice(["{d}-{m}-{y}", "{d} {l} {y}", "{m} {d} {y}", "{l} {d} {y}", "{m}. {d} {y}"]).format(
            d=day.day, m=MONTHS[day.month - 1], l=LONG[day.month - 1], y=day.year)
    return text


def time_in(draw, text):
    hour, minute = int(text[:2]), text[3:]
    if text == "24:00" or draw.random() < 0.3:
        return text.lstrip("0") if 1 <= hour <= 9 else text
    half = draw.choice([" AM", "am", " a.m."] if hour < 12 else [" PM", "pm", " p.m."])
    return "{}{}{}".format(hour % 12 or 12, "" if minute == "00" and draw.random() < 0.5 else ":" + minute, half)


def case_in(draw, text):
    """A case number in any capitals, perhaps without zeros, with blanks, or with dashes at which a line doesn't break."""
    parts = text.split("-")
    if len(parts) > 1 and draw.random() < 0.5:
        parts[2] = str(int(parts[2]))
    return draw.choice([str, str.upper, str.lower])(draw.choice(["-", "-", " - ", "\u2011"]).join(parts))


def loosened(draw, style, column, text):
    """A field as people write it."""
    if not text:
        return text
    if column in ("date", "date?", "notice", "second?", "dated") or column == "grant" and not text.startswith("+"):
        return date_in(style, draw, text)
    if column in ("time", "time?", "from", "to"):
        return time_in(draw, text)
    if column == "case":
        return case_in(draw, text)
    if column in ("period", "deadline") and text in RULES:
        return draw.choice([RULES[text], "FRCP " + RULES[text], "Rule " + RULES[text], "Fed. R. Civ. P. " + RULES[text], text.upper(), text])
    if column == "period" and NAMED[text] and draw.random() < 0.7:
        return draw.choice(spelled_section(draw.choice(NAMED[text])))
    if column == "kind?":
        return draw.choice(KINDS[text] + [text, text.lower()])
    if column in ("judge", "judge.", "referred?") and draw.random() < 0.2:
        return text.replace("J.Kaplan", "Kaplan")
    if column in ("judge", "judge.", "referred?"):
        return draw.choice([str, str.upper, str.lower])(text).replace("+", draw.choice(["+", " + "])).replace("J.", draw.choice(["J.", "J. "]))
    if column in ("room", "command", "motion"):
        return draw.choice([str, str.upper, str.lower])(text)
    return draw.choice(WORDS[text]) if text in WORDS else text


def quoted(draw, text):
    return '"{}"'.format(text) if draw.random() < 0.6 else text


def curly(draw, text):
    return "\u201c{}\u201d".format(text) if draw.random() < 0.6 else text


def written(draw, style, columns, fields):
    """A row in a style, as one line."""
    if style == "plain":
        return ",".join(fields)
    if style == "spaces":
        return ", ".join(field if draw.random() < 0.8 else " " + field + " " for field in fields)
    if style == "quotes":
        return ",".join(quoted(draw, field) for field in fields)
    dates = "month first" if style == "short" else style
    loose = [loosened(draw, dates, column, field) for column, field in zip(columns, fields)]
    if style == "curly quotes":
        return ", ".join(curly(draw, field) for field in loose)
    if style == "semicolons":
        return ";".join(loose)
    if style == "tabs":
        return "\t".join(loose)
    if style == "short":
        while loose and not loose[-1]:
            loose.pop()
        return ",".join(loose)
    return ",".join(loose) + draw.choice(["", "", ",", ",,"])


def with_headings(draw, rows):
    """Rows under headings in any order, of which one names no column."""
    names = NAMES + ["note"]
    draw.shuffle(names)
    lines = [",".join(name if draw.random() < 0.5 else name.title() for name in names)]
    for columns, fields in rows:
        held = {column.strip("?!."): loosened(draw, "headings", column, field) for column, field in zip(columns, fields)}
        lines.append(",".join(held.get(name, "seen by Jo" if name == "note" and draw.random() < 0.3 else "") for name in names))
    return lines


STYLES = ["plain", "spaces", "quotes", "curly quotes", "semicolons", "tabs", "headings", "month first", "day first", "words", "short"]
WORDS_OF = {"month first": ["--dates", "month-first"], "day first": ["--dates", "day-first"]}


def check_style(desk, draw, style, count):
    """So many rows in a style, each read as the row it was made from."""
    rows = [a_row(draw, style == "short") for _ in range(count)]
    if style == "headings":
        lines = with_headings(draw, rows)
    else:
        lines = [written(draw, style, *row) for row in rows]
    text = []
    for line in lines:
        if draw.random() < 0.05:
            text.append(draw.choice(["", "# from the desk", "   ", ",,,"]))
        text.append(line)
    end = draw.choice(["\n", "\r\n"])
    given = (draw.choice(["", "\ufeff"]) if style != "plain" else "") + end.join(text) + end
    ended = desk.call("plain", *WORDS_OF.get(style, []), given=given.encode())
    found = list(csv.reader(ended.output.decode().splitlines()))
    for (_, fields), row, line in zip(rows, found, lines[len(lines) - len(rows):]):
        assert fields == row, (style, line, fields, row)
    assert len(found) == len(rows) and ended.status == 0, (style, ended.status, len(found), ended.output[:2000], ended.errors)


def said_of(desk):
    """What is said of each spoiled line."""
    text = []
    for name, given, words in spoiled():
        ended = desk.call("plain", *words, given=given.encode())
        assert ended.status in (0, FAULTS), (name, ended)
        text.append("== {}{}\n".format(name, "".join(" " + word for word in words)))
        if ended.status == 0:
            text.append("read as: " + ended.output.decode())
            text.append(ended.errors.decode())
        else:
            assert not ended.output, (name, ended)
            text.append(told_of(ended)[0].decode())
            check_json(desk, name, given, words, text[-1])
    return "".join(text)


def check_json(desk, name, given, words, said):
    """--json says the same faults, at the same places."""
    other = desk.call("plain", "--json", *words, given=given.encode())
    faults = json.loads(other.errors.decode())
    lines = [line for line in said.splitlines() if line.startswith("line ")]
    assert other.status == FAULTS and not other.output and lines == ["line {line} column {column}: {said}".format(**fault) for fault in faults], (name, other)
    for fault in faults:
        line = given.split("\n")[fault["line"] - 1]
        found = line.replace("\u2013", "-").replace("\u2014", "-").replace("\u00a0", " ")[fault["column"] - 1:]
        plain = "".join(letter if letter.isascii() else "?" for letter in found)
        assert not fault["found"] or plain.replace('"', "").startswith(fault["found"].replace('"', "")), (name, fault)


def check_entering(desk):
    """Rows as written are kept together, or none; and tried."""
    given = "clerk;command;case;date;rule;kind\n1;Open;7;Sep 2, 2025;;\n1;start;7;9/25/2025;FRCP 12(a)(1)(B);U.S. mail\n".encode()
    wrong = given + b"1;start;7;9/2/2025;59(e);\n"
    before = desk.journal.read_bytes()
    ended = desk.call("enter", "--all-or-nothing", "--as-written", given=wrong)
    assert ended.status == FAULTS and b"line 4 column 11" in told_of(ended)[0] and desk.journal.read_bytes() == before, ended
    tried = desk.call("try", "--as-written", given=given)
    assert tried.status == 0 and desk.journal.read_bytes() == before, tried
    ended = desk.call("enter", "--all-or-nothing", "--as-written", given=given)
    assert ended.status == 0 and ended.output == tried.output and ended.output.startswith(b"1 1 opened\n2 1 deadline 1 last 2025-10-2"), ended
    assert desk.rows().endswith(b"%%\n1,open,7,2025-09-02\n1,start,7,12a1B,2025-09-25,,,C\n"), desk.rows()
    ended = desk.call("enter", "--all-or-nothing", "--as-written", given=b'1,Open,1:25-CV-1234-abc,"Sep 2, 2025"\n1,sheet,1:25-cv-1234\n')
    assert ended.status == 0 and ended.output.endswith(b"case 1:25-cv-01234-ABC filed 2025-09-02\n"), ended
    assert desk.call("plain", given=b"1,open,7,2025-09-02").status not in (0, FAULTS)


def check_names(desk):
    """A deadline is named by its rule where just one under it is pending, and not ended, and the newest motion by `last`; the journal has
    their numbers."""
    def entered(given, *words):
        return desk.call("enter", "--as-written", *words, given=given.encode())

    begun = "1,open,21,2025-09-02\n1,start,21,59(b),2025-09-02\n1,start,21,59(e),2025-09-02\n1,start,21,59(b),2025-09-03\n"
    ended = entered(begun + "1,file,21,Rule 59(E),2025-09-10,09:00,electronic\n1,motion,21,2025-09-02,14\n1,motion,21,2025-09-03,14\n1,cancel,21,Last\n")
    assert ended.status == 0, ended
    assert desk.rows().endswith(b"1,file,21,2,2025-09-10,09:00,electronic\n1,motion,21,2025-09-02,14\n1,motion,21,2025-09-03,14\n1,cancel,21,2\n"), desk.rows()
    before = desk.journal.read_bytes()
    for given, said in [("1,file,21,59(e),2025-09-10,09:00,electronic\n", "no deadline of the case under 59e is pending: name one by its number"),
                        ("1,file,21,59(b),2025-09-10,09:00,electronic\n", "deadlines 1 and 3 of the case are pending under 59b: name one by its number"),
                        ("1,open,22,2025-09-02\n1,cancel,22,last\n", "the case has no motion")]:
        ended = entered(given, "--all-or-nothing")
        lines = told_of(ended)[0].decode()
        assert ended.status == FAULTS and not ended.output and desk.journal.read_bytes() == before, ended
        assert re.fullmatch("line {} would be answered: [0-9]+ 1 fault 4 BadField 4: {}\n".format(given.count("\n"), said), lines), ended
    tried = desk.call("try", "--as-written", given=b"1,file,21,59(b),2025-09-10,09:00,electronic\n1,file,21,1,2025-09-10,09:00,electronic\n1,file,21,59(b),2025-09-10,09:00,electronic\n")
    assert tried.output.count(b"filed timely") == 2 and b"deadlines 1 and 3" in tried.output and desk.journal.read_bytes() == before, tried
    # One that is ended is named by its number alone.
    ended = b"1,end,21,1,Moot,2025-09-10\n1,file,21,59(b),2025-09-10,09:00,electronic\n1,resume,21,59(b),,2025-09-11\n1,resume,21,1,,2025-09-11\n"
    tried = desk.call("try", "--as-written", given=ended)
    said = [b" ended\n", b" filed timely\n", b" fault 4 BadField 4: no deadline of the case under 59b is pending: name one by its number\n", b" resumed last "]
    assert all(words in line for words, line in zip(said, tried.output.splitlines(True))), tried
    assert len(tried.output.splitlines()) == len(said) and desk.journal.read_bytes() == before, tried
    # By its label any is named, also one that is ended; by one that two have none is, and by one that begins with a digit none in a written row.
    labels = b"1,label,21,deadline,1,answer of Acme\n1,label,21,motion,2,to amend\n1,label,21,deadline,3,reply\n1,label,21,deadline,2,reply\n"
    rows = b"1,end,21,answer of Acme,Moot,2025-09-10\n1, file, 21, answer of Acme, 2025-09-10, 9:00 AM, ECF\n1,rule,21,to amend,Granted,2025-09-10\n1,end,21,reply,Moot,2025-09-10\n1,cancel,21,reply\n"
    tried = desk.call("try", "--as-written", given=labels + rows)
    said = [b" labelled\n"] * 4 + [b" ended\n", b" filed timely\n", b" ruled\n", b" fault 4 BadField 4: deadlines 2 and 3 of the case are called so: name one by its number\n",
                                    b" fault 4 BadField 4: no motion of the case is called so: name one by its number or its label\n"]
    assert all(words in line for words, line in zip(said, tried.output.splitlines(True))), tried
    assert len(tried.output.splitlines()) == len(said) and desk.journal.read_bytes() == before, tried


def check_labels(desk):
    """What a row makes is called by its column `label`: the row that says so comes after it, on its line, and is no row where it made nothing."""
    given = ("clerk;command;case;date;rule;need;label\n1;open;31;2025-09-02;;;\n1;start;31;2025-09-04;Rule 12(a)(1)(A)(i);;answer of Acme\n"
             "1;Motion;31;2025-09-05;;14;to dismiss, with costs\n1;start;99;2025-09-04;59(e);;reply\n1;start;31;2025-09-04;59(e);;\n").encode()
    plain = (b'1,open,31,2025-09-02\n1,start,31,12a1Ai,2025-09-04,,,\n1,label,31,deadline,new,answer of Acme\n1,motion,31,2025-09-05,14\n'
             b'1,label,31,motion,new,"to dismiss, with costs"\n1,start,99,59e,2025-09-04,,,\n1,label,99,deadline,new,reply\n1,start,31,59e,2025-09-04,,,\n')
    ended = desk.call("plain", given=given)
    assert ended.status == 0 and ended.output == plain, ended
    said = [b" opened", b" deadline 1 last ", b" labelled", b" motion 1", b" labelled", b" refused 1 NoSuchCase",
            b" fault 4 BadField 5: the row before made no deadline in the case: name one by its number", b" deadline 2 last "]
    for words, text in [(["--as-written"], given), (["--as-written"], plain), ([], plain)]:
        tried = desk.call("try", *words, given=text)
        assert all(words in line for words, line in zip(said, tried.output.splitlines())) and len(tried.output.splitlines()) == len(said), tried
    for row, said in [("1;file;31;;;;late\n", "column 14"), ("1;start;31;2025-09-04;59(e);;{}\n".format("a" * 201), "column 30")]:
        ended = desk.call("plain", given=given[:given.index(b"\n") + 1] + row.encode())
        assert ended.status == FAULTS and "line 2 {}: ".format(said).encode() in told_of(ended)[0], ended


def check_whole(desk):
    """A trigger is kept whole, or none of its rows; one mark covers them all. What comes after the 64th deadline of a case is refused."""
    def entered(given, *words):
        ended = desk.call("enter", "--as-written", *words, given=given.encode())
        return ended.status, ended.output.decode().splitlines()

    status, lines = entered("1,open,51,2025-08-04\n1,trigger,51,judgment,2025-08-04\n1,trigger,52,judgment,2025-08-04\n")
    starts, held = lines[1:15], lines[15:]
    assert status == FAULTY and all(" deadline {} last ".format(n + 1) in starts[2 * n] and starts[2 * n + 1].endswith(" labelled") for n in range(7)), lines
    assert re.fullmatch("row [0-9]+ not kept:", held[0]) and held[-1] == "the rows of a line are kept together, so none of them is kept", lines
    assert sum(line == "  would be refused 1 NoSuchCase" for line in held) == 7 and not any("label" in line for line in held), lines
    labels = [row.split(",", 5)[5] for row in desk.rows().decode().splitlines() if row.startswith("1,label,51,")]
    assert labels == ["judgment: " + code for code in ["50b", "52b", "59b", "59e", "54d2B", "frap4a1A", "62a"]], labels
    early = "1,trigger,51,judgment,2025-08-01\n"
    before = desk.journal.read_bytes()
    status, lines = entered(early, "--warn")
    assert status == FAULTY and sum("the event lies before the filing of the case" in line for line in lines) == 7 and desk.journal.read_bytes() == before, lines
    assert lines[-1] == "enter the row with '!' before it to keep it all the same", lines
    status, lines = entered("!" + early, "--warn")
    assert status == 0 and len(lines) == 14 and lines[-1].endswith(" labelled"), lines
    status, lines = entered("1,start,51,59e,2025-08-04,,,\n" * 47 + "1,trigger,51,judgment,2025-08-04\n")
    rest = lines[47:]
    assert status == FAULTY and [" deadline " in line for line in rest[:6:2]] == [True] * 3 and all(" refused " in line or " fault " in line for line in rest[6:]), rest


def check_cases(desk, draw):
    """A case that was opened by its number in one form is found by it in all others, with any initials, and no other case is."""
    shown = sorted({read("{}{}-{}-{}".format(draw.choice(["", "1:", "2:", "3:", "4:"]), draw.choice(["24", "25"]), draw.choice(["cv", "cr", "bk", "ap", "mc", "mj"]),
                                             draw.randint(1, 99)))[0] for _ in range(60)})
    ended = desk.call("enter", given="".join("1,open,{},2025-09-02\n".format(spelled(draw, name)) for name in shown).encode())
    assert ended.status == 0 and ended.output.count(b" opened\n") == len(shown), ended
    names = {read(name)[0]: name for name in (line.split(" ")[1] for line in desk.call("cases").output.decode().splitlines())}
    tried = [(name, spelled(draw, name)) for name in shown for _ in range(5)]
    ended = desk.call("ask", given="".join("1,sheet,{}\n".format(text) for _, text in tried).encode())
    told = re.findall("^case (\\S+) filed", ended.output.decode(), re.MULTILINE)
    assert ended.status == 0 and told == [names[name] for name, _ in tried], (tried, told)
    plain = desk.call("plain", given="".join("1,sheet,{}\n".format(text) for _, text in tried).encode())
    assert [line.split(",")[2] for line in plain.output.decode().splitlines()] == [read(text)[1] for _, text in tried], plain
    again = desk.call("try", given="".join("1,open,{},2025-09-02\n".format(text) for _, text in tried[:9]).encode())
    assert again.output.count(b" refused 2 CaseIsOpen\n") == 9, again


def check_lines(desk):
    """A fault that is found once the rows are read names the line of the input, also as JSON."""
    entered = ["enter", "--all-or-nothing", "--as-written"]
    lines = ["\ufeffClerk,Command,Case,Date,Rule", "# Monday", "", "1,sheet,7,,", "1,sheet,1:25-cv-09999,,", ",,,,", "1,start,25-cv-9999,9/25/2025,59(e)"]
    for end in ["\n", "\r\n"]:
        given, before = end.join(lines + [""]).encode(), desk.journal.read_bytes()
        ended = desk.call(*entered, given=given)
        said = [re.fullmatch("line ([0-9]+) (fault .*)", line).groups() for line in told_of(ended)[0].decode().splitlines()]
        assert ended.status == FAULTS and [(int(line), words[:19]) for line, words in said] == [(5, "fault 4 BadField 3:"), (7, "fault 4 BadField 3:")], ended
        other = desk.call(*entered, "--json", given=given)
        assert other.status == FAULTS and not other.output and not ended.output, other
        assert json.loads(other.errors.decode()) == [{"line": int(line), "said": words} for line, words in said], (other, said)
        assert desk.journal.read_bytes() == before
    ended = desk.call(*entered, "--json", given=end.join(lines[:4] + [""]).encode())
    assert ended.status == 0 and b"case 7 filed" in ended.output, ended


def main(words):
    programs = programs_of(words[:1])
    with tempfile.TemporaryDirectory() as parent:
        desk = Desk(programs, parent, COURT)
        said = said_of(desk)
        if "--write" in words:
            SAID.write_text(said)
            print("written:", SAID, len(spoiled()))
            return
        assert said == SAID.read_text(), "what is said of spoiled lines isn't what runs/written/said.txt has"
        print("{} spoiled lines: what is said of them, also as JSON".format(len(spoiled())))
        seed, count = seed_and_count(words[1:], 20_000)
        draw = random.Random(seed)
        for style in STYLES:
            for _ in range(4):
                check_style(desk, draw, style, max(1, count // len(STYLES) // 4 + 1))
        print("{} rows in {} styles, each read as the row it was made from".format(count, len(STYLES)))
        print("{} of {} fields with blanks and dots in them are read, and the others are faults".format(check_broken(desk, draw, count, JUDGES, ROOMS, SHORTS), count))
        print("{} misspelt periods, each with its suggestion or with none".format(check_misspelt(desk, draw, count // 10)))
        print("{} sections whose periods are entered, each read as its text or said to be one of two".format(check_sections(desk, draw)))
        print("{} triggers, each written out as the rows that it starts".format(check_triggers(desk)))
        check_entering(desk)
        check_names(desk)
        check_labels(desk)
        check_whole(desk)
        check_lines(desk)
        check_cases(desk, draw)
        print("cases that were opened in one form of their numbers are found in all others")
        print("rows as written are tried, and kept together or not at all; their faults name the lines of the input")


if __name__ == "__main__":
    main(sys.argv[1:])
