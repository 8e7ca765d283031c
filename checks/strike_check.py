#!/usr/bin/env python3
"""Strikes and restores rows of dockets at random, and compares the desk with a replay in Python of the rows that stand.

    strike_check.py DOCKET CLERK_OFFICE [SEED [COUNT]]

COUNT dockets (100 without it) are entered. Then one to five rows of each are struck or restored, one after another, with rows
entered in between, and sometimes with another court's file. In the replay the number of a deadline or a motion belongs to the
row that gave it: the row gives the same whenever it is decided again, also after it was restored, and a row that gives one for
the first time gives the next after all that were ever given in its case. After each strike and each restore these are compared
with it: the row that the desk shows, the answers that it lists as changed, each deadline, hearing and ruling that it lists as another
than before, and each case that it lists as closed or assigned otherwise, the sheets of all cases and the calendars of all judges, the
answers to later rows, what clerk_office makes of the rows that the desk writes, which counts deadlines and motions by their places (or the
second program, where it doesn't take them all), and
the reports of the folder, which show the numbers of rows, deadlines and motions that `enter` answered. Without --accept a
strike or a restore that changes an answer changes nothing, but for the restore of a row that would be refused; a row that is struck
isn't struck again, and only such a row is restored. The first line of each correction must say the numbers that rows gave since the one before it and don't keep yet: those of
the replay, and those that the answers and the lists of the folder show. A case keeps its number and its name. A journal in which one correction says others, or a row has another answer,
is refused by `docket check`, and nothing opens it where that row comes after the last correction. It needs Python 3.8 or later.
"""
import json
import random
import re
import sqlite3
import sys
import tempfile

from lib.desk import Desk, REFUSED, SHORT_COURT, TEXTS, has_rows_of_desk, report_of
from lib.journal import CORRECTIONS, Said, corrections_in, packed, rows_of as rows_kept, said_in, struck_in, with_said
from lib.json_text import office_text
from lib.kept_numbers import GIVES, Numbers, said_wanted, to_say
from lib.memo_head import below_head, without_made
from lib.programs import Ended, programs_of, seed_and_count
from office_reference import ended as ended_by_reference
from reference.civil import day_text
from reference.court_file import court_of
from reference.docket import (STEPS, Fact, Ruling, assignment_of, closing_of, deadlines_of, ending_of, hearing_of, motions_of, opening,
                              ruling_of, step, view)
from reference.periods import shown
from reference.rows_in import rows_of
from reference.text_out import answer_lines, assigned_text, closing_lines, hearing_line, shown_text

DIFFERS, FAULT = 7, 3
WHY = ["--reason", "entered twice"]
CASES = (1, 2, 3)
JUDGES = ["Ames", "Brandt"]
# What a row names by its number.
NAMED = {"file": "deadline", "extend": "deadline", "reset": "deadline", "end": "deadline", "resume": "deadline", "book": "motion",
         "move": "motion", "cancel": "motion", "rule": "motion"}
# What things are called, as a line may have it that is read as people write lines.
CALLED = [text for text in TEXTS if text.isascii()]
# What of an event says when it was written, and which it is.
STAMPS = ("DTSTAMP", "LAST-MODIFIED", "SEQUENCE", "UID")

# How the memo of a case names the row that did something, with the blanks up to the next column.
BY_ROW = re.compile(r"\bby row (\d+)( *)")


def drawn_row(draw):
    """A row about three cases, of which many are refused."""
    case, number, day = draw.choice(CASES), draw.randint(1, 5), "2025-{:02}-{:02}".format(draw.randint(3, 9), draw.randint(1, 28))
    return draw.choice([
        "1,open,{},{}".format(case, day),
        "1,start,{},{},{},,,".format(case, draw.choice(["4m", "12a1Ai", "59b", "59e"]), day),
        "1,start,{},{},{},,,".format(case, draw.choice(["4m", "12a1Ai", "59b", "59e"]), day),
        "1,set,{},{},{},{}".format(case, day, draw.choice(["", "09:30"]), draw.choice(["filing", "service"])),
        "1,file,{},{},{},10:00,electronic".format(case, number, day),
        "1,extend,{},{},+7d,{},09:00,yes,yes,yes".format(case, number, day),
        "1,reset,{},{},{},{},{}".format(case, number, day, draw.choice(["", "", "09:30"]), day),
        "1,end,{},{},{},{}".format(case, number, draw.choice(["moot", "vacated", "stayed", "suspended", "withdrawn"]), day),
        "1,resume,{},{},{},{}".format(case, number, draw.choice(["", day]), day),
        draw.choice(["1,close,{},settled,{}", "1,reopen,{},{}", "1,reopen,{},{}"]).format(case, day),
        "1,assign,{},{},{},{}".format(case, draw.choice(JUDGES), draw.choice(["", "", *JUDGES]), day),
        draw.choice(["1,title,{case},{text}", "1,label,{case},{of},{number},{text}"]).format(
            case=case, of=draw.choice(["deadline", "motion"]), number=number, text=draw.choice(CALLED)),
        "1,motion,{},{},{}".format(case, day, draw.choice(["14", "7", "exparte"])),
        "1,motion,{},{},{}".format(case, day, draw.choice(["14", "7", "exparte"])),
        "1,{},{},{},Ames,R1,{},{:02}:00,1,{}".format(draw.choice(["book", "move"]), case, number, day, draw.randint(8, 16), "2025-03-03"),
        "1,cancel,{},{}".format(case, number),
        "1,rule,{},{},{},{}".format(case, number, draw.choice(["granted", "denied", "in part", "moot", "withdrawn", "reserved"]), day),
        "1,holiday,{},state".format(day),
        "1,sheet,{}".format(case),
    ]).encode() + b"\n"


def opened(draw):
    """Rows that open most of the cases."""
    return [b"1,open,%d,2025-02-03\n" % case for case in CASES if draw.random() < 0.8]


def chosen_row(draw, lines):
    """The number of a row to strike: often one that opens a case, on which all others of the case rest."""
    opens = [number for number, line in enumerate(lines, 1) if b",open," in line]
    return draw.choice(opens) if opens and draw.random() < 0.3 else draw.randint(1, len(lines))


class Replay:
    """The docket of the rows that aren't struck. `given` has the number that each row ever gave, with its word and its case."""

    def __init__(self, court, rows, struck, given):
        self.court, self.struck, self.given = court, struck, dict(given)
        self.docket, self.count, self.answers = opening(court), 0, []
        for row in rows:
            self.take(row)

    def number_of(self, row, word, case):
        """The number that a row gives: its own, or the next of its case."""
        if row not in self.given:
            number = 1 + max([number for other, of, number in self.given.values() if (other, of) == (word, case)], default=0)
            self.given[row] = (word, case, number)
        return self.given[row][2]

    def numbered(self, word, case):
        """Gives the deadline or the motion of the row that was decided last its number in place of its place."""
        kind = "deadlines" if word == "start" else "motions"
        items, number = getattr(self.docket, kind), self.number_of(self.count, word, case)
        self.docket = self.docket._replace(**{kind: items[:-1] + [items[-1]._replace(number=number)]})
        return number

    def take(self, line):
        """The answer to the next row, as the lines of its entry; a row that is struck has none."""
        self.count += 1
        row, = rows_of(line, 64, self.court, True)
        if self.count in self.struck:
            self.answers.append(None)
            return None
        if row.work[0] in STEPS:
            self.docket, answer = step(self.court, self.docket, row.work)
            if answer[0] in ("started", "motion"):
                answer = (answer[0], self.numbered(row.work[0], row.work[1])) + answer[2:]
        else:
            answer = view(self.court, self.docket, row.work)
        self.answers.append(self.lines(row, answer))
        return self.answers[-1]

    def lines(self, row, answer):
        first, *more = answer_lines(self.court, self.docket, answer)
        return "".join(line + "\n" for line in ["{} {} {}".format(self.count, row.clerk, first)] + more).encode()

    def moved(self):
        """The number of each deadline and motion, by the kind, and then by the case and the place."""
        table = {"deadline": {}, "motion": {}}
        for kind, items in (("deadline", self.docket.deadlines), ("motion", self.docket.motions)):
            for case in CASES:
                for place, item in enumerate([item for item in items if item.case == case], 1):
                    table[kind][case, place] = item.number
        return table

    def by_places(self):
        """The docket with the places of deadlines and motions as their numbers, as clerk_office counts them."""
        places = {kind: {(case, number): place for (case, place), number in of_kind.items()} for kind, of_kind in self.moved().items()}

        def motion(item, number):
            return places["motion"][item.case, number]

        def fact(item):
            if isinstance(item, Ruling):
                return item._replace(motion=motion(item, item.motion))
            if isinstance(item, Fact) and item.deadline is not None:
                return item._replace(deadline=places["deadline"][item.case, item.deadline])
            return item
        return self.docket._replace(
            deadlines=[item._replace(number=places["deadline"][item.case, item.number]) for item in self.docket.deadlines],
            motions=[item._replace(number=motion(item, item.number)) for item in self.docket.motions],
            hearings=[item._replace(motion=motion(item, item.motion)) for item in self.docket.hearings],
            facts=[fact(item) for item in self.docket.facts])


def is_done(number, answer):
    """Whether an answer says that its row was done."""
    words = answer.split(b" ", 2)
    return words[0] == b"%d" % number and not words[2].startswith(b"refused ")


def mark_of(number, was, then):
    """The line of a row that is done with one of these answers alone."""
    before, after = is_done(number, was), is_done(number, then)
    if before == after:
        return b""
    return b"row %d was %s\n" % (number, b"done and would no longer be" if before else b"not done and would be")


def changed(kept, now, after, but=None):
    """What the desk has to list of answers: the rows that are answered otherwise after a correction than now, but for one. A row that is
    struck has no answer; one that is restored counts as answered as it is kept."""
    text = b""
    for number, ((row, answer), had, then) in enumerate(zip(kept, now.answers, after.answers), 1):
        was = answer if had is None else had
        if then is None or then == was or number == but:
            continue
        text += b"row %d is kept as\n" % number + row + answer
        if was != answer:
            text += b"row %d is answered now\n" % number + was
        text += b"and would be answered\n" + then + mark_of(number, was, then)
    return text


def said_by(given):
    """What rows gave, as a correction says it, by row."""
    return {row: Said(row, case, GIVES[word.encode()], number) for row, (word, case, number) in given.items()}


def spoiled(said, rows, draw):
    """Numbers that differ from these, in a folder of `rows` rows."""
    at = draw.randrange(len(said)) if said else 0
    ways = [said + [Said(rows + 1, 1, "deadline", 1)], [Said(1, 4000, "motion", 1)] + said]
    if said:
        ways += [said[:at] + said[at + 1:], said[:at] + [said[at]] + said[at:],
                 *(said[:at] + [said[at]._replace(**other)] + said[at + 1:] for other in (
                     {"number": said[at].number + 1}, {"case": said[at].case + 1}, {"row": said[at].row + 1},
                     {"kind": "motion" if said[at].kind == "deadline" else "deadline"}))]
    if len(said) > 1:
        ways.append(said[1:] + said[:1])
    return draw.choice(ways)


def compare_said(desk, wanted, lists):
    """What the corrections say: `wanted` is what the replay has of each, and `lists` what each wrote."""
    journal = desk.read()
    corrections = corrections_in(journal)
    assert [said_in(entry) for _, entry in corrections] == wanted, (corrections, wanted)
    assert said_wanted(journal, lists) == wanted, (wanted, said_wanted(journal, lists))
    assert all(with_said(entry, said) == entry for (_, entry), said in zip(corrections, wanted)), corrections


def refused_where(desk, journal, place, entry, words, tasks):
    """Each of these calls refuses the journal in which this entry is at that place, in these words."""
    whole = desk.journal.read_bytes()
    entries = journal.entries[:place] + [entry] + journal.entries[place + 1:]
    desk.journal.write_bytes(packed([[both] for both in zip(journal.stamps, entries)]))
    for task in tasks:
        ended = desk.call(task)
        assert ended.status == REFUSED and not ended.output and words in ended.errors, (task, journal.entries[place], entry, ended)
    desk.journal.write_bytes(whole)


def check_spoiled(desk, draw):
    """`docket check` refuses the journal where one of its corrections says other numbers, or one of its rows has another answer. Where
    it is a row after the last correction, no folder with it is opened."""
    journal = desk.read()
    places = range(1, len(journal.entries))
    corrections = [place for place in places if journal.entries[place].startswith(CORRECTIONS)]
    rows = [place for place in places if place not in corrections]
    if corrections:
        place = draw.choice(corrections)
        entry = journal.entries[place]
        other = with_said(entry, spoiled(said_in(entry), sum(row < place for row in rows), draw))
        refused_where(desk, journal, place, other, b"entry %d of the journal " % (place + 1), ["check"])
    last = max(corrections, default=0)
    for chosen in (draw.choice(rows), *[place for place in rows if place > last][-1:]):
        refused_where(desk, journal, chosen, journal.entries[chosen][:-1] + b"0\n", b"row %d has another answer " % (1 + rows.index(chosen)),
                      ["check", "cases", "ask"] if chosen > last else ["check"])


def ends_of(replay, case):
    """The ends of the deadlines of a case, by their numbers, and why those are due no more that are ended."""
    rows, court = replay.docket, replay.court
    found = {}
    for deadline in deadlines_of(rows, case):
        ended = ending_of(rows, case, deadline.number)
        end = shown_text(court, shown(rows.days, court.clock, deadline.row))
        found[deadline.number] = end if ended is None else "{}, ended {}".format(end, ended)
    return found


def hearings_in(replay, case):
    """The hearings of a case, by the numbers of their motions, and how these were ruled on."""
    found = {}
    for motion in motions_of(replay.docket, case):
        hearing, ruled = hearing_of(replay.docket, case, motion.number), ruling_of(replay.docket, case, motion.number)
        texts = [] if hearing is None else [hearing_line(replay.court, replay.docket, hearing)]
        texts += [] if ruled is None else ["{} {}".format(ruled.how, day_text(ruled.dated))]
        if texts:
            found[motion.number] = ", ".join(texts)
    return found


def filed_in(replay, case):
    """When a case was filed; None of one that isn't open."""
    return next((day_text(each.filed) for each in replay.docket.cases if each.number == case), None)


def filed_line(case, was, then):
    """What the desk has to list of a case that is open before or after alone, or was filed on another day."""
    if was == then:
        return ""
    if then is None:
        return "  case {}: filed {}, now not open; its number is given to no other case\n".format(case, was)
    return "  case {}: {}, now filed {}\n".format(case, "not open" if was is None else "filed " + was, then)


def closing_in(replay, case):
    """How a case was closed, as a shift of it has it."""
    closed = closing_of(replay.docket, case)
    return "not closed" if closed is None else "closed {} {}".format(day_text(closed.dated), closed.why)


def assigned_in(replay, case):
    """Who has a case, and since which day, as a shift of it has it."""
    assignment = assignment_of(replay.docket, case)
    if assignment is None:
        return "not assigned"
    return assigned_text(replay.court, replay.docket, case).replace("assigned ", "assigned {} to ".format(day_text(assignment.dated)), 1)


def told_line(told_in, case, now, after):
    """What the desk has to list of a case that is open before and after, and is shown otherwise after."""
    was, then = told_in(now, case), told_in(after, case)
    is_open = filed_in(now, case) and filed_in(after, case)
    return "  case {}: {}, now {}\n".format(case, was, then) if is_open and was != then else ""


def shifts(now, after):
    """What the desk has to list of cases, deadlines and motions: those that are shown otherwise after a correction than now."""
    text = ""
    for case in CASES:
        text += filed_line(case, filed_in(now, case), filed_in(after, case))
        text += told_line(closing_in, case, now, after) + told_line(assigned_in, case, now, after)
        for word, shown_in in (("deadline", ends_of), ("motion", hearings_in)):
            was, then = shown_in(now, case), shown_in(after, case)
            for number in [*was, *(number for number in then if number not in was)]:
                before, later = was.get(number, "none"), then.get(number, "none")
                if before != later:
                    text += "  case {} {} {}: {}, now {}\n".format(case, word, number, before, later)
    return text.encode()


def told_first(kept, word, row):
    """The row that is struck or restored, as the desk shows it before all else."""
    entry = b"".join(kept[row - 1])
    return b"%s of row %d:\n  " % (word.encode(), row) + entry[:-1].replace(b"\n", b"\n  ") + b"\n"


def answers_in(text):
    """The answers of a text, and the lines after all answers."""
    answers, closing = [], []
    for line in text.splitlines():
        if re.match("[0-9]+ 1 ", line):
            answers.append([line])
        elif answers and not closing and (answers[-1][-1].endswith(" 1 sheet") or not re.match("case|judge", line)):
            answers[-1].append(line)
        else:
            closing.append(line)
    return answers, closing


def sequences(desk):
    """The SEQUENCE of each event of the folder's calendar by its UID, and all else that the event says, but for its stamps."""
    events = {}
    for event in report(desk, "ics").replace("\r\n ", "").split("BEGIN:VEVENT\r\n")[1:]:
        lines = dict(line.split(":", 1) for line in event.partition("END:VEVENT")[0].splitlines())
        assert lines["UID"] not in events, lines
        events[lines["UID"]] = int(lines["SEQUENCE"]), {name: text for name, text in lines.items() if name not in STAMPS}
    return events


def uid_of(case, number):
    """What a calendar program knows a deadline by."""
    return "case-{}-deadline-{}@jerghuma".format(case, number)


def beyond(replay):
    """The deadlines that end beyond the days covered, which have no event."""
    found, case = set(), None
    for line in closing_lines(replay.court, replay.docket):
        words = line.split(" ")
        if words[0] == "case":
            case = words[1]
        elif words[0] == "deadline" and words[3] == "beyond":
            found.add(uid_of(case, words[1]))
    return found


def unsaid(kept):
    """The hearings whose events may vanish without a word: those that only rows set which were refused when they were entered, as an
    entry keeps the first answer alone."""
    named, done = set(), set()
    for number, (row, answer) in enumerate(kept, 1):
        fields = row.decode().rstrip("\n").split(",")
        if fields[1] in ("book", "move"):
            motion = int(fields[2]), int(fields[3])
            named.add(motion)
            if is_done(number, answer):
                done.add(motion)
    return {"case-{}-motion-{}@jerghuma".format(*motion) for motion in named - done}


def compare_calendars(before, after, kept, replay, what):
    """What a calendar program takes of the calendar after a strike or a restore: no SEQUENCE falls, what an event says otherwise has a
    higher one, and none vanishes, but for a deadline that ends beyond the days covered and what may be left unsaid. The deadlines that
    rows started once and start no more are cancelled, those that are ended, and no others."""
    for uid, (old, said) in before.items():
        new, says = after.get(uid, (old, said))
        assert new > old or new == old and said == says, (what, uid, before[uid], after[uid])
        assert uid in after or uid in beyond(replay) or uid in unsaid(kept), (what, uid)
    started = {uid_of(case, number) for word, case, number in replay.given.values() if word == "start"}
    cancelled = {uid for uid, (_, says) in after.items() if "-deadline-" in uid and says.get("STATUS") == "CANCELLED"}
    left = replay.docket.deadlines
    ended = {uid_of(item.case, item.number) for item in left if ending_of(replay.docket, item.case, item.number) is not None}
    lost = started - {uid_of(item.case, item.number) for item in left}
    assert cancelled == lost | ended - beyond(replay), (what, cancelled)


def report(desk, *words):
    """What a report of the folder says."""
    ended = desk.call(*words)
    assert ended.status == 0 and not ended.errors, (words, ended)
    return ended.output.decode()


def compare_case(desk, numbers, rows, case):
    """The memo of one case of the folder, which is that of the rows that are written, whose numbers in the folder these are."""
    told = desk.call("memo", "--case", case)
    other = report_of(desk.programs, ["memo", "--case", str(case)], rows)
    wanted = [numbers.line(case, BY_ROW.sub(lambda found: "by row {}".format(numbers.of_row(int(found[1]))).ljust(len(found[0])), line))
              for line in without_made(other.output.decode()).splitlines()]
    assert (told.status, without_made(told.output.decode())) == (other.status, "".join(line + "\n" for line in wanted)), (told, other)


def rows_written(desk, replay):
    """The numbers of the rows that the desk writes: those that aren't struck, but for one that names a number which nothing has where
    something else is at the place of that number."""
    moved, found = replay.moved(), []
    for number, (row, _) in enumerate(rows_kept(desk.read()), 1):
        fields = row.decode().rstrip("\n").split(",")
        if number in replay.struck:
            continue
        if fields[1] in NAMED or fields[1] == "label":
            kind, said = (fields[3], fields[4]) if fields[1] == "label" else (NAMED[fields[1]], fields[3])
            of_kind, case, named = moved[kind], int(fields[2]), int(said)
            if (case, named) in of_kind and named not in [kept for (of, _), kept in of_kind.items() if of == case]:
                continue
        found.append(number)
    return found


def compare_reports(desk, replay, rows, what):
    """What the reports of the folder show: answers, sheets and calendars, with the numbers of the desk."""
    text = office_text(json.loads(report(desk, "json")))
    kept = b"".join(answer for answer in replay.answers if answer is not None).decode()
    found, closing = answers_in(text)
    wanted = answers_in(kept)[0]
    assert closing == closing_lines(replay.court, replay.docket), (what, closing)
    assert found == wanted, (what, found, wanted)
    bare = "".join(line + "\n" for line in below_head(report(desk, "memo")).splitlines() if not line.startswith(" "))
    assert bare == text, (what, bare, text)
    base = sqlite3.connect(":memory:")
    base.executescript(report(desk, "sql"))
    assert ["{} {} {}".format(*row).split("\n") for row in base.execute("SELECT number, clerk, answer FROM answers ORDER BY number")] == found, what
    numbers = Numbers(rows_written(desk, replay), replay.moved())
    for case in CASES:
        compare_case(desk, numbers, rows, case)


def compare(desk, replay, what):
    """The sheets, the calendars, the rows that are written, and the reports."""
    asked = [b"1,sheet,%d\n" % case for case in CASES] + [b"1,calendar,%s,2025-05-05\n" % judge.encode() for judge in replay.court.judges]
    told = desk.call("ask", given=b"".join(asked))
    assert told.status == 0, told
    expected = b""
    for line in asked:
        row, = rows_of(line, 64, replay.court, True)
        first, *more = answer_lines(replay.court, replay.docket, view(replay.court, replay.docket, row.work))
        expected += "".join(line + "\n" for line in ["{} {} {}".format(replay.count + 1, row.clerk, first)] + more).encode()
    assert told.output == expected, (what, told.output, expected)
    rows = desk.call("rows")
    assert rows.status == 0 and not rows.errors and rows.output.startswith(desk.input_of([])), (what, rows)
    ended = Ended(*ended_by_reference(rows.output, at_desk=True)) if has_rows_of_desk(rows.output) else desk.programs.office(rows.output)
    closing = "".join(line + "\n" for line in closing_lines(replay.court, replay.by_places())).encode()
    assert ended.status == 0 and ended.output.endswith(closing), (what, ended, closing)
    compare_reports(desk, replay, rows.output, what)


def other_court(draw):
    """The court's file with another holiday, and perhaps with one judge less: deadlines move by the holiday, and hearings and assignments
    may be refused."""
    court = SHORT_COURT.replace(b'"2025-07-04"', b'"2025-07-04", "2025-%02d-%02d"' % (draw.randint(3, 9), draw.randint(1, 28)))
    return court.replace(b'"Ames", "Brandt"', draw.choice([b'"Ames", "Brandt"', b'"Ames"', b'"Brandt", "Ames"']))


def drawn_correction(draw, lines, struck):
    """A strike or a restore, and the number of its row: now and then of one that can't be."""
    if struck and draw.random() < 0.5:
        return "restore", draw.choice(sorted(struck)) if draw.random() < 0.8 else chosen_row(draw, lines)
    return "strike", chosen_row(draw, lines)


def wrong_with(word, row, lines, struck):
    """What the desk has to say of a strike or a restore that can't be; None of one that can."""
    if word == "restore":
        return None if row in struck else b"isn't struck"
    if row in struck:
        return b"struck already"
    return b"no command" if lines[row - 1].split(b",")[1] == b"sheet" else None


def correct(desk, word, row, now, after):
    """Strikes or restores a row; the docket is the first of these before it, and the other after it. Gives how many answers
    changed, and what was written."""
    before, kept = desk.journal.read_bytes(), rows_kept(desk.read())
    differs = changed(kept, now, after)
    undone = word == "restore" and not is_done(row, after.answers[row - 1])
    asks = changed(kept, now, after, row if undone else None)
    text = told_first(kept, word, row) + differs + shifts(now, after)
    ended = desk.call(word, row, *WHY)
    assert ended.output == text, (word, row, ended, text)
    assert ended.status == (DIFFERS if asks else 0), (word, row, ended)
    if asks:
        assert desk.journal.read_bytes() == before, "a correction that isn't taken changed the journal"
        ended = desk.call(word, row, "--accept", *WHY)
        assert ended.status == 0 and ended.output == text, (word, row, ended, text)
    assert struck_in(desk.read()) == after.struck
    return differs.count(b" is kept as\n"), text


def check_names(programs):
    """A case keeps its number and its name, whatever row is struck or restored: no other case is given them, and no deadline comes to
    be another case's. The row that named a case first may be one that was refused."""
    with tempfile.TemporaryDirectory() as parent:
        desk = Desk(programs, parent, SHORT_COURT)

        def corrected(word, row):
            """What a correction writes, and the cases that have names after it."""
            ended = desk.call(word, row, "--accept", *WHY)
            assert ended.status == 0, ended
            return ended.output, desk.call("cases").output

        entered = desk.enter([b"1,open,1:25-cv-5,1999-01-04\n", b"1,open,1:25-cv-5,2025-01-06\n", b"1,start,1:25-cv-5,59e,2025-08-04,,,\n"])
        assert entered == b"1 1 refused 5 BadDay\n2 1 opened\n3 1 deadline 1 last 2025-09-02\n", entered
        named, other = b"1 1:25-cv-00005\n", b"2 1:25-cv-00099\n"
        for word in ("strike", "restore"):
            assert corrected(word, 1)[1] == named, word
        written, cases = corrected("strike", 2)
        assert cases == named and b"\n  case 1:25-cv-00005: filed 2025-01-06, now not open; its number is given to no other case\n" in written, written
        entered = desk.enter([b"1,open,1:25-cv-99,2025-01-07\n", b"1,start,1:25-cv-99,59b,2025-08-04,,,\n"])
        assert entered == b"4 1 opened\n5 1 deadline 1 last 2025-09-02\n" and desk.call("cases").output == named + other, entered
        written, cases = corrected("restore", 2)
        assert cases == named + other and b"\n  case 1:25-cv-00005: not open, now filed 2025-01-06\n" in written and b"00099" not in written, written
        for name, deadline in (("1:25-cv-5", b"59e"), ("1:25-cv-99", b"59b")):
            assert b" 1 " + deadline + b" last 2025-09-02 pending" in desk.call("sheet", name).output, name
        logged = desk.call("log", "--case", "1:25-cv-99").output
        assert logged.startswith(b"row 4 ") and b"00005" not in logged, logged


def check_docket(programs, draw):
    """One docket, of which rows are struck and restored. Gives how many were struck, how many restored, how many answers
    changed, and how many numbers were said."""
    with tempfile.TemporaryDirectory() as parent:
        desk, court = Desk(programs, parent, SHORT_COURT), court_of(SHORT_COURT)
        lines, struck, given, many, done = [], set(), {}, 0, {"strike": 0, "restore": 0}
        kept, said, lists = {}, [], []

        def corrected(written):
            """Takes down what the correction has to say that was made, and what it wrote."""
            nonlocal kept
            said.append(to_say(said_by(given), kept))
            kept = said_by(given)
            lists.append(written)
        for _ in range(draw.randint(1, 5)):
            now = Replay(court, lines, struck, given)
            if draw.random() < 0.3:
                file = other_court(draw)
                court = court_of(file)
                after = Replay(court, lines, struck, given)
                ended = desk.take_court(file)
                assert ended.status == 0 and ended.output == changed(rows_kept(desk.read()), now, after) + shifts(now, after), (file, ended)
                corrected(ended.output)
                given = after.given
            more = opened(draw) + [drawn_row(draw) for _ in range(draw.randint(5, 25))]
            replay = Replay(court, lines, struck, given)
            answers = b"".join(replay.take(line) for line in more)
            lines += more
            assert desk.enter(more) == answers, (more, answers)
            given = replay.given
            word, row = drawn_correction(draw, lines, struck)
            wrong = wrong_with(word, row, lines, struck)
            if wrong:
                ended = desk.call(word, row, *WHY)
                assert ended.status == FAULT and wrong in ended.errors, (word, row, ended)
                continue
            calendar = sequences(desk)
            struck = struck - {row} if word == "restore" else struck | {row}
            after = Replay(court, lines, struck, given)
            changes, written = correct(desk, word, row, replay, after)
            corrected(written)
            many += changes
            given, done[word] = after.given, done[word] + 1
            compare(desk, after, (lines, word, row))
            compare_calendars(calendar, sequences(desk), rows_kept(desk.read()), after, (lines, word, row))
            assert b"rows kept: %d," % len(lines) in desk.call("check").output
        compare_said(desk, said, lists)
        check_spoiled(desk, draw)
        numbers = list(given.values())
        assert len(set(numbers)) == len(numbers), "a number was given twice"
        listed = desk.call("struck").output
        found = re.findall(rb"^row (\d+) struck \d{4}-\d\d-\d\d by [^@:]+@[^@:]+ \(\d+\): entered twice\n", listed, re.MULTILINE)
        assert listed.count(b"\n") == len(struck) and {int(row) for row in found} == struck, listed
        return done["strike"], done["restore"], many, sum(map(len, said))


def main(words):
    if not 2 <= len(words) <= 4:
        print(__doc__, file=sys.stderr)
        return 1
    programs, (seed, count) = programs_of(words[:2]), seed_and_count(words[2:], 100)
    draw = random.Random(seed)
    check_names(programs)
    counted = [check_docket(programs, draw) for _ in range(count)]
    print("{} dockets: {} rows were struck, {} were restored, {} answers changed, and corrections said {} numbers, each as a replay of the rows that stand says".format(
        count, *map(sum, zip(*counted))))
    return 0


if __name__ == "__main__":
    sys.exit(main(sys.argv[1:]))
