"""The events that a calendar must have, by what clerk_office says of its input."""
import datetime
import os
import re
import time
from collections import namedtuple

from lib.assigned import judges_in
from lib.case_names import called
from lib.given_docket import LAST_ROW
from lib.memo_lines import closing_of, ended_in, other_day, other_of, reasons_of
from lib.period_words import RULES, SET
from reference.periods import period_of_text
from reference.rule6 import FILING

UNITS = {"d": ("day", "days"), "h": ("hour", "hours")}
ACTS = {"filing": "to file", "service": "to serve"}
# With what a reading begins as what is due marks it.
OTHER = "other reading "
STATES = {"timely": ", filed in time", "late": ", filed late"}

# `ended` says that it is a deadline that was ended and not resumed.
Item = namedtuple("Item", "day second case kind number summary description begins ends room panel ended", defaults=(False,))
Hearing = namedtuple("Hearing", "day first count panel room notice affidavits")
# A deadline that no row starts any more: its case and number, the code of its period, and the day from which it ran.
Lost = namedtuple("Lost", "case number code day")
Docket = namedtuple("Docket", "items before beyond")
# A docket, as clerk_office answers it: its court's file, its judges, its rows and the answers to them by their numbers, and what
# is on the calendar.
Answered = namedtuple("Answered", "court judges rows answers docket")


# The court's clock, by the C library


class Clock:
    """What a zone's clock shows, and the first instant at which it shows a civil time."""

    def __init__(self, zone):
        fixed = re.fullmatch(r"([+-])(\d\d):(\d\d)", zone)
        if fixed:
            sign, hours, minutes = fixed.groups()
            zone = "<XXX>{}{}:{}".format("-" if sign == "+" else "+", hours, minutes)
        self.zone = zone

    def offset(self, instant):
        os.environ["TZ"] = self.zone
        time.tzset()
        return time.localtime(instant).tm_gmtoff

    def instant(self, day, second):
        civil = (day - datetime.date(1970, 1, 1)).days * 86400 + second
        offsets = {self.offset(civil + days * 86400) for days in range(-200, 201, 50)} | {self.offset(civil)}
        shown = [civil - offset for offset in offsets if self.offset(civil - offset) == offset]
        return min(shown) if shown else civil - min(offsets)

    def utc(self, day, second):
        return datetime.datetime.fromtimestamp(self.instant(day, second), datetime.timezone.utc)


# What clerk_office says


def day_of(text):
    return datetime.date.fromisoformat(text)


def seconds(text):
    return sum(int(part) * unit for part, unit in zip(text.split(":"), (3600, 60, 1)))


def quarters(text):
    return int(text[:-1]) if text.endswith("q") else 2 * int(text)


def period_in_words(code):
    """What a deadline is called, and how its period is described."""
    if "/" not in code:
        _, what, section, event = RULES[code]
        return what, "{}, {} (Fed. R. Civ. P. {})".format(what, event, section)
    if code in SET:
        return SET[code], SET[code]
    length, side, act, start, mark = code.split("/")
    count = int(length[:-1])
    words = "{} {} {} {}, {}".format(count, UNITS[length[-1]][count != 1], side,
                                     "service" if start == "served" else "the event", ACTS[act])
    words = words if mark == "plain" else "{} ({})".format(words, mark)
    return words, words


def deadline_item(names, case, words, closes, other):
    number, code, end = int(words[1]), words[2], words[3]
    if end == "beyond":
        return None
    what, described = period_in_words(code)
    day, state = day_of(words[4]), words[6] if end == "until" else words[5]
    ended = ended_in(words)
    summary = "Case {} deadline {}: {}{}{}".format(called(names, case), number, what, STATES.get(state, ""),
                                                   ", ended " + ended if ended else "")
    if end == "until":
        ending, second = "The time ends at {} on the court's clock".format(words[5]), seconds(words[5])
        begins = (day, second)
    else:
        ending, second, begins = "The time ends with this day, at midnight", 0, None
        if (code.split("/")[1] if code in SET else period_of_text(code).act) == FILING:
            ending += "; for filing on paper when the clerk's office closes, at " + closes
    reading = "" if other is None else "\nBy another reading of the Rules: {}.".format(other[len(OTHER):])
    return Item(day, second, case, 0, number, summary, "Period: {}.\n{}.{}".format(described, ending, reading), begins, None, None,
                None, ended is not None)


def lost_item(names, lost):
    """A deadline that no row starts any more, on the day from which it ran."""
    what, described = period_in_words(lost.code)
    return Item(lost.day, 0, lost.case, 0, lost.number, "Case {} deadline {}: {}".format(called(names, lost.case), lost.number, what),
                "Period: {}.\nIt was taken off the docket.".format(described), None, None, None, None)


def lost_of(row, number):
    """What the row that started a deadline leaves of it once it is struck."""
    fields = row.split(",")
    if fields[1] == "set":
        return Lost(int(fields[2]), number, "set/" + fields[5], day_of(fields[3]))
    return Lost(int(fields[2]), number, fields[3], day_of(fields[4]))


def hearing_item(names, case, number, hearing):
    second = 900 * hearing.first
    summary = "Case {} motion {}: hearing before {}, room {}".format(called(names, case), number, hearing.panel,
                                                                    hearing.room)
    description = "Notice of the hearing was served on {}.".format(hearing.notice)
    if hearing.affidavits not in (None, "none"):
        description += "\nThe last day to serve an opposing affidavit is {} (Fed. R. Civ. P. 6(c)(2)).".format(
            hearing.affidavits)
    return Item(hearing.day, second, case, 1, number, summary, description, (hearing.day, second),
                (hearing.day, second + 900 * hearing.count), "Room " + hearing.room, hearing.panel.split("+"))


def hearing_of(words):
    """The hearing that `DATE HH:MM SLOTS JUDGE ROOM notice DATE affidavits DATE` shows."""
    return Hearing(day_of(words[0]), seconds(words[1]) // 900, quarters(words[2]), words[3], words[4], words[6], words[8])


def docket_of(names, lines, closes, reasons):
    """What the sheets at the end of a text say, where cases have these names and deadlines these reasons: the items, the judges whom each
    case is before, and the deadlines that end beyond the days covered."""
    items, assigned, heard, beyond, case, motion = [], {}, {}, set(), None, None
    for line in lines:
        words = line.split(" ")
        if words[0] == "case":
            case = int(words[1])
        elif words[0] == "assigned":
            assigned[case] = set(judges_in(line))
        elif words[0] == "deadline":
            items.append(deadline_item(names, case, words, closes, other_of(reasons[case, int(words[1])])))
            if items[-1] is None:
                beyond.add(uid(case, 0, int(words[1])))
        elif words[0] == "motion":
            motion = int(words[1])
        elif words[0] == "hearing":
            item = hearing_item(names, case, motion, hearing_of(words[1:]))
            items.append(item)
            heard.setdefault(case, set()).update(item.panel)
        elif words[0] == "judge":
            break
    return Docket([item for item in items if item], {**heard, **assigned}, beyond)


def histories_of(rows, answers, judge):
    """What became of the hearing of each motion, as that judge saw it or as all did: as it was set last, and whether it is
    off."""
    known = {}
    for number, row in rows.items():
        fields = row.split(",")
        answer = answers.get(number, "")
        if not (fields[1] in ("book", "move", "cancel") or answer.startswith("ruled, hearing of ")) or answer.startswith("refused"):
            continue
        key = int(fields[2]), int(fields[3])
        if fields[1] in ("book", "move") and (judge is None or judge in fields[4].split("+")):
            known[key] = Hearing(day_of(fields[6]), seconds(fields[7]) // 900, quarters(fields[8]), fields[4], fields[5],
                                 fields[9], None), False
        elif key in known:
            known[key] = known[key][0], True
    return known


def given_to(rows, answers, judge):
    """The cases that rows assigned or referred to that judge."""
    assigned = [row.split(",") for number, row in rows.items() if answers.get(number) == "assigned"]
    return {int(fields[2]) for fields in assigned if judge in fields[3:5]}


def named_order(rows, answers):
    """The motions of which a row set, moved or took off the hearing, by their case and in the order in which rows name them first."""
    keys = [(int(fields[2]), int(fields[3])) for number, fields in ((number, row.split(",")) for number, row in rows.items())
            if fields[1] in ("book", "move", "cancel") and not answers.get(number, "").startswith("refused")]
    return sorted(dict.fromkeys(keys), key=lambda key: key[0])


def revisions_of(rows, answers):
    """The last row that changed the court's days (at 0), and the last that changed a deadline or a hearing of each case."""
    last = {}
    for number, row in rows.items():
        fields = row.split(",")
        if not answers.get(number, "refused").startswith("refused"):
            if fields[1] in ("holiday", "inaccessible"):
                last[0] = number
            elif fields[1] in ("start", "set", "file", "extend", "reset", "end", "resume", "close", "reopen", "rule", "assign", "title", "label", "book", "move", "cancel"):
                last[int(fields[2])] = number
    return last


# What a calendar must have


def uid(case, kind, number):
    return "case-{}-{}-{}@jerghuma".format(case, ("deadline", "motion")[kind], number)


def entries_wanted(names, docket, rows, answers, choice, lost=()):
    """The items that a calendar has, in order, each with whether it is off the calendar. Of the deadlines that no row starts any more
    it has those of the case, where the case was ever before the judge."""
    first, last, judge, case = choice
    histories = histories_of(rows, answers, judge)

    def is_chosen(item):
        return (case is None or item.case == case) and any(day and first <= day <= last for day in (item.day, other_day(item.description)))

    def is_judged(item):
        return judge is None or judge in (item.panel or docket.before.get(item.case, ()))

    def was_before(of):
        return judge is None or of in given_to(rows, answers, judge) or any(of == one for one, _ in histories)

    def cancelled(item):
        return item._replace(summary="Cancelled: " + item.summary), True
    due = sorted(filter(is_chosen, docket.items), key=lambda i: (i.day, i.second, i.case, i.kind, i.number))
    entries = [cancelled(item) if item.ended else (item, False) for item in due if is_judged(item)]
    entries += [cancelled(item) if item.ended else (item._replace(summary="Off this calendar: " + item.summary), True) for item in due
                if item.kind == 0 and not is_judged(item) and was_before(item.case)]
    for key in filter(histories.__contains__, named_order(rows, answers)):
        hearing, off = histories[key]
        item = hearing_item(names, *key, hearing)
        if off and is_chosen(item):
            entries.append(cancelled(item))
    for item in [lost_item(names, one) for one in lost]:
        if case in (None, item.case) and was_before(item.case):
            entries.append(cancelled(item))
    return entries


def event_wanted(clock, item, revision, off, stamp):
    event = {"UID": uid(item.case, item.kind, item.number), "DTSTAMP": stamp, "LAST-MODIFIED": stamp, "SEQUENCE": revision,
             "SUMMARY": item.summary, "DESCRIPTION": item.description}
    if off:
        event["STATUS"] = "CANCELLED"
    if item.kind:
        event.update(DTSTART=clock.utc(*item.begins), DTEND=ended(clock, item), LOCATION=item.room)
    else:
        event["TRANSP"] = "TRANSPARENT"
        if item.begins:
            event["DTSTART"] = clock.utc(*item.begins)
        else:
            event.update(DTSTART=item.day, DTEND=item.day + datetime.timedelta(1))
    return event


def ended(clock, item):
    day, second = item.ends
    return clock.utc(day + datetime.timedelta(second // 86400), second % 86400)


# An input


def answers_of(lines):
    """The first line of the answer to each row, by the row's number."""
    found = {}
    for line in lines:
        numbered = re.match(r"([0-9]+) 1 (.*)", line)
        if numbered:
            found[int(numbered[1])] = numbered[2]
    return found


def rows_of(given, text):
    """The rows of an input by their numbers, with the numbers of motions in those that name them."""
    rows = [row for row in text.splitlines()[1:] if row]
    if given.numbers is None:
        return dict(enumerate(rows, 1))
    found = {}
    for place, row in enumerate(rows, 1):
        fields = row.split(",")
        if fields[1] in ("book", "move", "cancel", "rule"):
            fields[3] = str(given.numbers.of("motion", fields[2], fields[3]))
        found[given.numbers.of_row(place)] = ",".join(fields)
    return found


def answered(given):
    """The docket as clerk_office answers it; none where it has a fault."""
    status, text, _ = given.office(LAST_ROW).texts()
    if status != 0:
        return None
    head, rows = given.plain.decode().split("%%", 1)
    court = dict(re.findall(r'^\s*(zone|opens|closes|from|to)\s*=\s*["\']([^"\']*)["\']', head, re.MULTILINE))
    judges = re.search(r"^\s*judges\s*=\s*\[([^\]]*)\]", head, re.MULTILINE)
    return Answered(court, re.findall(r"[^\s\"',]+", judges[1]), rows_of(given, rows), answers_of(text.splitlines()),
                    docket_of(given.names, closing_of(text), court["closes"], reasons_of(closing_of(given.memo(LAST_ROW).output.decode()))))
