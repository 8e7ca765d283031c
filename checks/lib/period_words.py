"""The lines that come before the reasons of a deadline: its period in words, the section that sets it, and its event. On a page it is
described, and in a memo called by its Rule.
"""
import re

from lib.written_fields import ENTERED
from reference.civil import day_of_text
from reference.sections import SINCE

# Of the periods of the Rules: the number of days, what is to be done, the section, and the event.
ANSWER, WAIVED = "12(a)(1)(A)(ii)", "from when the request for a waiver was sent"
RULES = {
    "4m": (90, "to serve the summons and complaint", "4(m)", "from the filing of the complaint"),
    "12a1Ai": (21, "an answer to the complaint", "12(a)(1)(A)(i)", "from service of the summons and complaint"),
    "12a1Aii-us": (60, "an answer, service waived", ANSWER, WAIVED),
    "12a1Aii-abroad": (90, "an answer, service waived abroad", ANSWER, WAIVED),
    "12a1B": (21, "an answer to a counterclaim or crossclaim", "12(a)(1)(B)", "from service of the pleading that states it"),
    "12a1C": (21, "a reply to an answer", "12(a)(1)(C)", "from service of the order to reply"),
    "12a2": (60, "an answer of the United States", "12(a)(2)", "from service on the United States attorney"),
    "12a3": (60, "an answer of an officer sued individually", "12(a)(3)",
             "from service on officer and US attorney, the later"),
    "59b": (28, "a motion for a new trial", "59(b)", "from the entry of judgment"),
    "59e": (28, "a motion to alter or amend a judgment", "59(e)", "from the entry of judgment"),
}

# Of a day that an order sets, by what has to be done: the period in words.
SET = {"set/filing": "set by an order, to file", "set/service": "set by an order, to serve"}

# The days from which they are right as they are applied.
COUNTING, SUMMONS = "2009-12-01", "2015-12-01"

# Of the marks of entered periods: the section, and what is to be done, or that no court extends them.
MARKS = {
    "50b": ("50(b)", "a renewed motion for judgment as a matter of law"),
    "50d": ("50(d)", "a motion for a new trial by the losing party"),
    "52b": ("52(b)", "a motion to amend or add findings"),
    "59b": ("59(b)", "a motion for a new trial"),
    "59d": ("59(d)", "a new trial on the court's own initiative"),
    "59e": ("59(e)", "a motion to alter or amend a judgment"),
    "60b": ("6(b)(2)", "not extended, as a motion under 60(b)"),
}


def right_from(text):
    """The day from which a period is right as it is applied, or None for one that is entered."""
    return None if text not in RULES else SUMMONS if text == "4m" else COUNTING


def counted(number, unit):
    return "{} {}{}".format(number, unit, "" if number == 1 else "s")


def heading(text, event):
    """The lines of a period, as (day or None, what, section). `event` is the day from which it runs."""
    if text in RULES:
        days, what, section, start = RULES[text]
        return [(None, counted(days, "day") + ", " + what, section), (event, start, section)]
    if text in SET:
        return [(None, SET[text], "entered")]
    number, unit, side, act, start, mark = re.fullmatch(r"(\d+)([dh])/(\w+)/(\w+)/(\w+)/(\w+)", text).groups()
    length = counted(int(number), {"d": "day", "h": "hour"}[unit])
    origin = "service" if start == "served" else "the event"
    do = ", to file" if act == "filing" else ", to serve"
    lines = [(None, "{} {} {}{}".format(length, side, origin, do), "entered")]
    if mark in MARKS:
        section, what = MARKS[mark]
        lines.append((None, what, section))
    return lines


def citation(section):
    """A section as a memo cites it: before one of the Federal Rules of Civil Procedure stands `Rule`."""
    return ("Rule " if re.match("[0-9]", section) and " U.S.C. " not in section else "") + section


def called(text, event):
    """The lines of a period as a memo calls it. A period of the Rules is called by its section; after an entered one are the sections
    of docs/law/RULES.md with such a period, each with the day from which it sets that where the event lies before it, or its code where
    there is none."""
    (day, what, where), *others = heading(text, event)
    if text in RULES:
        days, words, section, _ = RULES[text]
        return [(day, "Rule {}: {}, {}".format(section, words, counted(days, "day")), where)] + others
    sections = [citation(section) + (" (since {})".format(SINCE[section]) if event is not None and event < day_of_text(SINCE[section]) else "")
                for section, texts in ENTERED.items() if text in texts]
    back = ", as in " + ", ".join(sections) if sections else " ({})".format(text)
    return [(day, what + back, where)] + others
