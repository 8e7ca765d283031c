"""The lines of `docket memo` and of clerk_office after the last answer: sheets, with reasons or without, and calendars."""
import datetime
import re

from lib.period_words import called, heading
from reference.civil import day_of_text


def closing_of(text):
    """The lines after the last answer: sheets and calendars."""
    lines = text.splitlines()
    return lines[max(at for at, line in enumerate(lines) if re.match(r"[0-9]+ 1 ", line)) + 1:]


def reasons_of(lines):
    """The lines of reasons that `docket memo` writes below each deadline of a sheet, by case and number."""
    reasons, case, number = {}, None, None
    for line in lines:
        words = line.split(" ")
        if words[0] == "case":
            case = int(words[1])
        elif words[0] == "deadline":
            number = int(words[1])
            reasons[case, number] = ""
        elif line.startswith("  ") and case is not None:
            reasons[case, number] += line + "\n"
    return reasons


def as_on_page(period, reasons):
    """The lines below a deadline with its period as a page describes it; None where they don't call it by its Rule."""
    # The first day below is that of the event, before which the memo says since when a section is as it is.
    found = re.search(r"^  ... (\d{4}-\d\d-\d\d)  ", reasons, re.MULTILINE)
    event = day_of_text(found[1]) if found else None
    in_memo, on_page = ("{:18}{:<50}  {}\n".format("", *words(period, event)[0][1:]) for words in (called, heading))
    return reasons.replace(in_memo, on_page, 1) if in_memo in reasons else None


def other_of(reasons):
    """The other reading among the reasons of a deadline that ends first, as what is due marks it, or none. A whole day ends after each
    time of it."""
    lines = re.findall(r"^  (?:... (\S+)| {14})  other reading: .*?(?:, (beyond|[0-9:]+))? +ours$", reasons, re.MULTILINE)
    if not lines:
        return None
    day, time = min(lines, key=lambda line: (line[0] or "9999-12-31", line[1] or "24:00:00"))
    return " ".join(["other reading", *filter(None, (day, time))])


def other_day(text):
    """The day of the other reading that a text of a deadline names, or none."""
    found = re.search(r"other reading(?: of the Rules:)? (\d{4}-\d\d-\d\d)", text or "")
    return found and datetime.date.fromisoformat(found[1])


def ended_in(words):
    """Why the deadline is due no more of whose line on a sheet these are the words, or none."""
    return " ".join(words[words.index("ended") + 1:]) if "ended" in words else None
