"""The head of `docket memo`: the court, where its file names it in a comment; the case, with what rows call it and who has it; the day on
which the memo is made; and the edition of the Rules. An empty line ends it.
"""
import datetime
import re

# How the line begins that names the court.
NAMING = "# The court's file of the "
EDITION = "Rules    Federal Rules of Civil Procedure, as amended on 1 December 2025\n\n"
LABELS = ("Court", "Case", "Title", "Judge", "Made")
HEAD = re.compile("".join(r"(?:{:<9}(?P<{}>.+)\n)?".format(label, label.lower()) for label in LABELS) + re.escape(EDITION))


def court_name(file):
    """The name of the court whose file has these bytes, or None."""
    lines = [line for line in file.decode().split("\n") if line.startswith(NAMING)]
    return re.split("[,.\r]", lines[0][len(NAMING):])[0] if lines else None


def whole_day(date):
    """The day of the week and the date of a text such as 2025-09-18."""
    return datetime.date.fromisoformat(date).strftime("%a %Y-%m-%d")


def head_of(file, case=None, made=None, title=None, judge=None):
    """The head of a memo, where the court has this file. `case` is the number of the case, `title` what rows call it, `judge` who has it,
    and `made` the date on which the memo is made; each may be None."""
    said = zip(LABELS, (court_name(file), case, title, judge, None if made is None else whole_day(made)))
    return "".join("{:<9}{}\n".format(label, text) for label, text in said if text is not None) + EDITION


def below_head(text, wanted=None):
    """What a memo has below its head, which must be this one where one is wanted."""
    found = HEAD.match(text)
    assert found and wanted in (None, found[0]), (found and found[0], wanted)
    return text[found.end():]


def without_made(text):
    """A memo without the day on which it is made, where it is of a folder and no day was asked for: then it is today, by the court's
    clock. Of a case that isn't there nothing is written."""
    found = HEAD.match(text)
    if not found or found["made"] is None:
        assert found or text == "", text
        return text
    made = datetime.date.fromisoformat(found["made"][4:])
    assert abs((made - datetime.datetime.now(datetime.timezone.utc).date()).days) <= 1 and whole_day(str(made)) == found["made"], found["made"]
    return text.replace("Made     {}\n".format(found["made"]), "", 1)
