"""The sections of Rules and statutes that set a period which is entered, as docs/law/RULES.md has them, their codes, and the days from
which they set these.
"""
import pathlib
import re

RULES_PAGE = pathlib.Path(__file__).resolve().parent.parent.parent / "docs" / "law" / "RULES.md"


# The day from which a section sets its period, where its row has no other.
COUNTING = "2009-12-01"


def entered_periods():
    """The sections of docs/law/RULES.md whose periods are entered, of Rules and statutes, each with its texts; and the parts of
    a section for which the page has a text each. Of each also the day from which it sets them, the latest in its rows."""
    entered, since = {}, {}
    tables = RULES_PAGE.read_text().split("## Periods of other Rules", 1)[1].split("\n## ", 1)[0]
    for row in re.findall(r"^\| (?!Rule |Statute )(.*) \|$", tables, re.MULTILINE):
        cells = row.split(" | ")
        section = re.match(r"(?:FRAP |Supp\. Soc\. Sec\. |Supp\. |[0-9]+ U\.S\.C\. )?[0-9A-Z][0-9.]*(?:\([A-Za-z0-9]+\))*", cells[0])
        texts = re.findall("`([^`]+)`([^`]*)", cells[-1])
        assert section and texts, row
        said = re.search(r"since (\d{4}-\d\d-\d\d)", cells[1])
        day = COUNTING if said is None else said[1]
        for text, after in texts:
            for name in [section[0]] + [section[0] + part for part in re.findall(r"\([A-Za-z]+\)", after)]:
                if text not in entered.setdefault(name, []):
                    entered[name].append(text)
                since[name] = day if said is not None or name not in since else since[name]
    return entered, since


def code_of(section):
    """The code of a section in plain rows of the desk: its number without parentheses, after `frap` or `socsec` for these Rules."""
    number = section.split(" U.S.C. ")[-1].replace("Supp. Soc. Sec. ", "socsec").replace("Supp. ", "").replace("FRAP ", "frap")
    return re.sub("[()]", "", number)


# The periods of each section, as they are entered, and the text of the period of each code. A section that sets two has no code.
ENTERED, SINCE = entered_periods()
CODES = {code_of(section): texts[0] for section, texts in ENTERED.items() if len(texts) == 1}
assert len(CODES) == sum(len(texts) == 1 for texts in ENTERED.values()), "two sections have one code"
