"""Numbers of cases as courts write them, made at random, and what they come to: what docs/clerk/ROWS.md says of case numbers."""
import re

# A case number as it is shown, and the forms in which it is written: the first that fits.
NAME = re.compile(r"([0-9]:)?([0-9]{2})-([a-z]{2})-([0-9]{5})((?:-[A-Z]+)*)")
INITIALS = r"(?P<initials>(?:-[a-z]+)*| ?\([a-z]+(?:[-/][a-z]+)*\))"
FORMS = [re.compile(text + INITIALS, re.IGNORECASE | re.ASCII) for text in (
    r"(?P<office>[0-9]:)?(?:20)?(?P<year>[0-9]{2})-(?P<kind>[a-z]{2})-(?P<number>[0-9]{1,5})",
    r"(?P<office>[0-9]:)?(?:20)?(?P<year>[0-9]{2})(?P<kind>[a-z]{2})(?P<number>[0-9]{1,5})",
    r"(?P<kind>[a-z]{2})-(?P<year>[0-9]{2})-(?P<number>[0-9]{1,5})-(?P<office>phx|pct|tuc)")]
OFFICES = {"phx": "2:", "pct": "3:", "tuc": "4:"}


def read(text):
    """The key and the shown name of a case number, or none."""
    for form in FORMS:
        parts = form.fullmatch(text)
        if parts is not None:
            office = (parts["office"] or "").lower()
            key = "{}{}-{}-{}".format(OFFICES.get(office, office), parts["year"], parts["kind"].lower(), parts["number"].zfill(5))
            return key, key + re.sub(r"[/(]", "-", parts["initials"].strip(" )")).upper()
    return None


def spelled(chance, shown):
    """Another way to write a name: another form, other letters, no zeros at the front, other initials."""
    office, year, kind, number, initials = NAME.fullmatch(shown).groups()
    office, kind = office or "", chance.choice([kind, kind.upper()])
    number = chance.choice([number, number.lstrip("0") or "0"])
    ends = [initials, "", "-xyz", " (ABC)", "(JRT/DLM)"]
    ways = [office + chance.choice(["", "20"]) + year + form.format(kind) + number for form in ("-{}-", "{}")]
    ways += ["{}-{}-{}-{}".format(kind, year, number, chance.choice([word, word.upper()])) for word, digit in OFFICES.items() if digit == office]
    return chance.choice(ways) + chance.choice(ends)


def made_name(chance):
    """A case number in one of the forms."""
    office, year, number = chance.choice(["", "1:", "2:"]), chance.choice(["24", "25"]), chance.choice(["7", "01234", "00500", str(chance.randrange(99999))])
    key, _ = read("{}{}-{}-{}".format(office, year, chance.choice(["cv", "CR", "mc", "bk", "ap"]), number))
    return spelled(chance, key + chance.choice(["", "-ABC", "-JD", "-AB-CD"]))


def called(names, case):
    """What a case is called by: its name, or its number where it has none."""
    return names.get(case, str(case))


def asked(chance, names, case):
    """A word for `--case` that calls the case: its number, or a way to write its name."""
    return spelled(chance, names[case]) if case in names and chance.random() < 0.7 else str(case)


# Where a text says the number of a case: the first line of a sheet, a line of a calendar, and a refusal that names a motion, which
# may have the numbers of its row and its clerk before it.
CASE_LINES = re.compile(r"^(case |\S+ \S+ \S+ case |(?:[0-9]+ [0-9]+ )?refused (?:20 JudgeBusy|21 RoomBusy|23 HearingThatDay|24 NoticeLost|32 HearingAhead) )"
                        r"([0-9]+)(?= )", re.MULTILINE)


def named_text(names, text):
    """A text with the names of cases in place of their numbers."""
    return CASE_LINES.sub(lambda found: found[1] + called(names, int(found[2])), text)
