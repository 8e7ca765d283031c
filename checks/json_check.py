#!/usr/bin/env python3
"""Compares the JSON that docket writes with what clerk_office and `docket memo` say of the same docket.

    json_check.py DOCKET CLERK_OFFICE [SEED [COUNT]]
    json_check.py --schema DOCKET CLERK_OFFICE [SEED [COUNT]]

Inputs are made at random. From the JSON alone this script writes the text of clerk_office again: each answer, each sheet and
each calendar, and the two texts must be the same. Each instant must be that of the day and the time beside it, by a reading
of the court's zone of its own (reference/civil.py). Each reason of a deadline must be a line of `docket memo` below it, in
the same order. Half of the inputs are entered into a folder, in which cases have names (lib/given_docket.py): a name must be
beside the number of each case that has one, and nowhere else; and without its reasons `docket memo` must say of the folder
what clerk_office says. With a judge, a case or days the JSON must be that part of the whole, and with
--lines its answers, a line each. In half of the inputs rows are given to several clerks (lib/several_clerks.py), whose numbers
the answers must have. A faulty input must end both programs alike. It needs Python 3.8 or later; the status is
0 where all is alike.

With --schema each text is also held to docs/code/docket.schema.json, which needs Debian's python3-jsonschema.
"""
import datetime
import json
import random
import re
import sys
import tempfile

from lib.assigned import assigned_in
from lib.case_names import asked, called, named_text
from lib.given_docket import given_docket
from lib.json_text import office_text
from lib.made_inputs import INPUTS, made_input
from lib.memo_head import below_head
from lib.memo_lines import other_of
from lib.programs import TOP, programs_of, seed_and_count
from lib.several_clerks import renumbered
from reference.civil import day_of_text, instant_at, offset_at, zone_of_text

SCHEMA = TOP / "docs" / "code" / "docket.schema.json"
EPOCH = datetime.datetime(1970, 1, 1)


def once(pairs):
    """An object, whose keys come once."""
    if len({key for key, _ in pairs}) != len(pairs):
        raise ValueError("a key that comes twice")
    return dict(pairs)


def reason_line(reason):
    """A reason as `docket memo` writes it."""
    day = " " * 14 if reason["day"] is None else datetime.date.fromisoformat(reason["day"]).strftime("%a %Y-%m-%d")
    return "  {}  {:<50}  {}".format(day, reason["text"], reason["section"])


def reading_text(o):
    """The end by another reading, as what is due marks it, or none."""
    if o is None:
        return None
    return "other reading " + (o["last_day"] or ("beyond" if o["end"] is None else "{} {}".format(o["end"][:10], o["end"][11:19])))


def reasons_fault(whole, memo):
    """A deadline whose reasons aren't among the lines of `docket memo`, one after another, or that has another reading than these
    lines, or none."""
    lines, case, number, below = memo.splitlines(), None, None, {}
    for line in lines[max([at for at, line in enumerate(lines) if re.match("[0-9]+ 1 ", line)] or [0]):]:
        words = line.split(" ")
        if words[0] == "case":
            case = int(words[1])
        elif words[0] == "deadline":
            number = int(words[1])
            below[case, number] = []
        elif line.startswith("  ") and case is not None:
            below[case, number].append(line)
    for sheet in whole["cases"]:
        for deadline in sheet["deadlines"]:
            left = iter(below[sheet["case"], deadline["number"]])
            if not all(any(line == wanted for line in left) for wanted in map(reason_line, deadline["reasons"])):
                return "case {} deadline {}: other reasons".format(sheet["case"], deadline["number"])
            if reading_text(deadline["other_reading"]) != other_of("\n".join(below[sheet["case"], deadline["number"]])):
                return "case {} deadline {}: another reading".format(sheet["case"], deadline["number"])
    return None


def objects(value):
    """Each object of a value, from the outermost in."""
    inside = list(value.values()) if isinstance(value, dict) else value if isinstance(value, list) else []
    if isinstance(value, dict):
        yield value
    for part in inside:
        yield from objects(part)


def instant_text(zone, day, minute):
    """A minute of a day, counted from its midnight, as the clock of the zone shows its instant."""
    at = instant_at(zone, day_of_text(day) + minute // 1440, minute % 1440 * 60)
    return shown_at(zone, at)


def shown_at(zone, at):
    """An instant, as the clock of the zone shows it."""
    offset = offset_at(zone, at)
    seconds = abs(offset)
    ahead = "{}{:02}:{:02}{}".format("-" if offset < 0 else "+", seconds // 3600, seconds // 60 % 60,
                                   ":{:02}".format(seconds % 60) if seconds % 60 else "")
    return (EPOCH + datetime.timedelta(seconds=at + offset)).isoformat() + ahead


def shown_again(zone, text):
    """The instant of a text, as the clock of the zone shows it."""
    at = datetime.datetime.fromisoformat(text) - EPOCH.replace(tzinfo=datetime.timezone.utc)
    return shown_at(zone, at.days * 86400 + at.seconds)


def minutes(text):
    return int(text[:2]) * 60 + int(text[3:])


def times_fault(zone, whole):
    """An instant that isn't that of its day and time, or that the clock doesn't show, or none."""
    for o in objects(whole):
        wanted = {}
        if "section" in o:
            wanted = {} if o["at"] is None else {"at": shown_again(zone, o["at"]), "day": o["at"][:10]}
        elif "at" in o:
            wanted["at"] = instant_text(zone, o["day"], minutes(o["time"]))
        elif "minutes" in o:
            wanted["start"] = instant_text(zone, o["day"], minutes(o["time"]))
            wanted["end"] = instant_text(zone, o["day"], minutes(o["time"]) + o["minutes"])
        elif o.get("end") is not None:
            wanted["end"] = shown_again(zone, o["end"])
        for key, text in wanted.items():
            if o[key] != text:
                return "{} is {}, and not {}, in {}".format(key, text, o[key], o)
    return None


def part_of(whole, first, last, judge, case):
    """The part of the whole that is chosen."""
    def is_before(sheet):
        heard = any(judge in m["hearing"]["judges"] for m in sheet["motions"] if m["hearing"] is not None)
        return heard or judge in (None, sheet.get("judge"), sheet.get("referred"))
    cases = [s for s in whole["cases"] if case in (None, s["case"]) and is_before(s)]
    calendars = [dict(c, bookings=[b for b in c["bookings"] if case in (None, b["case"]) and first <= b["day"] <= last])
                 for c in whole["calendars"] if judge in (None, c["judge"])]
    return dict(whole, cases=cases, calendars=[c for c in calendars if c["bookings"]])


def made_words(chance, names, whole):
    """Words, and what they choose."""
    court = whole["court"]
    first, last, judge, case = court["from"], court["to"], None, None
    days = [o["day"] for o in objects(whole["calendars"]) if "day" in o] or [court["from"]]
    if chance.random() < 0.3:
        first = chance.choice(days)
    if chance.random() < 0.3:
        last = chance.choice(days)
    first, last = sorted((first, last))
    words = ["json", "--from", first, "--to", last] if (first, last) != (court["from"], court["to"]) else ["json"]
    if court["judges"] and chance.random() < 0.5:
        judge = chance.choice(court["judges"])
        words += ["--judge", judge]
    if chance.random() < 0.5:
        case = chance.choice([s["case"] for s in whole["cases"]] + [1, 4096])
        words += ["--case", asked(chance, names, case)]
    return words, (first, last, judge, case)


def names_fault(names, value):
    """What is wrong with the names of cases, or none: each comes after the number of a case that has one."""
    for o in objects(value):
        wanted = names.get(o.get("case"))
        if o.get("case_name") != wanted or wanted and list(o)[list(o).index("case") + 1] != "case_name":
            return "another name in {}".format(o)
    return None


def read(text):
    """The value of a text, which must be one line in UTF-8, and written as short as it can be."""
    line = text.decode()
    value = json.loads(line, object_pairs_hook=once)
    short = json.dumps(value, ensure_ascii=False, separators=(",", ":")) + "\n"
    return value if line == short else None


def memo_fault(given, text):
    """Whether `docket memo` says of a folder otherwise than clerk_office, but for its head and the lines of reasons, or none."""
    ended = given.report(["memo"])
    if ended.status != 0:
        return "there is no memo"
    bare = "".join(line for line in below_head(ended.output.decode()).splitlines(keepends=True) if not line.startswith(" "))
    wanted = named_text(given.names, renumbered(text, given.clerks))
    return None if bare == wanted else "the memo says something else"


def differs(chance, given, valid):
    """How the JSON of a docket differs from what clerk_office and `docket memo` say, or none."""
    status, text, _ = given.office().texts()
    found = given.report(["json"])
    if status != 0 or found.status != 0:
        several = given.as_several()
        return None if status != 0 and (found.status, found.errors) == (several.status, several.errors) and \
            (found.status == 0 or not found.output) else "a fault told otherwise"
    whole = read(found.output)
    if whole is None:
        return "another text of the same value"
    if office_text(whole) != renumbered(text, given.clerks):
        return "another docket"
    lines = given.report(["json", "--lines"]).output.splitlines(keepends=True)
    if [read(line) for line in lines] != whole["answers"]:
        return "other answers line by line"
    if {s["case"]: s["assigned"] for s in whole["cases"] if "assigned" in s} != assigned_in(given.read_by_office()):
        return "cases assigned since other days"
    zone = re.search(r'^\s*zone\s*=\s*"([^"]*)"', given.plain.decode(), re.MULTILINE)
    fault = times_fault(zone_of_text(zone.group(1)), whole) if zone else None
    fault = fault or names_fault(given.names, whole) or reasons_fault(whole, given.memo().output.decode()) or memo_fault(given, text)
    if fault or not valid(whole):
        return fault or "not of the schema"
    words, chosen = made_words(chance, given.names, whole)
    found = given.report(words)
    if chosen[3] not in [None] + [sheet["case"] for sheet in whole["cases"]]:
        wanted = "docket: case {} isn't open: no row has opened it\n".format(called(given.names, chosen[3])).encode()
        return None if found == (6, b"", wanted) else "a case that isn't open is shown"
    return None if read(found.output) == part_of(whole, *chosen) else " ".join(words)


def validator():
    """A test of whether a value is of the schema."""
    from jsonschema import Draft202012Validator, FormatChecker
    schema = json.loads(SCHEMA.read_text())
    Draft202012Validator.check_schema(schema)
    return Draft202012Validator(schema, format_checker=FormatChecker()).is_valid


def main(words):
    is_held = words[:1] == ["--schema"]
    words = words[is_held:]
    valid = validator() if is_held else lambda whole: True
    programs, (seed, count) = programs_of(words[:2]), seed_and_count(words[2:], 200)
    for number in range(count):
        chance = random.Random("json {} {}".format(seed, number))
        with tempfile.TemporaryDirectory() as parent:
            fault = differs(chance, given_docket(programs, chance, made_input(chance, chance.choice(INPUTS)), parent), valid)
        if fault:
            sys.exit("input {} of seed {}: {}".format(number, seed, fault))
    print("{} inputs of seed {}: the JSON says what clerk_office and `docket memo` say".format(count, seed))


if __name__ == "__main__":
    main(sys.argv[1:])
