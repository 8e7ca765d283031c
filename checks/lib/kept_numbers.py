"""The numbers of rows, deadlines and motions in a folder of which rows were struck: put into a text of clerk_office, and as the
journal's corrections say them.

clerk_office counts the rows that are left, and the deadlines and motions of a case, by their places. In a folder each has
the number with which it was answered when its row was entered.
"""
import re
from typing import NamedTuple

from lib.journal import CORRECTIONS, Said, after_name

ANSWER = re.compile(r"(\d+) 1 (.*)")
BOOKED = re.compile(r"(case (\d+) motion )(\d+)( room .*)$")
# What gives a number, and of what.
GIVES = {b"start": "deadline", b"set": "deadline", b"motion": "motion"}
# A row that a correction lists, its line, and the first line of the answer that it gets.
LISTED = re.compile(rb"^row (\d+) is kept as\n(.*)\n(?:.*\n)*?and would be answered\n(.*)\n", re.MULTILINE)
BUSY = re.compile(r"(refused \d+ (?:Judge|Room)Busy (\d+) )(\d+)$")


class Numbers(NamedTuple):
    """The number of each row that is left, and of each deadline and motion that has another number than its place: `moved` has
    these by "deadline" and "motion", and then by the case and the place. Then how many rows there were before the last strike, and
    how many strikes there were."""
    rows: list
    moved: dict
    rows_before: int = 0
    strikes: int = 0

    def of(self, kind, case, place):
        """The number of a deadline or a motion."""
        return self.moved[kind].get((int(case), int(place)), int(place))

    def of_row(self, place):
        """The number of a row, by its place from 1 on; a row after all others has the next."""
        return self.rows[place - 1] if place <= len(self.rows) else self.rows[-1] + place - len(self.rows)

    def line(self, case, line):
        """A line of a sheet, of a calendar or of a refusal."""
        words = line.split(" ")
        if words[0] in ("deadline", "motion"):
            return " ".join([words[0], str(self.of(words[0], case, words[1])), *words[2:]])
        line = BOOKED.sub(lambda found: "{}{}{}".format(found[1], self.of("motion", found[2], found[3]), found[4]), line)
        return BUSY.sub(lambda found: "{}{}".format(found[1], self.of("motion", found[2], found[3])), line)

    def text(self, data, text):
        """The text of clerk_office for this input."""
        cases = [(row.split(",") + [""])[2] for row in data.decode().split("%%", 1)[1].splitlines() if row]
        lines, case = [], None
        for line in text.splitlines():
            answer = ANSWER.match(line)
            if answer and int(answer[1]) <= len(cases):
                place = int(answer[1])
                lines.append("{} 1 {}".format(self.of_row(place), self.line(cases[place - 1], answer[2])))
                continue
            if line.startswith("case "):
                case = line.split(" ")[1]
            lines.append(self.line(case, line))
        return "".join(line + "\n" for line in lines)


def given_by(number, line, answer):
    """The number that a row gave which was answered so, if it gave one."""
    fields, words = line.split(b","), answer.split(b" ")
    kind = GIVES.get(fields[1])
    if kind is None or words[2] != kind.encode():
        return None
    return Said(number, int(fields[2]), kind, int(words[3]))


def to_say(given, kept):
    """What a correction has to say where rows gave these numbers and keep those, in the order of the rows."""
    return [given[row] for row in sorted(given) if given[row] != kept.get(row)]


def said_wanted(journal, lists):
    """What each correction of a journal has to say, by what rows were answered when they were entered, and by what each correction
    listed when it was made."""
    rows, given, kept, wanted, lists = 0, {}, {}, [], iter(lists)
    for entry in journal.entries[1:]:
        if entry.startswith(CORRECTIONS):
            wanted.append(to_say(given, kept))
            kept = dict(given)
            answered = [(int(row), line, answer) for row, line, answer in LISTED.findall(next(lists))]
        else:
            rows += 1
            line, _, answer = after_name(entry).partition(b"\n")
            answered = [(rows, line, answer.partition(b"\n")[0])]
        for row, line, answer in answered:
            said = given_by(row, line, answer)
            if said is not None:
                given[row] = said
    return wanted
