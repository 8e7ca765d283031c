#!/usr/bin/env python3
"""Runs the program with several clerks, and looks for a serial order that explains each run.

    races_check.py PROGRAM [SEED] [COUNT]

Inputs of 2 to 64 clerks are made from SEED (by default 1): rows that get in one another's way, and rows that have nothing
to do with those of others. Each is run COUNT times (by default 20). What the program prints must be what the reference
prints of one clerk who gives all commands in some order that keeps each clerk's own: answers, sheets and calendars; a
query shows some moment after its clerk's rows before it. Then texts of short inputs are spoiled in every way below, and must
be refused. The lines tell of each input how many different texts were printed and how many different orders explain
them, in how many runs commands were answered otherwise than in the order of the rows, and in how many a clerk numbered a
motion or a deadline of a case between two of another clerk. Where both are so, clerks met: neither one of them after the
other nor one thread with all rows prints that. With `-` for PROGRAM orders that are drawn at random stand for runs. The
status is 0 where each run is explained, clerks met in some, and each spoiled text is refused. It needs Python 3.8 or later.
"""
import random
import re
import sys

from lib.order_search import FULL, NoOrder
from lib.races_inputs import inputs
from lib.serial_orders import explained, replies
from office_reference import lines_of
from reference.court_file import court_of
from reference.docket import STEPS, opening, step, view
from reference.rows_in import rows_of
from reference.text_out import answer_lines, closing_lines
from runs_check import ended_program


# Of inputs with more rows no text is spoiled, since it takes long to see that no order explains one.
MOST_SPOILED = 90


class Race:
    """An input, and what came of its runs."""

    def __init__(self, made):
        self.made = made
        self.court = court_of(made.court.encode())
        text = "".join(row + "\n" for row in made.rows)
        self.rows = rows_of(text.encode(), made.clerks, self.court)
        self.data = (made.court + "%%\n" + text).encode()
        self.words = ["--clerks", str(made.clerks), "--journal", str(made.limit)]
        self.texts, self.orders = {}, set()
        self.in_order = self.commands_in(lines_of(self.court, self.rows, made.limit, None))
        self.runs = self.out_of_order = self.by_turns = self.met = 0

    def explained(self, text):
        return explained(self.court, self.rows, self.made.clerks, self.made.limit, text)

    def commands_in(self, lines):
        """What a text answers to commands, and what comes after the answers."""
        told, closing = replies(self.rows, lines)
        return [lines for row, lines in zip(self.rows, told) if row.work[0] in STEPS], closing

    def add(self, text):
        """Takes a run's text in. A text that was explained before has the same order again."""
        if text not in self.texts:
            self.texts[text] = self.explained(text)
        order = self.texts[text][0]
        self.runs += 1
        self.orders.add(tuple(order))
        changed, turns = self.commands_in(text.splitlines()) != self.in_order, self.is_by_turns(text)
        self.out_of_order += changed
        self.by_turns += turns
        self.met += changed and turns

    def is_by_turns(self, text):
        """Whether a clerk numbered a motion or a deadline of a case between two of another clerk."""
        numbered = {}
        for row, lines in zip(self.rows, replies(self.rows, text.splitlines())[0]):
            found = re.match(r"(motion|deadline) (\d+)", lines[0])
            if found:
                numbered.setdefault((found[1], row.work[1]), []).append((int(found[2]), row.clerk))
        for numbers in numbered.values():
            clerks = [clerk for _, clerk in sorted(numbers)]
            turns = [clerk for at, clerk in enumerate(clerks) if at == 0 or clerks[at - 1] != clerk]
            if len(turns) > len(set(turns)):
                return True
        return False

    def line(self):
        made = self.made
        return "{}, {} clerks, {} rows: {} runs, {} texts, {} orders, {} not in the order of the rows, {} by turns".format(
            made.name, made.clerks, len(made.rows), self.runs, len(self.texts), len(self.orders), self.out_of_order,
            self.by_turns)


# Runs that are drawn, in place of the program's


def drawn(chance, race):
    """The text of a run in which clerks go on by turns that are drawn, and queries show some late moment."""
    left = [[(number, row) for number, row in enumerate(race.rows, 1) if row.clerk == clerk]
            for clerk in range(1, race.made.clerks + 1)]
    moments, last, entries, told = [opening(race.court)], {}, 0, {}
    while any(left):
        queue = chance.choice([queue for queue in left if queue])
        for number, row in [queue.pop(0) for _ in range(min(len(queue), chance.randrange(1, 6)))]:
            if row.work[0] not in STEPS:
                shown = moments[chance.randrange(max(last.get(row.clerk, 0), len(moments) - 4), len(moments))]
                told[number] = answer_lines(race.court, shown, view(race.court, shown, row.work))
            elif entries == race.made.limit:
                told[number] = FULL
            else:
                docket, answer = step(race.court, moments[-1], row.work)
                told[number] = answer_lines(race.court, docket, answer)
                moments.append(docket)
                last[row.clerk] = entries = entries + 1
    return text_of(race, [told[number] for number in sorted(told)], closing_lines(race.court, moments[-1]))


def text_of(race, told, closing):
    lines = []
    for number, (row, (first, *more)) in enumerate(zip(race.rows, told), 1):
        lines += ["{} {} {}".format(number, row.clerk, first)] + more
    return "".join(line + "\n" for line in lines + closing)


# Texts that are spoiled


def spoiled(race, text, docket):
    """The text with one thing that no order explains, each with what it is; of what the text hasn't there is none."""
    told, closing = replies(race.rows, text.splitlines())
    for name, change in SPOILS:
        for at in range(len(told)):
            changed = change(race, told, at)
            if changed is not None:
                yield name, text_of(race, changed, closing)
                break
    if docket.hearings:
        without = docket._replace(hearings=docket.hearings[1:])
        yield "a hearing is missing at the end", text_of(race, told, closing_lines(race.court, without))
        first = docket.hearings[0]
        motion = next((motion for motion in docket.motions if (motion.case, motion.number) not in
                       [(hearing.case, hearing.motion) for hearing in docket.hearings]), None)
        if motion is not None:
            twice = first._replace(case=motion.case, motion=motion.number)
            booked = docket._replace(hearings=docket.hearings + [twice])
            yield "a judge is booked twice at the end", text_of(race, told, closing_lines(race.court, booked))
    if docket.cases:
        yield "a case is missing at the end", text_of(race, told, closing[1:])


def with_lines(told, at, lines):
    return told[:at] + [lines] + told[at + 1:]


def exchanged(race, told, at):
    """A clerk's motion has the number of the clerk's next one in the case, and that one has its."""
    if not told[at][0].startswith("motion "):
        return None
    row = race.rows[at]
    for other in range(at + 1, len(told)):
        again = race.rows[other]
        if told[other][0].startswith("motion ") and (again.clerk, again.work[1]) == (row.clerk, row.work[1]):
            return with_lines(with_lines(told, at, told[other]), other, told[at])
    return None


def made_up(race, told, at):
    """A hearing is refused because of another that there isn't."""
    return with_lines(told, at, ["refused 20 JudgeBusy 9 9"]) if race.rows[at].work[0] == "book" else None


def numbered_twice(race, told, at):
    """Two motions of a case have the same number."""
    if not told[at][0].startswith("motion "):
        return None
    for other in range(at + 1, len(told)):
        if told[other][0].startswith("motion ") and race.rows[other].work[1] == race.rows[at].work[1]:
            return with_lines(told, other, told[at])
    return None


def booked_too(race, told, at):
    """A hearing for which the judge had no time is booked."""
    row = race.rows[at]
    if row.work[0] != "book" or not told[at][0].startswith("refused 20 "):
        return None
    cancelled = any(lines == ["cancelled"] and other.work[1:3] == row.work[1:3] for other, lines in zip(race.rows, told))
    return None if cancelled else with_lines(told, at, ["booked"])


def opened_twice(race, told, at):
    """A case that was open is opened once more."""
    return with_lines(told, at, ["opened"]) if told[at][0].startswith("refused 2 ") else None


def full_too_early(race, told, at):
    """The journal is full with one entry fewer than it has."""
    if race.rows[at].work[0] not in STEPS or told[at] == FULL:
        return None
    later = [number for number in range(at + 1, len(told)) if race.rows[number].clerk == race.rows[at].clerk]
    finished = [number for number in later if race.rows[number].work[0] in STEPS and told[number] != FULL]
    return None if finished else with_lines(told, at, FULL)


def sheet_too_old(race, told, at):
    """A sheet lacks the motion that its clerk entered in the row before it."""
    row = race.rows[at]
    if told[at][0] != "sheet":
        return None
    for before in range(at - 1, -1, -1):
        entered = told[before][0]
        if race.rows[before].clerk == row.clerk and race.rows[before].work[:2] == ("motion", row.work[1]):
            if entered.startswith("motion "):
                return with_lines(told, at, [line for line in told[at] if not line.startswith(entered + " ")])
    return None


SPOILS = [("two answers are exchanged", exchanged), ("an answer is made up", made_up),
          ("two motions have one number", numbered_twice), ("a hearing is booked too", booked_too),
          ("a case is opened twice", opened_twice), ("the journal is full too early", full_too_early),
          ("a sheet is too old", sheet_too_old)]
OTHERS = ["a hearing is missing at the end", "a judge is booked twice at the end", "a case is missing at the end"]


def refused(races):
    """How many spoiled texts were refused, and the names of those that weren't, or that never came up."""
    count, wrong = 0, {name for name, _ in SPOILS}.union(OTHERS)
    accepted = []
    for race in races:
        text, (_, docket) = next(iter(race.texts.items()))
        for name, changed in spoiled(race, text, docket):
            wrong.discard(name)
            try:
                race.explained(changed)
                accepted.append("{}, {} clerks: {}".format(race.made.name, race.made.clerks, name))
            except NoOrder:
                count += 1
    return count, accepted + sorted(name + " never came up" for name in wrong)


def main(program, seed=1, count=20):
    chance = random.Random(seed)
    races, failed = [], 0
    for made in inputs(chance):
        race = Race(made)
        for _ in range(count):
            status, text, fault = (0, drawn(chance, race).encode(), b"")
            if program != "-":
                status, text, fault = ended_program(program, race.data, race.words)
            try:
                if status != 0 or fault:
                    raise NoOrder("it ended with status {}: {}".format(status, fault.decode()))
                race.add(text.decode())
            except NoOrder as why:
                failed += 1
                if failed == 1:
                    print(" ".join(race.words) + "\n" + race.data.decode() + "-- wrote\n" + text.decode())
                print("{}, {} clerks: {}".format(made.name, made.clerks, why))
        print(race.line(), flush=True)
        races.append(race)
    count, wrong = refused([race for race in races if race.texts and len(race.rows) <= MOST_SPOILED])
    for line in wrong:
        print("spoiled, and not refused: " + line)
    runs = sum(race.runs for race in races)
    met = sum(race.met for race in races)
    print("{} runs of seed {}, {} not explained; in {} clerks met; {} spoiled texts were refused, {} not".format(
        runs + failed, seed, failed, met, count, len(wrong)))
    sys.exit(1 if failed or wrong or not met else 0)


if __name__ == "__main__":
    if not 2 <= len(sys.argv) <= 4:
        sys.exit("usage: races_check.py PROGRAM [SEED] [COUNT]")
    main(sys.argv[1], *map(int, sys.argv[2:]))
