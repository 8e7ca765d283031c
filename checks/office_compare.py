#!/usr/bin/env python3
"""Compares the program with the reference of this folder on inputs that are made at random.

    office_compare.py PROGRAM [SEED] [COUNT]

COUNT inputs (by default 600) are made from SEED (by default 1): courts of few judges and rooms, and rows of all
commands over few cases, days and slots, so that they meet and are refused in every way; some of them have a fault. In
some there are several clerks, of whom the first has all rows, since what several with rows are answered may differ from
run to run. One input, a whole run, is also cut after each of its bytes, with one clerk and with four. Status, standard
output and standard error must be the same of both. An input that differs is made smaller while it does, and the smallest
is printed. The last lines say how often each refusal and each fault came up; the status is 0 where nothing differs and
each came up at least once, for which fewer than 600 inputs may not be enough. With `-` for PROGRAM the reference answers
alone, so that it shows what comes up. It needs Python 3.8 or later.
"""
import random
import re
import sys
from collections import Counter

from lib.made_inputs import INPUTS, made_input
from office_reference import ended
from reference.civil import CannotTell
from reference.court_file import NUMBERS as COURT_FAULTS, tomllib
from reference.rows_in import NUMBERS as ROW_FAULTS
from reference.text_out import NAMES
from runs_check import FOUR_CLERKS, RUNS, ended_program

# The first needs 100,001 rows, which are a run of their own; without tomllib the reference seldom knows the second.
NOT_MADE = {"TooManyRows"} | (set() if tomllib else {"NotToml"})
MOST_DIFFERING = 5


def differs(program, words, data):
    try:
        return ended_program(program, data, words) != ended(data, words)
    except CannotTell:
        return False


def smaller(program, words, data):
    """An input that differs too, and from which no row and no stretch of rows can be left out."""
    court, rows = data.split(b"%%\n", 1)
    rows = rows.splitlines(True)
    length = len(rows)
    while length > 0:
        at = 0
        while at < len(rows):
            left = rows[:at] + rows[at + length:]
            if differs(program, words, court + b"%%\n" + b"".join(left)):
                rows = left
            else:
                at += length
        length //= 2
    return court + b"%%\n" + b"".join(rows)


def inputs(seed, count):
    """The whole run cut after each byte, and the inputs that are made, each after the words of its command line."""
    whole = (RUNS / "docket" / "from_filing_to_hearing.in").read_bytes()
    for length in range(len(whole)):
        yield [], whole[:length]
        yield FOUR_CLERKS, whole[:length]
    chance, of_words = random.Random(seed), random.Random(-seed)
    for number in range(count):
        name = INPUTS[number % len(INPUTS)]
        yield made_words(of_words, name), made_input(chance, name)


def made_words(chance, name):
    """One clerk, or several; a row at fault may be that of a second clerk, so then there is but one."""
    if name == "row_faults" or chance.random() < 0.7:
        return []
    clerks, entries = chance.choice([2, 3, 8, 64]), chance.choice([0, 3, 10, 30, 100, 1000000])
    return ["--clerks", str(clerks), "--journal", str(entries)]


def told(program, words, data):
    """What is printed of an input on which the two differ."""
    print(" ".join(words))
    print(data.decode("utf-8", "backslashreplace"))
    for name, result in (("program", ended_program(program, data, words)), ("reference", ended(data, words))):
        status, text, fault = result
        print("-- {}: status {}".format(name, status))
        print((text + fault).decode("utf-8", "backslashreplace"), end="")


def counted(result, seen):
    """Counts the refusals and the fault of a result."""
    status, text, fault = result
    seen.update(re.findall(r"^\d+ \d+ refused \d+ (\w+)", text.decode(), re.MULTILINE))
    seen.update(re.findall(r"^(?:court|row \d+) fault \d+ (\w+)", fault.decode("utf-8", "replace")))


def never(seen):
    """Says how often each refusal and fault came up, and gives those that never did."""
    missing = []
    for title, names in (("refusals", NAMES.values()), ("court's faults", COURT_FAULTS), ("rows' faults", ROW_FAULTS)):
        wanted = [name for name in names if name not in NOT_MADE]
        print(title + ": " + ", ".join("{} {}".format(seen[name], name) for name in wanted))
        missing += [name for name in wanted if not seen[name]]
    return missing


def main(program, seed=1, count=600):
    seen, differing, asked, skipped = Counter(), [], 0, 0
    for words, data in inputs(seed, count):
        try:
            wanted = ended(data, words)
        except CannotTell:
            skipped += 1
            continue
        asked += 1
        counted(wanted, seen)
        if program != "-" and ended_program(program, data, words) != wanted:
            differing.append((words, data))
            if len(differing) == MOST_DIFFERING:
                break
    if differing:
        least = [(words, smaller(program, words, data) if b"%%\n" in data else data) for words, data in differing]
        told(program, *min(least, key=lambda pair: len(pair[1])))
    missing = never(seen)
    for name in missing:
        print(name + " never came up")
    counts = (asked, seed, len(differing), skipped)
    print("{} inputs of seed {}, {} differ; the reference can't tell of {} more".format(*counts))
    sys.exit(1 if differing or missing else 0)


if __name__ == "__main__":
    if not 2 <= len(sys.argv) <= 4:
        sys.exit("usage: office_compare.py PROGRAM [SEED] [COUNT]")
    main(sys.argv[1], *map(int, sys.argv[2:]))
