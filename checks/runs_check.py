#!/usr/bin/env python3
"""Runs the program on the whole runs of `runs/`, and compares its status and all that it writes.

    runs_check.py PROGRAM
    runs_check.py --reference
    runs_check.py --sums

For each runs/FOLDER/NAME.in the program must end with status 0, write NAME.out to standard output and nothing to
standard error; where there is a NAME.fault instead, it must write nothing, and end with the status that stands in its
first line and with the rest of it on standard error. Where there is a NAME.words, it is called with the words of that
line, or once with those of each line where there are several. The input of a NAME.made is made from its lines, and NAME.sum
is kept in place of what the program must write. One run is too large even for that and is made here. Each must stand in
runs/README.md. With --reference the reference of this folder is asked in place of a program. With --sums nothing is
compared, and each NAME.sum is written, by the reference alone. It needs Python 3.8 or later; the status is 0 where each run
ends as it must.
"""
import pathlib
import subprocess
import sys

from lib.runs_made import made_of, sum_of
from office_reference import ended
from reference.civil import CannotTell

FOUR_CLERKS = ["--clerks", "4"]
RUNS = pathlib.Path(__file__).resolve().parent.parent / "runs"
# The folder whose runs are those of the reports.
CALENDAR = "calendar"


def ended_program(program, data, words=()):
    """The status of the program, and what it wrote to standard output and to standard error."""
    ran = subprocess.run([program, *words], input=data, stdout=subprocess.PIPE, stderr=subprocess.PIPE, check=False)
    return ran.returncode, ran.stdout, ran.stderr


def runs_of(inputs, outputs):
    """Each run by its name, the words of its command line, its file of that kind, and how it must end."""
    for path in sorted(path for path in RUNS.glob("*/*" + inputs) if path.parent.name != CALENDAR):
        name = str(path.relative_to(RUNS).with_suffix(""))
        of_words = path.with_suffix(".words")
        faults = path.with_suffix(".fault")
        if faults.exists():
            status, fault = faults.read_bytes().split(b"\n", 1)
            ends = int(status), b"", fault
        else:
            ends = 0, path.with_suffix(outputs).read_bytes(), b""
        for line in of_words.read_text().splitlines() if of_words.exists() else [""]:
            yield name, line.split(), path.read_bytes(), ends


def kept_runs():
    return runs_of(".in", ".out")


def made_runs():
    return runs_of(".made", ".sum")


def all_runs():
    """Each run by its name and words, its input, how it must end, and what is compared of the text that it writes."""
    for run in kept_runs():
        yield run + (bytes,)
    for name, words, lines, ends in made_runs():
        yield name, words, made_of(lines), ends, sum_of if ends[0] == 0 else bytes
    court = (RUNS / "input" / "no_rows.in").read_bytes()
    name = b"x" * 1000000
    named = court.replace(b'rooms = ["', b'rooms = ["' + name + b'", "')
    yield "court_faults/name_of_a_million_bytes", [], named, (2, b"", b"court fault 8 BadName " + name + b"\n"), bytes


def write_sums():
    """Writes what is kept of each text that is made, as the reference ends it."""
    for path in sorted(RUNS.glob("*/*.made")):
        if path.with_suffix(".fault").exists() or path.parent.name == CALENDAR:
            continue
        of_words = path.with_suffix(".words")
        words = of_words.read_text().split() if of_words.exists() else []
        status, text, _ = ended(made_of(path.read_bytes()), words)
        if status != 0:
            sys.exit("{}: the reference ends it with status {}".format(path, status))
        path.with_suffix(".sum").write_bytes(sum_of(text))


def unnamed(names):
    """What stands in the README and is no run, and the runs that don't stand there."""
    told = {line.split("`")[1] for line in (RUNS / "README.md").read_text().splitlines() if line.startswith("| `")}
    return sorted(told.symmetric_difference(names))


def first_difference(got, wanted):
    """The first line that differs, by its number."""
    of_got, of_wanted = got.split(b"\n"), wanted.split(b"\n")
    for number, pair in enumerate(zip(of_got, of_wanted), 1):
        if pair[0] != pair[1]:
            return "line {}: {} and not {}".format(number, *pair)
    return "{} lines and not {}".format(len(of_got), len(of_wanted))


def main(words):
    if len(words) != 1:
        sys.exit("usage: runs_check.py PROGRAM | --reference | --sums")
    if words[0] == "--sums":
        return write_sums()
    passed = failed = 0
    names = set()
    for name, called, data, wanted, kept in all_runs():
        names.add(name)
        try:
            status, text, fault = ended(data, called) if words[0] == "--reference" else ended_program(words[0], data, called)
        except CannotTell as why:
            print("{}: the reference can't tell: {}".format(name, why))
            continue
        got = status, kept(text), fault
        if got == wanted:
            passed += 1
            continue
        failed += 1
        print("{}: status {} and not {}, {}".format(" ".join([name] + called), got[0], wanted[0], got[2] or "nothing on standard error"))
        if got[1] != wanted[1]:
            print("    " + first_difference(got[1], wanted[1]))
    for name in unnamed(names):
        failed += 1
        print("{}: a run must stand in README.md, and what stands there must be a run".format(name))
    print("{} passed, {} failed".format(passed, failed))
    sys.exit(0 if passed and failed == 0 else 1)


if __name__ == "__main__":
    main(sys.argv[1:])
