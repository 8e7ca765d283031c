#!/usr/bin/env python3
"""Runs the checks beside the gate, and has the list of them.

    run.py --quick            those that take seconds
    run.py --long             the others, and more seeds of those that draw at random
    run.py NAME [SEED [COUNT]]
    run.py --names | --help-lines

Each check is named as its script, which says at its top what it does. The programs that the checks need are proved and
built first, where they aren't. Each check is run even where one before it failed. The last lines say of each whether it
passed and how long it took; the status is 0 where all passed. It needs Python 3.8 or later, and a check may need more.
"""
import pathlib
import subprocess
import sys
import time
from typing import NamedTuple

from lib.programs import CHECKS, TOP, built

DOCKET, CLERK, STEPS, OFFICE = PROGRAMS = [built(crate) for crate in ("docket", "clerk_office", "stored_steps", "stored_office")]


class Check(NamedTuple):
    """A check: its scripts with their words, among them the programs that it needs; what it shows and about how long it takes."""
    name: str
    scripts: list
    shows: str
    takes: str
    # whether it is one of the quick ones, whether its last script takes a seed and a count, and which seeds more the
    # long ones run it with
    quick: bool = False
    seeded: bool = False
    seeds: tuple = ()

    def needs(self):
        """The crates of the programs that must be built."""
        return {pathlib.Path(word).name for script in self.scripts for word in script if word in PROGRAMS}


ALL = [
    Check("build_check", [["build_check.py"]],
          "a small program is proved and built, once", "1 min", quick=True),
    Check("docs_check", [["docs_check.py", DOCKET, CLERK]],
          "the examples, and commands that documents show", "5 s", quick=True),
    Check("manual_check", [["../tools/manual.py", "--check", DOCKET, CLERK]],
          "man pages and completions are as the help", "2 s", quick=True),
    Check("install_check", [["install_check.py", DOCKET, CLERK]],
          "both programs, installed and in an archive", "5 s", quick=True),
    Check("runs_check", [["runs_join.py", "--check"], ["runs_check.py", CLERK]],
          "all whole runs of runs/, byte by byte", "10 s", quick=True),
    Check("check_program", [["check_program.py", CLERK], ["check_program.py", DOCKET]],
          "each status of clerk_office, and of the memo", "10 s", quick=True),
    Check("courts_check", [["courts_days.py", DOCKET, "examples/courts"], ["courts_check.py", CLERK, "examples/courts"],
                          ["court_update_check.py", DOCKET]],
          "the file that is written for each court, and more years", "10 s", quick=True),
    Check("court_file_check", [["court_file_check.py", DOCKET, CLERK]],
          "courts' files spoiled as people spoil them", "10 s", quick=True, seeded=True, seeds=(2, 3)),
    Check("office_compare", [["office_compare.py", CLERK]],
          "the program and a reference in Python agree", "20 s", quick=True, seeded=True, seeds=(2, 3, 4, 5, 6)),
    Check("readers_check", [["readers_check.py", CLERK]],
          "long inputs, read by one thread and by more", "10 s", quick=True, seeded=True, seeds=(2, 3)),
    Check("desk_check", [["desk_check.py", DOCKET, CLERK]],
          "the desk and clerk_office agree; it is killed", "1 min", quick=True, seeded=True, seeds=(2, 3)),
    Check("strike_check", [["strike_check.py", DOCKET, CLERK]],
          "rows that are struck and restored, and a replay", "30 s", quick=True, seeded=True, seeds=(2, 3)),
    Check("log_check", [["log_check.py", DOCKET]],
          "who entered what and when, and docket log", "5 s", quick=True, seeded=True, seeds=(2, 3)),
    Check("written_check", [["written_check.py", DOCKET]],
          "rows as people write them, and their faults", "20 s", quick=True, seeded=True, seeds=(2, 3)),
    Check("many_check", [["many_check.py", DOCKET, CLERK]],
          "several programs enter rows into one folder", "1 min", quick=True, seeded=True, seeds=(2, 3)),
    Check("many_kill", [["many_kill.py", DOCKET, CLERK]],
          "the same, killed, and calls fail (strace)", "30 min", seeded=True),
    Check("desk_kill", [["desk_kill.py", DOCKET, CLERK]],
          "sessions that are killed lose no answer", "5 min", seeded=True),
    Check("desk_compare", [["desk_compare.py", DOCKET, CLERK]],
          "the desk and clerk_office, on 5,000 inputs", "5 min", seeded=True),
    Check("desk_damage", [["desk_damage.py", DOCKET]],
          "each byte of a journal cut off and changed", "5 min", seeded=True),
    Check("desk_limits", [["desk_limits.py", DOCKET, CLERK]],
          "a full disk, 200,000 rows, 1,000 strikes", "4 min"),
    Check("refuse_desk", [["refuse_desk.py", DOCKET]],
          "each growth refused to the desk (needs cc)", "2 min"),
    Check("folder_check", [["folder_check.py", DOCKET]],
          "reports of a folder, beside a session", "20 s", quick=True, seeded=True, seeds=(2, 3)),
    Check("statuses_check", [["statuses_check.py", DOCKET]],
          "each status of each command of docket", "10 s", quick=True),
    Check("calendar_check", [["calendar_check.py", DOCKET, CLERK]],
          "what is due, weeks and pages, by the others", "20 s", quick=True, seeded=True, seeds=(2, 3)),
    Check("calendar_runs", [["calendar_runs.py", DOCKET]],
          "the runs of runs/calendar, each report", "5 s", quick=True),
    Check("district_check", [["district_check.py", DOCKET]],
          "a made district, row by row, by a reference", "2 min", seeded=True, seeds=(2, 3)),
    Check("soak_check", [["soak_check.py", DOCKET]],
          "ten sessions on a district, killed, for an hour", "1 h", seeded=True),
    Check("large_check", [["large_check.py", DOCKET]],
          "a large docket: the desk and each format", "5 min", seeded=True),
    Check("page_check", [["page_check.py", DOCKET, CLERK]],
          "pages in a browser (chromium, tidy)", "2 min", seeded=True),
    Check("ics_check", [["ics_check.py", DOCKET, CLERK]],
          "iCalendar, read by two programs of Debian's", "1 min", seeded=True, seeds=(2, 3)),
    Check("json_check", [["json_check.py", DOCKET, CLERK]],
          "the JSON is what the others say", "20 s", quick=True, seeded=True, seeds=(2, 3)),
    Check("json_schema_check", [["json_check.py", "--schema", DOCKET, CLERK]],
          "the JSON and its schema (python3-jsonschema)", "2 min", seeded=True),
    Check("sql_check", [["sql_check.py", DOCKET, CLERK]],
          "the SQL in sqlite3 and PostgreSQL", "2 min", seeded=True, seeds=(2, 3)),
    Check("races_check", [["races_check.py", CLERK]],
          "some order explains each run of clerks", "5 min", seeded=True),
    Check("derivations_check", [["derivations_check.py", DOCKET]],
          "the reasons of deadlines, line by line", "2 min", seeded=True),
    Check("steps_compare", [["steps_compare.py", STEPS]],
          "short lists of clerks' steps, and a replay", "2 min", seeded=True),
    Check("refuse_program", [["refuse_program.py", CLERK, "examples/smallest.txt", "examples/days.txt", "examples/deadlines.txt",
                              "runs/docket/sheets_and_calendars_at_the_end.in", "runs/clerks/hearings_side_by_side.in",
                              "runs/clerks/rows_for_two_readers.in"]],
          "each growth and thread refused (needs cc)", "5 min"),
    Check("refuse_steps", [["refuse_steps.py", STEPS, "checks/refuse_steps.txt"]],
          "each growth refused to clerks' steps (cc)", "30 s", seeded=True),
    Check("refuse_office", [["refuse_office.py", OFFICE, "checks/refuse_office.txt"]],
          "each growth refused to an office's seats (cc)", "1 min"),
    Check("refuse_clerks", [["refuse_clerks.py", OFFICE, "checks/refuse_clerks.txt"]],
          "each growth refused to clerks at work (cc)", "1 min"),
    Check("holidays_check", [["holidays_check.py", DOCKET]],
          "holidays, and two libraries of Debian's", "1 min"),
    Check("memory_table", [["memory_table.py", "--check"]],
          "what refuses a false want of memory", "2 s", quick=True),
    Check("edits_stand", [["edits_stand.py"]],
          "each edit that must fail can be made", "1 s", quick=True),
    Check("edits_check", [["edits_check.py"]],
          "wrong programs that the gate doesn't try", "1 h"),
]


def lines_of(check, words):
    """The command lines of a check; its last script gets the words of a seed and a count."""
    *before, last = check.scripts
    for script, *given in [*before, [*last, *words]]:
        yield [sys.executable, str(CHECKS / script), *given]


def passes(check, words=()):
    """Whether each script of the check ends with status 0."""
    title = " ".join([check.name, *words])
    print("== {}: {}".format(title, check.shows), flush=True)
    began = time.monotonic()
    ended = [subprocess.run(line, cwd=str(TOP), check=False).returncode for line in lines_of(check, words)]
    return title, not any(ended), time.monotonic() - began


def run_all(runs):
    """Runs checks, each with the words of a seed and a count, and says how each ended; whether all passed."""
    needs = sorted({crate for check, _ in runs for crate in check.needs()})
    if needs and subprocess.run([sys.executable, str(TOP / "tools" / "prove.py"), *needs], check=False).returncode != 0:
        return False
    ended = [passes(check, words) for check, words in runs]
    print("==")
    for title, passed, seconds in ended:
        print("{:<24}{:<8}{:>5.0f} s".format(title, "passed" if passed else "FAILED", seconds))
    return all(passed for _, passed, _ in ended)


def main(words):
    if words == ["--names"]:
        print(" ".join(check.name for check in ALL))
    elif words == ["--help-lines"]:
        for check in ALL:
            print("make {:<18} {:<6}{:<48}{}".format(check.name, "quick" if check.quick else "long", check.shows, check.takes))
    elif words == ["--quick"]:
        return run_all([(check, []) for check in ALL if check.quick])
    elif words == ["--long"]:
        return run_all([(check, []) for check in ALL if not check.quick]
                       + [(check, [str(seed)]) for check in ALL for seed in check.seeds])
    else:
        found = [check for check in ALL if words and check.name == words[0]]
        if not found or len(words) > 3 or words[1:] and not found[0].seeded:
            sys.exit("usage: run.py --quick | --long | --names | --help-lines | NAME [SEED [COUNT]]")
        return run_all([(found[0], words[1:])])
    return True


if __name__ == "__main__":
    sys.exit(0 if main(sys.argv[1:]) else 1)
