#!/usr/bin/env python3
"""The table of PROMISES.md that says what refuses a function which always answers that memory ran out.

    memory_table.py --check
    memory_table.py --write
    memory_table.py --functions

It is made from the sources (tools/functions.py): of each crate the public functions that may answer that memory ran out, and
which of the merge gate's runs call them. --check ends with status 1 where the document has another table, and where a function
is called by no run and isn't in BESIDE below. --functions prints each function with the runs that call it. It needs Python 3.8
or later.
"""
import pathlib
import sys

TOP = pathlib.Path(__file__).resolve().parent.parent
sys.path.insert(0, str(TOP / "tools"))

from crates import uses_of_all  # noqa: E402
from functions import Calls, all_functions, is_fallible, memory_faults  # noqa: E402

DOCUMENT = TOP / "docs" / "code" / "PROMISES.md"
HEAD = "| What refuses it | Of which crates |\n|---|---|\n"

# What docket does for its other subcommands, and for reports.
NOT_COURT_CHECK = ("init", "enter", "try_rows", "ask", "plain", "correct", "struck", "cases", "check", "rows", "log", "report", "memo", "write_file", "update", "change", "text")

# What the merge gate runs with ample memory, in the order in which the table has it: the crate, how it is called in the table,
# and functions of its own to which its run doesn't come.
RUNS = [
    ("stored_runs", "whole runs of the office, the reports and the desk: [stored_runs](../../crates/stored_runs/stdin)", ()),
    ("stored_steps", "schedules of steps: [stored_steps](../../crates/stored_steps/stdin)", ()),
    ("stored_office", "offices of several clerks: [stored_office](../../crates/stored_office/stdin)", ()),
    ("stored_desk", "sessions over disks that crash: [stored_desk](../../crates/stored_desk/stdin)", ()),
    # of docket the gate runs `court check` alone
    ("docket", "the run of [docket](../../crates/docket/stdout)", NOT_COURT_CHECK),
    ("clerk_office", "the run of [clerk_office](../../crates/clerk_office/stdin)", ()),
    ("", "[tests](../../crates/sample_tests/src/tests.rt)", ()),
]
# The checks beside the gate that refuse it of functions to which no run of the gate comes; none where no program calls them.
DESK_CHECKS, WRITTEN_CHECKS = ("desk_check", "strike_check"), ("written_check",)
BESIDE = {
    "court_holidays": (),
    "court_writing": ("court_update_check", "holidays_check"),
    "case_numbers": DESK_CHECKS,
    "desk_numbers": DESK_CHECKS,
    "docket_shifts": DESK_CHECKS,
    "desk_journal": ("many_check",),
    "desk_session": DESK_CHECKS,
    "desk_entries": DESK_CHECKS,
    "desk_program": DESK_CHECKS,
    "row_fields": WRITTEN_CHECKS,
    "row_written": WRITTEN_CHECKS,
    "row_input": WRITTEN_CHECKS,
}


def reached(functions):
    """Of each run all that it calls, in the order of RUNS."""
    calls = Calls(functions)
    for crate, _, cut in RUNS:
        roots = [f for f in functions if (f.is_test if not crate else f.crate == crate and f.name == "main")]
        yield calls.reached(roots, cut)


def fallible(functions):
    """The public functions of libraries that may answer that memory ran out, by crate, with the lowest crate first."""
    faults, found = memory_faults(), {crate: [] for crate in uses_of_all()}
    for function in functions:
        if function.is_public and is_fallible(function, faults):
            found[function.crate].append(function)
    return {crate: of_crate for crate, of_crate in found.items() if of_crate and not crate.startswith("sample_")}


def shared_out(by_crate, runs):
    """What each run refuses: a crate, for the first of those runs that call most of it, and functions of it for others. What no
    run calls comes last."""
    rows = [[] for _ in range(len(runs) + 1)]
    for crate, of_crate in by_crate.items():
        left = list(of_crate)
        while left:
            counts = [len(run.intersection(left)) for run in runs]
            best = counts.index(max(counts)) if any(counts) else len(runs)
            taken = [f for f in left if best == len(runs) or f in runs[best]]
            rows[best].append((crate, [] if len(left) == len(of_crate) else taken))
            left = [f for f in left if f not in taken]
    return rows


def cell(entries):
    """A cell with crates, and of those that have another row the functions."""
    parts = []
    for crate, some in entries:
        names = ", ".join("`{}`".format(function) for function in some)
        parts.append("`{}` ({})".format(crate, names) if some else "`{}`".format(crate))
    return ", ".join(parts)


def table():
    """The lines of the table."""
    functions = all_functions()
    *rows, last = shared_out(fallible(functions), list(reached(functions)))
    missing = [crate for crate, _ in last if crate not in BESIDE]
    if missing:
        sys.exit("no run of the merge gate calls all of {}: let one call it, or say in BESIDE which check does".format(", ".join(missing)))
    lines = ["| {} | {} |\n".format(told, cell(entries)) for (_, told, _), entries in zip(RUNS, rows) if entries]
    for checks in sorted({BESIDE[crate] for crate, _ in last}, reverse=True):
        links = ", ".join("[{0}](../../checks/{0}.py)".format(check) for check in checks)
        told = "beside the gate: " + links if checks else "nothing, since no program calls it"
        lines.append("| {} | {} |\n".format(told, cell([entry for entry in last if BESIDE[entry[0]] == checks])))
    return HEAD + "".join(lines)


def parts_of(text):
    """What comes before the table in the document, the table, and what comes after it."""
    begins = text.index(HEAD)
    ends = text.index("\n\n", begins) + 1
    return text[:begins], text[begins:ends], text[ends:]


def print_functions():
    functions = all_functions()
    runs = list(reached(functions))
    for crate, of_crate in fallible(functions).items():
        for function in of_crate:
            called = [name or "tests" for (name, _, _), run in zip(RUNS, runs) if function in run]
            print("{:<20} {:<32} {}".format(crate, str(function), " ".join(called) or "none"))


def main(words):
    if words == ["--functions"]:
        return print_functions()
    if words not in (["--check"], ["--write"]):
        sys.exit("usage: memory_table.py --check | --write | --functions")
    before, found, after = parts_of(DOCUMENT.read_text())
    wanted = table()
    if words == ["--write"]:
        DOCUMENT.write_text(before + wanted + after)
    elif found != wanted:
        sys.exit("docs/code/PROMISES.md: the table of want of memory isn't what the sources give; memory_table.py --write writes it")


if __name__ == "__main__":
    main(sys.argv[1:])
