#!/usr/bin/env python3
"""Checks that each edit that must fail can be made: its file is there, and each text that it changes stands in it once.

    edits_stand.py

An edit that can't be made shows nothing, and the prover isn't asked about those of checks/edits/ each time. The edits are
crates/CRATE/must-fail/*.edit and checks/edits/CRATE/*.edit. Each has lines `file: NAME` with a file of the crate, and after
each of them pairs of lines `old: TEXT` and `new: TEXT`. It proves nothing. The status is 0 where all edits can be made. It
needs Python 3.8 or later.
"""
import pathlib
import sys

TOP = pathlib.Path(__file__).resolve().parent.parent
FILE, OLD = "file: ", "old: "


def faults_of(edit, crate):
    """What is wrong with the edit of a crate, a line each."""
    faults, path, found = [], None, False
    for line in edit.read_text().splitlines():
        if line.startswith(FILE):
            path = TOP / "crates" / crate / line[len(FILE):]
            if not path.is_file():
                return ["there is no {}".format(path.relative_to(TOP))]
        elif line.startswith(OLD):
            if path is None:
                return ["no line names a file before the first text"]
            found, count = True, path.read_text().count(line[len(OLD):])
            if count != 1:
                faults.append("{} has this text {} times, and must have it once: {}".format(
                    path.relative_to(TOP), count, line[len(OLD):]))
    return faults if found else ["it changes no text"]


def main():
    folders = sorted(TOP.glob("crates/*/must-fail")) + sorted((TOP / "checks" / "edits").iterdir())
    count, faults = 0, []
    for folder in folders:
        crate = folder.parent.name if folder.name == "must-fail" else folder.name
        for edit in sorted(folder.glob("*.edit")):
            count += 1
            faults += ["{}: {}".format(edit.relative_to(TOP), fault) for fault in faults_of(edit, crate)]
    print("\n".join(faults + ["{} edits, {} faults".format(count, len(faults))]))
    return 1 if faults else 0


if __name__ == "__main__":
    sys.exit(main())
